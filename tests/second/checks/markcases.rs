//! What the generated cases of the kind `marks` hold.

use crate::faults::{ONE_ROUND, TEXT_LEFT_OUT, VISITED_ONCE};
use crate::generated::{block_of, compared, follow_from_the_definition, is_small, keeps_the_form, read_back, recorded, with_blocks};
use generate::{limits, marks, set_marks};
use second::block::{broken_rules, decode, encode, Register, BLOCK_LEN, RULES};
use second::call::run_table;
use second::casefile::{answer_table, Case};
use second::engine::FAST;
use second::refusal::{Call, Passed};
use std::collections::BTreeSet;
use std::sync::OnceLock;

/// Every case with the block that it is made on.
pub fn cases() -> &'static [Case] {
    static CASES: OnceLock<Vec<Case>> = OnceLock::new();
    CASES.get_or_init(|| with_blocks(&marks::KIND))
}

pub fn asked() -> impl Iterator<Item = &'static Case> {
    cases().iter().filter(|case| case.passed.call == Call::SetMarks)
}

#[test]
fn files_are_small_and_read_back() {
    let (bytes, expected) = read_back(cases());
    assert!((900..=1250).contains(&cases().len()) && bytes < 320_000 && expected < 200_000, "{bytes} {expected}");
}

/// Every call takes a table and is lent a text.
#[test]
fn lines_keep_the_form() {
    assert_eq!(Call::SetMarks as u32, 11);
    for case in cases() {
        keeps_the_form(case);
        assert!(marks::CALLS.contains(&case.passed.call) && case.text.is_some());
    }
    assert!(marks::CALLS.iter().all(|&call| cases().iter().any(|case| case.passed.call == call)));
}

/// The line is that of a cut.
#[test]
fn expected_lines_have_the_form() {
    let block = encode(&generate::markregisters::example());
    let line = |n: Passed| recorded(&FAST, &generate::on(&block, n));
    assert!(line(set_marks(0, 2, 0)).starts_with("0 1 1 3 2188:04.03......."));
    assert_eq!(line(set_marks(0, 2, 1)), "0 0 0 1 =\n");
    assert_eq!(line(set_marks(1, 0, 1)), "6 0 0 0 =\n");
}

/// Every number of the limits in each column, every length of a block, and every rule of a
/// block broken alone.
#[test]
fn limits_are_covered() {
    let (mut numbers, mut lengths, mut rules) = (BTreeSet::new(), BTreeSet::new(), BTreeSet::new());
    for case in asked() {
        let n = case.passed;
        numbers.extend([(0, n.by), (1, n.receiver), (2, n.need)]);
        lengths.insert(block_of(case).len());
        if block_of(case).len() == BLOCK_LEN {
            rules.insert(broken_rules(block_of(case)));
        }
    }
    for number in limits::NUMBERS {
        assert!((0..3).all(|column| numbers.contains(&(column, number))), "{number}");
    }
    assert!(limits::LENGTHS.iter().chain(&marks::LENGTHS).all(|length| lengths.contains(length)));
    assert!((0..RULES.len()).all(|rule| rules.contains(&vec![rule])));
}

#[test]
fn expected_lines_follow_from_the_definition() {
    follow_from_the_definition(cases(), 900, 1000);
    assert!(compared(cases(), &ONE_ROUND, |_| true).1 > 30);
    assert!(compared(cases(), &VISITED_ONCE, is_small).1 > 10);
    assert!(compared(cases(), &TEXT_LEFT_OUT, |_| true).1 > 30);
}

/// An accepted call: what it was passed, the register before it, the answers, and whether it
/// was lent a text.
struct Seen {
    n: Passed,
    before: Register,
    answers: [i32; 3],
    text: bool,
}

fn seen() -> Vec<Seen> {
    let of = |case: &Case| {
        let before = decode(block_of(case))?;
        let outcome = run_table(&FAST, &case.passed, case.lent(), &mut encode(&before));
        let text = !case.lent().is_empty();
        (outcome.refusal == 0).then_some(Seen { n: case.passed, before, answers: outcome.answers, text })
    };
    asked().filter_map(of).collect()
}

impl Seen {
    fn marks(&self) -> u16 {
        self.before.marks_of(self.n.receiver)
    }

    fn gained(&self) -> u16 {
        self.n.need as u16 & !self.marks()
    }

    fn lost(&self) -> u16 {
        self.marks() & !self.n.need as u16
    }

    fn is_same(&self) -> bool {
        self.marks() == self.n.need as u16
    }

    fn takes(&self) -> bool {
        self.answers[0] + self.answers[1] > 0
    }

    /// The marks that conditions need, and those that they bar.
    fn named(&self) -> (u16, u16) {
        self.before.delegations.iter().fold((0, 0), |(need, bar), d| (need | d.need, bar | d.bar))
    }

    fn gives(&self) -> bool {
        self.before.delegations.iter().any(|d| d.giver as u32 == self.n.receiver)
    }

    fn receives(&self) -> bool {
        self.before.delegations.iter().any(|d| d.receiver as u32 == self.n.receiver)
    }

    fn full(&self) -> bool {
        self.before.delegations.len() == 256 && self.before.marks.len() == 64
    }
}

type Shows = (&'static str, fn(&Seen) -> bool);

/// What accepted calls show.
const SHOWN: [Shows; 22] = [
    ("a needed mark is lost", |s| s.lost() & s.named().0 != 0 && s.gained() == 0 && s.takes()),
    ("a needed mark is gained", |s| s.gained() & s.named().0 != 0 && s.lost() == 0 && !s.takes()),
    ("a barred mark is gained", |s| s.gained() & s.named().1 != 0 && s.lost() == 0 && s.takes()),
    ("a barred mark is lost", |s| s.lost() & s.named().1 != 0 && s.gained() == 0 && !s.takes()),
    ("one of each at once", |s| s.lost() & s.named().0 != 0 && s.gained() & s.named().1 != 0 && s.takes()),
    ("no condition names the mark", |s| !s.is_same() && (s.gained() | s.lost()) & (s.named().0 | s.named().1) == 0),
    ("no marks", |s| s.n.need == 0 && !s.is_same()),
    ("all marks", |s| s.n.need == 65_535 && !s.is_same()),
    ("the same marks, all supported", |s| s.is_same() && s.answers == [0, 0, 1]),
    ("the same marks, not all supported", |s| s.is_same() && s.takes()),
    ("subject 63 of 64", |s| s.n.receiver == 63 && s.takes()),
    ("nobody gave to the subject", |s| !s.receives() && !s.gives()),
    ("the subject only gives", |s| !s.receives() && s.gives()),
    ("lowered, and nothing dropped", |s| s.answers[0] == 0 && s.answers[1] > 0),
    ("dropped, and nothing lowered", |s| s.answers[0] > 0 && s.answers[1] == 0),
    ("both", |s| s.answers[0] > 0 && s.answers[1] > 0),
    ("three rounds", |s| s.answers[2] == 3),
    ("more than five rounds", |s| (6..100).contains(&s.answers[2])),
    ("hundreds of rounds", |s| s.answers[2] > 255),
    ("a full register", |s| s.full() && s.takes()),
    ("a full register that keeps all", |s| s.full() && s.answers[0] == 0 && !s.is_same()),
    ("a maker's table", |s| s.text && s.takes()),
];

#[test]
fn all_is_shown() {
    let seen = seen();
    for (shows, holds) in SHOWN {
        assert!(seen.iter().filter(|seen| holds(seen)).count() > 0, "{shows}");
    }
    assert_eq!(seen.iter().map(|seen| seen.answers[2]).max(), Some(486));
    assert!(seen.iter().filter(|seen| seen.takes()).count() > 300);
}

/// Marks are set among other calls, and some of these are answered otherwise than they would
/// be before the marks are set.
#[test]
fn marks_are_set_among_other_calls() {
    let answer = |case: &Case| answer_table(&FAST, &case.passed, case.lent(), &mut block_of(case).to_vec());
    let (mut after_change, mut other) = (0, 0);
    for two in cases().windows(2) {
        let changed = two[0].block != two[1].block && two[0].passed.call == Call::SetMarks;
        if !changed || two[1].passed.call == Call::SetMarks {
            continue;
        }
        let of_before = Case { block: two[0].block.clone(), ..two[1].clone() };
        after_change += 1;
        other += (answer(&of_before) != answer(&two[1])) as u32;
    }
    assert!(after_change > 20 && other > 5, "{after_change} {other}");
}
