//! What the generated cases of the kind `retire` hold.

use crate::faults::{ONE_ROUND, TEXT_LEFT_OUT, VISITED_ONCE};
use crate::generated::{block_of, compared, follow_from_the_definition, is_small, keeps_the_form, read_back, recorded};
use crate::generated::with_blocks;
use crate::retires::named_change;
use generate::brought::{NEW_LENGTHS, OLD_LENGTHS};
use generate::{limits, retire, retires};
use second::block::{broken_rules, decode, encode, well_formed, Delegation, Register, BLOCK_LEN, RULES};
use second::call::run_table;
use second::casefile::{answer_table, Case};
use second::engine::FAST;
use second::refusal::{takes_table, Call, Passed};
use std::collections::BTreeSet;
use std::sync::OnceLock;

/// Every case with the block that it is made on.
pub fn cases() -> &'static [Case] {
    static CASES: OnceLock<Vec<Case>> = OnceLock::new();
    CASES.get_or_init(|| with_blocks(&retires::KIND))
}

pub fn asked() -> impl Iterator<Item = &'static Case> {
    cases().iter().filter(|case| case.passed.call == Call::Retire)
}

#[test]
fn files_are_small_and_read_back() {
    let (bytes, expected) = read_back(cases());
    assert!((3000..=4200).contains(&cases().len()) && bytes < 700_000 && expected < 400_000, "{bytes} {expected}");
}

/// Every call but open is there, and is lent a text; one that takes no table an empty one.
#[test]
fn lines_keep_the_form() {
    assert_eq!((Call::Retire as u32, Call::BringOver as u32), (12, 13));
    for case in cases() {
        keeps_the_form(case);
        let call = case.passed.call;
        assert!(retires::CALLS.contains(&call) && case.text.is_some());
        assert!(takes_table(call) || call == Call::BringOver || case.lent().is_empty(), "{call:?}");
    }
    assert!(retires::CALLS.iter().all(|&call| cases().iter().any(|case| case.passed.call == call)));
}

/// The line is that of a cut; for a block that is brought over, the old one is the text.
#[test]
fn expected_lines_have_the_form() {
    let block = encode(&generate::retireregisters::example());
    let line = |n: Passed| recorded(&FAST, &generate::on(&block, n));
    assert!(line(retire(0, 1)).starts_with("0 0 1 2 2188:05.03"));
    assert_eq!(line(retire(1, 0)), "6 0 0 0 =\n");
    let old = generate::brought::old(&encode(&Register::fresh()));
    let case = |new: &[u8]| recorded(&FAST, &generate::bring_over(&old, new));
    assert_eq!(case(&[7; BLOCK_LEN]), "0 0 0 0 2188:01\n");
    assert_eq!(case(&encode(&Register::fresh())), "0 0 0 0 =\n");
    assert_eq!(case(&[7; 2180]), "1 0 0 0 =\n");
}

/// Every number of the limits in each column, every length of a block, and every rule of a
/// block broken alone.
#[test]
fn limits_are_covered() {
    let (mut numbers, mut lengths, mut rules) = (BTreeSet::new(), BTreeSet::new(), BTreeSet::new());
    for case in asked() {
        let n = case.passed;
        numbers.extend([(0, n.by), (1, n.receiver)]);
        lengths.insert(block_of(case).len());
        if block_of(case).len() == BLOCK_LEN {
            rules.insert(broken_rules(block_of(case)));
        }
    }
    for number in limits::NUMBERS {
        assert!((0..2).all(|column| numbers.contains(&(column, number))), "{number}");
    }
    assert!(limits::LENGTHS.iter().chain(&retires::LENGTHS).all(|length| lengths.contains(length)));
    assert!((0..RULES.len()).all(|rule| rules.contains(&vec![rule])));
}

/// Old and new blocks of every length of each, with old ones that are well formed and with
/// others; every old rule broken alone; new blocks that hold a register and ones that don't.
#[test]
fn blocks_are_brought_over() {
    let (mut lengths, mut rules, mut held) = (BTreeSet::new(), BTreeSet::new(), BTreeSet::new());
    for case in cases().iter().filter(|case| case.passed.call == Call::BringOver) {
        let (old, new) = (case.lent(), block_of(case));
        lengths.insert((old.len(), new.len()));
        if (old.len(), new.len()) != (2180, BLOCK_LEN) {
            continue;
        }
        let inserted = [&old[..132], &[0; 8], &old[132..]].concat();
        rules.insert(broken_rules(&inserted));
        held.insert((well_formed(&inserted), well_formed(new)));
    }
    assert!(OLD_LENGTHS.iter().all(|&old| NEW_LENGTHS.iter().all(|&new| lengths.contains(&(old, new)))));
    assert!((0..13).all(|rule| rules.contains(&vec![rule])) && rules.contains(&vec![]));
    assert_eq!(held.len(), 4);
}

#[test]
fn expected_lines_follow_from_the_definition() {
    follow_from_the_definition(cases(), 2500, 3000);
    assert!(compared(cases(), &ONE_ROUND, |_| true).1 > 30);
    assert!(compared(cases(), &VISITED_ONCE, is_small).1 > 10);
    assert!(compared(cases(), &TEXT_LEFT_OUT, |_| true).1 > 30);
}

/// An accepted retirement: what it was passed, the register before it, the answers, and whether
/// it was lent a text.
struct Seen {
    n: Passed,
    before: Register,
    answers: [i32; 3],
    text: bool,
}

fn seen() -> Vec<Seen> {
    let of = |case: &Case| {
        let before = decode(block_of(case))?;
        let outcome = run_table(&FAST, &case.passed, case.lent(), &mut encode(&before));
        let text = !case.lent().is_empty();
        (outcome.refusal == 0).then_some(Seen { n: case.passed, before, answers: outcome.answers, text })
    };
    asked().filter_map(of).collect()
}

impl Seen {
    fn subject(&self) -> u32 {
        self.n.receiver
    }

    fn marks(&self) -> u16 {
        self.before.marks_of(self.subject())
    }

    fn takes(&self) -> bool {
        self.answers[0] + self.answers[1] > 0
    }

    fn gives(&self) -> bool {
        self.before.delegations.iter().any(|d| d.giver as u32 == self.subject())
    }

    fn receives(&self) -> bool {
        self.before.delegations.iter().any(|d| d.receiver as u32 == self.subject())
    }

    /// Two that it is between, each giving to the other by it.
    fn on_cycle(&self) -> bool {
        let given = |d: &&Delegation| d.giver as u32 == self.subject();
        let back = |d: &Delegation| self.before.standing(d.receiver as u32, self.subject()).is_some();
        self.before.delegations.iter().filter(given).any(back)
    }

    /// Somebody to whom it gave has nobody else, or has.
    fn only_way(&self, alone: bool) -> bool {
        let gave = |subject: u8| self.before.standing(self.subject(), subject as u32).is_some();
        let left = named_change(&self.before, &self.n);
        let has = |subject: u8| left.delegations.iter().any(|d| d.receiver == subject);
        (1..self.before.marks.len() as u8).any(|subject| gave(subject) && has(subject) != alone)
    }

    fn full(&self) -> bool {
        self.before.delegations.len() == 256
    }

    fn gone_before(&self) -> u32 {
        self.before.retired.count_ones()
    }

    fn subjects(&self) -> usize {
        self.before.marks.len()
    }
}

type Shows = (&'static str, fn(&Seen) -> bool);

/// What accepted retirements show.
const SHOWN: [Shows; 30] = [
    ("it gives and receives", |s| s.gives() && s.receives()),
    ("it only gives", |s| s.gives() && !s.receives()),
    ("it only receives", |s| !s.gives() && s.receives()),
    ("neither, all supported", |s| !s.gives() && !s.receives() && s.answers == [0, 0, 1]),
    ("neither, not all supported", |s| !s.gives() && !s.receives() && s.takes()),
    ("a cycle through it", Seen::on_cycle),
    ("the only way of somebody", |s| s.only_way(true) && s.answers[0] > 0),
    ("one of two ways, and lowered", |s| s.only_way(false) && s.answers[1] > 0),
    ("one of two ways, and nothing is lost", |s| s.only_way(false) && !s.takes()),
    ("low marks", |s| s.marks() & 0x00FF != 0),
    ("high marks", |s| s.marks() & 0xFF00 != 0),
    ("no marks", |s| s.marks() == 0),
    ("the first of two", |s| s.subjects() == 5 && s.gone_before() == 1),
    ("many are gone", |s| s.gone_before() > 30),
    ("the last but the owner", |s| s.gone_before() as usize == s.subjects() - 2),
    ("the last enrolled of few", |s| s.subject() as usize == s.subjects() - 1 && s.subjects() < 10),
    ("subject 63", |s| s.subject() == 63 && s.receives()),
    ("lowered, and nothing dropped", |s| s.answers[0] == 0 && s.answers[1] > 0),
    ("dropped, and nothing lowered", |s| s.answers[0] > 0 && s.answers[1] == 0),
    ("both", |s| s.answers[0] > 0 && s.answers[1] > 0),
    ("three rounds", |s| s.answers[2] == 3),
    ("four rounds on few", |s| s.answers[2] == 4 && s.before.delegations.len() < 10),
    ("more than five rounds", |s| (6..100).contains(&s.answers[2])),
    ("hundreds of rounds", |s| s.answers[2] > 255),
    ("hundreds of rounds on few", |s| s.answers[2] > 250 && s.before.delegations.len() < 10),
    ("a full register of 64", |s| s.full() && s.subjects() == 64),
    ("a full register of fewer", |s| s.full() && s.subjects() < 64),
    ("a full register that loses more", |s| s.full() && s.takes()),
    ("a maker's table", |s| s.text && s.takes()),
    ("a maker's table under which nothing is lost", |s| s.text && !s.takes()),
];

#[test]
fn all_is_shown() {
    let seen = seen();
    for (shows, holds) in SHOWN {
        assert!(seen.iter().filter(|seen| holds(seen)).count() > 0, "{shows}");
    }
    assert_eq!(seen.iter().map(|seen| seen.answers[2]).max(), Some(445));
    assert!(seen.iter().filter(|seen| seen.takes()).count() > 200);
}

/// Each subject from 1 to 63 retires among 64, also those at the ends of every byte where others
/// have gone before.
#[test]
fn every_subject_retires() {
    let seen = seen();
    let of = |gone: bool| -> BTreeSet<u32> {
        let some = seen.iter().filter(|seen| seen.subjects() == 64 && (seen.gone_before() > 0) == gone);
        some.map(|seen| seen.subject()).collect()
    };
    assert!((1..64).all(|subject| of(false).contains(&subject)));
    assert!([1, 7, 8, 15, 16, 55, 56].iter().all(|subject| of(true).contains(subject)));
}

/// Subjects retire among other calls, and some of these are answered otherwise than they would
/// be before.
#[test]
fn subjects_retire_among_other_calls() {
    let answer = |case: &Case| answer_table(&FAST, &case.passed, case.lent(), &mut block_of(case).to_vec());
    let (mut other, mut not_19) = (BTreeSet::new(), 0);
    for two in cases().windows(2) {
        let changed = two[0].block != two[1].block && two[0].passed.call == Call::Retire;
        if !changed || two[1].passed.call == Call::Retire {
            continue;
        }
        let of_before = Case { block: two[0].block.clone(), ..two[1].clone() };
        if answer(&of_before) != answer(&two[1]) {
            other.insert(two[1].passed.call);
            not_19 += (answer(&two[1]).refusal != 19) as u32;
        }
    }
    assert!(other.contains(&Call::Use) && other.contains(&Call::Reach) && not_19 > 5, "{other:?} {not_19}");
}

/// Enrolments where some have retired: of fewer than 64, and of 64, which get 10.
#[test]
fn others_are_enrolled_after() {
    let enrolments = cases().iter().filter(|case| case.passed.call == Call::Enrol);
    let gone = |case: &&Case| decode(block_of(case)).is_some_and(|register| register.retired != 0);
    let refusal = |case: &Case| answer_table(&FAST, &case.passed, b"", &mut block_of(case).to_vec()).refusal;
    let found: Vec<u32> = enrolments.filter(gone).map(refusal).collect();
    assert!([0, 10].iter().all(|number| found.iter().filter(|found| *found == number).count() > 2));
}
