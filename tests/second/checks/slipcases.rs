//! What the generated cases of the kind `slip` hold.

use crate::faults::{ONE_ROUND, TEXT_LEFT_OUT, VISITED_ONCE};
use crate::generated::is_small;
use crate::lentcases::{compared, keep_the_form, read_back};
use crate::pairs::{impossible, refusals, Pair, Realised};
use crate::relaxed::RELAXED;
use generate::sliprefusals::{applying_to_cut, applying_to_take_back};
use generate::slips::{BYTES, SLIP_LENGTHS};
use generate::{limits, slips};
use second::block::{broken_rules, decode, well_formed, Register, BLOCK_LEN, RULES};
use second::call::Outcome;
use second::engine::{FAST, LITERAL};
use second::lentcase::{read_case, Asked, Bytes, LentCase};
use second::refusal::{Call, Passed};
use second::remainder::is_supported;
use second::slip::*;
use second::table::{Table, OURS};
use std::collections::{BTreeMap, BTreeSet};
use std::sync::OnceLock;

pub fn cases() -> &'static [LentCase] {
    static CASES: OnceLock<Vec<LentCase>> = OnceLock::new();
    CASES.get_or_init(slips::cases)
}

#[test]
fn files_are_small_and_read_back() {
    let (lines, bytes) = (cases().len(), read_back(cases()));
    assert!((1500..2500).contains(&lines) && bytes < 600_000, "{lines} {bytes}");
}

#[test]
fn lines_keep_the_form() {
    keep_the_form(cases());
}

/// Bytes are put into those that are lent from a place on; a text that puts them outside is no case.
#[test]
fn lines_have_the_form() {
    let left = Bytes { lent: vec![1, 2, 3, 0, 5], table: vec![], block: vec![9] };
    let read = |slip: &str| read_case(format!("16 1 0 0 0 0 0 {slip} = =").as_bytes(), &left).map(|case| case.on.lent);
    assert_eq!(read("=").as_deref(), Some(&[1, 2, 3, 0, 5][..]));
    assert_eq!(read("=+1:.ff+4:07").as_deref(), Some(&[1, 0, 255, 0, 7][..]));
    assert_eq!(read("3:0a+2:0b").as_deref(), Some(&[10, 0, 11][..]));
    for other in ["=+5:01", "=+4:0102", "=+x:01", "=+:01", "=+1:0", "=+1", "16385:", "+1:01", ""] {
        assert_eq!(read(other), None, "{other}");
    }
    let asked = |line: &str| read_case(line.as_bytes(), &left).map(|case| case.asked);
    assert_eq!(asked("16 64 0 0 0 0 0 = = ="), Some(Asked::TakeBack(64)));
    assert_eq!(asked("14 1 2 3 0 0 0 = = ="), Some(Asked::Cut(generate::revoke(1, 2, 3))));
    assert_eq!(asked("15 1 2 3 4 0 0 = = ="), Some(Asked::Cut(generate::downgrade(1, 2, 3, 4))));
    assert_eq!(asked("2 1 2 3 0 0 0 = = ="), Some(Asked::Call(generate::revoke(1, 2, 3))));
    assert_eq!(asked("8 0 0 0 9 0 0 = = ="), Some(Asked::Write(9)));
    assert_eq!(asked("9 0 0 0 0 0 0 = = ="), Some(Asked::Read));
    let granted = generate::grant_kind(generate::grant(2, 3, 4, 5, 6), 1);
    assert_eq!(asked("17 1 2 3 4 5 6 = = ="), Some(Asked::Call(granted)));
    for other in ["16 1 1 0 0 0 0 = = =", "18 1 0 0 0 0 0 = = =", "9 0 0 0 1 0 0 = = =", "8 1 0 0 0 0 0 = = ="] {
        assert_eq!(asked(other), None, "{other}");
    }
}

/// Of the three calls the slip is shown, in three parts if it was written.
#[test]
fn expected_lines_have_the_form() {
    let register = generate::slipregisters::example();
    let mut sequence = generate::slipregisters::Sequence::new(&register);
    sequence.cut(generate::slipregisters::EXAMPLE_CUT);
    sequence.back(2);
    sequence.back(1);
    sequence.call(generate::reach(3, 4));
    let line = |case: &LentCase| second::lentcase::expected_line(&FAST, case).0;
    let lines: Vec<String> = sequence.cases.iter().map(line).collect();
    assert!(lines[0].starts_with("0 0 1 2 2188:05.05") && lines[0].ends_with(" =/5:0301010301/=\n"), "{}", lines[0]);
    assert_eq!(lines[1], "14 0 0 0 = =\n");
    assert!(lines[2].starts_with("0 0 0 0 2188:05.05") && lines[2].ends_with(" =\n"));
    assert_eq!(lines[3], "0 3 0 0 =\n");
    let (cut, outcome) = (&sequence.cases[0], Outcome { refusal: 0, answers: [0, 0, 0] });
    let of = |slip: Vec<u8>| cut.line(&outcome, &Bytes { lent: slip, ..cut.on.clone() });
    assert!(of(vec![1; 3]).ends_with(" = 3:010101/0:/0:\n"));
    let other = [&vec![0; 2192][..], &[7], &cut.on.block].concat();
    assert!(of(other).ends_with(" = 2188:/5:....07/=\n"));
}

/// The refusals of the three calls.
fn realised() -> BTreeMap<u32, Realised> {
    let mut all: BTreeMap<u32, Realised> = BTreeMap::new();
    for case in cases() {
        let (call, numbers) = match case.asked {
            Asked::Cut(n) => (n.call as u32, applying_to_cut(&n, &case.on)),
            Asked::TakeBack(by) => (0, applying_to_take_back(by, &case.on)),
            _ => continue,
        };
        let returned = case.made(&FAST).0.refusal;
        assert_eq!(returned, numbers.first().copied().unwrap_or(0));
        all.entry(call).or_default().add(&numbers, returned);
    }
    all
}

/// Each two of some numbers, in their order, but for those that cannot apply at once.
fn due(numbers: &[u32], impossible: &[Pair]) -> BTreeSet<Pair> {
    let all = numbers.iter().enumerate().flat_map(|(at, &a)| numbers[at + 1..].iter().map(move |&b| (a, b)));
    all.filter(|pair| !impossible.contains(pair)).collect()
}

/// Every two refusals of taking back that can apply at once, and each that can alone. The table
/// has one of 7 and 17, and 20 is judged under one that passes; what is held is judged on a
/// well-formed register; a caller that is not enrolled has not retired.
#[test]
fn refusals_of_taking_back_apply_at_once() {
    const NUMBERS: [u32; 9] = [1, 2, 7, 17, 8, 9, 19, 14, 20];
    assert_eq!(TESTS.map(|(number, _)| number), NUMBERS);
    let realised = &realised()[&0];
    let impossible = [(7, 17), (7, 20), (17, 20), (8, 9), (8, 19), (2, 19), (9, 19)];
    assert_eq!(realised.pairs, due(&NUMBERS, &impossible));
    assert_eq!(realised.returned, [&[0], &NUMBERS[..]].concat().into_iter().collect());
    // 2 comes with 9, and 14 or 20 with it: no cut names such a giver; and so 9 and 19. 8 comes
    // with 20, since no cut leaves such a block.
    assert_eq!(realised.alone, BTreeSet::from([1, 7, 17, 14, 20]));
}

/// The refusals of the cuts are those without a slip, with 1 for the slip's length too.
#[test]
fn refusals_of_cuts_apply_at_once() {
    let realised = realised();
    for call in [Call::Revoke, Call::Downgrade] {
        let realised = &realised[&(call as u32)];
        let of_length = |pair: &Pair| pair.0 == 1;
        let impossible: Vec<Pair> = impossible(call).into_iter().filter(|pair| !of_length(pair)).collect();
        assert_eq!(realised.pairs, due(refusals(call), &impossible), "{call:?}");
        assert_eq!(realised.returned, [&[0], refusals(call)].concat().into_iter().collect());
    }
}

/// Each of the five bytes with each value, by the owner and by the giver, of a revoke and of a
/// downgrade; every length of a slip and of a block with each call; every rule of a block broken
/// alone in the register and in the slip's before.
#[test]
fn bytes_and_lengths_are_covered() {
    let (mut bytes, mut lengths, mut rules) = (BTreeSet::new(), BTreeSet::new(), BTreeSet::new());
    for case in cases() {
        let (call, by) = match case.asked {
            Asked::Cut(n) => (n.call as u32, n.by),
            Asked::TakeBack(by) => (0, by),
            _ => continue,
        };
        lengths.extend([(call, 0, case.on.lent.len()), (call, 1, case.on.block.len())]);
        if call != 0 || case.on.lent.len() != SLIP_LEN || case.on.block.len() != BLOCK_LEN {
            continue;
        }
        bytes.extend((CALL_AT..AFTER_AT).map(|at| (by, at, case.on.lent[at])));
        rules.insert((false, broken_rules(&case.on.lent[..BLOCK_LEN])));
        rules.insert((true, broken_rules(&case.on.block)));
    }
    for (by, at) in [0, 1].into_iter().flat_map(|by| (CALL_AT..AFTER_AT).map(move |at| (by, at))) {
        assert!(BYTES.iter().all(|&byte| bytes.contains(&(by, at, byte))), "{by} {at}");
    }
    for call in [0, Call::Revoke as u32, Call::Downgrade as u32] {
        assert!(SLIP_LENGTHS.iter().all(|&length| lengths.contains(&(call, 0, length))));
        assert!(limits::LENGTHS.iter().all(|&length| lengths.contains(&(call, 1, length))));
    }
    assert!((0..RULES.len()).all(|rule| [false, true].iter().all(|&of| rules.contains(&(of, vec![rule])))));
}

fn both_small(on: &Bytes) -> bool {
    is_small(&on.block) && is_small(&on.lent[..BLOCK_LEN.min(on.lent.len())])
}

/// Small registers are run with the literal search, all with the relaxed one.
#[test]
fn expected_lines_follow_from_the_definition() {
    let (small, differing) = compared(cases(), &LITERAL, both_small);
    assert!(small > 1500 && differing == 0, "{small} {differing}");
    assert_eq!(compared(cases(), &RELAXED, |_| true).1, 0);
    assert!(compared(cases(), &ONE_ROUND, |_| true).1 > 30);
    assert!(compared(cases(), &VISITED_ONCE, both_small).1 > 10);
    assert!(compared(cases(), &TEXT_LEFT_OUT, |_| true).1 > 10);
}

/// An accepted take-back: the caller, the cut on the slip, the registers on it and the table.
struct Seen {
    by: u32,
    n: Passed,
    before: Register,
    after: Register,
    table: Table,
    written: bool,
    text: bool,
}

fn seen() -> Vec<Seen> {
    let mut written = BTreeSet::new();
    let mut all = Vec::new();
    for case in cases() {
        let (outcome, left) = case.made(&FAST);
        match case.asked {
            Asked::Cut(_) if outcome.refusal == 0 => drop(written.insert(left.lent)),
            Asked::TakeBack(by) if outcome.refusal == 0 => all.push(Seen {
                by,
                n: cut_on(&case.on.lent).expect("a cut"),
                before: decode(&left.block).expect("well formed"),
                after: decode(&case.on.block).expect("well formed"),
                table: Table::read(&case.on.table).expect("a table"),
                written: written.contains(&case.on.lent),
                text: !case.on.table.is_empty(),
            }),
            _ => {}
        }
    }
    all
}

impl Seen {
    fn fell(&self) -> usize {
        self.before.delegations.len() - self.after.delegations.len()
    }

    /// Whether the caller has the right.
    fn may_use(&self) -> bool {
        self.after.delegations.iter().any(|d| d.receiver as u32 == self.by)
    }

    /// Whether the pair that was cut still stands.
    fn stands(&self) -> bool {
        self.after.standing(self.n.giver, self.n.receiver).is_some()
    }

    /// Of a register of few delegations.
    fn supported(&self) -> bool {
        self.before.delegations.len() <= 16 && is_supported(&self.table, &self.before)
    }

    fn unsupported(&self) -> bool {
        self.before.delegations.len() <= 16 && !is_supported(&self.table, &self.before)
    }
}

type Shows = (&'static str, fn(&Seen) -> bool);

/// What accepted take-backs show.
const SHOWN: [Shows; 22] = [
    ("a revoke", |s| s.n.call == Call::Revoke),
    ("a downgrade", |s| s.n.call == Call::Downgrade && s.n.weight > 0),
    ("a downgrade to 0", |s| s.n.call == Call::Downgrade && s.n.weight == 0),
    ("the owner's by the owner", |s| s.n.by == 0 && s.by == 0 && s.n.giver != 0),
    ("the giver's by the giver", |s| s.n.by == s.n.giver && s.by == s.n.giver && s.by != 0),
    ("the owner's by the giver", |s| s.n.by == 0 && s.by != 0),
    ("the giver's by the owner", |s| s.n.by != 0 && s.by == 0),
    ("what the owner gave", |s| s.n.giver == 0),
    ("a supported register", Seen::supported),
    ("one that is not", Seen::unsupported),
    ("one that is not, by a cut that was made", |s| s.unsupported() && s.written),
    ("a slip that nobody wrote", |s| !s.written),
    ("by one without the right", |s| !s.written && s.by != 0 && !s.may_use()),
    ("nothing else fell", |s| s.fell() == 1 && s.n.call == Call::Revoke),
    ("much fell", |s| s.fell() > 200),
    ("a downgrade that dropped it", |s| s.n.call == Call::Downgrade && !s.stands()),
    ("some have retired", |s| s.before.retired != 0),
    ("a full register", |s| s.before.delegations.len() == 256),
    ("a full register of 64 with retired ones", |s| s.before.delegations.len() == 256 && s.before.retired != 0),
    ("marks", |s| s.before.marks.iter().any(|&marks| marks != 0)),
    ("a maker's table", |s| s.text && s.table != OURS),
    ("ours written out", |s| s.text && s.table == OURS),
];

#[test]
fn all_is_shown() {
    let seen = seen();
    for (shows, holds) in SHOWN {
        assert!(seen.iter().filter(|seen| holds(seen)).count() > 0, "{shows}");
    }
    assert!(seen.len() > 300, "{}", seen.len());
}

/// Cuts that write a slip leave every kind of buffer: fresh, of other bytes, and of another cut.
#[test]
fn buffers_hold_other_bytes() {
    let (mut last, mut kept) = (BTreeSet::new(), BTreeSet::new());
    for case in cases() {
        let Asked::Cut(_) = case.asked else { continue };
        if case.on.lent.len() != SLIP_LEN {
            continue;
        }
        let refused = case.made(&FAST).0.refusal != 0;
        last.insert((refused, case.on.lent[SLIP_LEN - 1]));
        kept.insert((refused, well_formed(&case.on.lent[..BLOCK_LEN])));
    }
    assert!([0, 0xA5].iter().all(|&byte| last.contains(&(true, byte)) && last.contains(&(false, byte))));
    assert_eq!(kept.len(), 4);
}

/// Slips are handed in again after other calls: accepted ones after a call that changed nothing,
/// refused ones after each call that changes a register.
#[test]
fn calls_stand_between() {
    let (mut changed, mut accepted) = (BTreeSet::new(), 0);
    for two in cases().windows(2) {
        let (Asked::Call(n), Asked::TakeBack(_)) = (two[0].asked, two[1].asked) else { continue };
        let refusal = two[1].made(&FAST).0.refusal;
        let left = two[0].made(&FAST).1;
        if left.block != two[0].on.block && left.block == two[1].on.block && refusal == 20 {
            changed.insert(n.call);
        }
        accepted += (refusal == 0) as u32;
    }
    let due = [Call::Enrol, Call::Grant, Call::Revoke, Call::Downgrade, Call::Open, Call::SetMarks, Call::Retire];
    assert!(due.iter().all(|call| changed.contains(call)) && accepted > 0, "{changed:?} {accepted}");
}
