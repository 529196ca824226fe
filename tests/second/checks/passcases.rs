//! What the generated cases of the kind `pass` hold.

use crate::faults::{ONE_ROUND, TEXT_LEFT_OUT, VISITED_ONCE};
use crate::generated::is_small;
use crate::lentcases::{compared, keep_the_form, read_back};
use crate::relaxed::RELAXED;
use generate::passes;
use second::block::{broken_rules, decode, Delegation, Register, BLOCK_LEN, KIND, PASS_ONLY, RECORDS_AT, RULES};
use second::call::Outcome;
use second::callfile::{lines, read_columns};
use second::engine::{FAST, LITERAL};
use second::lentcase::{Asked, Bytes, LentCase};
use second::refusal::{Call, Passed, ALL_CALLS};
use second::regfile::{Rows, DELEGATION_NAMES};
use std::collections::BTreeSet;
use std::sync::OnceLock;

pub fn cases() -> &'static [LentCase] {
    static CASES: OnceLock<Vec<LentCase>> = OnceLock::new();
    CASES.get_or_init(passes::cases)
}

#[test]
fn files_are_small_and_read_back() {
    let (lines, bytes) = (cases().len(), read_back(cases()));
    assert!((4000..5000).contains(&lines) && bytes < 1_200_000, "{lines} {bytes}");
}

#[test]
fn lines_keep_the_form() {
    keep_the_form(cases());
}

/// Every call is among them, those of files and of slips too.
#[test]
fn all_calls_are_made() {
    let calls: BTreeSet<Call> = cases().iter().filter_map(LentCase::passed).map(|n| n.call).collect();
    assert_eq!(calls, ALL_CALLS.into_iter().collect());
    let is = |of: fn(&Asked) -> bool| cases().iter().filter(|case| of(&case.asked)).count();
    let others = [is(|a| matches!(a, Asked::Write(_))), is(|a| *a == Asked::Read), is(|a| matches!(a, Asked::Cut(_)))];
    assert!(others.iter().all(|&count| count > 50), "{others:?}");
}

/// Every kind is granted with every weight, for a pair that stands in either kind and for one
/// that doesn't; every byte stands in the place of a kind.
#[test]
fn kinds_and_bytes_are_covered() {
    let (mut granted, mut bytes) = (BTreeSet::new(), BTreeSet::new());
    for LentCase { asked, on } in cases().iter().filter(|case| case.on.block.len() == BLOCK_LEN) {
        bytes.extend(on.block[RECORDS_AT..].chunks_exact(8).map(|record| record[KIND]));
        let (Asked::Call(n), Some(register)) = (asked, decode(&on.block)) else { continue };
        let stands = register.standing(n.giver, n.receiver).map(|d| d.kind);
        granted.extend((n.call == Call::GrantKind).then_some((n.kind, n.weight, stands)));
    }
    for (kind, weight) in passes::KINDS.iter().flat_map(|&kind| passes::WEIGHTS.map(|weight| (kind, weight))) {
        assert!([None, Some(0), Some(1)].iter().all(|&stands| granted.contains(&(kind, weight, stands))));
    }
    assert_eq!(bytes.len(), 256);
}

/// Every rule of a block is broken alone under a grant with a kind.
#[test]
fn rules_are_broken() {
    let of_grants = cases().iter().filter(|case| case.passed().is_some_and(|n| n.call == Call::GrantKind));
    let blocks = of_grants.map(|case| &case.on.block).filter(|block| block.len() == BLOCK_LEN);
    let rules: BTreeSet<Vec<usize>> = blocks.map(|block| broken_rules(block)).collect();
    assert!((0..RULES.len()).all(|rule| rules.contains(&vec![rule])));
}

fn all_small(on: &Bytes) -> bool {
    let rows = Rows::read(&on.lent).is_none_or(|rows| rows.delegations.len() <= 16);
    is_small(&on.block) && rows && is_small(&on.lent[..BLOCK_LEN.min(on.lent.len())])
}

/// Small registers are run with the literal search, all with the relaxed one.
#[test]
fn expected_lines_follow_from_the_definition() {
    let (small, differing) = compared(cases(), &LITERAL, all_small);
    assert!(small > 3000 && differing == 0, "{small} {differing}");
    assert_eq!(compared(cases(), &RELAXED, |_| true).1, 0);
    assert!(compared(cases(), &ONE_ROUND, |_| true).1 > 10);
    assert!(compared(cases(), &VISITED_ONCE, all_small).1 > 10);
    assert!(compared(cases(), &TEXT_LEFT_OUT, |_| true).1 > 10);
}

/// A case on a register, and what it leaves.
struct Seen<'a> {
    case: &'a LentCase,
    outcome: Outcome,
    before: Register,
    after: Register,
}

fn seen() -> Vec<Seen<'static>> {
    let of = |case: &'static LentCase| {
        let (outcome, left) = case.made(&FAST);
        let (before, after) = decode(&case.on.block).zip(decode(&left.block))?;
        Some(Seen { case, outcome, before, after })
    };
    cases().iter().filter_map(of).collect()
}

fn passing(d: &Delegation) -> bool {
    d.kind == PASS_ONLY
}

impl Seen<'_> {
    /// An accepted call of these.
    fn made(&self, calls: &[Call]) -> Option<Passed> {
        self.case.passed().filter(|n| self.outcome.refusal == 0 && calls.contains(&n.call))
    }

    /// The delegation of the pair that is passed.
    fn standing(&self, n: &Passed) -> Option<Delegation> {
        self.before.standing(n.giver, n.receiver).copied()
    }

    /// An accepted call of these, and some delegation before and afterwards.
    fn falls(&self, calls: &[Call], holds: fn(&Delegation, Option<&Delegation>) -> bool) -> bool {
        let after = |d: &Delegation| self.after.standing(d.giver as u32, d.receiver as u32);
        let another = |d: &&Delegation, n: &Passed| d.pair() != (n.giver as u8, n.receiver as u8);
        let named = self.made(calls);
        named.is_some_and(|n| self.before.delegations.iter().filter(|d| another(d, &n)).any(|d| holds(d, after(d))))
    }

    /// The kinds of the delegations to the subject of an accepted use, and its answer.
    fn used(&self, holds: fn(&[Delegation], i32) -> bool) -> bool {
        let Some(n) = self.made(&[Call::Use]) else { return false };
        let to_it = self.before.delegations.iter().filter(|d| d.receiver as u32 == n.receiver);
        holds(&to_it.copied().collect::<Vec<_>>(), self.outcome.answers[0])
    }

    /// A grant with the kind of its standing pair, or with the other.
    fn again(&self, kind: u8, same: bool, refusal: u32) -> bool {
        let n = self.case.passed().filter(|n| n.call == Call::GrantKind && self.outcome.refusal == refusal);
        n.and_then(|n| self.standing(&n).map(|d| d.kind == kind && (n.kind == kind as u32) == same)).unwrap_or(false)
    }
}

fn at_0(d: &Delegation) -> bool {
    passing(d) && d.weight == 0
}

fn to_0(d: &Delegation, after: Option<&Delegation>) -> bool {
    passing(d) && d.weight > 0 && after.is_some_and(|after| after.weight == 0)
}

fn lowered(d: &Delegation, after: Option<&Delegation>) -> bool {
    passing(d) && after.is_some_and(|after| after.weight < d.weight && after.weight > 0)
}

fn dropped(d: &Delegation, after: Option<&Delegation>) -> bool {
    passing(d) && after.is_none()
}

const CUTS: [Call; 2] = [Call::Revoke, Call::Downgrade];
const MARKS: [Call; 1] = [Call::SetMarks];
const RETIRE: [Call; 1] = [Call::Retire];

type Shows = (&'static str, fn(&Seen) -> bool);

const SHOWN: [Shows; 34] = [
    ("a pass-only raise", |s| s.again(1, true, 0)),
    ("an ordinary raise", |s| s.again(0, true, 0)),
    ("a pass-only one above its reach", |s| s.again(1, true, 16)),
    ("a pass-only one not heavier", |s| s.again(1, true, 11)),
    ("an ordinary one over a pass-only one", |s| s.again(1, false, 11)),
    ("a pass-only one over an ordinary one", |s| s.again(0, false, 11)),
    ("a pass-only one at 0 raised", |s| {
        s.again(1, true, 0) && s.case.passed().and_then(|n| s.standing(&n)).is_some_and(|d| d.weight == 0)
    }),
    ("a pass-only raise in a full register", |s| s.again(1, true, 0) && s.before.delegations.len() == 256),
    ("the other kind in a full register", |s| s.again(1, false, 11) && s.before.delegations.len() == 256),
    ("use with none", |s| s.used(|to, may| to.is_empty() && may == 0)),
    ("use by an ordinary one", |s| s.used(|to, may| to.len() == 1 && may == 1)),
    ("use by one at weight 0", |s| s.used(|to, may| may == 1 && to.iter().all(|d| d.weight == 0))),
    ("no use by a pass-only one", |s| s.used(|to, may| to.len() == 1 && may == 0)),
    ("no use by a pass-only one at 0", |s| s.used(|to, may| may == 0 && to.iter().any(|d| d.weight == 0))),
    ("no use by several pass-only ones", |s| s.used(|to, may| to.len() > 1 && may == 0)),
    ("use by both, the ordinary one last", |s| s.used(|to, may| may == 1 && to.first().is_some_and(passing))),
    ("use by both, the ordinary one first", |s| s.used(|to, may| may == 1 && to.last().is_some_and(passing))),
    ("a downgrade to 0", |s| {
        s.made(&[Call::Downgrade]).is_some_and(|n| n.weight == 0 && s.standing(&n).is_some_and(|d| passing(&d)))
    }),
    ("a cut lowers one to 0", |s| s.falls(&CUTS, to_0)),
    ("a cut lowers one", |s| s.falls(&CUTS, lowered)),
    ("a cut drops one", |s| s.falls(&CUTS, dropped)),
    ("marks lower one to 0", |s| s.falls(&MARKS, to_0)),
    ("marks lower one", |s| s.falls(&MARKS, lowered)),
    ("marks drop one", |s| s.falls(&MARKS, dropped)),
    ("a retirement lowers one to 0", |s| s.falls(&RETIRE, to_0)),
    ("a retirement lowers one", |s| s.falls(&RETIRE, lowered)),
    ("a retirement drops one", |s| s.falls(&RETIRE, dropped)),
    ("a slip with them taken back", |s| taken_back(s, |before, _| before.delegations.iter().any(passing))),
    ("a slip with some dropped", |s| {
        let count = |register: &Register| register.delegations.iter().filter(|d| passing(d)).count();
        taken_back(s, |before, after| count(before) > count(after))
    }),
    ("a slip with some at 0", |s| taken_back(s, |_, after| after.delegations.iter().any(at_0))),
    ("a slip that nobody wrote", |s| taken_back(s, |before, _| before.standing(5, 6).is_some())),
    ("another slip", |s| matches!(s.case.asked, Asked::TakeBack(_)) && s.outcome.refusal == 20),
    ("a file with one at 0", |s| {
        s.case.asked == Asked::Read && s.outcome.refusal == 0 && s.after.delegations.iter().any(at_0)
    }),
    ("a file with unsupported ones", |s| s.case.asked == Asked::Read && s.outcome.refusal == 18),
];

fn taken_back(seen: &Seen, holds: impl Fn(&Register, &Register) -> bool) -> bool {
    let accepted = matches!(seen.case.asked, Asked::TakeBack(_)) && seen.outcome.refusal == 0;
    accepted && holds(&seen.after, &seen.before)
}

#[test]
fn all_is_shown() {
    let mut seen = seen();
    let reads = cases().iter().filter(|case| case.asked == Asked::Read).map(|case| {
        let (outcome, left) = case.made(&FAST);
        Seen { case, outcome, before: Register::fresh(), after: decode(&left.block).unwrap_or(Register::fresh()) }
    });
    seen.extend(reads);
    for (shows, holds) in SHOWN {
        assert!(seen.iter().any(holds), "{shows}");
    }
}

/// Files without the column, and with 0, 1, 2 and other numbers in it.
#[test]
fn columns_are_covered() {
    let (mut numbers, mut without) = (BTreeSet::new(), 0);
    for case in cases().iter().filter(|case| case.asked == Asked::Read) {
        let refusal = case.made(&FAST).0.refusal;
        let rows = lines(&case.on.lent).filter_map(|line| read_columns::<6>(line.strip_suffix(b"\n")?));
        let most = rows.map(|row| row[5]).max().unwrap_or(0);
        let names = lines(&case.on.lent).any(|line| line == DELEGATION_NAMES);
        without += (!names && refusal == 7) as u32;
        numbers.insert((most.min(300), refusal));
    }
    let due = [(0, 0), (1, 0), (2, 8), (3, 8), (255, 8), (256, 8), (257, 8), (300, 8)];
    assert!(due.iter().all(|due| numbers.contains(due)));
    assert!(without > 5, "{without}");
}
