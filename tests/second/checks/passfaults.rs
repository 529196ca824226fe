//! Wrong programs for pass-only delegations, which the generated cases of the kind `pass` notice:
//! other uses, kinds that are lost, other chains, other grants.

use crate::lentcases::{noticed_in, recorded, Recorded};
use crate::pairs::refusals;
use crate::passcases::cases;
use crate::slips::{Program, RIGHT};
use generate::passregisters::{all_passing, with_kinds};
use generate::retireregisters::without;
use second::block::{decode, encode, Delegation, Register, PASS_ONLY};
use second::call::{refused, Outcome};
use second::cut::all_rounds;
use second::engine::{Engine, FAST};
use second::lentcase::{Asked, Bytes, LentCase};
use second::refusal::{applying, Call, Passed};
use second::search::{reach_table, reaches};
use second::table::{Table, OURS};
use std::sync::OnceLock;

fn lines() -> &'static [Recorded] {
    static LINES: OnceLock<Vec<Recorded>> = OnceLock::new();
    LINES.get_or_init(|| recorded(cases()))
}

fn noticed(program: impl Fn(&LentCase) -> (Outcome, Bytes)) -> usize {
    noticed_in(lines(), program)
}

/// Each is noticed by so many cases.
pub fn all_noticed(programs: &[(&str, Program)], least: usize) {
    for (shows, program) in programs {
        let count = noticed(program);
        assert!(count >= least, "{shows}: {count}");
    }
}

#[test]
fn the_right_program_is_not_noticed() {
    assert_eq!(noticed(RIGHT), 0);
    assert!(lines().len() > 3500, "{}", lines().len());
}

/// The case is this call.
fn asks(case: &LentCase, calls: &[Call]) -> Option<Passed> {
    case.passed().filter(|n| calls.contains(&n.call))
}

pub fn is_passing(d: &Delegation) -> bool {
    d.kind == PASS_ONLY
}

/// The right program, but for who has use of the right, told of the delegations to a subject.
fn using(case: &LentCase, may: fn(u32, &[Delegation]) -> bool) -> (Outcome, Bytes) {
    let (mut outcome, left) = case.made(&FAST);
    if let (Some(n), 0) = (asks(case, &[Call::Use]), outcome.refusal) {
        let register = decode(&case.on.block).expect("a well-formed block");
        let to_it = register.delegations.iter().filter(|d| d.receiver as u32 == n.receiver);
        outcome.answers[0] = may(n.receiver, &to_it.copied().collect::<Vec<_>>()) as i32;
    }
    (outcome, left)
}

const WRONG_USES: [(&str, Program); 15] = [
    ("by any delegation", |case| using(case, |s, to| s == 0 || !to.is_empty())),
    ("not where one of several is pass-only", |case| {
        using(case, |s, to| s == 0 || !to.is_empty() && !to.iter().any(is_passing))
    }),
    ("by the first alone", |case| using(case, |s, to| s == 0 || to.first().is_some_and(|d| !is_passing(d)))),
    ("by the last alone", |case| using(case, |s, to| s == 0 || to.last().is_some_and(|d| !is_passing(d)))),
    ("by the heaviest alone", |case| {
        using(case, |s, to| s == 0 || to.iter().max_by_key(|d| d.weight).is_some_and(|d| !is_passing(d)))
    }),
    ("not at weight 0", |case| using(case, |s, to| s == 0 || to.iter().any(|d| !is_passing(d) && d.weight > 0))),
    ("by a pass-only one at weight 0", |case| {
        using(case, |s, to| s == 0 || to.iter().any(|d| !is_passing(d) || d.weight == 0))
    }),
    ("by a pass-only one above weight 0", |case| {
        using(case, |s, to| s == 0 || to.iter().any(|d| !is_passing(d) || d.weight > 0))
    }),
    ("by an unlimited pass-only one", |case| {
        using(case, |s, to| s == 0 || to.iter().any(|d| !is_passing(d) || d.weight == 255))
    }),
    ("by two pass-only ones", |case| {
        using(case, |s, to| s == 0 || to.iter().any(|d| !is_passing(d)) || to.len() > 1)
    }),
    ("by pass-only ones", |case| using(case, |s, to| s == 0 || to.iter().any(is_passing))),
    ("by what the owner gave alone", |case| {
        using(case, |s, to| s == 0 || to.iter().any(|d| !is_passing(d) && d.giver == 0))
    }),
    ("not under a condition", |case| {
        using(case, |s, to| s == 0 || to.iter().any(|d| !is_passing(d) && d.need | d.bar == 0))
    }),
    ("not by the owner", |case| using(case, |_, to| to.iter().any(|d| !is_passing(d)))),
    ("by nobody but the owner", |case| using(case, |s, _| s == 0)),
];

#[test]
fn wrong_uses_are_noticed() {
    all_noticed(&WRONG_USES, 2);
}

/// The right program, but for what an accepted call of these leaves, told of the register before.
fn leaving(
    case: &LentCase,
    calls: &[Call],
    leaves: impl Fn(&Register, &Register, &Passed) -> Register,
) -> (Outcome, Bytes) {
    let (outcome, mut left) = case.made(&FAST);
    if let (Some(n), 0) = (asks(case, calls), outcome.refusal) {
        let [before, after] = [&case.on.block, &left.block].map(|block| decode(block).expect("a well-formed block"));
        left.block = encode(&leaves(&before, &after, &n));
    }
    (outcome, left)
}

const CUTS: [Call; 2] = [Call::Revoke, Call::Downgrade];
const SETTLING: [Call; 4] = [Call::Revoke, Call::Downgrade, Call::SetMarks, Call::Retire];
const GRANTS: [Call; 2] = [Call::Grant, Call::GrantKind];
const KIND: [Call; 1] = [Call::GrantKind];

/// The register in which these delegations are ordinary, told of each and of it before.
fn ordinary_if(before: &Register, after: &Register, is: impl Fn(&Delegation, Option<&Delegation>) -> bool) -> Register {
    let was = |d: &Delegation| before.standing(d.giver as u32, d.receiver as u32);
    with_kinds(after, |at| {
        let d = &after.delegations[at];
        if is(d, was(d)) { 0 } else { d.kind }
    })
}

/// The register in which these are pass-only too.
fn passing_if(after: &Register, is: impl Fn(&Delegation) -> bool) -> Register {
    with_kinds(after, |at| after.delegations[at].kind | is(&after.delegations[at]) as u8)
}

fn is_lighter(d: &Delegation, was: Option<&Delegation>) -> bool {
    was.is_some_and(|was| was.weight > d.weight)
}

/// The kinds are those of the same places before.
fn kinds_of_places(before: &Register, after: &Register) -> Register {
    with_kinds(after, |at| before.delegations.get(at).map_or(0, |d| d.kind))
}

/// Pass-only delegations at weight 0 are dropped, those that were there before too or not.
fn without_zeros(before: &Register, after: &Register, too: bool) -> Register {
    let was = |d: &Delegation| before.standing(d.giver as u32, d.receiver as u32).copied();
    let goes = |d: &&Delegation| is_passing(d) && d.weight == 0 && (too || is_lighter(d, was(d).as_ref()));
    let left = after.delegations.iter().filter(|d| !goes(d)).copied().collect();
    Register { delegations: left, ..after.clone() }
}

/// The pair that is cut.
fn is_named(d: &Delegation, n: &Passed) -> bool {
    (d.giver as u32, d.receiver as u32) == (n.giver, n.receiver)
}

/// Programs that leave other kinds, or not all pass-only delegations.
const WRONG_KINDS: [(&str, Program); 24] = [
    ("a cut writes 0", |case| leaving(case, &CUTS, |_, after, _| with_kinds(after, |_| 0))),
    ("set_marks writes 0", |case| leaving(case, &[Call::SetMarks], |_, after, _| with_kinds(after, |_| 0))),
    ("retire writes 0", |case| leaving(case, &[Call::Retire], |_, after, _| with_kinds(after, |_| 0))),
    ("enrol writes 0", |case| leaving(case, &[Call::Enrol], |_, after, _| with_kinds(after, |_| 0))),
    ("a grant writes 0 to all", |case| leaving(case, &GRANTS, |_, after, _| with_kinds(after, |_| 0))),
    ("a round writes 0 to what it lowers", |case| {
        leaving(case, &SETTLING, |b, a, n| ordinary_if(b, a, |d, was| is_lighter(d, was) && !is_named(d, n)))
    }),
    ("a round writes 0 to what it leaves", |case| {
        leaving(case, &SETTLING, |b, a, _| ordinary_if(b, a, |d, was| !is_lighter(d, was)))
    }),
    ("what comes to 0 is ordinary", |case| leaving(case, &SETTLING, |b, a, _| ordinary_if(b, a, |d, _| d.weight == 0))),
    ("a cut writes 1", |case| leaving(case, &CUTS, |_, after, _| all_passing(after))),
    ("a round writes 1 to what it lowers to 0", |case| {
        leaving(case, &SETTLING, |_, a, _| passing_if(a, |d| d.weight == 0))
    }),
    ("a downgrade writes 0", |case| {
        leaving(case, &[Call::Downgrade], |b, a, n| ordinary_if(b, a, |d, _| is_named(d, n)))
    }),
    ("a downgrade to 0 writes 0", |case| {
        leaving(case, &[Call::Downgrade], |b, a, n| ordinary_if(b, a, |d, _| is_named(d, n) && d.weight == 0))
    }),
    ("a raise writes 0", |case| {
        leaving(case, &GRANTS, |b, a, n| ordinary_if(b, a, |d, was| is_named(d, n) && was.is_some()))
    }),
    ("a new one is ordinary", |case| {
        leaving(case, &GRANTS, |b, a, n| ordinary_if(b, a, |d, was| is_named(d, n) && was.is_none()))
    }),
    ("a new one is pass-only", |case| leaving(case, &GRANTS, |_, a, n| passing_if(a, |d| is_named(d, n)))),
    ("a grant without a kind is pass-only", |case| {
        leaving(case, &[Call::Grant], |_, a, n| passing_if(a, |d| is_named(d, n)))
    }),
    ("all get the kind of a grant", |case| leaving(case, &KIND, |_, a, n| with_kinds(a, |_| n.kind as u8))),
    ("kinds stay in their places after a grant", |case| leaving(case, &GRANTS, |b, a, _| kinds_of_places(b, a))),
    ("kinds stay in their places after a revoke", |case| {
        leaving(case, &[Call::Revoke], |b, a, _| kinds_of_places(b, a))
    }),
    ("kinds stay in their places after rounds", |case| leaving(case, &SETTLING, |b, a, _| kinds_of_places(b, a))),
    ("a downgrade to 0 drops a pass-only one", |case| {
        leaving(case, &[Call::Downgrade], |b, a, n| if n.weight == 0 { without_zeros(b, a, false) } else { a.clone() })
    }),
    ("a cut drops a pass-only one that comes to 0", |case| leaving(case, &CUTS, |b, a, _| without_zeros(b, a, false))),
    ("a round drops a pass-only one that comes to 0", |case| {
        leaving(case, &[Call::SetMarks, Call::Retire], |b, a, _| without_zeros(b, a, false))
    }),
    ("pass-only ones at 0 are dropped", |case| leaving(case, &SETTLING, |b, a, _| without_zeros(b, a, true))),
];

#[test]
fn wrong_kinds_are_noticed() {
    all_noticed(&WRONG_KINDS, 2);
}

/// The register with other delegations in the place of its own.
fn with_each(register: &Register, of: impl Fn(&Delegation) -> Option<Delegation>) -> Register {
    Register { delegations: register.delegations.iter().filter_map(of).collect(), ..register.clone() }
}

/// The reaches of the pairs of a register, over the links of another.
fn over(table: &Table, register: &Register, links: &Register) -> Vec<i16> {
    let of = |d: &Delegation| reach_table(table, links, d.giver as u32, d.receiver as u32);
    register.delegations.iter().map(of).collect()
}

fn ordinary_links(register: &Register) -> Register {
    with_each(register, |d| (!is_passing(d)).then_some(*d))
}

fn heavier(register: &Register) -> Register {
    with_each(register, |d| Some(Delegation { weight: d.weight.saturating_add(d.kind), ..*d }))
}

fn lighter(register: &Register) -> Register {
    with_each(register, |d| Some(Delegation { weight: d.weight.checked_sub(d.kind)?, ..*d }))
}

fn unlimited(register: &Register) -> Register {
    with_each(register, |d| Some(Delegation { weight: if is_passing(d) { 255 } else { d.weight }, ..*d }))
}

fn without_conditions(register: &Register) -> Register {
    with_each(register, |d| Some(if is_passing(d) { Delegation { need: 0, bar: 0, ..*d } } else { *d }))
}

/// Those whose giver has use of the right.
fn of_users(register: &Register) -> Register {
    let used = |s: u8| s == 0 || register.delegations.iter().any(|d| d.receiver == s && !is_passing(d));
    with_each(register, |d| used(d.giver).then_some(*d))
}

const fn engine(reach: fn(&Table, &Register, u32, u32) -> i16, of_all: fn(&Table, &Register) -> Vec<i16>) -> Engine {
    Engine { reach, reaches: of_all, rounds: all_rounds }
}

/// Chains over other links than those that stand, in the reach and in rounds.
macro_rules! over_links {
    ($links:ident) => {
        engine(|t, r, g, v| reach_table(t, &$links(r), g, v), |t, r| over(t, r, &$links(r)))
    };
}

/// Programs with other chains.
const WRONG_CHAINS: [(&str, Engine); 9] = [
    ("pass-only links are skipped", over_links!(ordinary_links)),
    ("pass-only links are one heavier", over_links!(heavier)),
    ("pass-only links are one lighter", over_links!(lighter)),
    ("pass-only links are unlimited", over_links!(unlimited)),
    ("pass-only links have no conditions", over_links!(without_conditions)),
    ("who has no use gives nothing", over_links!(of_users)),
    ("pass-only links are skipped in rounds", engine(reach_table, |t, r| over(t, r, &ordinary_links(r)))),
    ("pass-only ones need ordinary links", engine(reach_table, |t, r| {
        let (all, ordinary) = (reaches(t, r), over(t, r, &ordinary_links(r)));
        r.delegations.iter().enumerate().map(|(at, d)| if is_passing(d) { ordinary[at] } else { all[at] }).collect()
    })),
    ("pass-only ones are never lowered", engine(reach_table, |t, r| {
        let of = |(d, reach): (&Delegation, i16)| if is_passing(d) { 255 } else { reach };
        r.delegations.iter().zip(reaches(t, r)).map(of).collect()
    })),
];

#[test]
fn wrong_chains_are_noticed() {
    for (shows, engine) in WRONG_CHAINS {
        let count = noticed(|case| case.made(&engine));
        assert!(count > 5, "{shows}: {count}");
    }
}

/// The right program, passed another call.
fn passing_on(case: &LentCase, calls: &[Call], other: impl Fn(&Passed, &Register) -> Passed) -> (Outcome, Bytes) {
    let Some(n) = asks(case, calls) else { return case.made(&FAST) };
    let register = decode(&case.on.block).unwrap_or(Register::fresh());
    LentCase { asked: Asked::Call(other(&n, &register)), ..case.clone() }.made(&FAST)
}

/// The same for another kind.
fn with_kind(case: &LentCase, kind: fn(&Passed) -> u32) -> (Outcome, Bytes) {
    passing_on(case, &[Call::GrantKind], |n, _| Passed { kind: kind(n), ..*n })
}

/// The right program, but another refusal in the place of one, or of none.
fn instead(
    case: &LentCase,
    calls: &[Call],
    number: u32,
    other: impl Fn(&Passed, &Register) -> u32,
) -> (Outcome, Bytes) {
    let right = case.made(&FAST);
    let Some(n) = asks(case, calls).filter(|_| right.0.refusal == number) else { return right };
    let register = decode(&case.on.block).unwrap_or(Register::fresh());
    match other(&n, &register) {
        same if same == number => right,
        0 => made_by_hand(case, &n),
        other => (refused(other), case.on.clone()),
    }
}

/// The grant that was refused, made all the same: the pair's record is another.
fn made_by_hand(case: &LentCase, n: &Passed) -> (Outcome, Bytes) {
    let Some(mut register) = decode(&case.on.block) else { return case.made(&FAST) };
    let [giver, receiver, weight, kind] = [n.giver, n.receiver, n.weight, n.kind].map(|number| number as u8);
    let new = Delegation { giver, receiver, weight, kind, need: n.need as u16, bar: n.bar as u16 };
    match register.place(n.giver, n.receiver) {
        Ok(at) => register.delegations[at] = new,
        Err(at) => register.delegations.insert(at.min(255), new),
    }
    register.delegations.truncate(256);
    granted(case, &register)
}

fn standing<'a>(register: &'a Register, n: &Passed) -> Option<&'a Delegation> {
    register.standing(n.giver, n.receiver)
}

/// Whether a pass-only delegation is cut to 0.
fn is_zeroed(n: &Passed, register: &Register) -> bool {
    n.weight == 0 && standing(register, n).is_some_and(is_passing)
}

/// Whether the pair stands with another kind, and the grant would raise it if it had that.
fn would_raise(n: &Passed, register: &Register) -> bool {
    let same = |d: &&Delegation| d.kind as u32 != n.kind && (d.need as u32, d.bar as u32) == (n.need, n.bar);
    let reach = reach_table(&OURS, register, n.giver, n.receiver) as i32;
    standing(register, n).filter(same).is_some_and(|d| n.weight > d.weight as u32) && reach >= n.weight as i32
}

/// A second record for a pair that stands with another kind.
fn beside(case: &LentCase) -> (Outcome, Bytes) {
    let right = case.made(&FAST);
    let Some(n) = asks(case, &GRANTS).filter(|_| right.0.refusal == 11) else { return right };
    let mut register = decode(&case.on.block).expect("a well-formed block");
    let at = register.place(n.giver, n.receiver).expect("a standing pair");
    if register.delegations[at].kind as u32 == n.kind || register.delegations.len() > 255 {
        return right;
    }
    let second = Delegation { weight: n.weight as u8, kind: n.kind as u8, ..register.delegations[at] };
    register.delegations.insert(at + 1, second);
    granted(case, &register)
}

/// A grant that leaves this register.
fn granted(case: &LentCase, left: &Register) -> (Outcome, Bytes) {
    let answers = [left.delegations.len() as i32, 0, 0];
    (Outcome { refusal: 0, answers }, Bytes { block: encode(left), ..case.on.clone() })
}

/// Programs that take other kinds, or refuse them otherwise.
const WRONG_GRANTS: [(&str, Program); 33] = [
    ("kind 2 is 1", |case| with_kind(case, |n| if n.kind == 2 { 1 } else { n.kind })),
    ("kind 2 is 0", |case| with_kind(case, |n| if n.kind == 2 { 0 } else { n.kind })),
    ("what is not 0 is 1", |case| with_kind(case, |n| n.kind.min(1))),
    ("what is not 1 is 0", |case| with_kind(case, |n| (n.kind == 1) as u32)),
    ("kinds keep one bit", |case| with_kind(case, |n| n.kind & 1)),
    ("kinds keep 8 bits", |case| with_kind(case, |n| n.kind & 255)),
    ("kinds keep 16 bits", |case| with_kind(case, |n| n.kind & 65_535)),
    ("kinds keep 31 bits", |case| with_kind(case, |n| n.kind & 0x7FFF_FFFF)),
    ("kinds are exchanged", |case| with_kind(case, |n| if n.kind < 2 { 1 - n.kind } else { n.kind })),
    ("kinds are left out", |case| with_kind(case, |_| 0)),
    ("of weight 0 it is ordinary", |case| with_kind(case, |n| n.kind * (n.weight > 0) as u32)),
    ("no pass-only of weight 1", |case| instead(case, &KIND, 0, |n, _| 21 * (n.kind == 1 && n.weight == 1) as u32)),
    ("no unlimited pass-only", |case| instead(case, &KIND, 0, |n, _| 21 * (n.kind == 1 && n.weight == 255) as u32)),
    ("weights are not looked at", |case| instead(case, &KIND, 21, |n, _| 21 * (n.kind > 1) as u32)),
    ("21 for weight 0 of either kind", |case| instead(case, &KIND, 0, |n, _| 21 * (n.weight == 0) as u32)),
    ("21 for grants of weight 0", |case| instead(case, &GRANTS, 0, |n, _| 21 * (n.weight == 0) as u32)),
    ("21 for all pass-only ones", |case| instead(case, &KIND, 0, |n, _| 21 * n.kind)),
    ("21 for raises of pass-only ones", |case| {
        instead(case, &KIND, 0, |n, r| 21 * (n.kind == 1 && standing(r, n).is_some()) as u32)
    }),
    ("11 in the place of 21 where the pair stands", |case| {
        instead(case, &KIND, 21, |n, r| if standing(r, n).is_some() { 11 } else { 21 })
    }),
    ("21 in the place of 11 for the other kind", |case| {
        instead(case, &GRANTS, 11, |n, r| if standing(r, n).is_some_and(|d| d.kind as u32 != n.kind) { 21 } else { 11 })
    }),
    ("3 in the place of 21", |case| instead(case, &KIND, 21, |_, _| 3)),
    ("4 in the place of 21", |case| instead(case, &KIND, 21, |_, _| 4)),
    ("21 for a downgrade to 0", |case| instead(case, &[Call::Downgrade], 0, |n, r| 21 * is_zeroed(n, r) as u32)),
    ("15 for a downgrade to 0", |case| instead(case, &[Call::Downgrade], 0, |n, r| 15 * is_zeroed(n, r) as u32)),
    ("the other kind changes it", |case| instead(case, &GRANTS, 11, |n, r| 11 * !would_raise(n, r) as u32)),
    ("the other kind changes it at the same weight", |case| {
        let same = |n: &Passed, d: &Delegation| d.kind as u32 != n.kind && d.weight as u32 == n.weight;
        instead(case, &KIND, 11, |n, r| 11 * !standing(r, n).is_some_and(|d| same(n, d)) as u32)
    }),
    ("ordinary ones become pass-only", |case| {
        instead(case, &KIND, 11, |n, r| 11 * !(would_raise(n, r) && n.kind == 1) as u32)
    }),
    ("pass-only ones become ordinary", |case| {
        instead(case, &GRANTS, 11, |n, r| 11 * !(would_raise(n, r) && n.kind == 0) as u32)
    }),
    ("the other kind raises and is left out", |case| {
        passing_on(case, &GRANTS, |n, r| match standing(r, n) {
            Some(d) if n.kind < 2 && n.weight > 0 => Passed { call: Call::GrantKind, kind: d.kind as u32, ..*n },
            _ => *n,
        })
    }),
    ("a grant without a kind raises any", |case| {
        passing_on(case, &[Call::Grant], |n, r| match standing(r, n) {
            Some(d) if n.weight > 0 => Passed { call: Call::GrantKind, kind: d.kind as u32, ..*n },
            _ => *n,
        })
    }),
    ("the other kind stands beside the first", beside),
    ("pass-only ones are not raised", |case| {
        instead(case, &KIND, 0, |n, r| 11 * (n.kind == 1 && standing(r, n).is_some()) as u32)
    }),
    ("pass-only ones at 0 are not raised", |case| {
        instead(case, &KIND, 0, |n, r| 11 * standing(r, n).is_some_and(|d| is_passing(d) && d.weight == 0) as u32)
    }),
];

#[test]
fn wrong_grants_are_noticed() {
    all_noticed(&WRONG_GRANTS, 1);
}

/// The program that looks at the refusals of a grant with a kind in this order.
fn in_order(case: &LentCase, order: &[u32]) -> (Outcome, Bytes) {
    let (Some(n), on) = (asks(case, &KIND), &case.on) else { return case.made(&FAST) };
    let numbers = applying(&FAST, &n, &on.table, &on.block, 0);
    match order.iter().find(|number| numbers.contains(number)) {
        Some(&number) => (refused(number), on.clone()),
        None => case.made(&FAST),
    }
}

/// 21 at every other place of the list; but it is told from none that never applies with it.
#[test]
fn other_places_of_21_are_noticed() {
    let right = refusals(Call::GrantKind);
    assert_eq!(noticed(|case| in_order(case, right)), 0);
    let others: Vec<u32> = right.iter().copied().filter(|&number| number != 21).collect();
    for place in (0..=others.len()).filter(|&place| place != 6) {
        let order = [&others[..place], &[21], &others[place..]].concat();
        let count = noticed(|case| in_order(case, &order));
        assert!(count > 0, "{order:?}");
    }
}

/// 12 for a raise in a full register, whose delegations are too many for the others.
#[test]
fn a_full_register_is_noticed() {
    let fails = |case: &&LentCase| {
        let (Some(n), Some(register)) = (asks(case, &KIND), decode(&case.on.block)) else { return false };
        let raised = case.made(&FAST).0.refusal == 0 && standing(&register, &n).is_some();
        raised && n.kind == 1 && register.delegations.len() == 256
    };
    assert!(cases().iter().filter(fails).count() > 1);
}

/// The retired have no delegation, of either kind.
#[test]
fn pass_only_ones_that_stay_are_noticed() {
    let stays: Program = |case| {
        leaving(case, &[Call::Retire], |before, after, n| {
            let mut left = without(before.clone(), &[n.receiver]);
            let named = |d: &&Delegation| is_passing(d) && [d.giver, d.receiver].contains(&(n.receiver as u8));
            left.delegations = before.delegations.iter().filter(named).chain(&after.delegations).copied().collect();
            left.delegations.sort_by_key(Delegation::pair);
            left
        })
    };
    assert!(noticed(stays) > 20);
}
