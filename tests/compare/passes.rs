//! Calls that judge or keep the kinds of delegations wrongly, to see that the
//! comparison finds them.

use crate::contents::Contents;
use crate::draw::List;
use crate::fault::{Fault, Wrong, NONE};
use crate::kinds::make_ordinary;
use crate::report::Part;
use crate::settling::*;
use crate::standing::{Left as Granted, Standing, OVERWEIGHT, PAIR_STANDS};
use second::block::{decode, encode, Delegation, Register, KIND, ORDINARY, PASS_ONLY, RECORDS_AT, RECORD_LEN};
use second::refusal::{Call, Passed, BAD_TABLE, MALFORMED, NOT_WELL_FORMED, NO_KIND};
use second::search::reach_table;
use second::table::Table;

const NO_SUBJECT: u32 = 2;
const NO_WEIGHT: u32 = 3;
const PASSED_ONLY: u32 = PASS_ONLY as u32;

pub const PASSES: [Fault; 46] = [
    wrong("the kind left out", ACCEPTED, |lent, n| right(lent, &Passed { kind: 0, ..*n })),
    wrong("the kind cut down to 8 bits", ACCEPTED, |lent, n| right(lent, &Passed { kind: n.kind & 0xFF, ..*n })),
    wrong("the kind cut down to 16 bits", ACCEPTED, |lent, n| right(lent, &Passed { kind: n.kind & 0xFFFF, ..*n })),
    wrong("the kind cut down to its lowest bit", ACCEPTED, |lent, n| right(lent, &Passed { kind: n.kind & 1, ..*n })),
    wrong("every kind above 0 taken for pass-only", ACCEPTED, |lent, n| {
        right(lent, &Passed { kind: n.kind.min(PASSED_ONLY), ..*n })
    }),
    wrong("the kinds exchanged", ACCEPTED, |lent, n| match n.call {
        Call::GrantKind if n.kind <= PASSED_ONLY => right(lent, &Passed { kind: PASSED_ONLY - n.kind, ..*n }),
        _ => right(lent, n),
    }),
    wrong("no 21 for weight 0", ACCEPTED, |lent, n| match right(lent, n) {
        (NO_KIND, _) if n.kind == PASSED_ONLY => idle_grant(lent, n),
        right => right,
    }),
    wrong("21 for every weight 0", ACCEPTED, |lent, n| no_kind(lent, n, n.weight == 0)),
    wrong("21 for a pass-only grant of weight 1", ACCEPTED, |lent, n| {
        no_kind(lent, n, n.kind == PASSED_ONLY && n.weight == 1)
    }),
    wrong("21 for every pass-only grant", ACCEPTED, |lent, n| no_kind(lent, n, n.kind == PASSED_ONLY)),
    wrong("21 before 2", NUMBER, |lent, n| instead(lent, n, NO_SUBJECT, NO_KIND, has_no_kind(n))),
    wrong("21 before 3", NUMBER, |lent, n| instead(lent, n, NO_WEIGHT, NO_KIND, has_no_kind(n))),
    wrong("21 before 6", NUMBER, |lent, n| instead(lent, n, TO_OWNER, NO_KIND, has_no_kind(n))),
    wrong("21 after 7", NUMBER, |lent, n| later(lent, n, &[MALFORMED])),
    wrong("21 after 17", NUMBER, |lent, n| later(lent, n, &[MALFORMED, BAD_TABLE])),
    wrong("21 after 8", NUMBER, |lent, n| later(lent, n, &[MALFORMED, BAD_TABLE, NOT_WELL_FORMED])),
    wrong("21 after 9", NUMBER, |lent, n| later(lent, n, &[MALFORMED, BAD_TABLE, NOT_WELL_FORMED, NOT_ENROLLED])),
    wrong("11 before 21", NUMBER, |lent, n| later(lent, n, &[PAIR_STANDS])),
    wrong("16 before 21", NUMBER, |lent, n| later(lent, n, &[OVERWEIGHT])),
    wrong("21 for a pass-only delegation downgraded to 0", ACCEPTED, |lent, n| match right(lent, n) {
        (0, left) if n.call == Call::Downgrade && register(&left).delegations.iter().any(|d| is_idle(d) && names(n, d)) => {
            (NO_KIND, lent.clone())
        }
        right => right,
    }),
    wrong("pass-only delegations dropped at 0", BLOCK, |lent, n| remade(lent, n, |_, after| {
        after.delegations.retain(|d| !is_idle(d));
    })),
    wrong("a named pass-only delegation dropped at 0", BLOCK, |lent, n| remade(lent, n, |_, after| {
        after.delegations.retain(|d| !(is_idle(d) && names(n, d)));
    })),
    wrong("a pass-only delegation kept at 1", BLOCK, |lent, n| remade(lent, n, |before, after| {
        let heavier = |d: &Delegation| before.standing(d.giver as u32, d.receiver as u32).is_some_and(|d| d.weight > 0);
        after.delegations.iter_mut().filter(|d| is_idle(d) && heavier(d)).for_each(|d| d.weight = 1);
    })),
    wrong("pass-only delegations made ordinary at 0", BLOCK, |lent, n| remade(lent, n, |_, after| {
        after.delegations.iter_mut().filter(|d| is_idle(d)).for_each(|d| d.kind = ORDINARY);
    })),
    wrong("the kinds cleared by what settles", BLOCK, |lent, n| remade(lent, n, |_, after| {
        after.delegations.iter_mut().for_each(|d| d.kind = ORDINARY);
    })),
    wrong("the kind of the named delegation cleared by a downgrade", BLOCK, |lent, n| remade(lent, n, |_, after| {
        after.delegations.iter_mut().filter(|d| names(n, d)).for_each(|d| d.kind = ORDINARY);
    })),
    wrong("the kind cleared of what rounds lower", BLOCK, |lent, n| remade(lent, n, |before, after| {
        let lowered = |d: &Delegation| !names(n, d) && before.standing(d.giver as u32, d.receiver as u32) != Some(d);
        after.delegations.iter_mut().filter(|d| lowered(d)).for_each(|d| d.kind = ORDINARY);
    })),
    wrong("the kinds left in their places", BLOCK, |lent, n| accepted(lent, n, |left| {
        for at in (0..register(left).delegations.len()).filter(|_| changes(n.call)) {
            let place = RECORDS_AT + RECORD_LEN * at + KIND;
            left.block[place] = lent.block[place];
        }
    })),
    wrong("all made ordinary by a grant", BLOCK, |lent, n| accepted(lent, n, |left| {
        if is_grant(n.call) {
            make_ordinary(&mut left.block);
        }
    })),
    wrong("use by any delegation", ANSWERS, |lent, n| used(lent, n, |given| !given.is_empty())),
    wrong("use by a pass-only delegation of weight 0", ANSWERS, |lent, n| used(lent, n, |given| {
        given.iter().any(|d| d.kind == ORDINARY || d.weight == 0)
    })),
    wrong("use by a pass-only delegation above 0", ANSWERS, |lent, n| used(lent, n, |given| {
        given.iter().any(|d| d.kind == ORDINARY || d.weight > 0)
    })),
    wrong("no use by an ordinary delegation of weight 0", ANSWERS, |lent, n| used(lent, n, |given| {
        given.iter().any(|d| d.kind == ORDINARY && d.weight > 0)
    })),
    wrong("use by the first delegation alone", ANSWERS, |lent, n| used(lent, n, |given| {
        given.first().is_some_and(|d| d.kind == ORDINARY)
    })),
    wrong("use by the last delegation alone", ANSWERS, |lent, n| used(lent, n, |given| {
        given.last().is_some_and(|d| d.kind == ORDINARY)
    })),
    wrong("no use where a pass-only delegation stands", ANSWERS, |lent, n| used(lent, n, |given| {
        !given.is_empty() && given.iter().all(|d| d.kind == ORDINARY)
    })),
    wrong("use by pass-only delegations", ANSWERS, |lent, n| used(lent, n, |given| {
        given.iter().any(|d| d.kind == PASS_ONLY)
    })),
    wrong("a reach by ordinary delegations alone", ANSWERS, |lent, n| match right(lent, n) {
        (0, mut left) if n.call == Call::Reach => {
            left.set_answers([ordinary_reach(lent, n) as i32, 0, 0]);
            (0, left)
        }
        right => right,
    }),
    wrong("a grant by ordinary delegations alone", ACCEPTED, |lent, n| match right(lent, n) {
        (0, _) if is_grant(n.call) && (ordinary_reach(lent, n) as i64) < n.weight as i64 => (OVERWEIGHT, lent.clone()),
        right => right,
    }),
    standing("the other kind not looked at", ACCEPTED, |s| is_other(s) && s.gain() > 0, Standing::raised),
    standing("the other kind taken over by a raise", ACCEPTED, |s| is_other(s) && s.gain() > 0, with_kind),
    standing("the other kind taken over at the same weight", ACCEPTED, |s| is_other(s) && s.gain() == 0, with_kind),
    standing("21 for the other kind", NUMBER, |s| !s.same_kind(), |s| s.refused(NO_KIND)),
    standing("16 for the other kind above the reach", NUMBER, |s| !s.same_kind() && !s.is_allowed(), |s| s.refused(OVERWEIGHT)),
    standing("11 for a raise from 0", ACCEPTED, |s| s.is_raise() && is_idle(s.record()), |s| s.refused(PAIR_STANDS)),
    standing("the kind cleared by a raise", BLOCK, Standing::is_accepted, |s| {
        let mut left = s.raised();
        left.register.delegations[s.place].kind = ORDINARY;
        left
    }),
];

const fn wrong(name: &'static str, parts: &'static [Part], every: Wrong) -> Fault {
    Fault { name, lists: List::on_kinds, parts, every: Some(every), ..NONE }
}

/// A wrong grant for a standing pair.
const fn standing(
    name: &'static str, parts: &'static [Part], when: fn(&Standing) -> bool, does: fn(&Standing) -> Granted,
) -> Fault {
    Fault { name, lists: List::on_kinds, parts, when, does, ..NONE }
}

fn is_grant(call: Call) -> bool {
    matches!(call, Call::Grant | Call::GrantKind)
}

/// Followed by rounds.
fn settles(call: Call) -> bool {
    matches!(call, Call::Revoke | Call::Downgrade | Call::SetMarks | Call::Retire)
}

fn changes(call: Call) -> bool {
    is_grant(call) || settles(call)
}

/// What gets 21.
fn has_no_kind(n: &Passed) -> bool {
    n.kind > PASSED_ONLY || n.kind == PASSED_ONLY && n.weight == 0
}

/// Pass-only at weight 0.
fn is_idle(d: &Delegation) -> bool {
    d.kind == PASS_ONLY && d.weight == 0
}

/// The delegation that a downgrade names.
fn names(n: &Passed, d: &Delegation) -> bool {
    n.call == Call::Downgrade && (n.giver, n.receiver) == (d.giver as u32, d.receiver as u32)
}

fn register(lent: &Contents) -> Register {
    decode(&lent.block).expect("the block of an accepted call is well formed")
}

/// What is right, with another register left by a call that rounds follow: before the call and after it.
fn remade(lent: &Contents, n: &Passed, change: impl Fn(&Register, &mut Register)) -> Left {
    accepted(lent, n, |left| {
        if settles(n.call) {
            let mut after = register(left);
            change(&register(lent), &mut after);
            left.block = encode(&after);
        }
    })
}

/// Use judged otherwise by what is given to a subject but the owner.
fn used(lent: &Contents, n: &Passed, gives: impl Fn(&[Delegation]) -> bool) -> Left {
    accepted(lent, n, |left| {
        if n.call == Call::Use && n.receiver != 0 {
            let given = register(left).delegations.into_iter().filter(|d| d.receiver as u32 == n.receiver);
            left.set_answers([gives(&given.collect::<Vec<_>>()) as i32, 0, 0]);
        }
    })
}

/// 21 where this is so of a grant of a kind and no refusal before 21 applies.
fn no_kind(lent: &Contents, n: &Passed, is: bool) -> Left {
    let earlier = [1, NO_SUBJECT, NO_WEIGHT, 4, 5, TO_OWNER];
    match right(lent, n) {
        (number, _) if n.call == Call::GrantKind && is && !earlier.contains(&number) => (NO_KIND, lent.clone()),
        right => right,
    }
}

/// Where 21 is due, what is due to an ordinary grant if it is one of these.
fn later(lent: &Contents, n: &Passed, first: &[u32]) -> Left {
    match right(lent, n) {
        (NO_KIND, left) => {
            let number = right(lent, &Passed { kind: 0, ..*n }).0;
            (if first.contains(&number) { number } else { NO_KIND }, left)
        }
        right => right,
    }
}

/// A pass-only grant of weight 0 as if it were no 21.
fn idle_grant(lent: &Contents, n: &Passed) -> Left {
    accepted(lent, &Passed { kind: 0, ..*n }, |left| {
        let mut after = register(left);
        let at = after.place(n.giver, n.receiver).expect("what was granted stands");
        after.delegations[at].kind = PASS_ONLY;
        left.block = encode(&after);
    })
}

/// The reach of a pair over ordinary delegations, where the call is accepted.
fn ordinary_reach(lent: &Contents, n: &Passed) -> i16 {
    let table = Table::read(&lent.table).expect("the table of an accepted call passes");
    let mut register = register(lent);
    register.delegations.retain(|d| d.kind == ORDINARY);
    reach_table(&table, &register, n.giver, n.receiver)
}

/// Of the other kind, else as what stands, and within the reach.
fn is_other(s: &Standing) -> bool {
    !s.same_kind() && s.same_condition() && s.is_allowed()
}

fn with_kind(s: &Standing) -> Granted {
    let mut left = s.raised();
    left.register.delegations[s.place].kind = s.passed.kind as u8;
    left
}
