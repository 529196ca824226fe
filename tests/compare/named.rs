//! Calls that judge wrongly whether a named subject is retired, to see that the
//! comparison finds them.

use crate::contents::Contents;
use crate::draw::List;
use crate::fault::{Fault, Wrong, NONE};
use crate::report::Part;
use crate::settling::{right, Left, ACCEPTED, NOT_ENROLLED, NUMBER};
use second::block::{decode, encode, Register};
use second::refusal::{Call, Passed, RETIRED};

/// What differs where one side accepts a call that changes no register.
const ANSWERED: &[Part] = &[Part::Number, Part::Answers];

const ALL_ENROLLED: u32 = 10;

pub const NAMED: [Fault; 11] = [
    wrong("no 19", ACCEPTED, |lent, n| unlooked(lent, n, |_, _| true)),
    wrong("19 for the receiver alone", ANSWERED, |lent, n| unlooked(lent, n, |n, r| !r.is_retired(n.receiver))),
    wrong("19 for giver and receiver alone", NUMBER, |lent, n| unlooked(lent, n, |n, r| {
        !r.is_retired(n.receiver) && !r.is_retired(n.giver)
    })),
    wrong("19 for by and giver alone", ACCEPTED, |lent, n| unlooked(lent, n, |n, r| {
        !r.is_retired(n.by) && !r.is_retired(n.giver)
    })),
    wrong("19 after all others", NUMBER, |lent, n| {
        let (number, left) = unlooked(lent, n, |_, _| true);
        if number == 0 { right(lent, n) } else { (number, Contents { block: lent.block.clone(), ..left }) }
    }),
    wrong("19 before 9", NUMBER, |lent, n| match (right(lent, n), decode(&lent.block)) {
        ((NOT_ENROLLED, left), Some(register)) if names_retired(n, &register) => (RETIRED, left),
        (right, _) => right,
    }),
    wrong("9 for a retired subject", NUMBER, |lent, n| match right(lent, n) {
        (RETIRED, left) => (NOT_ENROLLED, left),
        right => right,
    }),
    wrong("use of a retired subject answered with 0", ANSWERED, |lent, n| match right(lent, n) {
        (RETIRED, mut left) if n.call == Call::Use => {
            left.set_answers([0, 0, 0]);
            (0, left)
        }
        right => right,
    }),
    wrong("19 where somebody else is retired", ACCEPTED, |lent, n| match (right(lent, n), decode(&lent.block)) {
        ((0, _), Some(register)) if register.retired != 0 => (RETIRED, lent.clone()),
        (right, _) => right,
    }),
    wrong("a retired subject's number given again", ACCEPTED, |lent, n| match (right(lent, n), decode(&lent.block)) {
        ((0 | ALL_ENROLLED, _), Some(register)) if n.call == Call::Enrol && register.retired != 0 => {
            again(lent, n, register)
        }
        (right, _) => right,
    }),
    wrong("retired subjects not among the 64", ACCEPTED, |lent, n| match (right(lent, n), decode(&lent.block)) {
        ((ALL_ENROLLED, _), Some(register)) if register.retired != 0 => again(lent, n, register),
        (right, _) => right,
    }),
];

const fn wrong(name: &'static str, parts: &'static [Part], every: Wrong) -> Fault {
    Fault { name, lists: List::on_retirements, parts, every: Some(every), ..NONE }
}

fn names_retired(n: &Passed, register: &Register) -> bool {
    [n.by, n.giver, n.receiver].iter().any(|&subject| register.is_retired(subject))
}

/// Where 19 is due and this is so, what the call does if nobody is retired.
fn unlooked(lent: &Contents, n: &Passed, is: fn(&Passed, &Register) -> bool) -> Left {
    let (number, left) = right(lent, n);
    let Some(register) = decode(&lent.block).filter(|register| number == RETIRED && is(n, register)) else {
        return (number, left);
    };
    let block = encode(&Register { retired: 0, ..register.clone() });
    let (number, mut left) = right(&Contents { block, ..lent.clone() }, n);
    let bits = decode(&left.block).map_or(0, |left| left.retired) | register.retired;
    left.block = decode(&left.block).map_or(left.block, |left| encode(&Register { retired: bits, ..left }));
    (number, left)
}

/// The lowest retired subject enrolled anew.
fn again(lent: &Contents, n: &Passed, mut register: Register) -> Left {
    let subject = register.retired.trailing_zeros();
    register.retired &= register.retired - 1;
    register.marks[subject as usize] = n.need as u16;
    let mut left = Contents { block: encode(&register), ..lent.clone() };
    left.set_answers([subject as i32, 0, 0]);
    (0, left)
}
