//! The calls, on any bytes and any numbers. Those that reckon reach may be lent
//! a table's text; without one, or with an empty one, they reckon by ours.

use crate::block::{brought, encode, Delegation, Register, BLOCK_LEN, OLD_BLOCK_LEN, ORDINARY};
use crate::cut::settle;
use crate::engine::{Engine, FAST};
use crate::order;
use crate::refusal::{admit, Call, Passed, NOT_WELL_FORMED, WRONG_LENGTH};
use crate::search::Search;
use crate::table::Table;

/// The refusal number, 0 when accepted, and three answers, 0 where unused.
#[derive(Clone, Copy, Debug, PartialEq, Eq)]
pub struct Outcome {
    pub refusal: u32,
    pub answers: [i32; 3],
}

/// The refusal number of a call that is lent a buffer and how many bytes of it were filled.
#[derive(Clone, Copy, Debug, PartialEq, Eq)]
pub struct Written {
    pub refusal: u32,
    pub filled: usize,
}

pub fn open(block: &mut [u8]) -> Outcome {
    if block.len() != BLOCK_LEN {
        return refused(WRONG_LENGTH);
    }
    block.copy_from_slice(&encode(&Register::fresh()));
    accepted([0, 0, 0])
}

pub fn enrol(block: &mut [u8], marks: u32) -> Outcome {
    run(&FAST, &Passed { need: marks, ..blank(Call::Enrol) }, block)
}

pub fn grant(block: &mut [u8], giver: u32, receiver: u32, weight: u32, need: u32, bar: u32) -> Outcome {
    run(&FAST, &Passed { giver, receiver, weight, need, bar, ..blank(Call::Grant) }, block)
}

pub fn revoke(block: &mut [u8], by: u32, giver: u32, receiver: u32) -> Outcome {
    run(&FAST, &Passed { by, giver, receiver, ..blank(Call::Revoke) }, block)
}

pub fn downgrade(block: &mut [u8], by: u32, giver: u32, receiver: u32, weight: u32) -> Outcome {
    run(&FAST, &Passed { by, giver, receiver, weight, ..blank(Call::Downgrade) }, block)
}

/// Marks replaces all marks of the subject.
pub fn set_marks(block: &mut [u8], by: u32, subject: u32, marks: u32) -> Outcome {
    run(&FAST, &Passed { by, receiver: subject, need: marks, ..blank(Call::SetMarks) }, block)
}

/// The subject has no delegations and no marks afterwards, and is named by no call.
pub fn retire(block: &mut [u8], by: u32, subject: u32) -> Outcome {
    run(&FAST, &Passed { by, receiver: subject, ..blank(Call::Retire) }, block)
}

/// Takes an old block of 2,180 bytes, well formed by the rules of before, into one of any
/// content.
pub fn bring_over(old: &[u8], block: &mut [u8]) -> Outcome {
    if old.len() != OLD_BLOCK_LEN || block.len() != BLOCK_LEN {
        return refused(WRONG_LENGTH);
    }
    let Some(new) = brought(old) else {
        return refused(NOT_WELL_FORMED);
    };
    block.copy_from_slice(&new);
    accepted([0, 0, 0])
}

pub fn reach(block: &[u8], giver: u32, receiver: u32) -> Outcome {
    answer(&FAST, &Passed { giver, receiver, ..blank(Call::Reach) }, b"", block)
}

/// Document 01's call "use".
pub fn use_right(block: &[u8], receiver: u32) -> Outcome {
    answer(&FAST, &Passed { receiver, ..blank(Call::Use) }, b"", block)
}

/// Writes a chain of the pair's largest limit, owner's end first.
pub fn chain(block: &[u8], giver: u32, receiver: u32, buffer: &mut [u8]) -> Written {
    chain_table(block, giver, receiver, b"", buffer)
}

/// The same, lent a table's text.
pub fn chain_table(block: &[u8], giver: u32, receiver: u32, text: &[u8], buffer: &mut [u8]) -> Written {
    let n = Passed { giver, receiver, ..blank(Call::Chain) };
    let (table, register) = match admit(&FAST, &n, text, block, buffer.len()) {
        Err(refusal) => return Written { refusal, filled: 0 },
        Ok(admitted) => admitted,
    };
    let links = Search::new(&table, &register).chain(giver, receiver).unwrap_or_default();
    for (place, link) in buffer.chunks_exact_mut(2).zip(&links) {
        place.copy_from_slice(&[link.giver, link.receiver]);
    }
    Written { refusal: 0, filled: 2 * links.len() }
}

/// Writes the order for a receiver, a byte for each subject and one for its limit.
pub fn order(block: &[u8], receiver: u32, buffer: &mut [u8]) -> Written {
    order_table(&FAST, block, receiver, b"", buffer)
}

/// The same, lent a table's text, with the reaches of the engine named.
pub fn order_table(engine: &Engine, block: &[u8], receiver: u32, text: &[u8], buffer: &mut [u8]) -> Written {
    let n = Passed { receiver, ..blank(Call::Order) };
    let (table, register) = match admit(engine, &n, text, block, buffer.len()) {
        Err(refusal) => return Written { refusal, filled: 0 },
        Ok(admitted) => admitted,
    };
    let order = order::order(&table, &register, receiver, engine.reach);
    for (place, &(subject, limit)) in buffer.chunks_exact_mut(2).zip(&order) {
        place.copy_from_slice(&[subject, limit]);
    }
    Written { refusal: 0, filled: 2 * order.len() }
}

/// A call whose numbers are all 0.
pub const fn blank(call: Call) -> Passed {
    Passed { call, by: 0, giver: 0, receiver: 0, weight: 0, need: 0, bar: 0, kind: 0 }
}

/// Any call but chain and order, with the engine named. These need a buffer and
/// have functions of their own; here they have none and are refused.
pub fn run(engine: &Engine, n: &Passed, block: &mut [u8]) -> Outcome {
    run_table(engine, n, b"", block)
}

/// The same, lent a table's text, which a call that reckons no reach ignores; lent the
/// old block, one that brings it over.
pub fn run_table(engine: &Engine, n: &Passed, text: &[u8], block: &mut [u8]) -> Outcome {
    match n.call {
        Call::Open => open(block),
        Call::BringOver => bring_over(text, block),
        Call::Reach | Call::Use | Call::Chain | Call::Order => answer(engine, n, text, block),
        _ => change(engine, n, text, block),
    }
}

fn change(engine: &Engine, n: &Passed, text: &[u8], block: &mut [u8]) -> Outcome {
    let (table, mut register) = match admit(engine, n, text, block, 0) {
        Err(refusal) => return refused(refusal),
        Ok(admitted) => admitted,
    };
    let answers = match n.call {
        Call::Enrol => add_subject(n, &mut register),
        Call::Grant | Call::GrantKind => set_delegation(n, &mut register),
        _ => change_and_settle(engine, &table, n, &mut register),
    };
    block.copy_from_slice(&encode(&register));
    accepted(answers)
}

fn answer(engine: &Engine, n: &Passed, text: &[u8], block: &[u8]) -> Outcome {
    let (table, register) = match admit(engine, n, text, block, 0) {
        Err(refusal) => return refused(refusal),
        Ok(admitted) => admitted,
    };
    match n.call {
        Call::Use => accepted([may_use(&register, n.receiver) as i32, 0, 0]),
        _ => accepted([(engine.reach)(&table, &register, n.giver, n.receiver) as i32, 0, 0]),
    }
}

/// Answers the new subject's number.
fn add_subject(n: &Passed, register: &mut Register) -> [i32; 3] {
    register.marks.push(n.need as u16);
    [register.marks.len() as i32 - 1, 0, 0]
}

/// Adds the delegation, or raises the one that stands. Answers the delegations
/// now standing.
fn set_delegation(n: &Passed, register: &mut Register) -> [i32; 3] {
    let new = Delegation {
        giver: n.giver as u8,
        receiver: n.receiver as u8,
        weight: n.weight as u8,
        kind: n.kind as u8,
        need: n.need as u16,
        bar: n.bar as u16,
    };
    match register.place(n.giver, n.receiver) {
        Ok(at) => register.delegations[at].weight = new.weight,
        Err(at) => register.delegations.insert(at, new),
    }
    [register.delegations.len() as i32, 0, 0]
}

/// The named change of a cut, the subject's new marks or its retirement, then the rounds.
fn change_and_settle(engine: &Engine, table: &Table, n: &Passed, register: &mut Register) -> [i32; 3] {
    match (n.call, register.place(n.giver, n.receiver)) {
        (Call::SetMarks, _) => register.marks[n.receiver as usize] = n.need as u16,
        (Call::Retire, _) => retire_subject(register, n.receiver),
        (Call::Revoke, Ok(at)) => drop(register.delegations.remove(at)),
        (Call::Downgrade, Ok(at)) => register.delegations[at].weight = n.weight as u8,
        _ => {}
    }
    let counts = settle(engine, table, register);
    [counts.dropped as i32, counts.lowered as i32, counts.rounds as i32]
}

/// The named change: all delegations to and from it, its marks and its bit.
pub fn retire_subject(register: &mut Register, subject: u32) {
    register.delegations.retain(|d| d.giver as u32 != subject && d.receiver as u32 != subject);
    register.marks[subject as usize] = 0;
    register.retired |= 1 << subject;
}

/// The owner, or where an ordinary delegation stands.
fn may_use(register: &Register, receiver: u32) -> bool {
    let gives_use = |d: &Delegation| d.receiver as u32 == receiver && d.kind == ORDINARY;
    receiver == 0 || register.delegations.iter().any(gives_use)
}

pub fn accepted(answers: [i32; 3]) -> Outcome {
    Outcome { refusal: 0, answers }
}

pub fn refused(refusal: u32) -> Outcome {
    Outcome { refusal, answers: [0, 0, 0] }
}
