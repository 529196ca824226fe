//! The calls as a host makes them: the refusal number is returned, and only
//! when it is 0 the three answers are in 12 lent bytes.

use crate::call::{bring_over, order_table, run_table, Outcome, Written};
use crate::engine::Engine;
use crate::refusal::{Passed, WRONG_LENGTH};
use crate::regfile;
use crate::slip::{cut_slip, take_back_table};

pub const ANSWERS_LEN: usize = 12;

/// Any call but chain, which has no entry point for hosts, and order and bring_over, which
/// have their own, without a table.
pub fn host_call(engine: &Engine, n: &Passed, block: &mut [u8], answers: &mut [u8]) -> u32 {
    host_call_table(engine, n, b"", block, answers)
}

/// The same, lent a table's text.
pub fn host_call_table(engine: &Engine, n: &Passed, text: &[u8], block: &mut [u8], answers: &mut [u8]) -> u32 {
    if answers.len() != ANSWERS_LEN {
        return WRONG_LENGTH;
    }
    told(run_table(engine, n, text, block), answers)
}

/// Writes the register's file; the first answer is how many bytes it has.
pub fn host_write(block: &[u8], text: &mut [u8], answers: &mut [u8]) -> u32 {
    if answers.len() != ANSWERS_LEN {
        return WRONG_LENGTH;
    }
    let Written { refusal, filled } = regfile::write(block, text);
    told(Outcome { refusal, answers: [filled as i32, 0, 0] }, answers)
}

/// Reads a register's file, lent a table's text; every answer is 0.
pub fn host_read(engine: &Engine, block: &mut [u8], text: &[u8], table: &[u8], answers: &mut [u8]) -> u32 {
    if answers.len() != ANSWERS_LEN {
        return WRONG_LENGTH;
    }
    told(regfile::read(engine, block, text, table), answers)
}

/// Writes the order for a receiver, lent a table's text; the first answer is how many
/// bytes it has.
pub fn host_order(
    engine: &Engine,
    block: &[u8],
    receiver: u32,
    table: &[u8],
    out: &mut [u8],
    answers: &mut [u8],
) -> u32 {
    if answers.len() != ANSWERS_LEN {
        return WRONG_LENGTH;
    }
    let Written { refusal, filled } = order_table(engine, block, receiver, table, out);
    told(Outcome { refusal, answers: [filled as i32, 0, 0] }, answers)
}

/// Takes an old block into a new one; every answer is 0.
pub fn host_bring_over(old: &[u8], block: &mut [u8], answers: &mut [u8]) -> u32 {
    if answers.len() != ANSWERS_LEN {
        return WRONG_LENGTH;
    }
    told(bring_over(old, block), answers)
}

/// A revoke or a downgrade that writes its slip, lent a table's text.
pub fn host_cut_slip(
    engine: &Engine,
    n: &Passed,
    text: &[u8],
    block: &mut [u8],
    slip: &mut [u8],
    answers: &mut [u8],
) -> u32 {
    if answers.len() != ANSWERS_LEN {
        return WRONG_LENGTH;
    }
    told(cut_slip(engine, n, text, block, slip), answers)
}

/// Takes a cut back, lent a table's text; every answer is 0.
pub fn host_take_back(
    engine: &Engine,
    block: &mut [u8],
    by: u32,
    text: &[u8],
    slip: &[u8],
    answers: &mut [u8],
) -> u32 {
    if answers.len() != ANSWERS_LEN {
        return WRONG_LENGTH;
    }
    told(take_back_table(engine, block, by, text, slip), answers)
}

/// The number returned; the answers are written only when it is 0.
fn told(outcome: Outcome, answers: &mut [u8]) -> u32 {
    if outcome.refusal == 0 {
        answers.copy_from_slice(&answer_bytes(outcome.answers));
    }
    outcome.refusal
}

/// Each answer signed, four bytes, low byte first.
fn answer_bytes(answers: [i32; 3]) -> Vec<u8> {
    answers.iter().flat_map(|answer| answer.to_le_bytes()).collect()
}
