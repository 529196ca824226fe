//! The register as a file: document 02, C-13, C-16 and C-18. The line `subject marks retired`,
//! a line for each enrolled subject in order, an empty line, the line `giver receiver weight
//! need bar pass`, a line for each delegation in the order of the block, and nothing
//! after them.

use crate::block::{decode, encode, Delegation, Register, BLOCK_LEN, MOST_DELEGATIONS, MOST_SUBJECTS};
use crate::call::{Outcome, Written};
use crate::callfile::{joined, lines, read_columns};
use crate::engine::Engine;
use crate::refusal::{BAD_TABLE, MALFORMED, NOT_WELL_FORMED, UNSUPPORTED, WRONG_LENGTH};
use crate::table::Table;

pub const SUBJECT_NAMES: &[u8] = b"subject marks retired\n";
pub const EMPTY_LINE: &[u8] = b"\n";
pub const DELEGATION_NAMES: &[u8] = b"giver receiver weight need bar pass\n";

/// The lent buffer of a write has at least so many bytes.
pub const LEAST_TEXT: usize = 8192;

/// The refusals of each call, in their order.
pub const WRITE_REFUSALS: [u32; 2] = [WRONG_LENGTH, NOT_WELL_FORMED];
pub const READ_REFUSALS: [u32; 5] = [WRONG_LENGTH, MALFORMED, BAD_TABLE, NOT_WELL_FORMED, UNSUPPORTED];

/// The numbers of a file: those of each subject's line and of each delegation's.
#[derive(Clone, Debug, PartialEq, Eq)]
pub struct Rows {
    pub subjects: Vec<[u32; 3]>,
    pub delegations: Vec<[u32; 6]>,
}

/// Writes the register's file into the buffer, supported or not.
pub fn write(block: &[u8], buffer: &mut [u8]) -> Written {
    if block.len() != BLOCK_LEN || buffer.len() < LEAST_TEXT {
        return Written { refusal: WRONG_LENGTH, filled: 0 };
    }
    let Some(register) = decode(block) else {
        return Written { refusal: NOT_WELL_FORMED, filled: 0 };
    };
    let text = file_text(&register);
    buffer[..text.len()].copy_from_slice(&text);
    Written { refusal: 0, filled: text.len() }
}

/// Reads a file into a block of any content. The delegations are judged by the
/// table of the text lent with it, by ours if that is empty.
pub fn read(engine: &Engine, block: &mut [u8], text: &[u8], table: &[u8]) -> Outcome {
    let refusal = match admit(engine, block, text, table) {
        Err(refusal) => refusal,
        Ok(register) => {
            block.copy_from_slice(&encode(&register));
            0
        }
    };
    Outcome { refusal, answers: [0, 0, 0] }
}

/// The register that a read leaves, or the refusal.
fn admit(engine: &Engine, block: &[u8], text: &[u8], table: &[u8]) -> Result<Register, u32> {
    if block.len() != BLOCK_LEN {
        return Err(WRONG_LENGTH);
    }
    let rows = Rows::read(text).ok_or(MALFORMED)?;
    let table = Table::read(table)?;
    let register = rows.register().ok_or(NOT_WELL_FORMED)?;
    if all_supported(engine, &table, &register) { Ok(register) } else { Err(UNSUPPORTED) }
}

/// Every refusal of a write that applies, each judged on its own; 8 on 2,188 bytes only.
pub fn applying_to_write(block: &[u8], buffer: usize) -> Vec<u32> {
    let sized = block.len() == BLOCK_LEN;
    let apply = [!sized || buffer < LEAST_TEXT, sized && decode(block).is_none()];
    applying(&WRITE_REFUSALS, &apply)
}

/// Every refusal of a read that applies, each judged on its own: 17 on a table of
/// the form, 8 on a file of the form, 18 on a register under a table that passes.
pub fn applying_to_read(engine: &Engine, block: &[u8], text: &[u8], table: &[u8]) -> Vec<u32> {
    let (rows, table) = (Rows::read(text), Table::read(table));
    let register = rows.as_ref().and_then(Rows::register);
    let judged = register.as_ref().zip(table.as_ref().ok());
    let apply = [
        block.len() != BLOCK_LEN,
        rows.is_none() || table == Err(MALFORMED),
        table == Err(BAD_TABLE),
        rows.is_some() && register.is_none(),
        judged.is_some_and(|(register, table)| !all_supported(engine, table, register)),
    ];
    applying(&READ_REFUSALS, &apply)
}

fn applying(numbers: &[u32], apply: &[bool]) -> Vec<u32> {
    numbers.iter().zip(apply).filter(|(_, &apply)| apply).map(|(&number, _)| number).collect()
}

/// No weight is above the reach of its pair.
fn all_supported(engine: &Engine, table: &Table, register: &Register) -> bool {
    let reaches = (engine.reaches)(table, register);
    register.delegations.iter().zip(reaches).all(|(d, reach)| d.weight as i16 <= reach)
}

/// The file of a register.
pub fn file_text(register: &Register) -> Vec<u8> {
    Rows::of(register).text()
}

impl Rows {
    pub fn of(register: &Register) -> Rows {
        let retired = |number: u32| register.is_retired(number) as u32;
        let subject = |(&marks, number): (&u16, u32)| [number, marks as u32, retired(number)];
        let delegation = |d: &Delegation| {
            [d.giver as u32, d.receiver as u32, d.weight as u32, d.need as u32, d.bar as u32, d.kind as u32]
        };
        Rows {
            subjects: register.marks.iter().zip(0..).map(subject).collect(),
            delegations: register.delegations.iter().map(delegation).collect(),
        }
    }

    /// The file of these numbers, whether or not they make a register.
    pub fn text(&self) -> Vec<u8> {
        let mut text = SUBJECT_NAMES.to_vec();
        self.subjects.iter().for_each(|row| text.extend(line(row)));
        text.extend(EMPTY_LINE);
        text.extend(DELEGATION_NAMES);
        self.delegations.iter().for_each(|row| text.extend(line(row)));
        text
    }

    /// The numbers of a text of the form, or nothing if it has another.
    pub fn read(text: &[u8]) -> Option<Rows> {
        let mut lines = lines(text);
        if lines.next() != Some(SUBJECT_NAMES) {
            return None;
        }
        let subjects = lines.by_ref().take_while(|&line| line != EMPTY_LINE).map(read_row).collect::<Option<_>>()?;
        if lines.next() != Some(DELEGATION_NAMES) {
            return None;
        }
        let delegations = lines.map(read_row).collect::<Option<_>>()?;
        Some(Rows { subjects, delegations })
    }

    /// The register of these numbers, judged by its block; nothing if they are no
    /// well-formed register's.
    pub fn register(&self) -> Option<Register> {
        let in_order = self.subjects.iter().zip(0..).all(|(&[number, ..], due)| number == due);
        let too_many = self.subjects.len() > MOST_SUBJECTS || self.delegations.len() > MOST_DELEGATIONS;
        let not_told = self.subjects.iter().any(|&[.., retired]| retired > 1);
        if !in_order || too_many || not_told {
            return None;
        }
        let marks = self.subjects.iter().map(|&[_, marks, _]| marks.try_into().ok()).collect::<Option<_>>()?;
        let retired = self.subjects.iter().fold(0, |bits, &[number, _, retired]| bits | (retired as u64) << number);
        let delegations = self.delegations.iter().map(delegation_of).collect::<Option<_>>()?;
        decode(&encode(&Register { marks, retired, delegations }))
    }
}

/// Nothing if a number is larger than its place in the block.
fn delegation_of(&[giver, receiver, weight, need, bar, pass]: &[u32; 6]) -> Option<Delegation> {
    Some(Delegation {
        giver: giver.try_into().ok()?,
        receiver: receiver.try_into().ok()?,
        weight: weight.try_into().ok()?,
        kind: pass.try_into().ok()?,
        need: need.try_into().ok()?,
        bar: bar.try_into().ok()?,
    })
}

fn line(numbers: &[u32]) -> Vec<u8> {
    format!("{}\n", joined(numbers)).into_bytes()
}

/// The numbers of a line, which byte 10 ends.
fn read_row<const COLUMNS: usize>(line: &[u8]) -> Option<[u32; COLUMNS]> {
    read_columns(line.strip_suffix(b"\n")?)
}
