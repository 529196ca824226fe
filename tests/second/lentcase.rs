//! Case files of the kinds `file`, `slip` and `pass`: the calls of document 02's C-13, C-17 and
//! C-18, and others among them. A line is seven numbers, lent bytes, a step table's text and a
//! block: `call by giver receiver weight need bar LENT TABLE BLOCK`. LENT is a register's file
//! or a slip; a call that takes neither leaves it alone. Calls 0 to 7 and 10 to 13 are those of
//! the other kinds, and those that take a table are lent the text; 8 is write, with its buffer's
//! length as the weight, and 9 is read; 14 is revoke_slip, 15 is downgrade_slip and 16 is
//! take_back; 17 is a grant with a kind, which is under by. LENT, TABLE and BLOCK are `=`, the
//! bytes that the line before left, or `LENGTH:BYTES`; behind that of LENT may stand, any number
//! of times, `+AT:BYTES`, bytes that are put into it from a place on.
//! The expected line is `refusal first second third LEFT`, where LEFT is the block, for write
//! and order what they wrote: accepted, they leave it in the place of the lent bytes. It is `=`
//! if no byte changed. Write is called three times, each time on a fresh buffer: by the function
//! that counts its bytes, which gives the first answer, -1 if a byte past them changed; and twice
//! by the one that hands back its part, which gives the second of the whole buffer afterwards
//! and the third of the part. Accepted, these two are 1 if the bytes are those that were
//! counted, and the rest is kept; refused, 0 if nothing was written.
//! The line of 14 to 16 has a space and the slip behind it: `=` if no byte of it changed, else
//! `BEFORE/CUT/AFTER`. BEFORE is its first 2,188 bytes, `=` if they are the block before the
//! call, CUT the next five, and AFTER the others, `=` if they are the block after it.

use crate::block::BLOCK_LEN;
use crate::call::{Outcome, Written};
use crate::callfile::{from_values, joined, read_number, read_values, values_of};
use crate::casefile::{
    answer_table, block_text, bytes_text, expected_by, left_line, filled_outcome, ordered, read_bytes, read_sized,
    MOST_BYTES, UNWRITTEN,
};
use crate::engine::Engine;
use crate::refusal::{Call, Passed};
use crate::regfile;
use crate::slip::{cut_slip, take_back_table, AFTER_AT};

const WRITE: u32 = 8;
const READ: u32 = 9;
/// The number of a cut that writes its slip is so much above that of the cut.
const WITH_SLIP: u32 = 12;
const REVOKE_SLIP: u32 = Call::Revoke as u32 + WITH_SLIP;
const DOWNGRADE_SLIP: u32 = Call::Downgrade as u32 + WITH_SLIP;
const TAKE_BACK: u32 = 16;

/// A file, a slip, and the buffer of a write, has at most so many bytes.
pub const MOST_LENT: usize = 16_384;

#[derive(Clone, Copy, Debug, PartialEq, Eq)]
pub enum Asked {
    Call(Passed),
    /// The length of its buffer.
    Write(u32),
    Read,
    /// A revoke or a downgrade that writes its slip.
    Cut(Passed),
    /// Its caller.
    TakeBack(u32),
}

/// The bytes of a line's three columns.
#[derive(Clone, Debug, Default, PartialEq, Eq)]
pub struct Bytes {
    pub lent: Vec<u8>,
    pub table: Vec<u8>,
    pub block: Vec<u8>,
}

/// A call and the bytes that it is made on.
#[derive(Clone, Debug, PartialEq, Eq)]
pub struct LentCase {
    pub asked: Asked,
    pub on: Bytes,
}

impl LentCase {
    /// Makes the call; answers its outcome and the bytes that it leaves.
    pub fn made(&self, engine: &Engine) -> (Outcome, Bytes) {
        let mut left = self.on.clone();
        let outcome = match self.asked {
            Asked::Call(n) if n.call == Call::Order => fill_order(engine, &n, &mut left),
            Asked::Call(n) => answer_table(engine, &n, &left.table, &mut left.block),
            Asked::Write(buffer) => fill_file(buffer, &mut left),
            Asked::Read => regfile::read(engine, &mut left.block, &left.lent, &left.table),
            Asked::Cut(n) => cut_slip(engine, &n, &left.table, &mut left.block, &mut left.lent),
            Asked::TakeBack(by) => take_back_table(engine, &mut left.block, by, &left.table, &left.lent),
        };
        (outcome, left)
    }

    /// The call, unless it is one of files or of slips alone.
    pub fn passed(&self) -> Option<Passed> {
        match self.asked {
            Asked::Call(n) | Asked::Cut(n) => Some(n),
            _ => None,
        }
    }

    /// The line of a program that answers so and leaves these bytes.
    pub fn line(&self, outcome: &Outcome, left: &Bytes) -> String {
        let on = &self.on;
        let fills = matches!(self.asked, Asked::Write(_)) || self.passed().is_some_and(|n| n.call == Call::Order);
        let (before, after) = if fills { (&on.lent, &left.lent) } else { (&on.block, &left.block) };
        let line = left_line(outcome, before, after);
        match self.asked {
            Asked::Cut(_) | Asked::TakeBack(_) => format!("{} {}\n", line.trim_end(), self.left_slip(left)),
            _ => line,
        }
    }

    fn left_slip(&self, left: &Bytes) -> String {
        if left.lent == self.on.lent {
            return "=".to_string();
        }
        let (before, rest) = left.lent.split_at(BLOCK_LEN.min(left.lent.len()));
        let (cut, after) = rest.split_at((AFTER_AT - BLOCK_LEN).min(rest.len()));
        let part = |bytes: &[u8], block: &[u8]| column(bytes, Some(block));
        format!("{}/{}/{}", part(before, &self.on.block), block_text(cut), part(after, &left.block))
    }
}

fn fill_file(buffer: u32, left: &mut Bytes) -> Outcome {
    let mut buffer = vec![UNWRITTEN; (buffer as usize).min(MOST_LENT)];
    let written = regfile::write(&left.block, &mut buffer);
    filled(written, buffer, left)
}

fn fill_order(engine: &Engine, n: &Passed, left: &mut Bytes) -> Outcome {
    let (written, buffer) = ordered(engine, n, &left.table, &left.block);
    filled(written, buffer, left)
}

/// Leaves what was written as the lent bytes.
fn filled(written: Written, mut buffer: Vec<u8>, left: &mut Bytes) -> Outcome {
    let outcome = filled_outcome(&written, &buffer);
    if written.refusal == 0 {
        buffer.truncate(written.filled);
        left.lent = buffer;
    }
    outcome
}

/// A line of a case file, after one that left these bytes, if there is such a line.
pub fn case_line(case: &LentCase, before: Option<&Bytes>) -> String {
    let on = &case.on;
    let lent = lent_column(&on.lent, before.map(|before| &before.lent[..]));
    let table = column(&on.table, before.map(|before| &before.table[..]));
    let block = column(&on.block, before.map(|before| &before.block[..]));
    format!("{} {lent} {table} {block}\n", joined(&numbers(&case.asked)))
}

/// Bytes, or the sign for those that are there.
fn column(bytes: &[u8], there: Option<&[u8]>) -> String {
    if there == Some(bytes) { "=".to_string() } else { block_text(bytes) }
}

/// Bytes by what differs from zeros, or from those that are there if that is shorter.
fn lent_column(lent: &[u8], there: Option<&[u8]>) -> String {
    let whole = put_into(&vec![0; lent.len()], lent, format!("{}:", lent.len()));
    let Some(there) = there.filter(|there| there.len() == lent.len()) else { return whole };
    let changed = put_into(there, lent, "=".to_string());
    if changed.len() < whole.len() { changed } else { whole }
}

/// So many equal bytes end a run of those that are put in.
const APART: usize = 6;

/// What is to be put into the bytes that are there, to make others of the same length.
fn put_into(there: &[u8], bytes: &[u8], mut text: String) -> String {
    let differ = |at: &usize| there[*at] != bytes[*at];
    let mut from = 0;
    while let Some(first) = (from..bytes.len()).find(differ) {
        let mut last = first;
        while let Some(next) = (last + 1..bytes.len().min(last + 1 + APART)).find(differ) {
            last = next;
        }
        text.push_str(&format!("+{first}:{}", bytes_text(&bytes[first..=last])));
        from = last + 1;
    }
    text
}

fn numbers(asked: &Asked) -> [u32; 7] {
    match asked {
        Asked::Call(n) => values_of(n),
        Asked::Write(buffer) => [WRITE, 0, 0, 0, *buffer, 0, 0],
        Asked::Read => [READ, 0, 0, 0, 0, 0, 0],
        Asked::Cut(n) => {
            let mut values = values_of(n);
            values[0] += WITH_SLIP;
            values
        }
        Asked::TakeBack(by) => [TAKE_BACK, *by, 0, 0, 0, 0, 0],
    }
}

fn asked(values: [u32; 7]) -> Option<Asked> {
    let [call, by, giver, receiver, weight, need, bar] = values;
    let asked = match call {
        REVOKE_SLIP | DOWNGRADE_SLIP => {
            Asked::Cut(from_values([call - WITH_SLIP, by, giver, receiver, weight, need, bar])?)
        }
        TAKE_BACK => Asked::TakeBack(by),
        WRITE => Asked::Write(weight),
        READ => Asked::Read,
        _ => Asked::Call(from_values(values)?),
    };
    (numbers(&asked) == values).then_some(asked)
}

/// The case on a line without its byte 10, after a line that left these bytes.
pub fn read_case(line: &[u8], before: &Bytes) -> Option<LentCase> {
    let words: Vec<&[u8]> = line.split(|&byte| byte == b' ').collect();
    let [.., lent, table, block] = words[..] else { return None };
    let asked = asked(read_values(&words[..words.len() - 3].join(&b' '))?)?;
    let on = Bytes {
        lent: read_lent(lent, &before.lent)?,
        table: read_column(table, &before.table, MOST_BYTES)?,
        block: read_column(block, &before.block, MOST_BYTES)?,
    };
    Some(LentCase { asked, on })
}

fn read_column(text: &[u8], before: &[u8], most: usize) -> Option<Vec<u8>> {
    match text {
        b"=" => Some(before.to_vec()),
        text => read_sized(text, most),
    }
}

fn read_lent(text: &[u8], before: &[u8]) -> Option<Vec<u8>> {
    let mut parts = text.split(|&byte| byte == b'+');
    let mut lent = read_column(parts.next()?, before, MOST_LENT)?;
    for part in parts {
        let colon = part.iter().position(|&byte| byte == b':')?;
        let (at, bytes) = (read_number(&part[..colon])? as usize, read_bytes(&part[colon + 1..])?);
        lent.get_mut(at..at + bytes.len())?.copy_from_slice(&bytes);
    }
    Some(lent)
}

/// The expected line of a case, and the bytes that it leaves.
pub fn expected_line(engine: &Engine, case: &LentCase) -> (String, Bytes) {
    let (outcome, left) = case.made(engine);
    (case.line(&outcome, &left), left)
}

/// The expected text of a whole case file, or the number of a line that is no case.
pub fn expected_text(engine: &Engine, text: &[u8]) -> Result<String, usize> {
    let mut left = Bytes::default();
    expected_by(text, |line| {
        let (expected, after) = expected_line(engine, &read_case(line, &left)?);
        left = after;
        Some(expected)
    })
}
