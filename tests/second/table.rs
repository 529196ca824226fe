//! A step table: how much a right falls at each step. Document 02, C-11: a host
//! may lend its own as text, the line `weight next`, then a line for each weight
//! from 0 to 255 in order. An empty text means document 01's table.

use crate::callfile::{lines, read_number};
use crate::chain::NONE;
use crate::refusal::{BAD_TABLE, MALFORMED};

pub const NAMES: &[u8] = b"weight next\n";
pub const WEIGHTS: usize = 256;

/// The next of every weight, by weight.
#[derive(Clone, Copy, Debug, PartialEq, Eq)]
pub struct Table {
    pub next: [i16; WEIGHTS],
}

/// Document 01's table.
pub const OURS: Table = ours();

const fn ours() -> Table {
    let mut next = [NONE; WEIGHTS];
    let mut weight = 1;
    while weight < 255 {
        next[weight] = weight as i16 - 1;
        weight += 1;
    }
    next[255] = 255;
    Table { next }
}

impl Table {
    /// The table of a lent text, or 7 if the text has another form, or 17 if
    /// its entries break a rule.
    pub fn read(text: &[u8]) -> Result<Table, u32> {
        if text.is_empty() {
            return Ok(OURS);
        }
        let next = read_entries(text).ok_or(MALFORMED)?;
        Table::of(&next).ok_or(BAD_TABLE)
    }

    /// The table of these entries, if there are 256 and they keep the rules.
    pub fn of(next: &[i64]) -> Option<Table> {
        if next.len() != WEIGHTS || !keep_the_rules(next) {
            return None;
        }
        Some(Table { next: std::array::from_fn(|weight| next[weight] as i16) })
    }

    /// The limit after a delegation of this weight. The limit before is not -1.
    pub fn step(&self, limit: i16, weight: u8) -> i16 {
        self.next[limit.min(weight as i16) as usize]
    }

    pub fn text(&self) -> Vec<u8> {
        table_text(&self.next.map(i64::from))
    }
}

/// The line of names and a line for each entry, whether or not they make a table.
pub fn table_text(next: &[i64]) -> Vec<u8> {
    let mut text = NAMES.to_vec();
    for (weight, next) in next.iter().enumerate() {
        text.extend(format!("{weight} {next}\n").into_bytes());
    }
    text
}

/// At least -1, never smaller than the one before it, and below its weight,
/// except that 255 may keep 255.
fn keep_the_rules(next: &[i64]) -> bool {
    let falls = |(weight, &next): (usize, &i64)| next < weight as i64 || (weight, next) == (255, 255);
    next.iter().all(|&next| next >= NONE as i64)
        && next.windows(2).all(|two| two[0] <= two[1])
        && next.iter().enumerate().all(falls)
}

/// The nexts in a text of the form, or nothing if it has another.
fn read_entries(text: &[u8]) -> Option<Vec<i64>> {
    let entries: Vec<&[u8]> = lines(text.strip_prefix(NAMES)?).collect();
    if entries.len() != WEIGHTS {
        return None;
    }
    entries.iter().enumerate().map(|(weight, line)| read_entry(weight, line)).collect()
}

/// The next on a line, if the line is that of the weight which is due.
fn read_entry(due: usize, line: &[u8]) -> Option<i64> {
    let entry = line.strip_suffix(b"\n")?;
    let space = entry.iter().position(|&byte| byte == b' ')?;
    let weight = read_number(&entry[..space])?;
    let next = read_next(&entry[space + 1..])?;
    (weight as usize == due).then_some(next)
}

/// Only -1 has a sign.
fn read_next(text: &[u8]) -> Option<i64> {
    match text {
        b"-1" => Some(-1),
        digits => read_number(digits).map(i64::from),
    }
}
