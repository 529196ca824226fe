//! Random register files: as they are written, with one byte, one number or one
//! line changed, and of quite another form. And the buffers of writes.

use crate::draw::{any_register, with_retired};
use crate::tables::{odd_number, place, BYTES};
use second::block::{Register, MOST_DELEGATIONS, MOST_SUBJECTS};
use second::callfile::lines;
use second::cut::settle;
use second::engine::FAST;
use second::random::{Random, Shape};
use second::regfile::{Rows, DELEGATION_NAMES, LEAST_TEXT, SUBJECT_NAMES};
use second::table::{Table, OURS};

/// What a list's files are made of beside its own register.
pub struct Files<'a> {
    pub register: &'a Register,
    pub weights: &'a [u8],
    pub marks: u16,
    pub conditions: u32,
}

impl Files<'_> {
    /// What a read under this table is lent.
    pub fn next(&self, random: &mut Random, table: &Table) -> Vec<u8> {
        let mut rows = Rows::of(&self.register(random, table));
        match random.below(24) {
            0..=6 => rows.text(),
            7..=10 => {
                change_number(random, &mut rows);
                rows.text()
            }
            20 | 21 => {
                change_retired(random, &mut rows);
                rows.text()
            }
            22 | 23 => {
                change_pass(random, &mut rows);
                rows.text()
            }
            11..=13 => with_odd_byte(random, rows.text()),
            14 => {
                change_number(random, &mut rows);
                with_odd_byte(random, rows.text())
            }
            15..=17 => with_odd_line(random, &rows.text()),
            _ => other(random, rows),
        }
    }

    /// Many are supported by the table, some just not.
    fn register(&self, random: &mut Random, table: &Table) -> Register {
        match random.below(20) {
            0..=8 => self.register.clone(),
            9..=12 => settled(table, self.any(random)),
            13 => settled(&OURS, self.any(random)),
            14 | 15 => {
                let register = settled(table, self.any(random));
                raised(random, register)
            }
            16 => settled(table, self.full(random)),
            17 => self.full(random),
            _ => self.any(random),
        }
    }

    fn any(&self, random: &mut Random) -> Register {
        let subjects = random.pick(&[2, 3, 4, 5, 8, 13, 64]);
        self.of_size(random, subjects, subjects * 3)
    }

    /// With 256 delegations, until rounds drop some.
    fn full(&self, random: &mut Random) -> Register {
        let mut register = self.of_size(random, MOST_SUBJECTS as u32, 1000);
        register.delegations.iter_mut().filter(|d| d.giver == 0).for_each(|d| (d.weight, d.need, d.bar) = (255, 0, 0));
        register
    }

    fn of_size(&self, random: &mut Random, subjects: u32, delegations: u32) -> Register {
        let Files { weights, marks, conditions, .. } = *self;
        let register = any_register(random, &Shape { subjects, delegations, weights, marks, conditions });
        let mut register = with_retired(random, register);
        register.delegations.truncate(MOST_DELEGATIONS);
        register
    }
}

/// What rounds leave of a register: it is supported by the table.
fn settled(table: &Table, mut register: Register) -> Register {
    settle(&FAST, table, &mut register);
    register
}

/// With one weight larger by one.
fn raised(random: &mut Random, mut register: Register) -> Register {
    if let Some(d) = any_of(random, &mut register.delegations) {
        d.weight = d.weight.saturating_add(1);
    }
    register
}

/// Often the first or the last.
fn any_of<'a, T>(random: &mut Random, all: &'a mut [T]) -> Option<&'a mut T> {
    let last = all.len().checked_sub(1)?;
    let any = random.below(all.len() as u32) as usize;
    all.get_mut(random.pick(&[0, last, any, any]))
}

/// Numbers at the edges of what a place can hold, and far above.
const EDGES: [u32; 15] = [0, 1, 2, 62, 63, 64, 254, 255, 256, 32_768, 65_535, 65_536, 65_537, 0x8000_0000, 0xFFFF_FFFF];

/// Changes one number of a subject's or a delegation's line.
fn change_number(random: &mut Random, rows: &mut Rows) {
    let row = if random.chance(40) {
        any_of(random, &mut rows.subjects).map(|row| &mut row[..])
    } else {
        any_of(random, &mut rows.delegations).map(|row| &mut row[..])
    };
    let Some(row) = row else { return };
    let (any, last) = (random.below(row.len() as u32) as usize, row.len() - 1);
    let at = random.pick(&[any, any, any, last]);
    let (number, beside) = (row[at], row[if at + 1 < row.len() { at + 1 } else { at - 1 }]);
    row[at] = match random.below(10) {
        0 | 1 => number.wrapping_add(1),
        2 => number.wrapping_sub(1),
        3 => number.wrapping_add(256),
        4 => number.wrapping_add(65_536),
        5 => number ^ random.pick(&[1, 2, 4, 0x8000]),
        6 => beside,
        7 => number | beside,
        _ => random.pick(&EDGES),
    };
}

/// Shows one subject otherwise in the column `retired`, often without marks.
fn change_retired(random: &mut Random, rows: &mut Rows) {
    let Some(row) = any_of(random, &mut rows.subjects) else { return };
    row[2] = random.pick(&[1 - row[2], 1 - row[2], 1 - row[2], 2, 3, 256, 0x8000_0000, 0xFFFF_FFFF]);
    if random.chance(50) {
        row[1] = 0;
    }
}

/// Shows one delegation otherwise in the column `pass`.
fn change_pass(random: &mut Random, rows: &mut Rows) {
    let Some(row) = any_of(random, &mut rows.delegations) else { return };
    row[5] = random.pick(&[1 - row[5], 1 - row[5], 1 - row[5], 2, 3, 255, 256, 257, 0x8000_0000, 0xFFFF_FFFF]);
}

/// The text with one byte changed, left out or put in, or with its end cut off.
fn with_odd_byte(random: &mut Random, mut text: Vec<u8>) -> Vec<u8> {
    let at = place(random, text.len());
    match random.below(10) {
        0..=3 => text[at] = random.pick(BYTES),
        4 | 5 => drop(text.remove(at)),
        6 | 7 => text.insert(at, random.pick(BYTES)),
        8 => text.truncate(at),
        _ => drop(text.pop()),
    }
    text
}

/// The text with one of its lines changed.
fn with_odd_line(random: &mut Random, text: &[u8]) -> Vec<u8> {
    let mut lines: Vec<String> = lines(text).map(|line| String::from_utf8_lossy(line).into()).collect();
    let empty = lines.iter().position(|line| line == "\n").unwrap_or(0);
    let any = random.below(lines.len() as u32) as usize;
    let at = random.pick(&[any, any, any, empty, lines.len() - 1]);
    let line = lines[at].trim_end().to_string();
    match random.below(23) {
        0 => lines[at] = format!("{line}\r\n"),
        1 => lines[at] = format!("{line} \n"),
        2 => lines[at] = format!(" {line}\n"),
        3 => lines[at] = line.replacen(' ', "  ", 1) + "\n",
        4 => lines[at] = line.replacen(' ', "\t", 1) + "\n",
        5 => lines[at] = format!("{line}\n\n"),
        6 | 18 | 19 => lines[at] = format!("{line}\n{line}\n"),
        7 => lines[at] = line,
        8 => drop(lines.remove(at)),
        9 => lines[at] = format!("{line} 0\n"),
        10 | 11 => {
            let next = (at + 1) % lines.len();
            lines.swap(at, next);
        }
        12 | 13 => lines[at] = with_column(random, &line, |number| format!("0{number}")),
        14 | 15 => lines[at] = with_column(random, &line, too_large),
        20 | 21 => lines[at] = without_column(random, &line),
        _ => {
            let odd = odd_number(random);
            lines[at] = with_column(random, &line, |_| odd.to_string());
        }
    }
    lines.concat().into_bytes()
}

/// A line with one of its columns changed.
fn with_column(random: &mut Random, line: &str, change: impl Fn(&str) -> String) -> String {
    let mut columns: Vec<String> = line.split(' ').map(str::to_string).collect();
    let at = random.below(columns.len() as u32) as usize;
    columns[at] = change(&columns[at]);
    columns.join(" ") + "\n"
}

/// A line with one of its columns left out.
fn without_column(random: &mut Random, line: &str) -> String {
    let mut columns: Vec<&str> = line.split(' ').collect();
    let at = random.below(columns.len() as u32) as usize;
    columns.remove(at);
    columns.join(" ") + "\n"
}

/// The number with 4,294,967,296 added; what is no number stays.
fn too_large(number: &str) -> String {
    number.parse::<u64>().map_or(number.to_string(), |number| (number + (1 << 32)).to_string())
}

/// Files that differ by more: too many lines or none, a part twice or missing, bytes after the end.
fn other(random: &mut Random, mut rows: Rows) -> Vec<u8> {
    let mut text = rows.text();
    match random.below(22) {
        0 => return Vec::new(),
        1 => rows.subjects.clear(),
        2 => rows.subjects = (0..random.pick(&[64, 65, 66, 257, 320])).map(|subject| [subject, 0, 0]).collect(),
        3 => return too_many(random.pick(&[256, 257, 258])),
        4 => rows.delegations.reverse(),
        5 => rows.delegations.sort_by_key(|row| (row[1], row[0])),
        6 => rows.subjects.reverse(),
        7 => rows.delegations.clear(),
        8 => return SUBJECT_NAMES.to_vec(),
        9 => return DELEGATION_NAMES.to_vec(),
        10 => return [text.clone(), text].concat(),
        11 | 12 => {
            text.resize(LEAST_TEXT.max(text.len()), random.pick(b"\0\n 0"));
            return text;
        }
        13 => return [text, random.pick(&[&b"\n"[..], b"\0", b" ", b"0", b"\r\n", b"#\n"]).to_vec()].concat(),
        14 => return OURS.text(),
        15 | 16 => return without_retired(&text),
        17 => return without_pass(&without_retired(&text)),
        18..=20 => return without_pass(&text),
        _ => return (0..random.range(1, 300)).map(|_| random.next() as u8).collect(),
    }
    rows.text()
}

/// The file without the column `retired`.
fn without_retired(text: &[u8]) -> Vec<u8> {
    let mut lines: Vec<Vec<u8>> = text.split(|&byte| byte == b'\n').map(<[u8]>::to_vec).collect();
    lines.iter_mut().take_while(|line| !line.is_empty()).for_each(drop_column);
    lines.join(&b'\n')
}

/// The file as it was written before there was the column `pass`.
pub fn without_pass(text: &[u8]) -> Vec<u8> {
    let mut lines: Vec<Vec<u8>> = text.split(|&byte| byte == b'\n').map(<[u8]>::to_vec).collect();
    lines.iter_mut().skip_while(|line| !line.is_empty()).for_each(drop_column);
    lines.join(&b'\n')
}

/// Drops the last column of a line.
fn drop_column(line: &mut Vec<u8>) {
    line.truncate(line.iter().rposition(|&byte| byte == b' ').unwrap_or(0));
}

/// The file of 64 subjects and so many delegations of the owner's and of subject 1 to 5.
fn too_many(count: usize) -> Vec<u8> {
    let pairs = (0..64).flat_map(|giver| (1..64).map(move |receiver| (giver, receiver)));
    let given = pairs.filter(|(giver, receiver)| giver != receiver).take(count);
    let rows = Rows {
        subjects: (0..64).map(|subject| [subject, 0, 0]).collect(),
        delegations: given.map(|(giver, receiver)| [giver, receiver, 255, 0, 0, 0]).collect(),
    };
    rows.text()
}

const NEAR_LENGTHS: [usize; 10] = [0, 1, 65, 6893, 8190, 8191, 8191, 8193, 10_000, 16_384];

/// What a write is lent: nearly always of the least length.
pub fn buffer(random: &mut Random) -> Vec<u8> {
    let length = if random.chance(15) { random.pick(&NEAR_LENGTHS) } else { LEAST_TEXT };
    if random.chance(25) {
        return (0..length).map(|_| random.next() as u8).collect();
    }
    vec![random.pick(&[0, 0, 10, 48, 170, 255]); length]
}

