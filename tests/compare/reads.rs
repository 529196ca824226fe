//! Wrong reads of a register file, to see that the comparison finds them.

use crate::contents::{Asked, Contents};
use crate::draw::List;
use crate::entry::FileCall;
use crate::fault::{Fault, NONE};
use crate::report::Part;
use second::block::{
    decode, encode, word, Register, BLOCK_LEN, DELEGATIONS_AT, MARKS_AT, MOST_DELEGATIONS, MOST_SUBJECTS, PASS_ONLY,
    RECORDS_AT, RECORD_LEN, RETIRED_AT, SUBJECTS_AT,
};
use second::callfile::lines;
use second::refusal::{BAD_TABLE, MALFORMED, NOT_WELL_FORMED, UNSUPPORTED, WRONG_LENGTH};
use second::regfile::{file_text, Rows, DELEGATION_NAMES, EMPTY_LINE};
use second::search::reaches;
use second::table::Table;

type Left = (u32, Contents);

/// What differs where one side accepts and the other refuses.
const ACCEPTED: &[Part] = &[Part::Number, Part::Block, Part::Answers];
const NUMBER: &[Part] = &[Part::Number];
const BLOCK: &[Part] = &[Part::Block];

pub const READS: [Fault; 44] = [
    wrong("a leading zero accepted", ACCEPTED, |lent| read_as(lent, without_zeros(&lent.file))),
    wrong("numbers cut down to 32 bits", ACCEPTED, |lent| read_as(lent, with_numbers(&lent.file, |number| number % (1 << 32)))),
    wrong("8 for a number of more than 32 bits", NUMBER, |lent| {
        let (number, left) = read_as(lent, with_numbers(&lent.file, |number| number.min(u32::MAX as u64)));
        if number == NOT_WELL_FORMED { (number, left) } else { right(lent) }
    }),
    wrong("two spaces accepted", ACCEPTED, |lent| read_as(lent, without_twice(&lent.file, b' '))),
    wrong("a second empty line accepted", ACCEPTED, |lent| read_as(lent, without_twice_empty(&lent.file))),
    wrong("byte 13 before byte 10 accepted", ACCEPTED, |lent| read_as(lent, without(&lent.file, b'\r'))),
    wrong("the last byte 10 not asked for", ACCEPTED, |lent| read_as(lent, with_last(&lent.file))),
    wrong("what follows the last line ignored", ACCEPTED, |lent| read_as(lent, front(&lent.file))),
    wrong("an empty file read as a fresh register", ACCEPTED, |lent| read_as(lent, unless_empty(&lent.file))),
    wrong("marks cut down to 16 bits", ACCEPTED, |lent| rows_as(lent, |rows| {
        rows.subjects.iter_mut().for_each(|row| row[1] &= 0xFFFF);
    })),
    wrong("weights cut down to 8 bits", ACCEPTED, |lent| rows_as(lent, |rows| {
        rows.delegations.iter_mut().for_each(|row| row[2] &= 0xFF);
    })),
    wrong("the owner's marks not looked at", ACCEPTED, |lent| rows_as(lent, |rows| {
        rows.subjects.iter_mut().take(1).for_each(|row| row[1] = 0);
    })),
    wrong("subjects numbered by their lines", ACCEPTED, |lent| rows_as(lent, |rows| {
        rows.subjects.iter_mut().zip(0..).for_each(|(row, number)| row[0] = number);
    })),
    wrong("the column retired not looked at", ACCEPTED, |lent| rows_as(lent, |rows| {
        rows.subjects.iter_mut().for_each(|row| row[2] = 0);
    })),
    wrong("2 and more read as retired", ACCEPTED, |lent| rows_as(lent, |rows| {
        rows.subjects.iter_mut().for_each(|row| row[2] = row[2].min(1));
    })),
    wrong("the column retired cut down to one bit", ACCEPTED, |lent| rows_as(lent, |rows| {
        rows.subjects.iter_mut().for_each(|row| row[2] &= 1);
    })),
    wrong("a retired owner not looked at", ACCEPTED, |lent| rows_as(lent, |rows| {
        rows.subjects.iter_mut().take(1).for_each(|row| row[2] = 0);
    })),
    wrong("the marks of the retired cleared", ACCEPTED, |lent| rows_as(lent, |rows| {
        rows.subjects.iter_mut().filter(|row| row[2] == 1).for_each(|row| row[1] = 0);
    })),
    wrong("the delegations of the retired left out", ACCEPTED, |lent| rows_as(lent, |rows| {
        let retired: Vec<u32> = rows.subjects.iter().filter(|row| row[2] == 1).map(|row| row[0]).collect();
        rows.delegations.retain(|row| !retired.contains(&row[0]) && !retired.contains(&row[1]));
    })),
    wrong("a file without the column retired accepted", ACCEPTED, |lent| read_as(lent, with_retired_column(&lent.file))),
    wrong("the retired of the block before kept", &[Part::Block, Part::Listed], |lent| {
        let (number, mut left) = right(lent);
        if number == 0 {
            let bits = left.block[RETIRED_AT..RECORDS_AT].iter_mut();
            bits.zip(&lent.block[RETIRED_AT..]).for_each(|(bits, old)| *bits |= old);
        }
        (number, left)
    }),
    wrong("the column pass not looked at", ACCEPTED, |lent| rows_as(lent, |rows| each_pass(rows, |_| 0))),
    wrong("every pass above 0 taken for 1", ACCEPTED, |lent| rows_as(lent, |rows| each_pass(rows, |pass| pass.min(1)))),
    wrong("pass cut down to 8 bits", ACCEPTED, |lent| rows_as(lent, |rows| each_pass(rows, |pass| pass & 0xFF))),
    wrong("a file without the column pass accepted", ACCEPTED, |lent| read_as(lent, with_pass_column(&lent.file))),
    wrong("8 for a pass-only delegation of weight 0", ACCEPTED, |lent| refused_if(lent, 0, has_idle, NOT_WELL_FORMED)),
    wrong("7 for a pass above 1", NUMBER, |lent| refused_if(lent, NOT_WELL_FORMED, has_large_pass, MALFORMED)),
    wrong("lines put in order", ACCEPTED, |lent| rows_as(lent, |rows| rows.delegations.sort_unstable())),
    wrong("a repeated line left out", ACCEPTED, |lent| rows_as(lent, |rows| rows.delegations.dedup())),
    wrong("a mark shared by need and bar accepted", ACCEPTED, with_shared_marks),
    wrong("7 for a number that has no room", NUMBER, |lent| refused_if(lent, NOT_WELL_FORMED, has_large, MALFORMED)),
    wrong("7 for lines that have no room", NUMBER, |lent| refused_if(lent, NOT_WELL_FORMED, has_many, MALFORMED)),
    wrong("8 before a later malformed line", NUMBER, |lent| refused_if(lent, MALFORMED, breaks_early, NOT_WELL_FORMED)),
    wrong("8 before the table's 7", NUMBER, |lent| refused_if(lent, MALFORMED, is_unformed, NOT_WELL_FORMED)),
    wrong("8 before 17", NUMBER, |lent| refused_if(lent, BAD_TABLE, is_unformed, NOT_WELL_FORMED)),
    wrong("8 for bytes that are to be overwritten", ACCEPTED, |lent| {
        if decode(&lent.block).is_none() { refused_if(lent, 0, |_| true, NOT_WELL_FORMED) } else { right(lent) }
    }),
    wrong("18 judged by our table", ACCEPTED, by_our_table),
    wrong("no 18", ACCEPTED, |lent| {
        let (number, left) = right(lent);
        if number == UNSUPPORTED { accepted(lent, &register(lent)) } else { (number, left) }
    }),
    wrong("18 for a weight that is just carried", ACCEPTED, |lent| refused_if(lent, 0, has_heaviest, UNSUPPORTED)),
    wrong("the block written before 18 is judged", BLOCK, |lent| {
        let (number, mut left) = right(lent);
        if number == UNSUPPORTED {
            left.block = encode(&register(lent));
        }
        (number, left)
    }),
    wrong("the block cleared before the file is read", BLOCK, |lent| {
        let (number, mut left) = right(lent);
        if number != 0 && number != WRONG_LENGTH {
            left.block.fill(0);
        }
        (number, left)
    }),
    wrong("bytes that the register doesn't use left as they were", &[Part::Block, Part::Listed], with_old_bytes),
    wrong("the answers of a read left as they were", &[Part::Answers], |lent| {
        let (number, left) = right(lent);
        (number, Contents { answers: lent.answers.clone(), ..left })
    }),
    wrong("the file's last byte changed by a read", &[Part::File], |lent| {
        let (number, mut left) = right(lent);
        left.file.last_mut().into_iter().for_each(|byte| *byte ^= 1);
        (number, left)
    }),
];

const fn wrong(name: &'static str, parts: &'static [Part], read: fn(&Contents) -> Left) -> Fault {
    Fault { name, lists: List::on_files, parts, read: Some(read), ..NONE }
}

/// What the second implementation returns and leaves.
fn right(lent: &Contents) -> Left {
    lent.right(&Asked::File(FileCall::Read))
}

/// The same, as if this file had been lent.
fn read_as(lent: &Contents, file: Vec<u8>) -> Left {
    let (number, left) = right(&Contents { file, ..lent.clone() });
    (number, Contents { file: lent.file.clone(), ..left })
}

/// The same, as if a file of other rows had been lent; a file of another form stays as it is.
fn rows_as(lent: &Contents, change: impl Fn(&mut Rows)) -> Left {
    let Some(mut rows) = Rows::read(&lent.file) else { return right(lent) };
    change(&mut rows);
    read_as(lent, rows.text())
}

/// Accepted, with this register in the block.
fn accepted(lent: &Contents, register: &Register) -> Left {
    let (_, left) = read_as(lent, file_text(&Register::fresh()));
    (0, Contents { block: encode(register), ..left })
}

/// Another number where this one is due and this is so of the file; nothing is changed then.
fn refused_if(lent: &Contents, due: u32, is: fn(&Contents) -> bool, number: u32) -> Left {
    let (returned, left) = right(lent);
    if returned == due && is(lent) { (number, lent.clone()) } else { (returned, left) }
}

/// The register of a file that has one.
fn register(lent: &Contents) -> Register {
    Rows::read(&lent.file).and_then(|rows| rows.register()).expect("the file is a register's")
}

fn without_zeros(text: &[u8]) -> Vec<u8> {
    let mut kept: Vec<u8> = Vec::new();
    for (at, &byte) in text.iter().enumerate() {
        let begins = kept.last().map_or(true, |&last| last == b' ' || last == b'\n');
        let goes_on = text.get(at + 1).map_or(false, u8::is_ascii_digit);
        if !(byte == b'0' && begins && goes_on) {
            kept.push(byte);
        }
    }
    kept
}

/// The text with its numbers of more than 32 bits changed.
fn with_numbers(text: &[u8], change: fn(u64) -> u64) -> Vec<u8> {
    let changed = |part: &[u8]| match std::str::from_utf8(part).ok().and_then(|part| part.parse::<u64>().ok()) {
        Some(number) if number > u32::MAX as u64 => change(number).to_string().into_bytes(),
        _ => part.to_vec(),
    };
    let line = |line: &[u8]| line.split(|&byte| byte == b' ').map(changed).collect::<Vec<_>>().join(&b' ');
    text.split(|&byte| byte == b'\n').map(line).collect::<Vec<_>>().join(&b'\n')
}

fn without(text: &[u8], left_out: u8) -> Vec<u8> {
    text.iter().copied().filter(|&byte| byte != left_out).collect()
}

/// This byte once where it stands several times in a row.
fn without_twice(text: &[u8], twice: u8) -> Vec<u8> {
    let mut kept = text.to_vec();
    kept.dedup_by(|a, b| a == b && *a == twice);
    kept
}

/// One empty line where there are several in a row, and none at the end.
fn without_twice_empty(text: &[u8]) -> Vec<u8> {
    let mut kept: Vec<&[u8]> = lines(text).collect();
    kept.dedup_by(|a, b| a == b && *a == EMPTY_LINE);
    kept.concat()
}

fn with_last(text: &[u8]) -> Vec<u8> {
    let end: &[u8] = if text.ends_with(b"\n") { b"" } else { b"\n" };
    [text, end].concat()
}

/// A file as it was before there was the column `retired`, with the column and 0 for every subject.
fn with_retired_column(text: &[u8]) -> Vec<u8> {
    let mut lines: Vec<Vec<u8>> = text.split(|&byte| byte == b'\n').map(<[u8]>::to_vec).collect();
    if lines[0] != b"subject marks" {
        return text.to_vec();
    }
    lines.iter_mut().skip(1).take_while(|line| !line.is_empty()).for_each(|line| line.extend(b" 0"));
    lines[0].extend(b" retired");
    lines.join(&b'\n')
}

/// The same of the column `pass` and every delegation.
fn with_pass_column(text: &[u8]) -> Vec<u8> {
    let mut lines: Vec<Vec<u8>> = text.split(|&byte| byte == b'\n').map(<[u8]>::to_vec).collect();
    let Some(names) = lines.iter().position(|line| line == b"giver receiver weight need bar") else {
        return text.to_vec();
    };
    lines[names].extend(b" pass");
    lines.iter_mut().skip(names + 1).filter(|line| !line.is_empty()).for_each(|line| line.extend(b" 0"));
    lines.join(&b'\n')
}

fn each_pass(rows: &mut Rows, change: fn(u32) -> u32) {
    rows.delegations.iter_mut().for_each(|row| row[5] = change(row[5]));
}

/// A pass-only delegation of weight 0.
fn has_idle(lent: &Contents) -> bool {
    register(lent).delegations.iter().any(|d| d.kind == PASS_ONLY && d.weight == 0)
}

fn has_large_pass(lent: &Contents) -> bool {
    Rows::read(&lent.file).is_some_and(|rows| rows.delegations.iter().any(|row| row[5] > 1))
}

fn unless_empty(text: &[u8]) -> Vec<u8> {
    if text.is_empty() { file_text(&Register::fresh()) } else { text.to_vec() }
}

/// The most lines that are a file's, or all of them where none are.
fn front(text: &[u8]) -> Vec<u8> {
    let all: Vec<&[u8]> = lines(text).collect();
    let fronts = (0..=all.len()).rev().map(|count| all[..count].concat());
    fronts.into_iter().find(|front| Rows::read(front).is_some()).unwrap_or(text.to_vec())
}

/// A number above what its place in the block can hold.
fn has_large(lent: &Contents) -> bool {
    let Some(rows) = Rows::read(&lent.file) else { return false };
    let large = |row: &[u32; 6]| {
        [row[0], row[1], row[2], row[5]].iter().any(|&number| number > 255) || row[3..5].iter().any(|&mask| mask > 65_535)
    };
    rows.subjects.iter().any(|row| row[1] > 65_535) || rows.delegations.iter().any(large)
}

/// More lines than the block has room for.
fn has_many(lent: &Contents) -> bool {
    let many = |rows: Rows| rows.subjects.len() > MOST_SUBJECTS || rows.delegations.len() > MOST_DELEGATIONS;
    Rows::read(&lent.file).is_some_and(many)
}

/// The lines before the malformed one are no well-formed register's.
fn breaks_early(lent: &Contents) -> bool {
    let all: Vec<&[u8]> = lines(&lent.file).collect();
    let rest = [EMPTY_LINE, DELEGATION_NAMES].concat();
    let read = |count: usize| {
        let front = all[..count].concat();
        Rows::read(&front).or_else(|| Rows::read(&[&front[..], &rest].concat()))
    };
    let rows = (0..all.len()).rev().find_map(read);
    rows.is_some_and(|rows| !rows.subjects.is_empty() && rows.register().is_none())
}

/// The file has its form, and is no well-formed register's.
fn is_unformed(lent: &Contents) -> bool {
    Rows::read(&lent.file).is_some_and(|rows| rows.register().is_none())
}

/// Some weight is all that its pair's chains carry.
fn has_heaviest(lent: &Contents) -> bool {
    let (register, table) = (register(lent), Table::read(&lent.table).expect("the table passes"));
    register.delegations.iter().zip(reaches(&table, &register)).any(|(d, reach)| d.weight as i16 == reach)
}

fn by_our_table(lent: &Contents) -> Left {
    if Table::read(&lent.table).is_err() {
        return right(lent);
    }
    right(&Contents { table: Vec::new(), ..lent.clone() })
}

/// Accepts a file that is refused with 8 for shared marks alone.
fn with_shared_marks(lent: &Contents) -> Left {
    let (number, left) = right(lent);
    let Some(mut rows) = Rows::read(&lent.file).filter(|_| number == NOT_WELL_FORMED) else { return (number, left) };
    let bars: Vec<u32> = rows.delegations.iter().map(|row| row[4]).collect();
    rows.delegations.iter_mut().for_each(|row| row[4] &= !row[3]);
    let Some(mut register) = rows.register() else { return (number, left) };
    register.delegations.iter_mut().zip(bars).for_each(|(d, bar)| d.bar = bar as u16);
    accepted(lent, &register)
}

/// Accepts as is due, but only writes the bytes that the register uses.
fn with_old_bytes(lent: &Contents) -> Left {
    let (number, mut left) = right(lent);
    if number != 0 {
        return (number, left);
    }
    let marks_end = MARKS_AT + 2 * left.block[SUBJECTS_AT] as usize;
    let records_end = RECORDS_AT + RECORD_LEN * word(&left.block, DELEGATIONS_AT) as usize;
    for unused in [marks_end..RETIRED_AT, records_end..BLOCK_LEN] {
        left.block[unused.clone()].copy_from_slice(&lent.block[unused]);
    }
    (number, left)
}
