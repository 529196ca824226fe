//! What the generated cases of the kind `file` hold, and which wrong programs they
//! notice.

use crate::faults::{TEXT_LEFT_OUT, VISITED_ONCE};
use crate::generated::is_small;
use crate::lentcases::{compared, keep_the_form, read_back};
use crate::pairs::Realised;
use crate::relaxed::RELAXED;
use generate::registerfiles::BUFFERS;
use generate::{limits, registerfiles};
use second::block::{decode, encode, well_formed, Register, BLOCK_LEN};
use second::callfile::lines;
use second::engine::{FAST, LITERAL};
use second::lentcase::{Asked, Bytes, LentCase};
use second::refusal::{takes_table, Call};
use second::regfile::{applying_to_read, applying_to_write, file_text, read, write, Rows};
use second::table::Table;
use std::collections::BTreeSet;
use std::sync::OnceLock;

pub fn cases() -> &'static [LentCase] {
    static CASES: OnceLock<Vec<LentCase>> = OnceLock::new();
    CASES.get_or_init(registerfiles::cases)
}

#[test]
fn files_are_small_and_read_back() {
    let bytes = read_back(cases());
    assert!(bytes < 1_000_000, "{bytes}");
}

/// A call that takes no table has an empty one.
#[test]
fn lines_keep_the_form() {
    keep_the_form(cases());
    let takes_none = |case: &&LentCase| case.passed().is_some_and(|n| !takes_table(n.call));
    assert!(cases().iter().filter(takes_none).all(|case| case.on.table.is_empty()));
}

fn reads() -> impl Iterator<Item = &'static Bytes> {
    cases().iter().filter(|case| case.asked == Asked::Read).map(|case| &case.on)
}

/// Every two refusals that can apply to a read at once, and each alone. 18 is judged
/// only of a register under a table that passes.
#[test]
fn refusals_apply_at_once() {
    let (mut reading, mut writing) = (Realised::default(), Realised::default());
    for case in cases() {
        let returned = case.made(&FAST).0.refusal;
        let on = &case.on;
        let (realised, numbers) = match case.asked {
            Asked::Read => (&mut reading, applying_to_read(&FAST, &on.block, &on.lent, &on.table)),
            Asked::Write(buffer) => (&mut writing, applying_to_write(&on.block, buffer as usize)),
            _ => continue,
        };
        assert_eq!(returned, numbers.first().copied().unwrap_or(0));
        realised.add(&numbers, returned);
    }
    assert_eq!(reading.pairs, BTreeSet::from([(1, 7), (1, 17), (1, 8), (1, 18), (7, 17), (7, 8), (17, 8)]));
    assert_eq!(reading.alone, BTreeSet::from([1, 7, 17, 8, 18]));
    assert_eq!(reading.returned, BTreeSet::from([0, 1, 7, 17, 8, 18]));
    assert_eq!((writing.pairs, writing.alone), (BTreeSet::from([(1, 8)]), BTreeSet::from([1, 8])));
    assert_eq!(writing.returned, BTreeSet::from([0, 1, 8]));
}

/// Every length of a block and of a write's buffer, both with blocks that are well
/// formed and with others.
#[test]
fn lengths_are_covered() {
    let (mut lengths, mut buffers) = (BTreeSet::new(), BTreeSet::new());
    for LentCase { asked, on } in cases() {
        lengths.insert((*asked == Asked::Read, on.block.len()));
        if let Asked::Write(buffer) = asked {
            buffers.insert((*buffer, well_formed(&on.block)));
        }
    }
    for by in [true, false] {
        assert!(limits::LENGTHS.iter().all(|&length| lengths.contains(&(by, length))));
        assert!(BUFFERS.iter().all(|&buffer| buffers.contains(&(buffer, by))));
    }
}

fn both_small(on: &Bytes) -> bool {
    is_small(&on.block) && Rows::read(&on.lent).is_none_or(|rows| rows.delegations.len() <= 16)
}

/// Small registers are run with the literal search, all with the relaxed one.
#[test]
fn expected_lines_follow_from_the_definition() {
    let (small, differing) = compared(cases(), &LITERAL, both_small);
    assert!(small > 1000 && differing == 0, "{small}");
    assert_eq!(compared(cases(), &RELAXED, |_| true).1, 0);
    assert!(compared(cases(), &VISITED_ONCE, both_small).1 > 2);
    assert!(compared(cases(), &TEXT_LEFT_OUT, |_| true).1 > 10);
}

/// Cases that are made on what the one before left, from open on.
fn sequences() -> Vec<Vec<LentCase>> {
    let mut sequences: Vec<Vec<LentCase>> = Vec::new();
    let mut left = Bytes::default();
    for case in cases() {
        let opens = matches!(case.asked, Asked::Call(n) if n.call == Call::Open);
        if opens {
            sequences.push(Vec::new());
        }
        if let Some(sequence) = sequences.last_mut().filter(|_| opens || case.on.block == left.block) {
            sequence.push(case.clone());
        }
        left = case.made(&FAST).1;
    }
    sequences
}

/// Reads stand among other calls, accepted and refused, and calls are accepted after
/// an accepted read.
#[test]
fn reads_stand_among_other_calls() {
    let sequences = sequences();
    let (mut accepted, mut refused, mut after) = (0, 0, 0);
    for sequence in &sequences {
        for two in sequence.windows(2) {
            let made = |case: &LentCase| case.made(&FAST).0.refusal == 0;
            let is_read = two[0].asked == Asked::Read;
            accepted += (is_read && made(&two[0])) as u32;
            refused += (is_read && !made(&two[0])) as u32;
            after += (is_read && made(&two[0]) && matches!(two[1].asked, Asked::Call(_)) && made(&two[1])) as u32;
        }
    }
    assert!(sequences.len() >= 6 && accepted > 10 && refused > 10 && after > 4, "{accepted} {refused} {after}");
}

/// Subjects retire between writes and reads: accepted retirements, writes of registers in which
/// some have retired, and accepted reads of such.
#[test]
fn subjects_retire_among_writes_and_reads() {
    let mut found = [0; 3];
    for case in cases() {
        let (outcome, left) = case.made(&FAST);
        let gone = decode(&left.block).is_some_and(|register| register.retired != 0);
        let at = match case.asked {
            Asked::Call(n) if n.call == Call::Retire => 0,
            Asked::Write(_) => 1,
            Asked::Read => 2,
            _ => continue,
        };
        found[at] += (outcome.refusal == 0 && gone) as u32;
    }
    assert!(found.iter().all(|&count| count > 10), "{found:?}");
}

/// The refusal of a program and the block that it leaves.
type Left = (u32, Vec<u8>);

/// The right program, on other bytes than it was handed.
fn right(block: &[u8], file: &[u8], table: &[u8]) -> Left {
    let mut block = block.to_vec();
    (read(&FAST, &mut block, file, table).refusal, block)
}

/// The right program, on a file whose numbers were changed.
fn on_rows(on: &Bytes, change: fn(&mut Rows)) -> Left {
    let Some(mut rows) = Rows::read(&on.lent) else { return right(&on.block, &on.lent, &on.table) };
    change(&mut rows);
    right(&on.block, &rows.text(), &on.table)
}

/// The right program, on a file each of whose lines was changed.
fn on_lines(on: &Bytes, change: fn(&[u8]) -> Vec<u8>) -> Left {
    let file: Vec<u8> = lines(&on.lent).flat_map(change).collect();
    right(&on.block, &file, &on.table)
}

/// The right program, but another number in the place of one that it returns.
fn instead(on: &Bytes, returned: u32, other: fn(&Bytes) -> u32) -> Left {
    let left = right(&on.block, &on.lent, &on.table);
    if left.0 == returned { (other(on), left.1) } else { left }
}

/// A line without bytes of this value.
fn without(line: &[u8], unwanted: u8) -> Vec<u8> {
    line.iter().copied().filter(|&byte| byte != unwanted).collect()
}

/// A line whose numbers have no leading zeros.
fn without_leading_zeros(line: &[u8]) -> Vec<u8> {
    let shorter = |word: &[u8]| {
        let zeros = word.iter().take_while(|&&byte| byte == b'0').count();
        let digit = word.get(zeros).is_some_and(u8::is_ascii_digit);
        word[if digit { zeros } else { zeros.saturating_sub(1) }..].to_vec()
    };
    line.split(|&byte| byte == b' ').map(shorter).collect::<Vec<_>>().join(&b' ')
}

/// A line with one space in the place of several.
fn with_single_spaces(line: &[u8]) -> Vec<u8> {
    let words: Vec<&[u8]> = line.split(|&byte| byte == b' ').filter(|word| !word.is_empty()).collect();
    words.join(&b' ')
}

/// The fronts of a file that have the form, the longest first; the file is short.
fn formed_fronts(file: &[u8]) -> impl Iterator<Item = &[u8]> {
    let ends = (0..file.len()).rev().filter(|&at| file[at] == b'\n' && file.len() < 1000);
    ends.map(|at| &file[..=at]).filter(|front| Rows::read(front).is_some())
}

/// 8 if what is before a malformed line is no register's.
fn unformed_before(on: &Bytes) -> u32 {
    let unformed = |front| Rows::read(front).is_some_and(|rows| rows.register().is_none());
    if formed_fronts(&on.lent).any(unformed) { 8 } else { 7 }
}

/// The last refusal that applies.
fn last_applying(on: &Bytes) -> u32 {
    applying_to_read(&FAST, &on.block, &on.lent, &on.table).last().copied().unwrap_or(0)
}

/// What a refused read leaves where it was the register that was refused.
fn left_half(on: &Bytes) -> Left {
    let left = right(&on.block, &on.lent, &on.table);
    let read = Rows::read(&on.lent).and_then(|rows| rows.register());
    match read.filter(|_| left.0 == 18) {
        Some(register) => (18, encode(&register)),
        None => left,
    }
}

/// Only bytes that are not zero are put into the block.
fn zeros_left_out(on: &Bytes) -> Left {
    let (number, left) = right(&on.block, &on.lent, &on.table);
    let bytes = left.iter().zip(&on.block).map(|(&after, &before)| if after == 0 { before } else { after });
    (number, bytes.collect())
}

/// The right program, on a file whose subjects' numbers were changed.
fn of_retired(on: &Bytes, change: fn(&mut [u32; 3])) -> Left {
    let Some(mut rows) = Rows::read(&on.lent) else { return right(&on.block, &on.lent, &on.table) };
    rows.subjects.iter_mut().for_each(change);
    right(&on.block, &rows.text(), &on.table)
}

/// A file with the column, which is 0 for all, before its empty line.
fn with_zeros(file: &[u8]) -> Vec<u8> {
    let subjects = lines(file).take_while(|&line| line != b"\n").count();
    let with = |(at, line): (usize, &[u8])| match (at, line.strip_suffix(b"\n")) {
        (0, Some(line)) => [line, b" retired\n"].concat(),
        (at, Some(line)) if at < subjects => [line, b" 0\n"].concat(),
        _ => line.to_vec(),
    };
    lines(file).enumerate().flat_map(with).collect()
}

type Wrong = (&'static str, fn(&Bytes) -> Left);

/// Programs that read otherwise.
const WRONG_READERS: [Wrong; 42] = [
    ("an empty file is a fresh register", |on| {
        let fresh = file_text(&Register::fresh());
        right(&on.block, if on.lent.is_empty() { &fresh } else { &on.lent }, &on.table)
    }),
    ("the last byte 10 may be missing", |on| match on.lent.last() {
        Some(b'\n') | None => right(&on.block, &on.lent, &on.table),
        _ => right(&on.block, &[&on.lent[..], b"\n"].concat(), &on.table),
    }),
    ("what follows is left out", |on| {
        right(&on.block, formed_fronts(&on.lent).next().unwrap_or(&on.lent), &on.table)
    }),
    ("leading zeros are left out", |on| on_lines(on, without_leading_zeros)),
    ("several spaces are one", |on| on_lines(on, with_single_spaces)),
    ("byte 13 is left out", |on| on_lines(on, |line| without(line, b'\r'))),
    ("byte 0 is left out", |on| on_lines(on, |line| without(line, 0))),
    ("a plus is left out", |on| on_lines(on, |line| without(line, b'+'))),
    ("a tab is a space", |on| on_lines(on, |line| line.iter().map(|&b| if b == b'\t' { b' ' } else { b }).collect())),
    ("delegations are sorted", |on| on_rows(on, |rows| rows.delegations.sort_by_key(|row| (row[0], row[1])))),
    ("a delegation may stand twice", |on| on_rows(on, |rows| rows.delegations.dedup())),
    ("subjects are numbered anew", |on| {
        on_rows(on, |rows| rows.subjects.iter_mut().zip(0..).for_each(|(row, number)| row[0] = number))
    }),
    ("subjects above 64 are left out", |on| on_rows(on, |rows| rows.subjects.truncate(64))),
    ("delegations above 256 are left out", |on| on_rows(on, |rows| rows.delegations.truncate(256))),
    ("no subjects are the owner alone", |on| {
        on_rows(on, |rows| if rows.subjects.is_empty() { rows.subjects.push([0, 0, 0]) })
    }),
    ("the owner's marks are left out", |on| {
        on_rows(on, |rows| rows.subjects.iter_mut().take(1).for_each(|row| row[1] = 0))
    }),
    ("marks keep 16 bits", |on| on_rows(on, |rows| rows.subjects.iter_mut().for_each(|row| row[1] &= 0xFFFF))),
    ("numbers of subjects keep 8 bits", |on| {
        on_rows(on, |rows| rows.delegations.iter_mut().for_each(|row| row[..2].iter_mut().for_each(|n| *n &= 0xFF)))
    }),
    ("weights keep 8 bits", |on| on_rows(on, |rows| rows.delegations.iter_mut().for_each(|row| row[2] &= 0xFF))),
    ("need and bar keep 16 bits", |on| {
        on_rows(on, |rows| rows.delegations.iter_mut().for_each(|row| row[3..5].iter_mut().for_each(|n| *n &= 0xFFFF)))
    }),
    ("a shared mark is taken from bar", |on| {
        on_rows(on, |rows| rows.delegations.iter_mut().for_each(|row| row[4] &= !row[3]))
    }),
    ("7 in the place of 8", |on| instead(on, 8, |_| 7)),
    ("8 before a later malformed line", |on| instead(on, 7, unformed_before)),
    ("17 before 7", |on| instead(on, 7, |on| if Table::read(&on.table) == Err(17) { 17 } else { 7 })),
    ("8 before 17", |on| instead(on, 17, last_applying)),
    ("8 for what the block held", |on| {
        let spoiled = on.block.len() == BLOCK_LEN && !well_formed(&on.block);
        if spoiled { (8, on.block.clone()) } else { right(&on.block, &on.lent, &on.table) }
    }),
    ("18 by our table", |on| {
        let judged = if Table::read(&on.table).is_ok() { &b""[..] } else { &on.table };
        right(&on.block, &on.lent, judged)
    }),
    ("a refused register is left in the block", left_half),
    ("zeros are not put into the block", zeros_left_out),
    ("the column may be missing", |on| match Rows::read(&on.lent) {
        None => right(&on.block, &with_zeros(&on.lent), &on.table),
        Some(_) => right(&on.block, &on.lent, &on.table),
    }),
    ("retired keeps one bit", |on| of_retired(on, |row| row[2] &= 1)),
    ("retired keeps 8 bits", |on| of_retired(on, |row| row[2] &= 0xFF)),
    ("retired keeps 16 bits", |on| of_retired(on, |row| row[2] &= 0xFFFF)),
    ("what is not 0 is 1", |on| of_retired(on, |row| row[2] = row[2].min(1))),
    ("nobody has retired", |on| of_retired(on, |row| row[2] = 0)),
    ("what is not 1 is 0", |on| of_retired(on, |row| row[2] = (row[2] == 1) as u32)),
    ("0 and 1 are exchanged", |on| of_retired(on, |row| row[2] ^= (row[0] != 0 && row[2] < 2) as u32)),
    ("the owner's column is left out", |on| of_retired(on, |row| row[2] *= (row[0] != 0) as u32)),
    ("the marks of the retired are cleared", |on| of_retired(on, |row| row[1] *= (row[2] != 1) as u32)),
    ("who has marks has not retired", |on| of_retired(on, |row| row[2] *= (row[1] == 0) as u32)),
    ("the records of the retired are left out", |on| {
        on_rows(on, |rows| {
            let gone: Vec<u32> = rows.subjects.iter().filter(|row| row[2] == 1).map(|row| row[0]).collect();
            rows.delegations.retain(|row| !gone.contains(&row[0]) && !gone.contains(&row[1]));
        })
    }),
    ("7 for another number than 0 and 1", |on| {
        let above = |rows: Rows| rows.subjects.iter().any(|row| row[2] > 1);
        instead(on, 8, if Rows::read(&on.lent).is_some_and(above) { |_| 7 } else { |_| 8 })
    }),
];

#[test]
fn wrong_readers_are_noticed() {
    for (shows, wrong) in WRONG_READERS {
        let differing = reads().filter(|on| wrong(on) != right(&on.block, &on.lent, &on.table)).count();
        assert!(differing > 0, "{shows}");
    }
}

/// Neither is 18 left out, nor is it for every register with a delegation.
#[test]
fn wrong_support_is_noticed() {
    let (mut refused, mut accepted) = (0, 0);
    for (number, block) in reads().map(|on| right(&on.block, &on.lent, &on.table)) {
        refused += (number == 18) as u32;
        let with_delegations = |register: Register| !register.delegations.is_empty();
        accepted += (number == 0 && decode(&block).is_some_and(with_delegations)) as u32;
    }
    assert!(refused > 50 && accepted > 50);
}

/// The refusal of a write and the file that it leaves, which is the right one's with
/// 18 for what is unsupported, with every buffer that has room, with one length only,
/// without subjects that have no marks, or with nobody retired.
#[test]
fn wrong_writers_are_noticed() {
    let mut noticed = [0; 5];
    for LentCase { asked, on } in cases() {
        let Asked::Write(buffer) = *asked else { continue };
        let mut space = vec![0; buffer as usize];
        let written = write(&on.block, &mut space);
        let text = decode(&on.block).map(|register| file_text(&register)).unwrap_or_default();
        let unsupported = written.refusal == 0 && right(&on.block, &space[..written.filled], b"").0 == 18;
        let has_room = written.refusal == 1 && !text.is_empty() && text.len() <= buffer as usize;
        let unmarked = written.refusal == 0 && text.windows(5).any(|five| five == b" 0 0\n");
        let gone = written.refusal == 0 && decode(&on.block).is_some_and(|register| register.retired != 0);
        noticed[0] += unsupported as u32;
        noticed[1] += has_room as u32;
        noticed[2] += (written.refusal == 0 && buffer != 8192) as u32;
        noticed[3] += unmarked as u32;
        noticed[4] += gone as u32;
    }
    assert!(noticed.iter().all(|&count| count > 1), "{noticed:?}");
}
