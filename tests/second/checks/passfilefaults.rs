//! Wrong programs for the files, the slips and the blocks of pass-only delegations, which the
//! generated cases of the kind `pass` notice.

use crate::passcases::cases;
use crate::passfaults::{all_noticed, is_passing};
use crate::slips::Program;
use generate::filetexts::without_pass;
use generate::passregisters::with_kinds;
use second::block::{
    broken_rules, decode, encode, Delegation, Register, BLOCK_LEN, KIND, PASS_ONLY, RECORDS_AT, RECORD_LEN,
};
use second::call::{refused, Outcome};
use second::callfile::lines;
use second::engine::FAST;
use second::lentcase::{Asked, Bytes, LentCase};
use second::refusal::Call;
use second::regfile::{file_text, Rows, DELEGATION_NAMES};
use second::slip::{AFTER_AT, SLIP_LEN};

/// The right program, on a file whose delegations' numbers were changed.
fn reading(case: &LentCase, change: fn(&mut [u32; 6])) -> (Outcome, Bytes) {
    let rows = Rows::read(&case.on.lent).filter(|_| case.asked == Asked::Read);
    let Some(mut rows) = rows else { return case.made(&FAST) };
    rows.delegations.iter_mut().for_each(change);
    of_file(case, rows.text())
}

/// The right program, on another file.
fn of_file(case: &LentCase, file: Vec<u8>) -> (Outcome, Bytes) {
    let other = LentCase { on: Bytes { lent: file, ..case.on.clone() }, ..case.clone() };
    let (outcome, left) = other.made(&FAST);
    (outcome, Bytes { lent: case.on.lent.clone(), ..left })
}

/// The right program, but another number for an accepted or a refused read of such rows.
fn instead(case: &LentCase, number: u32, other: u32, of: fn(&[u32; 6]) -> bool) -> (Outcome, Bytes) {
    let right = case.made(&FAST);
    let is_so = |rows: Rows| rows.delegations.iter().any(of);
    if case.asked == Asked::Read && right.0.refusal == number && Rows::read(&case.on.lent).is_some_and(is_so) {
        return (refused(other), case.on.clone());
    }
    right
}

/// A file with a column of zeros, where it has none.
fn with_column(file: &[u8]) -> Vec<u8> {
    let subjects = lines(file).take_while(|&line| line != b"\n").count();
    let with = |(at, line): (usize, &[u8])| match line.strip_suffix(b"\n") {
        Some(_) if at == subjects + 1 => DELEGATION_NAMES.to_vec(),
        Some(numbers) if at > subjects + 1 => [numbers, b" 0\n"].concat(),
        _ => line.to_vec(),
    };
    lines(file).enumerate().flat_map(with).collect()
}

const WRONG_READERS: [(&str, Program); 15] = [
    ("pass keeps one bit", |case| reading(case, |row| row[5] &= 1)),
    ("pass keeps 8 bits", |case| reading(case, |row| row[5] &= 0xFF)),
    ("pass keeps 16 bits", |case| reading(case, |row| row[5] &= 0xFFFF)),
    ("what is not 0 is 1", |case| reading(case, |row| row[5] = row[5].min(1))),
    ("what is not 1 is 0", |case| reading(case, |row| row[5] = (row[5] == 1) as u32)),
    ("all are ordinary", |case| reading(case, |row| row[5] = 0)),
    ("all are pass-only", |case| reading(case, |row| row[5] = 1)),
    ("0 and 1 are exchanged", |case| reading(case, |row| row[5] ^= (row[5] < 2) as u32)),
    ("of weight 0 it is ordinary", |case| reading(case, |row| row[5] *= (row[2] > 0) as u32)),
    ("7 for another number than 0 and 1", |case| instead(case, 8, 7, |row| row[5] > 1)),
    ("8 for a pass-only one at 0", |case| instead(case, 0, 8, |row| row[5] == 1 && row[2] == 0)),
    ("18 for a pass-only one at 0", |case| instead(case, 0, 18, |row| row[5] == 1 && row[2] == 0)),
    ("21 for a pass-only one at 0", |case| instead(case, 0, 21, |row| row[5] == 1 && row[2] == 0)),
    ("21 for another number than 0 and 1", |case| instead(case, 8, 21, |row| row[5] > 1)),
    ("the column may be missing", |case| {
        let missing = case.asked == Asked::Read && Rows::read(&case.on.lent).is_none();
        if missing { of_file(case, with_column(&case.on.lent)) } else { case.made(&FAST) }
    }),
];

#[test]
fn wrong_readers_are_noticed() {
    all_noticed(&WRONG_READERS, 1);
}

/// The right program, but for the file that is written.
fn writing(case: &LentCase, text: fn(&Register) -> Vec<u8>) -> (Outcome, Bytes) {
    let (mut outcome, mut left) = case.made(&FAST);
    if let (Asked::Write(_), 0) = (case.asked, outcome.refusal) {
        left.lent = text(&decode(&case.on.block).expect("a well-formed block"));
        outcome.answers[0] = left.lent.len() as i32;
    }
    (outcome, left)
}

/// The file of a register whose delegations' numbers were changed.
fn with_rows(register: &Register, change: fn(&mut [u32; 6])) -> Vec<u8> {
    let mut rows = Rows::of(register);
    rows.delegations.iter_mut().for_each(change);
    rows.text()
}

const WRONG_WRITERS: [(&str, Program); 6] = [
    ("all are written as ordinary", |case| writing(case, |register| with_rows(register, |row| row[5] = 0))),
    ("all are written as pass-only", |case| writing(case, |register| with_rows(register, |row| row[5] = 1))),
    ("0 and 1 are exchanged", |case| writing(case, |register| with_rows(register, |row| row[5] ^= 1))),
    ("of weight 0 it is ordinary", |case| {
        writing(case, |register| with_rows(register, |row| row[5] *= (row[2] > 0) as u32))
    }),
    ("the column is left out", |case| writing(case, |register| without_pass(&file_text(register)))),
    ("pass and bar are exchanged", |case| writing(case, |register| with_rows(register, |row| row.swap(4, 5)))),
];

#[test]
fn wrong_writers_are_noticed() {
    all_noticed(&WRONG_WRITERS, 2);
}

/// A block in which every kind was changed.
fn with_bytes(block: &[u8], change: impl Fn(u8) -> u8) -> Vec<u8> {
    let mut block = block.to_vec();
    let records = block.get_mut(RECORDS_AT..BLOCK_LEN).unwrap_or_default();
    records.chunks_exact_mut(RECORD_LEN).for_each(|record| record[KIND] = change(record[KIND]));
    block
}

/// A slip whose blocks were changed so.
fn with_slip_bytes(slip: &[u8], before: impl Fn(u8) -> u8, after: impl Fn(u8) -> u8) -> Vec<u8> {
    if slip.len() != SLIP_LEN {
        return slip.to_vec();
    }
    let cut = &slip[BLOCK_LEN..AFTER_AT];
    [&with_bytes(&slip[..BLOCK_LEN], before), cut, &with_bytes(&slip[AFTER_AT..], after)].concat()
}

/// The right program, but for the slip that an accepted cut writes.
fn slipping(case: &LentCase, slip: fn(&[u8]) -> Vec<u8>) -> (Outcome, Bytes) {
    let (outcome, mut left) = case.made(&FAST);
    if let (Asked::Cut(_), 0) = (case.asked, outcome.refusal) {
        left.lent = slip(&left.lent);
    }
    (outcome, left)
}

/// The right program of taking back, handed other bytes, which restores what a function says.
fn judging(case: &LentCase, on: fn(&Bytes) -> Bytes, restored: fn(&Bytes) -> Vec<u8>) -> (Outcome, Bytes) {
    let Asked::TakeBack(_) = case.asked else { return case.made(&FAST) };
    let (outcome, _) = LentCase { on: on(&case.on), ..case.clone() }.made(&FAST);
    let block = if outcome.refusal == 0 { restored(&case.on) } else { case.on.block.clone() };
    (outcome, Bytes { block, ..case.on.clone() })
}

fn before_of(on: &Bytes) -> Vec<u8> {
    on.lent[..BLOCK_LEN].to_vec()
}

/// The right program, but 20 for such a before and register.
fn twenty_if(case: &LentCase, is: fn(&Register, &Register) -> bool) -> (Outcome, Bytes) {
    let right = case.made(&FAST);
    let accepted = matches!(case.asked, Asked::TakeBack(_)) && right.0.refusal == 0;
    let registers = decode(&right.1.block).zip(decode(&case.on.block)).filter(|_| accepted);
    if registers.is_some_and(|(before, after)| is(&before, &after)) { (refused(20), case.on.clone()) } else { right }
}

const WRONG_SLIPS: [(&str, Program); 12] = [
    ("the before is written without kinds", |case| slipping(case, |slip| with_slip_bytes(slip, |_| 0, |kind| kind))),
    ("the after is written without kinds", |case| slipping(case, |slip| with_slip_bytes(slip, |kind| kind, |_| 0))),
    ("kinds are not compared", |case| {
        let without = |on: &Bytes| Bytes {
            lent: with_slip_bytes(&on.lent, |_| 0, |_| 0),
            block: with_bytes(&on.block, |_| 0),
            ..on.clone()
        };
        judging(case, without, before_of)
    }),
    ("kinds of the after are not compared", |case| {
        let of_block = |on: &Bytes| {
            let sized = on.lent.len() == SLIP_LEN && on.block.len() == BLOCK_LEN;
            let same = sized && with_bytes(&on.lent[AFTER_AT..], |_| 0) == with_bytes(&on.block, |_| 0);
            let lent = if same { [&on.lent[..AFTER_AT], &on.block].concat() } else { on.lent.clone() };
            Bytes { lent, ..on.clone() }
        };
        judging(case, of_block, before_of)
    }),
    ("kinds above 1 in the before are 1", |case| {
        let lower = |on: &Bytes| {
            let lent = with_slip_bytes(&on.lent, |kind| kind.min(1), |kind| kind);
            Bytes { lent, ..on.clone() }
        };
        judging(case, lower, before_of)
    }),
    ("restored without kinds", |case| judging(case, Bytes::clone, |on| with_bytes(&before_of(on), |_| 0))),
    ("what was cut is restored as ordinary", |case| judging(case, Bytes::clone, |on| restored(on, |_| 0))),
    ("what was cut is restored as pass-only", |case| judging(case, Bytes::clone, |on| restored(on, |_| PASS_ONLY))),
    ("20 where pass-only ones stand", |case| twenty_if(case, |before, _| before.delegations.iter().any(is_passing))),
    ("20 where pass-only ones were dropped", |case| twenty_if(case, |before, after| {
        before.delegations.iter().any(|d| is_passing(d) && gone(d, after))
    })),
    ("20 where a pass-only one came to 0", |case| {
        twenty_if(case, |_, after| after.delegations.iter().any(|d| is_passing(d) && d.weight == 0))
    }),
    ("20 where the before has a pass-only one at 0", |case| {
        twenty_if(case, |before, _| before.delegations.iter().any(|d| is_passing(d) && d.weight == 0))
    }),
];

fn gone(d: &Delegation, after: &Register) -> bool {
    after.standing(d.giver as u32, d.receiver as u32).is_none()
}

/// The slip's before, where those that the register lacks have another kind.
fn restored(on: &Bytes, kind: fn(u8) -> u8) -> Vec<u8> {
    let [before, after] = [&before_of(on), &on.block].map(|block| decode(block).expect("a well-formed block"));
    let of = |d: &Delegation| if gone(d, &after) { kind(d.kind) } else { d.kind };
    encode(&with_kinds(&before, |at| of(&before.delegations[at])))
}

#[test]
fn wrong_slips_are_noticed() {
    all_noticed(&WRONG_SLIPS, 1);
}

/// The right program, on a block whose kinds were changed; one that the call leaves stays as it was.
fn on_bytes(case: &LentCase, change: impl Fn(u8) -> u8) -> (Outcome, Bytes) {
    let block = with_bytes(&case.on.block, change);
    let on = Bytes { block: block.clone(), ..case.on.clone() };
    let (outcome, left) = LentCase { on, ..case.clone() }.made(&FAST);
    let kept = if left.block == block { case.on.block.clone() } else { left.block };
    (outcome, Bytes { block: kept, ..left })
}

/// The same of an old block that is brought over.
fn bringing(case: &LentCase, change: fn(u8) -> u8) -> (Outcome, Bytes) {
    if case.passed().is_none_or(|n| n.call != Call::BringOver) {
        return case.made(&FAST);
    }
    let eight = RECORDS_AT - 8;
    let mut old = case.on.table.clone();
    old[eight..].chunks_exact_mut(RECORD_LEN).for_each(|record| record[KIND] = change(record[KIND]));
    let (outcome, left) = LentCase { on: Bytes { table: old, ..case.on.clone() }, ..case.clone() }.made(&FAST);
    (outcome, Bytes { table: case.on.table.clone(), ..left })
}

const WRONG_BLOCKS: [(&str, Program); 11] = [
    ("1 is not well formed", |case| on_bytes(case, |kind| if kind == 1 { 2 } else { kind })),
    ("2 is well formed", |case| on_bytes(case, |kind| if kind == 2 { 1 } else { kind })),
    ("3 is well formed", |case| on_bytes(case, |kind| if kind == 3 { 1 } else { kind })),
    ("below 128 all is well formed", |case| on_bytes(case, |kind| if kind < 128 { kind.min(1) } else { kind })),
    ("255 is well formed", |case| on_bytes(case, |kind| if kind == 255 { 1 } else { kind })),
    ("the lowest bit is the kind", |case| on_bytes(case, |kind| kind & 1)),
    ("what is not 0 is 1", |case| on_bytes(case, |kind| kind.min(1))),
    ("the byte is not looked at", |case| on_bytes(case, |_| 0)),
    ("old ones with 1 are refused", |case| bringing(case, |kind| if kind == 1 { 2 } else { kind })),
    ("old ones become ordinary", |case| bringing(case, |kind| if kind == 1 { 0 } else { kind })),
    ("old ones with 2 are brought over", |case| bringing(case, |kind| kind.min(1))),
];

#[test]
fn wrong_blocks_are_noticed() {
    all_noticed(&WRONG_BLOCKS, 1);
}

/// Each other value alone.
#[test]
fn every_other_byte_is_noticed() {
    let kinds_alone = |case: &&LentCase| case.on.block.len() == BLOCK_LEN && broken_rules(&case.on.block) == [10];
    let unformed: Vec<&LentCase> = cases().iter().filter(kinds_alone).collect();
    for byte in 2..=255 {
        let taken = |case: &LentCase| on_bytes(case, |kind| if kind == byte { 0 } else { kind });
        assert!(unformed.iter().any(|case| taken(case).0 != case.made(&FAST).0), "{byte}");
    }
}
