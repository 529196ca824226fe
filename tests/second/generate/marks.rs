//! Marks that change: document 02's C-15, and other calls among them.

use super::lists::rounds_after;
use super::markregisters::*;
use super::tables::lent;
use super::*;
use second::block::encode;
use second::table::OURS;
use std::collections::BTreeSet;

/// The calls that take a table, but for order.
pub const CALLS: [Call; 6] =
    [Call::Grant, Call::Reach, Call::Revoke, Call::Downgrade, Call::Chain, Call::SetMarks];

/// The kind, for what is generated of each kind alike.
pub const KIND: Kind = Kind { name: "marks", added: &[Call::SetMarks], calls: &CALLS };

/// Other lengths than a block's, beside those of the limits.
pub const LENGTHS: [usize; 7] = [2, 4, 140, 2180, 2186, 2190, 2196];

/// No condition of the small registers names this mark.
const UNNAMED: u16 = 0x4000;

/// All cases, each lent a text.
pub fn cases() -> Vec<Case> {
    let mut cases = lent(b"", examples().iter().flat_map(of_example));
    cases.extend(lent(b"", for_every_subject(&small())));
    cases.extend(lent(b"", for_every_mark()));
    cases.extend(lent(b"", drawnmarks::on_small()));
    cases.extend(lent(b"", drawnmarks::of_rounds()));
    cases.extend(lent(b"", on_large()));
    cases.extend(lent(b"", of_many_rounds()));
    cases.extend(lent(b"", other_callers()));
    cases.extend(lent(b"", wrapped()));
    cases.extend(lent(b"", LENGTHS.map(|length| limits::of_length(&example(), length, set_marks(0, 2, 0)))));
    cases.extend(lent(b"", limits::cases(&KIND)));
    cases.extend(lent(b"", broken::cases(&KIND)));
    cases.extend(lent(b"", refusals::cases(&KIND)));
    cases.extend(tables::some_refused(&encode(&example()), [set_marks(0, 2, 0), set_marks(0, 1, 0)]));
    cases.extend(under_tables());
    cases.extend(drawnmarks::under_tables());
    cases.extend(drawnmarks::lists_of_calls());
    cases
}

/// The calls after the enrolments.
fn of_example(example: &examples::Example) -> Vec<Case> {
    let enrolled = Register { delegations: Vec::new(), ..example.built() };
    let calls = example.calls().split_off(example.marks.len());
    let mut cases: Vec<Case> = calls.into_iter().map(next).collect();
    cases[0].block = Some(encode(&enrolled));
    cases
}

/// The registers in which the marks of every subject are set.
fn small() -> Vec<Register> {
    [vec![example(), round_by_round(), givers()], rows(), ways(), cycles(), known()].concat()
}

/// Every subject gets several marks; after the first that take something, its own again.
fn for_every_subject(registers: &[Register]) -> Vec<Case> {
    let mut cases = Vec::new();
    for register in registers {
        for subject in 1..register.marks.len() as u32 {
            let all = several(register, subject).into_iter().map(|marks| set_marks(0, subject, marks));
            let takes = |n: &Passed| rounds_after(&OURS, register, n) > 1;
            let (taking, others): (Vec<Passed>, Vec<Passed>) = all.partition(takes);
            cases.extend(taking.iter().take(1).flat_map(|n| and_back(register, *n)));
            cases.extend(taking.into_iter().skip(1).chain(others).map(|n| on(&encode(register), n)));
        }
    }
    cases
}

/// The subject's marks as they are, none, all, and with one gained or lost: each that a
/// condition names and one that none does.
fn several(register: &Register, subject: u32) -> BTreeSet<u32> {
    let present = register.marks_of(subject);
    let named = register.delegations.iter().fold(UNNAMED, |named, d| named | d.need | d.bar);
    let one = (0..16).map(|mark| 1 << mark).filter(|mark| named & mark != 0);
    let changed = one.map(|mark| present ^ mark);
    changed.chain([0, 65_535, present]).map(u32::from).collect()
}

/// The call, and one that sets the marks back.
pub fn and_back(register: &Register, n: Passed) -> [Case; 2] {
    let present = register.marks_of(n.receiver) as u32;
    [on(&encode(register), n), next(set_marks(0, n.receiver, present))]
}

/// Each of the 16 marks alone, and some together.
fn for_every_mark() -> Vec<Case> {
    let mut cases = Vec::new();
    for barred in [false, true] {
        let register = every_mark(barred);
        let (block, present) = (encode(&register), register.marks_of(17) as u32);
        let masks = (0..16).map(|mark| 1 << mark).chain([0x00FF, 0xFF00, 0x5555]);
        cases.extend(masks.map(|mask| on(&block, set_marks(0, 17, present ^ mask))));
    }
    cases
}

/// A full register, and paths through all subjects: the first ones, one between and the last.
fn on_large() -> Vec<Case> {
    let full = encode(&full_under_marks());
    let mut cases = Vec::new();
    for (subject, marks) in [(63, 30), (63, 62), (2, 65_535), (63, 31)] {
        cases.push(on(&full, set_marks(0, subject, marks)));
    }
    cases.push(next(grant(10, 20, 0, 0, 0)));
    for path in [path(|_| 255), path(|giver| 63 - giver)] {
        let block = encode(&path);
        cases.extend([1, 2, 40, 63].map(|subject| on(&block, set_marks(0, subject, 0))));
        cases.push(next(set_marks(0, 63, 1)));
    }
    cases
}

/// Subjects of the slow cuts' registers, the marks that take many rounds, and how many.
pub const SLOW: [(u32, u32, i32); 4] = [(2, 37_421, 307), (21, 0, 281), (21, 269, 447), (21, 0, 287)];

/// Marks in the place of cuts of hundreds of rounds.
fn of_many_rounds() -> Vec<Case> {
    let deep = encode(&rounds::built());
    let mut cases = vec![on(&deep, rounds::FIRST_MARKS)];
    let slow = slow::SLOW.iter().zip(SLOW);
    cases.extend(slow.map(|(slow, (subject, marks, _))| on(&slow.block(), set_marks(0, subject, marks))));
    cases
}

/// Callers other than the owner, for every subject; 4 and 63 are not enrolled.
fn other_callers() -> Vec<Case> {
    let block = encode(&example());
    let of = |by: u32| [0, 1, 2, 3, 4, 63].map(|subject| on(&block, set_marks(by, subject, 0)));
    [1, 2, 3, 4, 63].map(of).concat()
}

/// Numbers whose lowest 6, 8 or 16 bits would be accepted.
fn wrapped() -> Vec<Case> {
    let block = encode(&example());
    let high = [64, 256, 65_536, 2_147_483_648];
    let mut calls: Vec<Passed> = high.map(|by| set_marks(by, 2, 0)).to_vec();
    calls.extend(high.map(|high| set_marks(0, high + 2, 0)));
    calls.extend([65_536, 65_537, 131_072, 4_294_901_760].map(|marks| set_marks(0, 2, marks)));
    calls.into_iter().map(|n| on(&block, n)).collect()
}

/// Registers whose remainder depends on the table, under every table that passes.
fn under_tables() -> Vec<Case> {
    let registers = [by_table(), example(), falling_pair()];
    let marks = [&[(5, 0), (5, 1), (4, 0), (2, 0)][..], &[(2, 0), (2, 1), (3, 0)], &[(2, 0), (1, 0)]];
    let mut cases = Vec::new();
    for (_, table) in texts::passing() {
        for (register, marks) in registers.iter().zip(marks) {
            let calls = marks.iter().map(|&(subject, marks)| on(&encode(register), set_marks(0, subject, marks)));
            cases.extend(lent(&table.text(), calls));
        }
    }
    cases
}
