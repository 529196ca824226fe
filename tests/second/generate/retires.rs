//! Subjects that retire: document 02's C-16, and other calls among them.

use super::retireregisters::*;
use super::tables::lent;
use super::*;
use second::block::encode;

/// Every call but open, which no register is handed to.
pub const CALLS: [Call; 11] = [
    Call::Enrol, Call::Grant, Call::Revoke, Call::Downgrade, Call::Reach, Call::Use, Call::Chain, Call::Order,
    Call::SetMarks, Call::Retire, Call::BringOver,
];

/// The kind, for what is generated of each kind alike.
pub const KIND: Kind = Kind { name: "retire", added: &[Call::Retire], calls: &CALLS };

/// Other lengths than a block's, beside those of the limits: a block of before is among them.
pub const LENGTHS: [usize; 7] = [2, 132, 140, 2172, 2180, 2186, 2196];

/// All cases, each lent a text, which is empty for a call that takes no table.
pub fn cases() -> Vec<Case> {
    let mut cases = lent(b"", examples().iter().flat_map(of_example));
    cases.extend(lent(b"", for_every_subject(&small())));
    cases.extend(lent(b"", for_every_two(&[each_way(), markregisters::ways()[0].clone()])));
    cases.extend(lent(b"", of_every_byte()));
    cases.extend(lent(b"", all_in_turn()));
    cases.extend(lent(b"", on_large()));
    cases.extend(lent(b"", of_many_rounds()));
    cases.extend(lent(b"", other_callers()));
    cases.extend(lent(b"", wrapped()));
    cases.extend(lent(b"", LENGTHS.map(|length| limits::of_length(&example(), length, retire(0, 1)))));
    cases.extend(lent(b"", limits::cases(&KIND)));
    cases.extend(lent(b"", broken::cases(&KIND)));
    cases.extend(lent(b"", refusals::cases(&KIND)));
    cases.extend(tables::some_refused(&encode(&example()), [retire(0, 1), retire(0, 2)]));
    cases.extend(under_tables());
    cases.extend(bits::cases());
    cases.extend(named::cases());
    cases.extend(drawnretires::cases());
    cases.extend(brought::cases());
    cases
}

/// The calls after the enrolments.
fn of_example(example: &examples::Example) -> Vec<Case> {
    let enrolled = Register { delegations: Vec::new(), ..example.built() };
    let calls = example.calls().split_off(example.marks.len());
    let mut cases: Vec<Case> = calls.into_iter().map(next).collect();
    cases[0].block = Some(encode(&enrolled));
    cases
}

/// Every subject retires; then the one before it does, and it is asked whether it may use the
/// right.
fn for_every_subject(registers: &[Register]) -> Vec<Case> {
    let mut cases = Vec::new();
    for register in registers {
        for subject in 1..register.marks.len() as u32 {
            cases.push(on(&encode(register), retire(0, subject)));
            cases.extend([use_right(subject), retire(0, subject - 1)].map(next));
        }
    }
    cases
}

/// Every two subjects, in both orders.
fn for_every_two(registers: &[Register]) -> Vec<Case> {
    let mut cases = Vec::new();
    for register in registers {
        let subjects = || 1..register.marks.len() as u32;
        for (first, second) in subjects().flat_map(|first| subjects().map(move |second| (first, second))) {
            cases.push(on(&encode(register), retire(0, first)));
            cases.push(next(retire(0, second)));
        }
    }
    cases
}

/// Each bit alone.
fn of_every_byte() -> Vec<Case> {
    let block = encode(&wide());
    (1..64).map(|subject| on(&block, retire(0, subject))).collect()
}

/// All but the owner, from both ends; 64 stay enrolled, and nobody can be named.
fn all_in_turn() -> Vec<Case> {
    let from_both = (1..64).map(|place| if place % 2 == 0 { place / 2 } else { 63 - place / 2 });
    let mut cases: Vec<Case> = from_both.map(|subject| next(retire(0, subject))).collect();
    cases[0].block = Some(encode(&wide()));
    cases.insert(20, next(enrol(1)));
    let after = [
        enrol(0), use_right(0), use_right(32), grant(0, 5, 255, 0, 0), reach(0, 63), retire(0, 32), order(1, 128),
        set_marks(0, 62, 0), chain(0, 63, 126), revoke(0, 0, 63), downgrade(0, 0, 63, 1), retire(0, 0),
    ];
    cases.extend(after.map(next));
    cases
}

/// Full registers, and paths through all subjects: the first ones, one between and the last.
fn on_large() -> Vec<Case> {
    let mut cases = Vec::new();
    for full in [full::all_enrolled(), markregisters::full_under_marks(), full::some_enrolled()] {
        let last = full.marks.len() as u32 - 1;
        cases.push(on(&encode(&full), retire(0, last)));
        cases.extend([grant(10, 12, 0, 0, 0), retire(0, 8), retire(0, last), reach(8, 1)].map(next));
    }
    for path in [deep::path(|_| 255), markregisters::path(|giver| 63 - giver)] {
        let block = encode(&path);
        cases.extend([1, 2, 40, 62, 63].map(|subject| on(&block, retire(0, subject))));
        cases.push(next(retire(0, 1)));
    }
    let full = encode(&full_without_two());
    cases.extend([enrol(0), grant(1, 3, 0, 0, 0), retire(0, 63), retire(0, 62), enrol(0)].map(|n| on(&full, n)));
    cases
}

/// Subjects of the slow cuts' registers, and how many rounds their retirement takes.
pub const SLOW: [(u32, i32); 4] = [(31, 305), (21, 280), (21, 445), (21, 285)];

/// Retirements in the place of cuts of hundreds of rounds.
fn of_many_rounds() -> Vec<Case> {
    let deep = encode(&rounds::built());
    let mut cases = vec![on(&deep, retire(0, 1)), on(&deep, retire(0, 23))];
    cases.extend(slow::SLOW.iter().zip(SLOW).map(|(slow, (subject, _))| on(&slow.block(), retire(0, subject))));
    cases
}

/// Callers other than the owner, for every subject; 2 has retired, 5 and 63 are not enrolled.
/// Then everyone's by those who gave to them, and their own.
fn other_callers() -> Vec<Case> {
    let block = encode(&without(example(), &[2]));
    let of = |by: u32| [0, 1, 2, 3, 4, 5, 63].map(|subject| on(&block, retire(by, subject)));
    let mut cases = [0, 1, 2, 3, 4, 5, 63].map(of).concat();
    let pairs = each_way().delegations.into_iter().map(|d| (d.giver as u32, d.receiver as u32));
    let own = (1..7).map(|subject| (subject, subject));
    cases.extend(pairs.chain(own).map(|(by, subject)| on(&encode(&each_way()), retire(by, subject))));
    cases
}

/// Numbers whose lowest 6, 8 or 16 bits would be accepted.
fn wrapped() -> Vec<Case> {
    let block = encode(&example());
    let high = [64, 256, 65_536, 2_147_483_648];
    let mut calls: Vec<Passed> = high.map(|by| retire(by, 2)).to_vec();
    calls.extend(high.map(|high| retire(0, high + 2)));
    calls.extend(high.map(|high| retire(0, high)));
    calls.into_iter().map(|n| on(&block, n)).collect()
}

/// Registers whose remainder depends on the table, under every table that passes.
fn under_tables() -> Vec<Case> {
    let registers = [tables::two_ways(252), example(), markregisters::falling_pair()];
    let subjects = [&[1, 2, 6][..], &[1, 3], &[3, 4]];
    let mut cases = Vec::new();
    for (_, table) in texts::passing() {
        for (register, subjects) in registers.iter().zip(subjects) {
            let calls = subjects.iter().map(|&subject| on(&encode(register), retire(0, subject)));
            cases.extend(lent(&table.text(), calls));
        }
    }
    cases
}
