//! Numbers at and over every limit, in every column that a call uses, and
//! every wrong length.

use super::*;
use second::block::{encode, BLOCK_LEN, OLD_BLOCK_LEN};
use second::callfile::{from_values, used_columns, values_of};
use second::casefile::MOST_BYTES;

pub const NUMBERS: [u32; 8] = [0, 63, 64, 255, 256, 65_535, 65_536, 4_294_967_295];
/// The length before document 02's C-16 is among the wrong ones.
pub const LENGTHS: [usize; 6] = [0, 1, OLD_BLOCK_LEN, BLOCK_LEN - 1, BLOCK_LEN + 1, 4096];
pub const BUFFERS: [u32; 9] = [0, 1, 124, 125, 126, 127, 128, 512, 4096];

pub fn cases(kind: &Kind) -> Vec<Case> {
    let mut cases = Vec::new();
    for &call in kind.added {
        cases.extend(columns(&few(), base(call)));
        cases.extend(columns(&all(), on_all(call)));
        cases.extend(lengths(call));
    }
    if kind.added.contains(&Call::Chain) {
        cases.extend(BUFFERS.map(|buffer| on(&encode(&few()), chain(1, 2, buffer))));
        cases.extend(BUFFERS.map(|buffer| on(&encode(&few()), chain(0, 1, buffer))));
    }
    cases
}

/// Five subjects.
fn few() -> Register {
    register(&[0, 1, 2, 3, 65_535], &[(0, 1, 255, 0, 0), (1, 2, 200, 0, 4), (2, 3, 100, 0, 0)])
}

/// 64 subjects, so that 63 names one.
fn all() -> Register {
    let marks: Vec<u16> = (0..64).map(|subject| subject * 1000).collect();
    register(&marks, &[(0, 63, 255, 0, 0), (1, 63, 3, 0, 0), (63, 1, 255, 0, 0), (63, 62, 254, 0, 0)])
}

/// An accepted call on the register of five subjects.
fn base(call: Call) -> Passed {
    match call {
        Call::Open => open(),
        Call::Enrol => enrol(7),
        Call::Grant => grant(1, 3, 50, 1, 2),
        Call::GrantKind => grant_kind(grant(1, 3, 50, 1, 2), 1),
        Call::Revoke => revoke(1, 1, 2),
        Call::Downgrade => downgrade(1, 1, 2, 50),
        Call::Reach => reach(1, 2),
        Call::Use => use_right(2),
        Call::Chain => chain(1, 2, 126),
        Call::Order => order(2, 128),
        Call::SetMarks => set_marks(0, 2, 7),
        Call::Retire => retire(0, 2),
        Call::BringOver => blank(Call::BringOver),
    }
}

/// A call on the register of 64 subjects, accepted except for enrol.
fn on_all(call: Call) -> Passed {
    match call {
        Call::Open => open(),
        Call::Enrol => enrol(7),
        Call::Grant => grant(63, 61, 255, 1, 2),
        Call::GrantKind => grant_kind(grant(63, 61, 255, 1, 2), 1),
        Call::Revoke => revoke(63, 63, 62),
        Call::Downgrade => downgrade(63, 63, 62, 0),
        Call::Reach => reach(63, 62),
        Call::Use => use_right(63),
        Call::Chain => chain(63, 62, 126),
        Call::Order => order(63, 128),
        Call::SetMarks => set_marks(0, 63, 7),
        Call::Retire => retire(0, 63),
        Call::BringOver => blank(Call::BringOver),
    }
}

/// Each used column with each number.
fn columns(register: &Register, n: Passed) -> Vec<Case> {
    let block = encode(register);
    let mut cases = vec![on(&block, n)];
    for (column, used) in used_columns(n.call).into_iter().enumerate() {
        for number in NUMBERS {
            let mut values = values_of(&n);
            values[column + 1] = number;
            let has_buffer = matches!(n.call, Call::Chain | Call::Order);
            let buffer_too_long = has_buffer && values[4] as usize > MOST_BYTES;
            if let (true, false, Some(n)) = (used, buffer_too_long, from_values(values)) {
                cases.push(on(&block, n));
            }
        }
    }
    cases
}

/// The accepted call on a block that is cut off or continued with zeros.
fn lengths(call: Call) -> Vec<Case> {
    LENGTHS.map(|length| of_length(&few(), length, base(call))).to_vec()
}

/// A call on a register's block that has another length.
pub fn of_length(register: &Register, length: usize, n: Passed) -> Case {
    let mut block = encode(register);
    block.resize(length, 0);
    on(&block, n)
}
