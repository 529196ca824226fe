//! Blocks that are not well formed, with calls that would otherwise be accepted.

use super::*;
use second::block::*;
use second::random::Random;

/// A block and the indices in `RULES` of the rules that it breaks.
pub struct Broken {
    pub rules: Vec<usize>,
    pub block: Vec<u8>,
}

/// The register whose block is changed.
pub fn valid() -> Register {
    let grants = [(0, 1, 255, 0, 0), (0, 2, 200, 1, 2), (1, 2, 100, 0, 0), (1, 3, 99, 0, 1), (2, 4, 50, 0, 4)];
    register(&[0, 1, 9, 8, 0x1001], &grants)
}

pub fn cases(kind: &Kind) -> Vec<Case> {
    let mut cases = Vec::new();
    for broken in all() {
        for &call in kind.added {
            cases.extend(calls(call).into_iter().map(|n| on(&broken.block, n)));
        }
    }
    cases.extend(random_bytes(kind));
    cases
}

/// Calls that are accepted on the valid register.
pub fn calls(call: Call) -> Vec<Passed> {
    match call {
        Call::Open => vec![open()],
        Call::Enrol => vec![enrol(3)],
        Call::Grant => vec![grant(1, 4, 98, 2, 1)],
        Call::Revoke => vec![revoke(0, 0, 1)],
        Call::Downgrade => vec![downgrade(1, 1, 2, 7)],
        Call::Reach => vec![reach(0, 1), reach(2, 3)],
        Call::Use => vec![use_right(0), use_right(2)],
        Call::Chain => vec![chain(0, 1, 126), chain(2, 4, 126)],
        Call::Order => vec![order(1, 128), order(4, 128)],
        Call::SetMarks => vec![set_marks(0, 2, 0)],
        Call::Retire => vec![retire(0, 2)],
        // It is handed no register.
        Call::BringOver => vec![],
        Call::GrantKind => vec![grant_kind(grant(1, 4, 98, 2, 1), 1)],
    }
}

/// Every rule broken on its own, and some broken together.
pub fn all() -> Vec<Broken> {
    let mut all = Vec::new();
    all.extend(header());
    all.extend(marks());
    all.extend(records_order());
    all.extend(subjects());
    all.extend(inner());
    all.extend(unused());
    all.extend(retired());
    all
}

fn changed(register: &Register, rules: &[usize], bytes: &[(usize, u8)]) -> Broken {
    let mut block = encode(register);
    for &(at, byte) in bytes {
        block[at] = byte;
    }
    Broken { rules: rules.to_vec(), block }
}

fn header() -> Vec<Broken> {
    let fresh = Register::fresh();
    let full = full::all_enrolled();
    let high = DELEGATIONS_AT + 1;
    vec![
        changed(&fresh, &[0], &[(SUBJECTS_AT, 0)]),
        changed(&fresh, &[0], &[(SUBJECTS_AT, 65)]),
        changed(&valid(), &[0], &[(SUBJECTS_AT, 65)]),
        changed(&valid(), &[0], &[(SUBJECTS_AT, 255)]),
        changed(&valid(), &[0, 4, 6, 7], &[(SUBJECTS_AT, 0)]),
        changed(&valid(), &[4, 7], &[(SUBJECTS_AT, 4)]),
        changed(&valid(), &[1], &[(ZERO_AT, 1)]),
        changed(&valid(), &[1], &[(ZERO_AT, 255)]),
        changed(&full, &[2], &[(DELEGATIONS_AT, 1)]),
        changed(&full, &[2], &[(DELEGATIONS_AT, 255), (high, 255)]),
        changed(&valid(), &[2, 5, 8, 9], &[(DELEGATIONS_AT, 1), (high, 1)]),
        changed(&valid(), &[5, 8, 9], &[(DELEGATIONS_AT, 6)]),
        changed(&valid(), &[12], &[(DELEGATIONS_AT, 4)]),
        changed(&valid(), &[12], &[(DELEGATIONS_AT, 0)]),
    ]
}

fn marks() -> Vec<Broken> {
    let of = |subject: usize| MARKS_AT + 2 * subject;
    vec![
        changed(&valid(), &[3], &[(of(0), 1)]),
        changed(&valid(), &[3], &[(of(0) + 1, 128)]),
        changed(&valid(), &[4], &[(of(5), 1)]),
        changed(&valid(), &[4], &[(of(5) + 1, 255)]),
        changed(&valid(), &[4], &[(of(63), 1)]),
        changed(&valid(), &[4], &[(of(63) + 1, 128)]),
    ]
}

/// The place of a byte of a record.
fn at(record: usize, byte: usize) -> usize {
    RECORDS_AT + RECORD_LEN * record + byte
}

fn records_order() -> Vec<Broken> {
    vec![
        // Records 2 and 3 equal, then falling by receiver, then by giver.
        changed(&valid(), &[5], &[(at(3, RECEIVER), 2)]),
        changed(&valid(), &[5], &[(at(2, RECEIVER), 4)]),
        changed(&valid(), &[5], &[(at(0, GIVER), 2)]),
        changed(&valid(), &[5], &[(at(4, GIVER), 0)]),
        changed(&valid(), &[5], &[(at(1, RECEIVER), 1)]),
    ]
}

fn subjects() -> Vec<Broken> {
    vec![
        changed(&valid(), &[6], &[(at(4, GIVER), 5)]),
        changed(&valid(), &[6], &[(at(4, GIVER), 255)]),
        changed(&valid(), &[7], &[(at(3, RECEIVER), 5)]),
        changed(&valid(), &[7], &[(at(4, RECEIVER), 64)]),
        changed(&valid(), &[7], &[(at(1, RECEIVER), 255)]),
        changed(&valid(), &[8], &[(at(2, RECEIVER), 1)]),
        changed(&valid(), &[8], &[(at(4, RECEIVER), 2)]),
        changed(&valid(), &[9], &[(at(2, RECEIVER), 0)]),
        changed(&valid(), &[9], &[(at(4, RECEIVER), 0)]),
        changed(&valid(), &[8, 9], &[(at(0, RECEIVER), 0)]),
    ]
}

fn inner() -> Vec<Broken> {
    vec![
        changed(&valid(), &[10], &[(at(0, KIND), 2)]),
        changed(&valid(), &[10], &[(at(4, KIND), 255)]),
        changed(&valid(), &[11], &[(at(1, BAR), 3)]),
        changed(&valid(), &[11], &[(at(2, NEED + 1), 128), (at(2, BAR + 1), 128)]),
        changed(&valid(), &[11], &[(at(4, NEED), 4)]),
    ]
}

/// A byte in every kind of unused place of the records.
fn unused() -> Vec<Broken> {
    let mut all = Vec::new();
    for byte in 0..RECORD_LEN {
        all.push(changed(&valid(), &[12], &[(at(5, byte), 1)]));
    }
    for record in [6, 100] {
        all.push(changed(&valid(), &[12], &[(at(record, RECEIVER), 7)]));
    }
    for byte in 0..RECORD_LEN {
        all.push(changed(&valid(), &[12], &[(at(255, byte), 255)]));
    }
    all
}

/// The bits of the retired: of subjects that are not enrolled, of the owner, of subjects that
/// have marks, and of subjects that give or receive.
fn retired() -> Vec<Broken> {
    let marked = register(&[0, 1, 9, 8, 0x1001, 0x0100], &[(0, 1, 255, 0, 0)]);
    let plain = register(&[0, 1, 0, 0, 0], &[(0, 1, 255, 0, 0), (1, 2, 9, 0, 0), (3, 1, 3, 0, 0)]);
    let last = RECORDS_AT - 1;
    vec![
        changed(&valid(), &[13], &[(RETIRED_AT, 1 << 5)]),
        changed(&valid(), &[13], &[(RETIRED_AT + 1, 1)]),
        changed(&valid(), &[13], &[(last, 128)]),
        changed(&Register::fresh(), &[13], &[(RETIRED_AT, 2)]),
        changed(&Register::fresh(), &[14], &[(RETIRED_AT, 1)]),
        changed(&valid(), &[14, 16], &[(RETIRED_AT, 1)]),
        changed(&marked, &[15], &[(RETIRED_AT, 1 << 2)]),
        changed(&marked, &[15], &[(RETIRED_AT, 1 << 5)]),
        changed(&plain, &[16], &[(RETIRED_AT, 1 << 2)]),
        changed(&plain, &[16], &[(RETIRED_AT, 1 << 3)]),
        changed(&valid(), &[15, 16], &[(RETIRED_AT, 1 << 1)]),
        changed(&valid(), &[13, 14, 15, 16], &[(RETIRED_AT, 255)]),
    ]
}

/// The valid block with one random byte changed, which may leave it well formed.
fn random_bytes(kind: &Kind) -> Vec<Case> {
    let mut random = Random::new(0xB10C + kind.calls.len() as u64);
    let used = RECORDS_AT + RECORD_LEN * 6;
    let mut cases = Vec::new();
    for _ in 0..60 {
        let mut block = encode(&valid());
        let place = random.below(used as u32) as usize;
        block[place] = random.pick(&[0, 1, 2, 4, 63, 64, 128, 255]);
        let call = random.pick(kind.added);
        cases.push(on(&block, calls(call)[0]));
    }
    cases
}
