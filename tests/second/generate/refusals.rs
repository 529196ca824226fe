//! Every refusal of every call, and every set of refusals that apply at once
//! to some call from a list of candidates.

use super::*;
use second::block::{decode, encode, BLOCK_LEN, MOST_DELEGATIONS, ZERO_AT};
use second::engine::FAST;
use second::refusal::applying;
use std::collections::BTreeSet;

/// The refusals that apply at once. Of a grant also whether its pair stands and
/// whether 256 delegations do, since a raise gets neither 11 nor 12.
pub fn told(n: &Passed, text: &[u8], block: &[u8]) -> (Vec<u32>, bool, bool) {
    let numbers = applying(&FAST, n, text, block, n.weight as usize);
    let register = decode(block).filter(|_| n.call == Call::Grant);
    let stands = register.as_ref().is_some_and(|register| register.standing(n.giver, n.receiver).is_some());
    let full = register.is_some_and(|register| register.delegations.len() == MOST_DELEGATIONS);
    (numbers, stands, full)
}

/// One case for each block and what `told` says of it.
pub fn cases(kind: &Kind) -> Vec<Case> {
    let mut cases = Vec::new();
    for &call in kind.added {
        for block in blocks() {
            let mut seen = BTreeSet::new();
            for n in candidates(call) {
                if seen.insert(told(&n, b"", &block)) {
                    cases.push(on(&block, n));
                }
            }
        }
    }
    cases
}

/// The blocks that candidates are tried on.
pub fn blocks() -> Vec<Vec<u8>> {
    let supported = encode(&supported());
    let mut malformed = supported.clone();
    malformed[ZERO_AT] = 1;
    let mut many = supported.clone();
    many[0] = 64;
    vec![
        supported[..BLOCK_LEN - 1].to_vec(),
        malformed,
        encode(&unsupported()),
        many,
        encode(&full::some_enrolled()),
        encode(&full::all_enrolled()),
        supported,
    ]
}

fn supported() -> Register {
    let grants = [(0, 1, 255, 0, 0), (0, 4, 9, 1, 0), (1, 2, 3, 0, 0), (2, 3, 2, 0, 2), (3, 1, 0, 0, 0)];
    register(&[0, 1, 2, 1, 3], &grants)
}

pub fn unsupported() -> Register {
    let grants = [(0, 1, 2, 0, 0), (1, 2, 9, 0, 0), (2, 3, 255, 0, 0), (3, 2, 5, 0, 0)];
    register(&[0, 1, 2, 1, 3], &grants)
}

const SUBJECTS: [u32; 7] = [1, 2, 3, 0, 9, 63, 64];
const WEIGHTS: [u32; 4] = [1, 0, 255, 256];
const MASKS: [(u32, u32); 4] = [(0, 0), (1, 3), (65_536, 0), (0, 4_294_967_295)];
const BUFFERS: [u32; 2] = [126, 125];
const KINDS: [u32; 3] = [0, 1, 2];
const ORDER_BUFFERS: [u32; 3] = [128, 127, 129];

pub fn candidates(call: Call) -> Vec<Passed> {
    match call {
        Call::Open => vec![open()],
        Call::Enrol => [5, 0, 65_535, 65_536].map(enrol).to_vec(),
        Call::Use => SUBJECTS.map(use_right).to_vec(),
        Call::Reach => pairs().map(|(giver, receiver)| reach(giver, receiver)).collect(),
        Call::Chain => pairs().flat_map(|(g, r)| BUFFERS.map(|buffer| chain(g, r, buffer))).collect(),
        Call::Order => SUBJECTS.map(|receiver| ORDER_BUFFERS.map(|buffer| order(receiver, buffer))).concat(),
        Call::Retire => pairs().map(|(by, subject)| retire(by, subject)).collect(),
        Call::BringOver => vec![],
        Call::SetMarks => pairs().flat_map(|(by, s)| [5, 65_536].map(|marks| set_marks(by, s, marks))).collect(),
        Call::Grant => pairs().flat_map(|(g, r)| grants(g, r)).collect(),
        Call::GrantKind => pairs().flat_map(|(g, r)| grants(g, r)).flat_map(with_kinds).collect(),
        Call::Revoke => pairs().flat_map(|(g, r)| SUBJECTS.map(|by| revoke(by, g, r))).collect(),
        Call::Downgrade => pairs().flat_map(|(g, r)| SUBJECTS.map(|by| downgrades(by, g, r)).concat()).collect(),
    }
}

fn pairs() -> impl Iterator<Item = (u32, u32)> {
    SUBJECTS.into_iter().flat_map(|giver| SUBJECTS.map(|receiver| (giver, receiver)))
}

fn grants(giver: u32, receiver: u32) -> Vec<Passed> {
    let with = |weight| MASKS.map(|(need, bar)| grant(giver, receiver, weight, need, bar));
    WEIGHTS.map(with).concat()
}

fn with_kinds(of: Passed) -> Vec<Passed> {
    KINDS.map(|kind| grant_kind(of, kind)).to_vec()
}

fn downgrades(by: u32, giver: u32, receiver: u32) -> Vec<Passed> {
    WEIGHTS.map(|weight| downgrade(by, giver, receiver, weight)).to_vec()
}
