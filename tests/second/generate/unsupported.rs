//! Well-formed blocks whose delegations are not all supported.

use super::*;
use second::block::encode;
use second::random::{random_register, Random, Shape};
use second::remainder::is_supported;
use second::table::OURS;

pub const WEIGHTS: [u8; 12] = [0, 1, 2, 3, 4, 5, 100, 254, 255, 255, 255, 255];

pub fn cases(kind: &Kind) -> Vec<Case> {
    let mut random = Random::new(0x0707 + kind.calls.len() as u64);
    let mut cases = Vec::new();
    if kind.added.contains(&Call::Grant) {
        (0..36).for_each(|_| cases.extend(reaches(&mut random)));
    }
    if kind.added.contains(&Call::Revoke) {
        (0..220).for_each(|_| cases.extend(cuts(&mut random)));
    }
    cases
}

/// A random register that is not supported.
pub fn random_unsupported(random: &mut Random) -> Register {
    loop {
        let shape = Shape {
            subjects: random.range(3, 8),
            delegations: random.range(2, 16),
            weights: &WEIGHTS,
            marks: 0x8003,
            conditions: random.pick(&[0, 30, 60]),
        };
        let register = random_register(random, &shape);
        if !is_supported(&OURS, &register) {
            return register;
        }
    }
}

/// Reaches, chains and a grant on one block.
fn reaches(random: &mut Random) -> Vec<Case> {
    let register = random_unsupported(random);
    let block = encode(&register);
    let count = register.marks.len() as u32;
    let mut cases = Vec::new();
    for _ in 0..6 {
        let standing = random.pick(&register.delegations);
        let (giver, receiver) = (random.below(count), random.range(1, count - 1));
        cases.push(on(&block, reach(giver, receiver)));
        cases.push(on(&block, chain(standing.giver as u32, standing.receiver as u32, 126)));
    }
    let (giver, receiver) = (random.below(count), random.range(1, count - 1));
    cases.push(next(grant(giver, receiver, random.pick(&WEIGHTS) as u32, 0, 1)));
    cases
}

/// A revoke and a downgrade, each on the block itself.
fn cuts(random: &mut Random) -> Vec<Case> {
    let register = random_unsupported(random);
    let block = encode(&register);
    let revoked = random.pick(&register.delegations);
    let lowered = random.pick(&register.delegations);
    let by = random.pick(&[0, revoked.giver]);
    let weight = random.below(lowered.weight.max(1) as u32);
    vec![
        on(&block, revoke(by as u32, revoked.giver as u32, revoked.receiver as u32)),
        on(&block, downgrade(0, lowered.giver as u32, lowered.receiver as u32, weight)),
    ]
}
