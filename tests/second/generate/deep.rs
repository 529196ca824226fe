//! Long chains, unlimited cycles and cuts of many rounds.

use super::*;
use second::block::encode;
use second::cut::settle;
use second::engine::FAST;
use second::random::{random_register, Random, Shape};
use second::table::OURS;

pub fn cases(kind: &Kind) -> Vec<Case> {
    match kind.name {
        "base" => Vec::new(),
        "reach" => [long_chains(), cycles(), conditions()].concat(),
        _ => [long_cuts(), random_rounds(), rounds::cases()].concat(),
    }
}

/// 0-1, 1-2, ... 62-63, and 63-1 so that a chain has 63 links.
pub fn path(weight: fn(u8) -> u8) -> Register {
    let mut grants: Vec<Grant> = (0..63).map(|giver| (giver, giver + 1, weight(giver), 0, 0)).collect();
    grants.push((63, 1, weight(63), 0, 0));
    register(&[0; 64], &grants)
}

/// Each as heavy as its place allows, when the first is 254.
fn falling(giver: u8) -> u8 {
    254 - giver
}

/// Just enough for the last to have weight 0.
fn least(giver: u8) -> u8 {
    63 - giver
}

fn long_chains() -> Vec<Case> {
    let mut cases = Vec::new();
    for weight in [|_| 255, falling, least] {
        let block = encode(&path(weight));
        cases.push(on(&block, chain(63, 1, 126)));
        cases.extend([chain(63, 1, 125), chain(63, 1, 512), chain(62, 63, 126)].map(next));
        cases.extend([reach(63, 1), reach(63, 2), reach(62, 1), reach(1, 63)].map(next));
        cases.extend([grant(63, 2, 192, 0, 0), grant(63, 2, 190, 0, 0), grant(63, 2, 0, 0, 0)].map(next));
    }
    cases
}

/// Unlimited cycles, with the receiver on its own chain.
fn cycles() -> Vec<Case> {
    let cycle = register(&[0, 1, 2, 3], &[(0, 1, 255, 0, 0), (1, 2, 255, 0, 0), (2, 3, 255, 0, 0)]);
    let mut cases = vec![on(&encode(&cycle), grant(3, 1, 255, 0, 0))];
    cases.extend([grant(3, 2, 255, 0, 0), grant(2, 1, 254, 1, 2), grant(1, 3, 0, 0, 0)].map(next));
    cases.extend([chain(3, 1, 126), chain(3, 2, 126), chain(2, 1, 126), chain(0, 1, 126)].map(next));
    let alone = register(&[0, 1, 2, 3], &[(1, 2, 255, 0, 0), (2, 1, 255, 0, 0)]);
    cases.push(on(&encode(&alone), reach(1, 2)));
    cases.extend([reach(2, 1), reach(1, 3), chain(1, 2, 126), grant(1, 3, 0, 0, 0), grant(0, 3, 1, 0, 0)].map(next));
    cases
}

/// Conditions add up along a chain: every link asks for one mark more.
fn conditions() -> Vec<Case> {
    let mut marks = vec![0];
    marks.extend((0..19).map(|bits| ((1u32 << bits) - 1) as u16));
    let grants: Vec<Grant> = (0..16).map(|giver| (giver, giver + 1, 255, 1 << giver, 0)).collect();
    let rising = encode(&register(&marks, &grants));
    let barred: Vec<Grant> = (0..16).map(|giver| (giver, giver + 1, 255, 0, 1 << giver)).collect();
    let falling = encode(&register(&marks, &barred));
    let mut cases = Vec::new();
    for block in [rising, falling] {
        for (giver, receiver) in [(16, 17), (16, 18), (15, 16), (8, 9), (9, 9), (8, 7), (1, 2), (2, 1)] {
            cases.push(on(&block, reach(giver, receiver)));
        }
        cases.extend([chain(8, 9, 126), chain(1, 2, 126), grant(16, 18, 255, 0, 0), grant(3, 1, 255, 0, 0)].map(next));
    }
    cases
}

fn long_cuts() -> Vec<Case> {
    let mut cases = Vec::new();
    for weight in [|_| 255, falling, least] {
        let block = encode(&path(weight));
        for lowered in [0, 1, 40, 62] {
            cases.push(on(&block, downgrade(0, 0, 1, lowered)));
        }
        cases.push(on(&block, revoke(0, 0, 1)));
        cases.push(on(&block, revoke(30, 30, 31)));
        cases.push(on(&block, revoke(0, 63, 1)));
        cases.push(on(&block, downgrade(63, 63, 1, 0)));
    }
    cases
}

/// A random register on which changes often take several rounds, supported or not.
pub fn random_start(random: &mut Random) -> Register {
    let shape = Shape {
        subjects: random.range(5, 12),
        delegations: random.range(10, 40),
        weights: random.pick(&[&[255, 255, 254][..], &[255][..], &[255, 255, 255, 40, 7][..]]),
        marks: 7,
        conditions: random.pick(&[50, 80]),
    };
    let mut start = random_register(random, &shape);
    if random.chance(60) {
        settle(&FAST, &OURS, &mut start);
    }
    start
}

/// Cuts of at least four rounds on random registers, and of at least seven.
fn random_rounds() -> Vec<Case> {
    let mut random = Random::new(0x40D5);
    let mut cases = Vec::new();
    while cases.len() < 60 {
        let start = random_start(&mut random);
        let least = if cases.len() < 30 { 4 } else { 7 };
        cases.extend(cut_of_rounds(&mut random, &start, least));
    }
    cases
}

/// A cut of at least so many rounds on the register, if one of a few is.
fn cut_of_rounds(random: &mut Random, start: &Register, least: i32) -> Option<Case> {
    for _ in 0..4 {
        if start.delegations.is_empty() {
            return None;
        }
        let d = random.pick(&start.delegations);
        let (giver, receiver) = (d.giver as u32, d.receiver as u32);
        let n = match random.below(2) {
            0 => revoke(0, giver, receiver),
            _ => downgrade(0, giver, receiver, random.pick(&[0, 3, 30, 253])),
        };
        let outcome = second::call::run(&FAST, &n, &mut encode(start));
        if outcome.answers[2] >= least {
            return Some(on(&encode(start), n));
        }
    }
    None
}
