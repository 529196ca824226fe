//! Grants for pairs that stand: document 02, C-12.

use super::examples::Example;
use super::*;
use second::block::encode;
use second::engine::FAST;
use second::random::Random;
use second::refusal::applying;
use second::search::reach_table;
use second::table::{Table, OURS};
use std::collections::BTreeSet;

pub fn cases() -> Vec<Case> {
    let mut cases = Vec::new();
    for example in examples() {
        cases.push(on(&encode(&Register::fresh()), open()));
        cases.extend(example.calls().into_iter().map(next));
    }
    for register in [with_room(), refusals::unsupported(), above_reach()] {
        cases.extend(every_grant(&register));
    }
    cases.extend(at_once());
    cases.extend(on_full());
    cases.extend(random_lists());
    cases
}

/// A row of three: 1-2 is at its reach, the other two are below it.
const ROW: [Grant; 3] = [(0, 1, 5, 0, 0), (1, 2, 4, 0, 0), (2, 3, 2, 0, 0)];

/// Calls from a fresh register on.
pub fn examples() -> Vec<Example> {
    let within = vec![
        grant(2, 3, 3, 0, 0), grant(1, 2, 5, 0, 0), grant(1, 2, 4, 0, 0), grant(1, 2, 3, 0, 0), grant(2, 3, 3, 1, 0),
        grant(0, 1, 9, 0, 0), reach(2, 3), grant(1, 2, 8, 0, 0), reach(2, 3),
    ];
    let waiting = vec![
        grant(2, 3, 4, 0, 0), grant(1, 2, 5, 0, 0), grant(0, 1, 255, 0, 0), grant(2, 3, 4, 0, 0),
        grant(1, 2, 255, 0, 0), grant(2, 3, 4, 0, 0), grant(2, 3, 255, 0, 0), grant(2, 3, 255, 0, 0), reach(3, 4),
    ];
    let taken_back = vec![
        grant(0, 1, 9, 0, 0), grant(1, 2, 8, 0, 0), grant(2, 3, 7, 0, 0), downgrade(0, 0, 1, 5), grant(2, 3, 4, 0, 0),
        grant(1, 2, 4, 0, 0), downgrade(1, 1, 2, 3), grant(1, 2, 4, 0, 0), grant(2, 3, 3, 0, 0), revoke(0, 0, 1),
        use_right(3), grant(0, 1, 9, 0, 0), grant(1, 2, 8, 0, 0),
    ];
    let example = |name, then| Example { name, marks: &[0; 4], grants: ROW.to_vec(), then };
    vec![
        example("raises within the reach and above it", within),
        example("a customer's raise waits for the dealer's", waiting),
        example("cuts take raises back", taken_back),
    ]
}

/// Supported, under conditions, most with room between the weight and the reach.
pub fn with_room() -> Register {
    let first = [(0, 1, 9, 0, 0), (0, 2, 254, 1, 2), (1, 3, 5, 2, 4)];
    let second = [(2, 3, 250, 0, 0), (3, 4, 1, 4, 0), (4, 1, 0, 0, 1)];
    register(&[0, 5, 0, 1, 2], &[first, second].concat())
}

/// 1-2 stands at 9, and its reach is 3.
pub fn above_reach() -> Register {
    register(&[0; 4], &[(0, 1, 4, 0, 0), (1, 2, 9, 0, 0), (2, 3, 2, 0, 0)])
}

/// 256 delegations, each with room between the weight and the reach.
pub fn full_with_room() -> Register {
    let mut register = full::some_enrolled();
    register.delegations.iter_mut().for_each(|d| d.weight /= 2);
    register
}

/// The calls that make the full register, and grants on it.
pub fn on_full_calls() -> Vec<Passed> {
    let register = full_with_room();
    let mut calls: Vec<Passed> = register.marks[1..].iter().map(|&marks| enrol(marks as u32)).collect();
    calls.extend(register.delegations.iter().map(|d| again(d, d.weight as u32)));
    calls.extend([grant(15, 1, 0, 0, 0), grant(0, 1, 127, 0, 0), grant(0, 1, 128, 0, 1), grant(0, 1, 128, 0, 0)]);
    calls.extend([grant(1, 2, 128, 0, 0), grant(1, 2, 127, 0, 0), grant(14, 3, 126, 0, 0), grant(14, 3, 127, 0, 0)]);
    calls.extend([grant(15, 1, 255, 0, 0), downgrade(0, 0, 1, 127), reach(2, 3)]);
    calls
}

/// A standing delegation granted again with this weight.
fn again(d: &Delegation, weight: u32) -> Passed {
    grant(d.giver as u32, d.receiver as u32, weight, d.need as u32, d.bar as u32)
}

fn reach_of(table: &Table, register: &Register, d: &Delegation) -> i16 {
    reach_table(table, register, d.giver as u32, d.receiver as u32)
}

/// A standing delegation granted again with weights at and around its own and the
/// reach, and at the ends.
pub fn around(table: &Table, register: &Register, d: &Delegation) -> Vec<Passed> {
    let near = |weight: i16| [weight - 1, weight, weight + 1];
    let reach = reach_of(table, register, d);
    let weights: BTreeSet<i16> = [near(d.weight as i16), near(reach), [0, 255, 256]].concat().into_iter().collect();
    weights.into_iter().filter(|&weight| weight >= 0).map(|weight| again(d, weight as u32)).collect()
}

/// The same grant under other conditions: another need, another bar, both, the two
/// exchanged, and two that share a mark.
pub fn otherwise(n: &Passed) -> Vec<Passed> {
    let (need, bar) = (n.need, n.bar);
    let all = [(need ^ 8, bar), (need, bar ^ 16), (need ^ 8, bar ^ 16), (bar, need), (need | 8, bar | 8)];
    let other = all.into_iter().filter(|&masks| masks != (need, bar));
    other.map(|(need, bar)| Passed { need, bar, ..*n }).collect()
}

/// Every standing delegation granted again, under its own and other conditions.
fn every_grant(register: &Register) -> Vec<Case> {
    let block = encode(register);
    let mut cases = Vec::new();
    for n in register.delegations.iter().flat_map(|d| around(&OURS, register, d)) {
        cases.push(on(&block, n));
        cases.extend(otherwise(&n).into_iter().map(|n| on(&block, n)));
    }
    cases
}

/// Every standing delegation granted again under a table, and cuts after raises.
pub fn under(table: &Table) -> Vec<Case> {
    let register = register(&[0; 5], &[(0, 1, 9, 0, 0), (0, 2, 254, 0, 0), (1, 3, 1, 0, 0), (2, 4, 0, 0, 0)]);
    let block = encode(&register);
    let grants = register.delegations.iter().flat_map(|d| around(table, &register, d));
    let mut cases: Vec<Case> = grants.map(|n| on(&block, n)).collect();
    cases.push(on(&block, grant(0, 1, 255, 0, 0)));
    cases.extend([grant(1, 3, 254, 0, 0), grant(1, 3, 6, 0, 0), downgrade(0, 0, 1, 9), revoke(0, 0, 2)].map(next));
    cases
}

/// One case for each block and each set of refusals that apply at once to a grant
/// for a pair that stands there.
fn at_once() -> Vec<Case> {
    let mut cases = Vec::new();
    for block in refusals::blocks() {
        let mut seen = BTreeSet::new();
        for n in standing_candidates() {
            if seen.insert(applying(&FAST, &n, b"", &block, 0)) {
                cases.push(on(&block, n));
            }
        }
    }
    cases
}

/// Grants for three pairs, which stand in every register of the refusals.
fn standing_candidates() -> Vec<Passed> {
    let mut candidates = Vec::new();
    for (giver, receiver) in [(0, 1), (1, 2), (2, 3)] {
        for weight in [0, 1, 2, 3, 4, 9, 10, 254, 255, 256, 4_294_967_295] {
            let masks = [(0, 0), (0, 2), (1, 0), (1, 3), (65_536, 0), (0, 65_538)];
            candidates.extend(masks.map(|(need, bar)| grant(giver, receiver, weight, need, bar)));
        }
    }
    candidates
}

/// The first records, the last ones and one between in a full register, and a pair
/// that doesn't stand there.
fn on_full() -> Vec<Case> {
    let register = full_with_room();
    let block = encode(&register);
    let mut cases = vec![on(&block, grant(15, 1, 0, 0, 0)), on(&block, grant(15, 1, 255, 0, 0))];
    for d in [0, 1, 100, 254, 255].map(|place| &register.delegations[place]) {
        let grants = around(&OURS, &register, d);
        cases.extend(grants.iter().flat_map(otherwise).chain(grants.iter().copied()).map(|n| on(&block, n)));
    }
    cases
}

fn random_lists() -> Vec<Case> {
    let mut random = Random::new(0x4A15E);
    let mut cases = Vec::new();
    for _ in 0..24 {
        cases.push(on(&encode(&Register::fresh()), open()));
        cases.extend(lists::list(likely, &mut random, &lists::CUT, 45).into_iter().map(next));
    }
    cases
}

/// A plausible call, as of other lists; but most new weights are small, and most
/// grants are for a pair that stands.
pub fn likely(random: &mut Random, call: Call, table: &Table, register: &Register) -> Passed {
    if call == Call::Grant && !register.delegations.is_empty() && random.chance(60) {
        return likely_again(random, table, register);
    }
    let n = lists::likely(random, call, table, register);
    let small = call == Call::Grant && random.chance(70);
    if small { Passed { weight: n.weight % 20, ..n } } else { n }
}

/// A standing delegation granted again, most often with its own need and bar and a
/// larger weight.
fn likely_again(random: &mut Random, table: &Table, register: &Register) -> Passed {
    let d = standing(random, table, register);
    let grants = around(table, register, &d);
    let is_larger = |n: &&Passed| n.weight > d.weight as u32 && n.weight <= 255;
    let larger: Vec<Passed> = grants.iter().filter(is_larger).copied().collect();
    let any = larger.is_empty() || random.chance(25);
    let n = random.pick(if any { &grants } else { &larger });
    if random.chance(85) { n } else { random.pick(&otherwise(&n)) }
}

/// A delegation that stands, most often with room between its weight and the reach.
fn standing(random: &mut Random, table: &Table, register: &Register) -> Delegation {
    let has_room = |d: &&Delegation| (d.weight as i16) < reach_of(table, register, d);
    let with_room: Vec<Delegation> = register.delegations.iter().filter(has_room).copied().collect();
    let any = with_room.is_empty() || random.chance(30);
    random.pick(if any { &register.delegations } else { &with_room })
}
