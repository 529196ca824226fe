//! Registers that orders are asked of.

use super::*;
use second::random::{random_register, Random, Shape};

/// The example of C-14's order: of the unlimited ones 4 comes before 1, and the shorter
/// way to 3 is the lighter one.
pub const EXAMPLE: [Grant; 6] =
    [(0, 4, 255, 0, 0), (4, 1, 255, 0, 0), (1, 3, 20, 0, 0), (0, 2, 9, 0, 0), (2, 3, 7, 0, 0), (3, 5, 6, 0, 0)];

pub fn example() -> Register {
    register(&[0; 6], &EXAMPLE)
}

/// A register of subjects without marks whose delegations have no conditions.
fn plain(subjects: usize, grants: &[(u8, u8, u8)]) -> Register {
    let grants: Vec<Grant> = grants.iter().map(|&(giver, receiver, weight)| (giver, receiver, weight, 0, 0)).collect();
    register(&vec![0; subjects], &grants)
}

/// The same with unlimited delegations only.
fn unlimited(subjects: usize, pairs: &[(u8, u8)]) -> Register {
    let grants: Vec<(u8, u8, u8)> = pairs.iter().map(|&(giver, receiver)| (giver, receiver, 255)).collect();
    plain(subjects, &grants)
}

/// A row from the owner through these subjects.
fn row(through: &[u8]) -> Vec<(u8, u8)> {
    let givers = [&[0], through].concat();
    givers.into_iter().zip(through.iter().copied()).collect()
}

/// Unlimited ones in rows, in branches and in cycles.
pub fn plateaus() -> Vec<Register> {
    let cycles = [(0, 3), (3, 1), (1, 2), (2, 3), (2, 5), (5, 4), (4, 5)];
    let two_entries = [(0, 5), (0, 6), (6, 1), (5, 2), (1, 3), (2, 4), (4, 1), (3, 6)];
    let branching = [(0, 6), (6, 3), (6, 5), (3, 1), (5, 2), (5, 4), (4, 7)];
    let between = [(0, 6, 255), (6, 2, 254), (6, 4, 255), (4, 1, 255), (1, 3, 254), (0, 5, 254), (5, 7, 255)];
    vec![
        unlimited(8, &row(&[7, 6, 5, 4, 3, 2, 1])),
        unlimited(8, &row(&[1, 2, 3, 4, 5, 6, 7])),
        unlimited(8, &row(&[5, 2, 7, 1, 6, 3, 4])),
        unlimited(8, &branching),
        unlimited(6, &cycles),
        unlimited(7, &two_entries),
        unlimited(5, &[(0, 4), (4, 1), (2, 3), (3, 2)]),
        plain(8, &between),
    ]
}

/// Equal limits below 255, from one giver and from several, also at 0.
pub fn ties() -> Vec<Register> {
    let one_giver = [(0, 5, 10), (0, 3, 10), (0, 1, 10), (5, 2, 9), (1, 4, 9), (3, 6, 9), (3, 7, 11)];
    let depths = [(0, 4, 6), (0, 1, 9), (1, 2, 7), (2, 3, 6), (0, 6, 255), (6, 5, 6), (6, 7, 255)];
    let at_zero = [(0, 3, 1), (0, 1, 1), (0, 4, 2), (4, 2, 1), (0, 5, 255), (5, 6, 1)];
    let highest = [(0, 6, 255), (6, 2, 254), (0, 3, 254), (0, 1, 254), (3, 5, 253), (2, 4, 253)];
    vec![plain(8, &one_giver), plain(8, &depths), plain(7, &at_zero), plain(7, &highest)]
}

/// Subjects that are reached with a lighter limit before they are with a heavier one.
pub fn raised() -> Vec<Register> {
    let once = [(0, 3, 5), (0, 1, 200), (1, 3, 100), (3, 4, 50), (1, 4, 3), (0, 5, 60)];
    let often = [(0, 1, 3), (0, 6, 254), (6, 1, 20), (6, 5, 200), (5, 1, 60), (5, 4, 150), (4, 1, 120), (1, 2, 255)];
    let to_unlimited = [(0, 1, 254), (0, 5, 255), (5, 4, 255), (4, 1, 255), (1, 2, 255), (0, 2, 9), (0, 3, 254)];
    let to_a_tie = [(0, 1, 4), (0, 2, 9), (0, 6, 30), (6, 1, 9), (1, 3, 8), (2, 4, 8), (6, 5, 8)];
    vec![plain(6, &once), plain(7, &often), plain(6, &to_unlimited), plain(7, &to_a_tie)]
}

/// Weights 0 and 1, and the owner alone: without delegations, with none from the owner,
/// and with none that carries a limit.
pub fn lightest() -> Vec<Register> {
    let light = [(0, 1, 0), (0, 2, 1), (0, 3, 2), (2, 4, 0), (3, 4, 0), (3, 5, 1), (1, 6, 255), (2, 7, 255)];
    vec![
        plain(8, &light),
        plain(2, &[]),
        plain(2, &[(0, 1, 0)]),
        plain(2, &[(0, 1, 1)]),
        plain(2, &[(0, 1, 255)]),
        plain(3, &[(0, 1, 1), (1, 2, 0)]),
        plain(3, &[(0, 1, 2), (1, 2, 0), (2, 1, 255)]),
        plain(4, &[(1, 2, 255), (2, 1, 255), (2, 3, 7)]),
        register(&[0, 0, 1], &[(0, 1, 255, 1, 0), (0, 2, 255, 2, 0), (1, 2, 9, 0, 0)]),
        register(&[0, 1, 3], &[(0, 1, 255, 0, 1), (0, 2, 9, 0, 2), (2, 1, 8, 0, 0)]),
    ]
}

/// Conditions that some receivers meet and others don't.
pub fn conditions() -> Vec<Register> {
    let marks = [0, 0, 1, 2, 3, 0x8000, 0x8001, 4, 7];
    let first = [(0, 4, 255, 1, 0), (0, 3, 255, 0, 1), (4, 1, 255, 2, 0), (3, 1, 200, 0, 0x8000), (1, 2, 255, 0, 2)];
    let second = [(2, 5, 100, 0x8000, 0), (0, 6, 9, 0, 0), (6, 2, 8, 4, 1), (5, 7, 255, 0, 4), (7, 8, 60, 1, 0x8000)];
    let third = [(0, 2, 3, 0, 0), (2, 8, 255, 3, 4), (8, 1, 255, 0, 0), (0, 7, 7, 0x8001, 6), (4, 3, 255, 0, 0)];
    let own = [(0, 1, 255, 1, 0), (0, 2, 50, 0, 1), (1, 3, 255, 1, 0), (2, 3, 40, 0, 0), (3, 4, 30, 2, 1)];
    vec![register(&marks, &[first, second, third].concat()), register(&[0, 0, 1, 3, 2], &own)]
}

/// A delegation that needs or bars each of the 16 marks alone. Only the last four
/// subjects, 17 to 20, have marks.
pub fn every_mark(barred: bool) -> Register {
    let one = |mark: u8| {
        let mask = 1 << mark;
        let (need, bar) = if barred { (0, mask) } else { (mask, 0) };
        (0, mark + 1, 255 - mark % 3, need, bar)
    };
    let grants: Vec<Grant> = (0..16).map(one).collect();
    register(&[&[0; 17][..], &[0x5555, 0xAAAA, 0xFFFF, 0x0180]].concat(), &grants)
}

/// The registers of other kinds that are asked for every receiver.
pub fn known() -> Vec<Register> {
    let mut all: Vec<Register> = examples::proved().iter().map(|example| example.built()).collect();
    all.push(examples::counting(0).built());
    all.extend([tables::ends(), tables::two_ways(252), raises::with_room(), raises::above_reach()]);
    all.extend([refusals::unsupported(), broken::valid()]);
    all
}

/// Drawn registers, most of them not supported, some with many unlimited delegations.
pub fn drawn() -> Vec<Register> {
    let mut random = Random::new(0x04DE4);
    let mut all: Vec<Register> = (0..6).map(|_| unsupported::random_unsupported(&mut random)).collect();
    for _ in 0..10 {
        let shape = Shape {
            subjects: random.range(6, 10),
            delegations: random.range(9, 22),
            weights: random.pick(&[&[255, 255, 255, 9, 3][..], &[255, 254, 4, 3, 2, 1, 0][..]]),
            marks: 7,
            conditions: random.pick(&[0, 20, 50]),
        };
        all.push(random_register(&mut random, &shape));
    }
    all
}

/// A number from 1 to 63 for each place from 1 to 63, all different.
fn shuffled(place: u8) -> u8 {
    (place as u16 * 37 % 63 + 1) as u8
}

/// 64 subjects, all in the list of every receiver.
pub fn all_subjects() -> Vec<Register> {
    let falling: Vec<u8> = (1..64).rev().collect();
    let anywhere: Vec<u8> = (1..64).map(shuffled).collect();
    let parent = |place: u8| if place == 1 { 0 } else { shuffled(place / 2) };
    let tree: Vec<(u8, u8)> = (1..64).map(|place| (parent(place), shuffled(place))).collect();
    let star: Vec<(u8, u8, u8)> = (1..64).map(|subject| (0, subject, 100 + subject)).collect();
    let tied: Vec<(u8, u8, u8)> = (1..64).map(|subject| (0, subject, 40 + subject % 3)).collect();
    vec![
        unlimited(64, &row(&falling)),
        unlimited(64, &row(&anywhere)),
        unlimited(64, &tree),
        plain(64, &star),
        plain(64, &tied),
        deep::path(|_| 255),
        deep::path(|giver| 254 - giver),
        deep::path(|giver| 63 - giver),
    ]
}

/// Full registers, and large ones that were drawn.
pub fn large() -> Vec<Register> {
    let mut random = Random::new(0x04DE5);
    let mut all = vec![full::all_enrolled(), full::some_enrolled(), raises::full_with_room(), rounds::built()];
    all.extend((0..4).map(|_| full::large(&mut random)));
    all
}
