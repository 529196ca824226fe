//! Registers with 64 subjects and with 256 delegations.

use super::*;
use second::block::{encode, MOST_DELEGATIONS};
use second::random::{random_register, Random, Shape};

/// 256 delegations among 64 subjects, in an order in which all are accepted:
/// one from the owner to each, then from each to the three that follow it.
fn grants() -> Vec<Grant> {
    let mut grants: Vec<Grant> = (1..64).map(|subject| (0, subject, 255, 0, 0)).collect();
    for ahead in 1..=4 {
        for giver in 1..64u8 {
            let receiver = (giver - 1 + ahead) % 63 + 1;
            let need = if giver % 8 == 0 { 1 << ahead } else { 0 };
            grants.push((giver, receiver, 255 - ahead * (giver % 3), need, 0));
        }
    }
    grants.truncate(MOST_DELEGATIONS);
    grants
}

fn marks(subjects: u16) -> Vec<u16> {
    (0..subjects).map(|subject| if subject == 0 { 0 } else { subject % 5 }).collect()
}

/// 64 subjects and 256 delegations, all supported.
pub fn all_enrolled() -> Register {
    register(&marks(64), &grants())
}

/// 20 subjects and 256 delegations.
pub fn some_enrolled() -> Register {
    let mut grants: Vec<Grant> = (1..20).map(|subject| (0, subject, 255, 0, 0)).collect();
    for giver in 1..20 {
        let others = (1..20).filter(|&receiver| receiver != giver);
        grants.extend(others.map(|receiver| (giver, receiver, giver, 0, 0)));
    }
    grants.truncate(MOST_DELEGATIONS);
    register(&marks(20), &grants)
}

pub fn cases(kind: &Kind) -> Vec<Case> {
    match kind.name {
        "base" => enrolments(),
        "reach" => last_grant(),
        _ => cuts(),
    }
}

/// From one subject to 64 and on.
fn enrolments() -> Vec<Case> {
    let mut cases = vec![on(&encode(&Register::fresh()), open())];
    cases.extend((1..=65).map(|marks| next(enrol(marks * 1001))));
    cases.extend([0, 1, 63, 64].map(|subject| next(use_right(subject))));
    cases.push(on(&encode(&all_enrolled()), enrol(0)));
    cases.push(on(&encode(&all_enrolled()), use_right(63)));
    cases.push(on(&encode(&some_enrolled()), enrol(65_535)));
    cases.push(next(use_right(20)));
    cases
}

/// The 256th grant, and the refusals after it.
fn last_grant() -> Vec<Case> {
    let grants = grants();
    let (last, others) = (grants[MOST_DELEGATIONS - 1], &grants[..MOST_DELEGATIONS - 1]);
    let block = encode(&register(&marks(64), others));
    let mut cases = vec![on(&block, grant(10, 20, 256, 0, 0)), on(&block, grant_of(&last))];
    let after = [
        grant_of(&last),
        grant(0, 1, 255, 0, 0),
        grant(10, 20, 0, 0, 0),
        grant(10, 20, 255, 1, 0),
        grant(10, 20, 0, 1, 1),
        grant(1, 2, 255, 0, 0),
        enrol(0),
        reach(63, 5),
        reach(8, 1),
        use_right(63),
        chain(8, 9, 126),
        chain(63, 1, 126),
    ];
    cases.extend(after.map(next));
    cases.extend(random_reaches());
    cases
}

/// Reaches and chains on large random registers.
fn random_reaches() -> Vec<Case> {
    let mut random = Random::new(0xF011);
    let mut cases = Vec::new();
    for _ in 0..6 {
        let register = large(&mut random);
        let block = encode(&register);
        for _ in 0..12 {
            let d = random.pick(&register.delegations);
            cases.push(on(&block, reach(random.below(64), random.range(1, 63))));
            cases.push(on(&block, chain(d.giver as u32, d.receiver as u32, 126)));
        }
    }
    cases
}

/// 64 subjects and up to 256 delegations, most of them unlimited.
pub fn large(random: &mut Random) -> Register {
    let shape = Shape {
        subjects: 64,
        delegations: random.pick(&[256, 200, 120]),
        weights: &[255, 255, 255, 254, 30, 5],
        marks: 7,
        conditions: random.pick(&[10, 40]),
    };
    random_register(random, &shape)
}

fn cuts() -> Vec<Case> {
    let full = encode(&all_enrolled());
    let some = encode(&some_enrolled());
    let mut cases = vec![
        on(&full, revoke(0, 0, 1)),
        on(&full, revoke(5, 5, 6)),
        on(&full, revoke(6, 5, 6)),
        on(&full, downgrade(0, 0, 1, 254)),
        on(&full, downgrade(0, 0, 63, 0)),
        on(&full, downgrade(1, 1, 2, 255)),
        on(&full, downgrade(1, 1, 2, 254)),
        next(grant(10, 20, 255, 0, 0)),
        on(&some, revoke(0, 0, 19)),
        next(grant(0, 19, 3, 0, 0)),
        on(&some, downgrade(0, 0, 7, 6)),
    ];
    let mut random = Random::new(0xCF07);
    for _ in 0..10 {
        let register = large(&mut random);
        let d = random.pick(&register.delegations);
        cases.push(on(&encode(&register), revoke(0, d.giver as u32, d.receiver as u32)));
        cases.push(next(reach(random.below(64), random.range(1, 63))));
    }
    cases
}
