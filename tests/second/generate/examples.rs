//! Document 01's examples P1 to P8 and the counting case.

use super::*;
use second::block::encode;

/// Subjects' marks (subject 1 first), grants in an accepted order, then calls.
pub struct Example {
    pub name: &'static str,
    pub marks: &'static [u16],
    pub grants: Vec<Grant>,
    pub then: Vec<Passed>,
}

impl Example {
    /// Every call of the example, from a fresh register.
    pub fn calls(&self) -> Vec<Passed> {
        let enrolments = self.marks.iter().map(|&marks| enrol(marks as u32));
        let grants = self.grants.iter().map(grant_of);
        enrolments.chain(grants).chain(self.then.iter().copied()).collect()
    }

    /// The register after its enrolments and grants.
    pub fn built(&self) -> Register {
        register(&[&[0], self.marks].concat(), &self.grants)
    }
}

/// A grant without a condition.
const fn plain(giver: u8, receiver: u8, weight: u8) -> Grant {
    (giver, receiver, weight, 0, 0)
}

const P3: [Grant; 4] = [(0, 1, 6, 1, 0), plain(0, 2, 3), plain(1, 3, 5), plain(2, 3, 2)];
const P4: [Grant; 5] = [P3[0], P3[1], P3[2], P3[3], plain(3, 5, 4)];
const P5: [Grant; 6] =
    [(0, 1, 6, 1, 0), plain(1, 3, 5), plain(0, 2, 7), plain(2, 3, 6), plain(3, 5, 5), plain(5, 4, 4)];

/// The unlimited cycle 1-2, 2-3, 3-1 under conditions. 0-2 lets it be granted.
pub const COUNTING_MARKS: [u16; 4] = [1, 2, 1, 0];
pub const COUNTING: [Grant; 7] = [
    plain(0, 2, 255), (0, 1, 255, 1, 0), (0, 4, 255, 2, 0), plain(4, 2, 255), plain(2, 3, 255), plain(3, 1, 255),
    plain(1, 2, 255),
];

pub fn proved() -> Vec<Example> {
    vec![
        Example {
            name: "P1",
            marks: &[0, 0],
            grants: vec![plain(0, 1, 255), plain(1, 2, 255), plain(2, 1, 255)],
            then: vec![revoke(0, 0, 1), use_right(2)],
        },
        Example {
            name: "P2",
            marks: &[0, 0, 0, 0],
            grants: vec![plain(0, 1, 5), plain(0, 2, 3), plain(1, 3, 4), plain(2, 3, 2), plain(3, 4, 3)],
            then: vec![revoke(0, 0, 1)],
        },
        Example { name: "P3 with mark 1", marks: &[0, 0, 1, 1], grants: P3.to_vec(), then: vec![reach(3, 4)] },
        Example { name: "P3 without mark 1", marks: &[0, 0, 1, 0], grants: P3.to_vec(), then: vec![reach(3, 4)] },
        Example { name: "P4", marks: &[0, 0, 1, 0, 1], grants: P4.to_vec(), then: vec![reach(5, 4)] },
        Example { name: "P5", marks: &[0, 0, 1, 1, 0], grants: P5.to_vec(), then: vec![downgrade(0, 0, 2, 2)] },
        Example { name: "P6", marks: &[0], grants: vec![], then: vec![reach(0, 1)] },
        Example { name: "P7", marks: &[0, 0], grants: vec![plain(0, 1, 0)], then: vec![reach(1, 2)] },
        Example {
            name: "P8",
            marks: &[0, 0],
            grants: vec![plain(0, 1, 254)],
            then: vec![reach(1, 2), grant(1, 2, 254, 0, 0), grant(1, 2, 253, 0, 0)],
        },
    ]
}

/// The counting case, downgraded to one weight.
pub fn counting(weight: u32) -> Example {
    let then = vec![revoke(0, 0, 2), downgrade(0, 2, 3, weight)];
    Example { name: "counting", marks: &COUNTING_MARKS, grants: COUNTING.to_vec(), then }
}

/// Those examples whose calls all belong to the kind.
pub fn cases(kind: &Kind) -> Vec<Case> {
    let mut cases = Vec::new();
    let mut examples = proved();
    examples.extend([0, 1, 5, 100, 253, 254].map(counting));
    for example in &examples {
        let calls = example.calls();
        let fits = calls.iter().all(|n| kind.calls.contains(&n.call));
        let new = calls.iter().any(|n| kind.added.contains(&n.call));
        if !fits || !new {
            continue;
        }
        cases.push(on(&encode(&Register::fresh()), open()));
        cases.extend(calls.into_iter().map(next));
    }
    cases
}
