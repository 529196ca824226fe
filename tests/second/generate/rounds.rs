//! A cut of 485 rounds on a register of accepted enrolments and grants alone.
//!
//! Subjects 1 to 11 and 12 to 22 are two sides. A walk of 230 links goes from
//! side to side and uses no pair twice. The owner gives to each subject under a
//! condition that its own side meets, so a receiver can start at every second
//! subject of the walk. The condition of a link is met by one subject only, the
//! receiver of the link after it: each link is on every chain of the next one
//! and on no other link's chains. Once the first is revoked, each round drops
//! one link, and round 229 the last.
//!
//! Two unlimited delegations, END to BACK and BACK to END, support each other.
//! With the last link gone, the chain of the second begins with a delegation of
//! weight 254. Round 230 lowers it to 252, and each later round lowers one of
//! the two to 1 less than the other. Rounds 483 and 484 drop them, and round
//! 485 changes nothing.

use super::*;
use second::block::encode;

const SIDE: usize = 11;
const LINKS: usize = 230;
const END: u8 = 23;
const BACK: u8 = 2;

/// These marks are the subject's number.
const NUMBER: u16 = 31;
const FIRST_SIDE: u16 = 32;
const SECOND_SIDE: u16 = 64;
/// The first side, and subject 12 so that the first link is supported.
const START: u16 = 128;
/// END and BACK.
const LAST: u16 = 256;

/// Revoking the first link.
pub const FIRST_CUT: Passed = Passed { giver: 1, receiver: 12, ..blank(Call::Revoke) };

/// Subject 12 loses the mark START, so that the first link has no chain: round 1 drops
/// it, and all else goes a round later than after the first cut.
pub const FIRST_MARKS: Passed =
    Passed { receiver: 12, need: 12 | SECOND_SIDE as u32, ..blank(Call::SetMarks) };

/// The marks of subjects 1 to 23.
pub fn marks() -> Vec<u16> {
    let mut marks: Vec<u16> = (1..=11).map(|subject| subject | FIRST_SIDE | START).collect();
    marks.extend((12..=23).map(|subject| subject | SECOND_SIDE));
    marks[walk(1) as usize - 1] |= START;
    marks[END as usize - 1] |= LAST;
    marks[BACK as usize - 1] |= LAST;
    marks
}

/// 256 grants in an order in which all are accepted.
pub fn grants() -> Vec<Grant> {
    let mut grants: Vec<Grant> = vec![(0, walk(0), 255, START, 0)];
    grants.extend((2..=11).map(|subject| (0, subject, 255, FIRST_SIDE, 0)));
    grants.extend((12..=22).map(|subject| (0, subject, 255, SECOND_SIDE, 0)));
    grants.push(met_by(END, (0, END, 254)));
    grants.extend((1..=LINKS).map(|place| met_by(walk(place + 1), (walk(place - 1), walk(place), 255))));
    grants.push((walk(LINKS), END, 255, LAST, 0));
    grants.push(met_by(END, (END, BACK, 255)));
    grants.push(met_by(BACK, (BACK, END, 255)));
    grants
}

/// The subject at a place of the walk; END follows the last link.
fn walk(place: usize) -> u8 {
    let turn = place / (2 * SIDE);
    let step = place / 2 % SIDE;
    match (place > LINKS, place % 2) {
        (true, _) => END,
        (false, 0) => 1 + step as u8,
        (false, _) => (1 + SIDE + (step + turn) % SIDE) as u8,
    }
}

/// A delegation whose condition only this subject meets.
fn met_by(subject: u8, (giver, receiver, weight): (u8, u8, u8)) -> Grant {
    (giver, receiver, weight, subject as u16, NUMBER & !(subject as u16))
}

/// Every enrolment and grant, from a fresh register.
pub fn calls() -> Vec<Passed> {
    let enrolments = marks().into_iter().map(|marks| enrol(marks as u32));
    enrolments.chain(grants().iter().map(grant_of)).collect()
}

/// The register after these calls.
pub fn built() -> Register {
    register(&[&[0], &marks()[..]].concat(), &grants())
}

pub fn cases() -> Vec<Case> {
    let block = encode(&built());
    let (end, back) = (END as u32, BACK as u32);
    vec![
        on(&block, FIRST_CUT),
        next(use_right(end)),
        on(&block, downgrade(0, 1, 12, 254)),
        on(&block, chain(back, end, 126)),
        next(reach(end, back)),
        next(downgrade(0, back, end, 254)),
    ]
}
