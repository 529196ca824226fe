//! The rounds of a cut and what they count.

use crate::block::Register;
use crate::chain::NONE;
use crate::engine::Engine;
use crate::table::Table;

/// What a cut answers.
#[derive(Clone, Copy, Debug, PartialEq, Eq)]
pub struct Counts {
    pub dropped: u32,
    pub lowered: u32,
    pub rounds: u32,
}

/// One round: every weight becomes the smaller of itself and the reach of its
/// pair, all from the register as the round began. Answers if any changed.
pub fn round(engine: &Engine, table: &Table, register: &mut Register) -> bool {
    let reaches = (engine.reaches)(table, register);
    let mut changed = false;
    let mut left = Vec::with_capacity(register.delegations.len());
    for (delegation, &reach) in register.delegations.iter().zip(&reaches) {
        let weight = reach.min(delegation.weight as i16);
        changed |= weight != delegation.weight as i16;
        if weight == NONE {
            continue;
        }
        let mut kept = *delegation;
        kept.weight = weight as u8;
        left.push(kept);
    }
    register.delegations = left;
    changed
}

/// Rounds up to the first that changes nothing, which counts.
pub fn all_rounds(engine: &Engine, table: &Table, register: &mut Register) -> u32 {
    let mut rounds = 1;
    while round(engine, table, register) {
        rounds += 1;
    }
    rounds
}

/// Carries out the rounds on a register after the named change.
pub fn settle(engine: &Engine, table: &Table, register: &mut Register) -> Counts {
    let begun = register.clone();
    let rounds = (engine.rounds)(engine, table, register);
    let mut counts = Counts { dropped: 0, lowered: 0, rounds };
    for before in &begun.delegations {
        match register.standing(before.giver as u32, before.receiver as u32) {
            None => counts.dropped += 1,
            Some(after) if after.weight < before.weight => counts.lowered += 1,
            Some(_) => {}
        }
    }
    counts
}
