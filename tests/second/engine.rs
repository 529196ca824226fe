//! The parts of the calls that tests exchange: the reach and the rounds, each
//! under a step table.

use crate::block::{Delegation, Register};
use crate::table::Table;
use crate::{chain, cut, search};

pub struct Engine {
    /// The reach of a pair (giver, receiver).
    pub reach: fn(&Table, &Register, u32, u32) -> i16,
    /// The reach of every standing pair, in the order of the records.
    pub reaches: fn(&Table, &Register) -> Vec<i16>,
    /// Carries out the rounds of a cut and answers how many there were.
    pub rounds: fn(&Engine, &Table, &mut Register) -> u32,
}

/// The implementation: the fast search and all rounds.
pub const FAST: Engine = Engine { reach: search::reach_table, reaches: search::reaches, rounds: cut::all_rounds };

/// The definition: every chain is listed. For small registers only.
pub const LITERAL: Engine =
    Engine { reach: chain::literal_reach, reaches: literal_reaches, rounds: cut::all_rounds };

fn literal_reaches(table: &Table, register: &Register) -> Vec<i16> {
    let of_pair = |d: &Delegation| chain::literal_reach(table, register, d.giver as u32, d.receiver as u32);
    register.delegations.iter().map(of_pair).collect()
}
