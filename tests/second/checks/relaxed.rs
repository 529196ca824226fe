//! A third search, for registers that are too large for the literal one: it
//! follows every link until no limit rises, over walks instead of chains.

use second::block::{Delegation, Register, MOST_SUBJECTS};
use second::chain::NONE;
use second::cut::all_rounds;
use second::engine::Engine;
use second::table::Table;

pub const RELAXED: Engine = Engine { reach, reaches, rounds: all_rounds };

/// The largest limit at every subject for this receiver.
pub fn limits(table: &Table, register: &Register, receiver: u32) -> [i16; MOST_SUBJECTS] {
    let marks = register.marks_of(receiver);
    let mut limits = [NONE; MOST_SUBJECTS];
    limits[0] = 255;
    while follow_all(table, &register.delegations, marks, &mut limits) {}
    limits
}

/// Follows every link once; answers if any limit rose.
fn follow_all(table: &Table, links: &[Delegation], marks: u16, limits: &mut [i16; MOST_SUBJECTS]) -> bool {
    let mut rose = false;
    for link in links {
        let lesser = limits[link.giver as usize].min(link.weight as i16);
        let next = if lesser == NONE { NONE } else { table.next[lesser as usize] };
        let met = link.need & !marks == 0 && link.bar & marks == 0;
        if met && next > limits[link.receiver as usize] {
            limits[link.receiver as usize] = next;
            rose = true;
        }
    }
    rose
}

fn reach(table: &Table, register: &Register, giver: u32, receiver: u32) -> i16 {
    limits(table, register, receiver).get(giver as usize).copied().unwrap_or(NONE)
}

fn reaches(table: &Table, register: &Register) -> Vec<i16> {
    let receivers = 0..register.marks.len() as u32;
    let of_receiver: Vec<_> = receivers.map(|receiver| limits(table, register, receiver)).collect();
    let of_pair = |d: &Delegation| of_receiver[d.receiver as usize][d.giver as usize];
    register.delegations.iter().map(of_pair).collect()
}
