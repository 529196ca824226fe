//! The tests. Checks are functions that answer a result, so that the tests of
//! the deliberate faults can ask for an error from the very same checks.

#![cfg(test)]

mod blocks;
mod callfiles;
mod calls;
mod cuts;
mod examples;
mod faults;
mod filecases;
mod files;
mod generated;
mod hosts;
mod lentcases;
mod listfiles;
mod markcases;
mod markfaults;
mod marks;
mod oldblocks;
mod oldfiles;
mod ordercases;
mod orders;
mod pairs;
mod passcases;
mod passes;
mod passfaults;
mod passfilefaults;
mod raisecases;
mod raises;
mod relaxed;
mod retirecases;
mod retirefaults;
mod retirerefusals;
mod retires;
mod searches;
mod slipcases;
mod slipfaults;
mod slips;
mod tables;

use second::random::Random;
use second::table::{Table, OURS};

/// Draws the step table that a check is made under.
type Draw = fn(&mut Random) -> Table;

fn ours(_: &mut Random) -> Table {
    OURS
}

/// What a call is lent for a table: for ours nothing.
fn lent(table: &Table) -> Vec<u8> {
    if *table == OURS { Vec::new() } else { table.text() }
}

/// An error that says what was compared.
fn same<T: PartialEq + std::fmt::Debug>(what: &str, found: T, due: T) -> Result<(), String> {
    if found == due {
        return Ok(());
    }
    Err(format!("{what}: {found:?}, due {due:?}"))
}
