//! Support chains as document 01 defines them: conditions, limits, and the
//! literal search that lists every chain of a pair.

use crate::block::{Delegation, Register};
use crate::table::Table;

/// The sign for no reach.
pub const NONE: i16 = -1;
/// The limit every chain starts with.
pub const START: i16 = 255;

/// Marks include all of need and none of bar.
pub fn meets(marks: u16, delegation: &Delegation) -> bool {
    marks & delegation.need == delegation.need && marks & delegation.bar == 0
}

/// The limit that a list of delegations carries, or -1 once it becomes -1.
pub fn limit_of(table: &Table, links: &[Delegation]) -> i16 {
    let mut limit = START;
    for link in links {
        limit = table.step(limit, link.weight);
        if limit == NONE {
            return NONE;
        }
    }
    limit
}

/// Every chain for the pair. Meant for small registers.
pub fn all_chains(table: &Table, register: &Register, giver: u32, receiver: u32) -> Vec<Vec<Delegation>> {
    let mut found = Vec::new();
    let goal = Goal { table, register, giver, marks: register.marks_of(receiver) };
    extend(&goal, &mut Vec::new(), &mut found);
    found
}

/// The largest limit over all chains of the pair, or -1.
pub fn literal_reach(table: &Table, register: &Register, giver: u32, receiver: u32) -> i16 {
    let chains = all_chains(table, register, giver, receiver);
    chains.iter().map(|links| limit_of(table, links)).max().unwrap_or(NONE)
}

struct Goal<'a> {
    table: &'a Table,
    register: &'a Register,
    giver: u32,
    marks: u16,
}

/// Adds every chain that begins with `links`. No subject occurs twice, so a
/// list that has come to the giver is not continued.
fn extend(goal: &Goal, links: &mut Vec<Delegation>, found: &mut Vec<Vec<Delegation>>) {
    let end = links.last().map_or(0, |link| link.receiver);
    if end as u32 == goal.giver {
        found.push(links.clone());
        return;
    }
    for link in &goal.register.delegations {
        if link.giver != end || !meets(goal.marks, link) || occurs(links, link.receiver) {
            continue;
        }
        links.push(*link);
        if limit_of(goal.table, links) != NONE {
            extend(goal, links, found);
        }
        links.pop();
    }
}

/// The owner occurs in every list, the others as receivers of a link.
fn occurs(links: &[Delegation], subject: u8) -> bool {
    subject == 0 || links.iter().any(|link| link.receiver == subject)
}
