//! The fast search: the largest limit at every subject for one receiver,
//! heaviest first, over the runs of each giver's records.

use crate::block::{Delegation, Register, MOST_SUBJECTS};
use crate::chain::{meets, NONE, START};
use crate::table::{Table, OURS};

pub struct Search<'a> {
    table: &'a Table,
    register: &'a Register,
    /// Giver g's records are those from `runs[g]` up to `runs[g + 1]`.
    runs: [usize; MOST_SUBJECTS + 1],
}

/// The limits at every subject, and the record by which each was entered.
pub struct Limits {
    pub at: [i16; MOST_SUBJECTS],
    entered_by: [u16; MOST_SUBJECTS],
}

impl<'a> Search<'a> {
    pub fn new(table: &'a Table, register: &'a Register) -> Search<'a> {
        let mut runs = [0; MOST_SUBJECTS + 1];
        for delegation in &register.delegations {
            runs[delegation.giver as usize + 1] += 1;
        }
        for giver in 0..MOST_SUBJECTS {
            runs[giver + 1] += runs[giver];
        }
        Search { table, register, runs }
    }

    /// A limit never rises along a link, so the heaviest subject that is still
    /// open has its final limit.
    pub fn limits(&self, receiver: u32) -> Limits {
        let marks = self.register.marks_of(receiver);
        let mut limits = Limits { at: [NONE; MOST_SUBJECTS], entered_by: [0; MOST_SUBJECTS] };
        limits.at[0] = START;
        let mut open: u64 = 1;
        let mut done: u64 = 0;
        while let Some(subject) = heaviest(open, &limits.at) {
            open &= !(1 << subject);
            done |= 1 << subject;
            open |= self.follow(subject, marks, &mut limits) & !done;
        }
        limits
    }

    /// Follows a giver's run; answers the subjects that became heavier.
    fn follow(&self, giver: usize, marks: u16, limits: &mut Limits) -> u64 {
        let mut raised = 0;
        for record in self.runs[giver]..self.runs[giver + 1] {
            let link = &self.register.delegations[record];
            let next = self.table.step(limits.at[giver], link.weight);
            let receiver = link.receiver as usize;
            if next > limits.at[receiver] && meets(marks, link) {
                limits.at[receiver] = next;
                limits.entered_by[receiver] = record as u16;
                raised |= 1 << receiver;
            }
        }
        raised
    }

    /// A chain of the largest limit, owner's end first, if there is a chain.
    pub fn chain(&self, giver: u32, receiver: u32) -> Option<Vec<Delegation>> {
        let limits = self.limits(receiver);
        if limits.reach(giver) == NONE {
            return None;
        }
        let mut links = Vec::new();
        let mut subject = giver as usize;
        while subject != 0 {
            let link = self.register.delegations[limits.entered_by[subject] as usize];
            links.push(link);
            subject = link.giver as usize;
        }
        links.reverse();
        Some(links)
    }
}

impl Limits {
    /// The reach of the pair with this giver.
    pub fn reach(&self, giver: u32) -> i16 {
        self.at.get(giver as usize).copied().unwrap_or(NONE)
    }
}

/// The subject of the largest limit among the open ones.
fn heaviest(open: u64, limits: &[i16; MOST_SUBJECTS]) -> Option<usize> {
    let mut rest = open;
    let mut best = None;
    let mut best_limit = NONE;
    while rest != 0 {
        let subject = rest.trailing_zeros() as usize;
        rest &= rest - 1;
        if limits[subject] > best_limit {
            best_limit = limits[subject];
            best = Some(subject);
        }
    }
    best
}

/// The reach of one pair under our table.
pub fn reach(register: &Register, giver: u32, receiver: u32) -> i16 {
    reach_table(&OURS, register, giver, receiver)
}

/// The reach of one pair.
pub fn reach_table(table: &Table, register: &Register, giver: u32, receiver: u32) -> i16 {
    Search::new(table, register).limits(receiver).reach(giver)
}

/// The reach of every standing pair, in the order of the records.
pub fn reaches(table: &Table, register: &Register) -> Vec<i16> {
    let search = Search::new(table, register);
    let mut of_receiver: Vec<Option<Limits>> = (0..MOST_SUBJECTS).map(|_| None).collect();
    let mut answers = Vec::with_capacity(register.delegations.len());
    for d in &register.delegations {
        let limits = of_receiver[d.receiver as usize].get_or_insert_with(|| search.limits(d.receiver as u32));
        answers.push(limits.reach(d.giver as u32));
    }
    answers
}
