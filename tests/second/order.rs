//! The order of document 02's C-14: for one receiver, precisely the subjects whose
//! reach for it is not -1, the receiver included, each with that reach.

use crate::block::{Delegation, Register};
use crate::chain::{meets, NONE, START};
use crate::table::Table;
use std::cmp::Reverse;
use std::collections::BinaryHeap;

/// The reach of a pair (giver, receiver) under a table.
pub type Reach = fn(&Table, &Register, u32, u32) -> i16;

/// The reach of every enrolled subject for one receiver, and the receiver's marks.
struct Limits<'a> {
    table: &'a Table,
    register: &'a Register,
    marks: u16,
    at: Vec<i16>,
}

/// Subjects and their limits in the order of C-14's sentence, step by step: the owner
/// first, then always the heaviest unwritten one whose limit comes by one delegation
/// from a subject already written, ties by lower number.
pub fn order(table: &Table, register: &Register, receiver: u32, reach: Reach) -> Vec<(u8, u8)> {
    let subjects = 0..register.marks.len() as u32;
    let at: Vec<i16> = subjects.map(|subject| reach(table, register, subject, receiver)).collect();
    let limits = Limits { table, register, marks: register.marks_of(receiver), at };
    let mut written = vec![0];
    while let Some(subject) = limits.next(&written) {
        written.push(subject);
    }
    written.into_iter().map(|subject| (subject, limits.of(subject) as u8)).collect()
}

impl Limits<'_> {
    fn of(&self, subject: u8) -> i16 {
        self.at[subject as usize]
    }

    /// The heaviest subject that may be written next, ties by lower number.
    fn next(&self, written: &[u8]) -> Option<u8> {
        let unwritten = (0..self.at.len() as u8).filter(|subject| !written.contains(subject));
        let coming = unwritten.filter(|&subject| self.of(subject) != NONE && self.comes(subject, written));
        coming.max_by_key(|&subject| (self.of(subject), Reverse(subject)))
    }

    /// Some standing delegation from a subject already written, whose condition the
    /// receiver meets, takes that subject's limit to just this one's.
    fn comes(&self, subject: u8, written: &[u8]) -> bool {
        let takes = |d: &Delegation| self.table.step(self.of(d.giver), d.weight) == self.of(subject);
        let mut to_it = self.register.delegations.iter().filter(|d| d.receiver == subject && meets(self.marks, d));
        to_it.any(|d| written.contains(&d.giver) && takes(d))
    }
}

/// The same by a search: subjects wait with the limits that they were reached with,
/// the heaviest is taken out, ties by lower number, and its delegations are followed.
pub fn popped(table: &Table, register: &Register, receiver: u32) -> Vec<(u8, u8)> {
    let marks = register.marks_of(receiver);
    let mut waiting = BinaryHeap::from([(START, Reverse(0))]);
    let mut order: Vec<(u8, u8)> = Vec::new();
    while let Some((limit, Reverse(subject))) = waiting.pop() {
        if order.iter().any(|&(taken, _)| taken == subject) {
            continue;
        }
        order.push((subject, limit as u8));
        let links = register.delegations.iter().filter(|d| d.giver == subject && meets(marks, d));
        let reached = links.map(|d| (table.step(limit, d.weight), Reverse(d.receiver)));
        waiting.extend(reached.filter(|&(limit, _)| limit != NONE));
    }
    order
}
