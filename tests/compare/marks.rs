//! Wrong settings of marks, to see that the comparison finds them.

use crate::contents::Contents;
use crate::draw::List;
use crate::fault::{Fault, Wrong, NONE};
use crate::report::Part;
use crate::settling::*;
use second::block::{decode, set_word, Delegation, Register, BLOCK_LEN, MARKS_AT};
use second::chain::meets;
use second::cut::{settle, Counts};
use second::engine::{Engine, FAST};
use second::refusal::{Passed, MALFORMED};
use second::search::reach_table;
use second::table::Table;

const NO_MARKS: u32 = 4;
const NOT_BELOW: u32 = 15;

pub const MARKS: [Fault; 36] = [
    wrong("the marks of another subject", LEFT, |lent, n| remade(lent, n, |s| {
        s.settled(&FAST, s.with(next_subject(&s.before, s.subject as u32) as usize, s.marks))
    })),
    wrong("marks set without rounds", LEFT, |lent, n| remade(lent, n, |s| (s.named(), NOTHING))),
    wrong("marks set with one round", LEFT, |lent, n| remade(lent, n, |s| s.settled(&ONE_ROUND, s.named()))),
    wrong("the old marks judged", LEFT, |lent, n| remade(lent, n, |s| {
        let (left, counts) = s.settled(&FAST, s.before.clone());
        (Register { marks: s.named().marks, ..left }, counts)
    })),
    wrong("no rounds where the marks stand", LEFT, |lent, n| remade(lent, n, |s| {
        if s.named() == s.before { (s.named(), NOTHING) } else { s.settled(&FAST, s.named()) }
    })),
    wrong("15 where the marks stand", ACCEPTED, |lent, n| match Setting::of(lent, n) {
        Some(s) if right(lent, n).0 == 0 && s.named() == s.before => (NOT_BELOW, lent.clone()),
        _ => right(lent, n),
    }),
    wrong("marks or-ed", LEFT, |lent, n| merged(lent, n, |old, new| old | new)),
    wrong("marks and-ed", LEFT, |lent, n| merged(lent, n, |old, new| old & new)),
    wrong("marks taken as those that change", LEFT, |lent, n| merged(lent, n, |old, new| old ^ new)),
    wrong("only what is given to the subject changed", BLOCK, |lent, n| remade(lent, n, |s| {
        let (settled, counts) = s.settled(&FAST, s.named());
        (s.of_others(&s.named(), &settled), counts)
    })),
    wrong("what is given to the subject left as it was", BLOCK, |lent, n| remade(lent, n, |s| {
        let (settled, counts) = s.settled(&FAST, s.named());
        (s.of_others(&settled, &s.named()), counts)
    })),
    wrong("what may be heavier now lifted", BLOCK, |lent, n| remade(lent, n, |s| {
        let (settled, counts) = s.settled(&FAST, s.named());
        (s.lifted(&settled), counts)
    })),
    wrong("all that is given to the subject dropped", LEFT, |lent, n| without(lent, n, |s, d| {
        d.receiver as usize == s.subject && s.named() != s.before
    })),
    wrong("the subject bound by what is given to it", LEFT, |lent, n| without(lent, n, |s, d| {
        d.receiver as usize == s.subject && !meets(s.marks, d)
    })),
    wrong("the subject bound by what it gave", LEFT, |lent, n| without(lent, n, |s, d| {
        d.giver as usize == s.subject && !meets(s.marks, d)
    })),
    wrong("our table in place of the lent one for marks", ACCEPTED, by_ours),
    wrong("by not tested", ACCEPTED, |lent, n| allowed(lent, n, |_, _| true)),
    wrong("the subject lets itself", ACCEPTED, |lent, n| allowed(lent, n, |n, _| n.by == n.receiver)),
    wrong("a giver lets its receiver", ACCEPTED, |lent, n| allowed(lent, n, |n, s| {
        s.before.standing(n.by, n.receiver).is_some()
    })),
    wrong("the owner's own marks set", ACCEPTED, |lent, n| match (right(lent, n).0, Setting::of(lent, n)) {
        (TO_OWNER, Some(s)) => put(lent, (s.named(), NOTHING)),
        _ => right(lent, n),
    }),
    wrong("6 and 14 exchanged", NUMBER, exchanged),
    wrong("14 before 6", NUMBER, |lent, n| instead(lent, n, TO_OWNER, MAY_NOT, n.by != 0)),
    wrong("14 before 9", NUMBER, |lent, n| instead(lent, n, NOT_ENROLLED, MAY_NOT, n.by != 0)),
    wrong("6 before 4", NUMBER, |lent, n| instead(lent, n, NO_MARKS, TO_OWNER, n.receiver == 0)),
    wrong("the table's 7 before 6", NUMBER, |lent, n| {
        instead(lent, n, TO_OWNER, MALFORMED, Table::read(&lent.table) == Err(MALFORMED))
    }),
    wrong("marks cut down to 16 bits", ACCEPTED, |lent, n| right(lent, &Passed { need: n.need & 0xFFFF, ..*n })),
    wrong("the subject cut down to 8 bits", ACCEPTED, |lent, n| right(lent, &Passed { receiver: n.receiver & 0xFF, ..*n })),
    wrong("by cut down to 8 bits", ACCEPTED, |lent, n| right(lent, &Passed { by: n.by & 0xFF, ..*n })),
    wrong("by and the subject exchanged", ACCEPTED, |lent, n| right(lent, &Passed { by: n.receiver, receiver: n.by, ..*n })),
    wrong("the answers of the register before", ANSWERS, |lent, n| answered(lent, n, |s, _| {
        s.settled(&FAST, s.before.clone()).1
    })),
    wrong("the last round of marks not counted", ANSWERS, |lent, n| answered(lent, n, |_, counts| {
        Counts { rounds: counts.rounds - 1, ..counts }
    })),
    wrong("dropped and lowered exchanged", ANSWERS, |lent, n| answered(lent, n, |_, counts| {
        Counts { dropped: counts.lowered, lowered: counts.dropped, ..counts }
    })),
    wrong("the high byte of marks lost", BLOCK, |lent, n| accepted(lent, n, |left| {
        left.block[MARKS_AT + 2 * n.receiver as usize + 1] = 0;
    })),
    wrong("the block's last byte changed with the marks", UNFORMED, |lent, n| accepted(lent, n, |left| {
        left.block[BLOCK_LEN - 1] ^= 1;
    })),
    wrong("the answers written where marks are refused", ANSWERS, always_answered),
    wrong("the marks set before 14 is judged", BLOCK, |lent, n| {
        let (number, mut left) = right(lent, n);
        if number == MAY_NOT {
            set_word(&mut left.block, MARKS_AT + 2 * n.receiver as usize, n.need as u16);
        }
        (number, left)
    }),
];

const fn wrong(name: &'static str, parts: &'static [Part], set_marks: Wrong) -> Fault {
    Fault { name, lists: List::on_marks, parts, set_marks: Some(set_marks), ..NONE }
}

/// What is right, with another register left and other answers.
fn remade(lent: &Contents, n: &Passed, make: impl Fn(&Setting) -> (Register, Counts)) -> Left {
    match (right(lent, n), Setting::of(lent, n)) {
        ((0, _), Some(s)) => put(lent, make(&s)),
        (right, _) => right,
    }
}

/// The same, with other marks made of the old ones and the new.
fn merged(lent: &Contents, n: &Passed, merge: fn(u16, u16) -> u16) -> Left {
    remade(lent, n, |s| s.settled(&FAST, s.with(s.subject, merge(s.before.marks[s.subject], s.marks))))
}

/// The same, with some delegations dropped before the rounds.
fn without(lent: &Contents, n: &Passed, drops: fn(&Setting, &Delegation) -> bool) -> Left {
    remade(lent, n, |s| {
        let mut register = s.named();
        register.delegations.retain(|d| !drops(s, d));
        let dropped = (s.before.delegations.len() - register.delegations.len()) as u32;
        let (settled, counts) = s.settled(&FAST, register);
        (settled, Counts { dropped: counts.dropped + dropped, ..counts })
    })
}

/// The same, with other answers.
fn answered(lent: &Contents, n: &Passed, answer: impl Fn(&Setting, Counts) -> Counts) -> Left {
    remade(lent, n, |s| {
        let (register, counts) = s.settled(&FAST, s.named());
        (register, answer(s, counts))
    })
}

/// Accepted where 14 is due and this is so.
fn allowed(lent: &Contents, n: &Passed, may: fn(&Passed, &Setting) -> bool) -> Left {
    match (right(lent, n), Setting::of(lent, n)) {
        ((MAY_NOT, _), Some(s)) if may(n, &s) => right(lent, &Passed { by: 0, ..*n }),
        (right, _) => right,
    }
}

/// What a call is lent and passed, where the table passes, the block is well formed and the subject is enrolled.
struct Setting {
    table: Table,
    before: Register,
    subject: usize,
    marks: u16,
}

impl Setting {
    fn of(lent: &Contents, n: &Passed) -> Option<Setting> {
        let (table, before) = (Table::read(&lent.table).ok()?, decode(&lent.block)?);
        let (subject, marks) = (n.receiver as usize, n.need as u16);
        before.enrolled(n.receiver).then_some(Setting { table, before, subject, marks })
    }

    /// The register before with other marks of a subject.
    fn with(&self, subject: usize, marks: u16) -> Register {
        let mut register = self.before.clone();
        register.marks[subject] = marks;
        register
    }

    /// The register after the named change.
    fn named(&self) -> Register {
        self.with(self.subject, self.marks)
    }

    fn settled(&self, engine: &Engine, mut register: Register) -> (Register, Counts) {
        let counts = settle(engine, &self.table, &mut register);
        (register, counts)
    }

    /// The one register's delegations to others, and the other's to the subject.
    fn of_others(&self, others: &Register, own: &Register) -> Register {
        let is_own = |d: &&Delegation| d.receiver as usize == self.subject;
        let mut delegations: Vec<Delegation> = others.delegations.iter().filter(|d| !is_own(d)).copied().collect();
        delegations.extend(own.delegations.iter().filter(is_own));
        delegations.sort_by_key(Delegation::pair);
        Register { delegations, ..self.named() }
    }

    /// Each delegation to the subject gets what it can have.
    fn lifted(&self, register: &Register) -> Register {
        let mut lifted = register.clone();
        for d in lifted.delegations.iter_mut().filter(|d| d.receiver as usize == self.subject) {
            let reach = reach_table(&self.table, register, d.giver as u32, d.receiver as u32);
            d.weight = reach.max(d.weight as i16) as u8;
        }
        lifted
    }
}
