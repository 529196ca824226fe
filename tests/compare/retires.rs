//! Wrong retirements, to see that the comparison finds them.

use crate::contents::Contents;
use crate::draw::List;
use crate::fault::{Fault, Wrong, NONE};
use crate::report::Part;
use crate::settling::*;
use second::block::{decode, Delegation, Register, BLOCK_LEN, RETIRED_AT};
use second::call::retire_subject;
use second::cut::{settle, Counts};
use second::engine::{Engine, FAST};
use second::refusal::{Passed, MALFORMED, RETIRED};
use second::table::Table;

pub const RETIRES: [Fault; 41] = [
    // What it gave has no chain without what it was given: the rounds drop that, and it is counted.
    wrong("only the delegations to the retired removed", ANSWERS, |lent, n| remade(lent, n, |r| {
        r.settled(&FAST, r.without(|r, d| d.receiver as u32 == r.subject))
    })),
    wrong("only the delegations from the retired removed", &[Part::Block, Part::Answers, Part::Listed], |lent, n| {
        remade(lent, n, |r| r.settled(&FAST, r.without(|r, d| d.giver as u32 == r.subject)))
    }),
    wrong("no delegation of the retired removed", &[Part::Block, Part::Answers, Part::Listed], |lent, n| {
        remade(lent, n, |r| r.settled(&FAST, r.without(|_, _| false)))
    }),
    wrong("what was given to the retired counted as dropped", ANSWERS, |lent, n| counted(lent, n, |r, d| {
        d.receiver as u32 == r.subject
    })),
    wrong("what the retired gave counted as dropped", ANSWERS, |lent, n| counted(lent, n, |r, d| {
        d.giver as u32 == r.subject
    })),
    wrong("all that is removed counted as dropped", ANSWERS, |lent, n| counted(lent, n, Retirement::names)),
    wrong("what the retired gave handed to the owner", LEFT, |lent, n| remade(lent, n, |r| {
        r.settled(&FAST, r.handed(0))
    })),
    wrong("what the retired gave handed to its first giver", LEFT, |lent, n| remade(lent, n, |r| {
        let first = r.before.delegations.iter().find(|d| d.receiver as u32 == r.subject);
        r.settled(&FAST, first.map_or(r.named(), |first| r.handed(first.giver)))
    })),
    wrong("the marks of the retired left", UNFORMED, |lent, n| remade(lent, n, |r| {
        let (mut register, counts) = r.settled(&FAST, r.named());
        register.marks[r.subject as usize] = r.before.marks[r.subject as usize];
        (register, counts)
    })),
    wrong("the marks of all cleared", LEFT, |lent, n| remade(lent, n, |r| {
        let marks = vec![0; r.before.marks.len()];
        r.settled(&FAST, Register { marks, ..r.named() })
    })),
    wrong("no bit set", BLOCK, |lent, n| with_bits(lent, n, |r| r.before.retired)),
    wrong("the bit from the highest on", UNFORMED, |lent, n| with_bits(lent, n, |r| r.before.retired | 1 << (r.subject ^ 7))),
    wrong("the bit in the bytes from the last on", UNFORMED, |lent, n| with_bits(lent, n, |r| {
        r.before.retired | 1 << (r.subject ^ 56)
    })),
    wrong("the bit of the subject after it", UNFORMED, |lent, n| with_bits(lent, n, |r| {
        r.before.retired | 1 << (r.subject + 1) % 64
    })),
    wrong("the bits of others cleared", BLOCK, |lent, n| with_bits(lent, n, |r| 1 << r.subject)),
    wrong("the bits from the 32nd on lost", BLOCK, |lent, n| with_bits(lent, n, |r| r.named().retired & 0xFFFF_FFFF)),
    wrong("a byte for each of the retired", UNFORMED, |lent, n| accepted(lent, n, |left| {
        left.block[RETIRED_AT + n.receiver as usize / 8] = 255;
    })),
    wrong("the last subject's enrolment taken away", BLOCK, |lent, n| remade(lent, n, |r| {
        let (mut register, counts) = r.settled(&FAST, r.named());
        if r.subject as usize == register.marks.len() - 1 {
            register.marks.pop();
            register.retired = r.before.retired;
        }
        (register, counts)
    })),
    wrong("retired without rounds", LEFT, |lent, n| remade(lent, n, |r| (r.named(), NOTHING))),
    wrong("retired with one round", LEFT, |lent, n| remade(lent, n, |r| r.settled(&ONE_ROUND, r.named()))),
    wrong("the rounds before the retirement", LEFT, |lent, n| remade(lent, n, |r| {
        let (mut register, counts) = r.settled(&FAST, r.before.clone());
        retire_subject(&mut register, r.subject);
        (register, counts)
    })),
    wrong("no rounds where it had no delegation", LEFT, |lent, n| remade(lent, n, |r| {
        if r.before.delegations.iter().any(|d| r.names(d)) { r.settled(&FAST, r.named()) } else { (r.named(), NOTHING) }
    })),
    wrong("our table in place of the lent one for a retirement", ACCEPTED, by_ours),
    wrong("retired again", ACCEPTED, |lent, n| match (right(lent, n), Retirement::of(lent, n)) {
        ((RETIRED, _), Some(r)) if n.by == 0 => put(lent, r.settled(&FAST, r.named())),
        (right, _) => right,
    }),
    wrong("anyone may retire", ACCEPTED, |lent, n| allowed(lent, n, |_, _| true)),
    wrong("the subject may retire itself", ACCEPTED, |lent, n| allowed(lent, n, |n, _| n.by == n.receiver)),
    wrong("a giver may retire its receiver", ACCEPTED, |lent, n| allowed(lent, n, |n, r| {
        r.before.standing(n.by, n.receiver).is_some()
    })),
    wrong("the owner retired", ACCEPTED, |lent, n| match (right(lent, n).0, Retirement::of(lent, n)) {
        (TO_OWNER, Some(r)) => put(lent, r.settled(&FAST, r.named())),
        _ => right(lent, n),
    }),
    wrong("6 and 14 of a retirement exchanged", NUMBER, exchanged),
    wrong("a retirement's 14 before 6", NUMBER, |lent, n| instead(lent, n, TO_OWNER, MAY_NOT, n.by != 0)),
    wrong("a retirement's 14 before 9", NUMBER, |lent, n| instead(lent, n, NOT_ENROLLED, MAY_NOT, n.by != 0)),
    wrong("a retirement's 14 before 19", NUMBER, |lent, n| instead(lent, n, RETIRED, MAY_NOT, n.by != 0)),
    wrong("the table's 7 before a retirement's 6", NUMBER, |lent, n| {
        instead(lent, n, TO_OWNER, MALFORMED, Table::read(&lent.table) == Err(MALFORMED))
    }),
    wrong("the retired cut down to 8 bits", ACCEPTED, |lent, n| right(lent, &Passed { receiver: n.receiver & 0xFF, ..*n })),
    wrong("who retires cut down to 8 bits", ACCEPTED, |lent, n| right(lent, &Passed { by: n.by & 0xFF, ..*n })),
    wrong("by and the retired exchanged", ACCEPTED, |lent, n| right(lent, &Passed { by: n.receiver, receiver: n.by, ..*n })),
    wrong("a retirement's last round not counted", ANSWERS, |lent, n| answered(lent, n, |counts| {
        Counts { rounds: counts.rounds - 1, ..counts }
    })),
    wrong("a retirement's dropped and lowered exchanged", ANSWERS, |lent, n| answered(lent, n, |counts| {
        Counts { dropped: counts.lowered, lowered: counts.dropped, ..counts }
    })),
    wrong("the block's last byte changed by a retirement", UNFORMED, |lent, n| accepted(lent, n, |left| {
        left.block[BLOCK_LEN - 1] ^= 1;
    })),
    wrong("the answers written where a retirement is refused", ANSWERS, always_answered),
    wrong("the bit set before 14 is judged", BLOCK, |lent, n| {
        let (number, mut left) = right(lent, n);
        if number == MAY_NOT {
            left.block[RETIRED_AT + n.receiver as usize / 8] |= 1 << (n.receiver % 8);
        }
        (number, left)
    }),
];

const fn wrong(name: &'static str, parts: &'static [Part], retire: Wrong) -> Fault {
    Fault { name, lists: List::on_retirements, parts, retire: Some(retire), ..NONE }
}

/// What is right, with another register left and other answers.
fn remade(lent: &Contents, n: &Passed, make: impl Fn(&Retirement) -> (Register, Counts)) -> Left {
    match (right(lent, n), Retirement::of(lent, n)) {
        ((0, _), Some(r)) => put(lent, make(&r)),
        (right, _) => right,
    }
}

/// The same, with other bits.
fn with_bits(lent: &Contents, n: &Passed, bits: impl Fn(&Retirement) -> u64) -> Left {
    remade(lent, n, |r| {
        let (register, counts) = r.settled(&FAST, r.named());
        (Register { retired: bits(r), ..register }, counts)
    })
}

/// The same, with other answers.
fn answered(lent: &Contents, n: &Passed, answer: impl Fn(Counts) -> Counts) -> Left {
    remade(lent, n, |r| {
        let (register, counts) = r.settled(&FAST, r.named());
        (register, answer(counts))
    })
}

/// The same, with some of what is removed counted as dropped.
fn counted(lent: &Contents, n: &Passed, counts_too: fn(&Retirement, &Delegation) -> bool) -> Left {
    remade(lent, n, |r| {
        let more = r.before.delegations.iter().filter(|d| counts_too(r, d)).count() as u32;
        let (register, counts) = r.settled(&FAST, r.named());
        (register, Counts { dropped: counts.dropped + more, ..counts })
    })
}

/// Accepted where 14 is due and this is so.
fn allowed(lent: &Contents, n: &Passed, may: fn(&Passed, &Retirement) -> bool) -> Left {
    match (right(lent, n), Retirement::of(lent, n)) {
        ((MAY_NOT, _), Some(r)) if may(n, &r) => right(lent, &Passed { by: 0, ..*n }),
        (right, _) => right,
    }
}

/// What a call is lent and passed, where the table passes, the block is well formed and the subject is enrolled.
struct Retirement {
    table: Table,
    before: Register,
    subject: u32,
}

impl Retirement {
    fn of(lent: &Contents, n: &Passed) -> Option<Retirement> {
        let (table, before) = (Table::read(&lent.table).ok()?, decode(&lent.block)?);
        before.enrolled(n.receiver).then_some(Retirement { table, before, subject: n.receiver })
    }

    fn names(&self, d: &Delegation) -> bool {
        d.giver as u32 == self.subject || d.receiver as u32 == self.subject
    }

    /// The register after the named change.
    fn named(&self) -> Register {
        let mut register = self.before.clone();
        retire_subject(&mut register, self.subject);
        register
    }

    /// The same with other delegations removed.
    fn without(&self, removes: fn(&Retirement, &Delegation) -> bool) -> Register {
        let kept = self.before.delegations.iter().filter(|d| !removes(self, d));
        Register { delegations: kept.copied().collect(), ..self.named() }
    }

    /// The same, with what the subject gave handed to another giver where no pair of its stands.
    fn handed(&self, giver: u8) -> Register {
        let mut register = self.named();
        for d in self.before.delegations.iter().filter(|d| d.giver as u32 == self.subject) {
            let place = register.place(giver as u32, d.receiver as u32);
            if let Some(at) = place.err().filter(|_| giver != d.receiver) {
                register.delegations.insert(at, Delegation { giver, ..*d });
            }
        }
        register
    }

    fn settled(&self, engine: &Engine, mut register: Register) -> (Register, Counts) {
        let counts = settle(engine, &self.table, &mut register);
        (register, counts)
    }
}
