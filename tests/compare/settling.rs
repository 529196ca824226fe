//! What wrong calls that are followed by rounds are made of.

use crate::contents::{Asked, Contents};
use crate::report::Part;
use second::block::{encode, Register};
use second::cut::{round, Counts};
use second::engine::{Engine, FAST};
use second::refusal::Passed;
use second::table::Table;

/// The number that a call returns, and the buffers as it leaves them.
pub type Left = (u32, Contents);

/// What differs where one side accepts and the other refuses.
pub const ACCEPTED: &[Part] = &[Part::Number, Part::Block, Part::Answers];
pub const LEFT: &[Part] = &[Part::Block, Part::Answers];
/// What differs where the block that is left is not well formed.
pub const UNFORMED: &[Part] = &[Part::Block, Part::Listed];
pub const BLOCK: &[Part] = &[Part::Block];
pub const ANSWERS: &[Part] = &[Part::Answers];
pub const NUMBER: &[Part] = &[Part::Number];

pub const TO_OWNER: u32 = 6;
pub const NOT_ENROLLED: u32 = 9;
pub const MAY_NOT: u32 = 14;

/// What is answered where the rounds change nothing.
pub const NOTHING: Counts = Counts { dropped: 0, lowered: 0, rounds: 1 };

/// Stops after the first round.
pub const ONE_ROUND: Engine = Engine { rounds: one_round, ..FAST };

fn one_round(engine: &Engine, table: &Table, register: &mut Register) -> u32 {
    round(engine, table, register);
    1
}

/// What the second implementation returns and leaves.
pub fn right(lent: &Contents, n: &Passed) -> Left {
    lent.right(&Asked::Call(*n))
}

/// The same, changed where it is accepted.
pub fn accepted(lent: &Contents, n: &Passed, change: impl Fn(&mut Contents)) -> Left {
    lent.accepted(&Asked::Call(*n), change)
}

/// The same by our table, whichever is lent.
pub fn by_ours(lent: &Contents, n: &Passed) -> Left {
    let (number, left) = right(&Contents { table: Vec::new(), ..lent.clone() }, n);
    (number, Contents { table: lent.table.clone(), ..left })
}

/// The same, with the answers written where it is refused.
pub fn always_answered(lent: &Contents, n: &Passed) -> Left {
    let (number, mut left) = right(lent, n);
    if number != 0 {
        left.answers.fill(0);
    }
    (number, left)
}

/// Another number where this one is due and this is so; nothing is changed then.
pub fn instead(lent: &Contents, n: &Passed, due: u32, number: u32, is: bool) -> Left {
    match right(lent, n) {
        (returned, left) if returned == due && is => (number, left),
        right => right,
    }
}

/// 6 where 14 is due, and 14 where 6 is.
pub fn exchanged(lent: &Contents, n: &Passed) -> Left {
    match right(lent, n) {
        (TO_OWNER, left) => (MAY_NOT, left),
        (MAY_NOT, left) => (TO_OWNER, left),
        right => right,
    }
}

/// Accepted, with this register and these answers.
pub fn put(lent: &Contents, (register, counts): (Register, Counts)) -> Left {
    let mut left = Contents { block: encode(&register), ..lent.clone() };
    left.set_answers([counts.dropped, counts.lowered, counts.rounds].map(|count| count as i32));
    (0, left)
}

/// The subject after this one that isn't retired, or this one if there is none; the owner is left out.
pub fn next_subject(register: &Register, subject: u32) -> u32 {
    let others = register.marks.len() as u32 - 1;
    let mut after = (0..others).map(|ahead| (subject + ahead) % others + 1);
    after.find(|&other| !register.is_retired(other)).unwrap_or(subject)
}
