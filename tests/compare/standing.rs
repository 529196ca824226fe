//! Grants for a pair that stands: some raise its weight, all others are refused.

use crate::contents::Asked;
use second::block::{decode, Delegation, Register, MOST_DELEGATIONS};
use second::refusal::{Call, Passed};
use second::search::reach_table;
use second::table::Table;

pub const PAIR_STANDS: u32 = 11;
pub const ALL_STAND: u32 = 12;
pub const OVERWEIGHT: u32 = 16;

/// What such a grant can return where no refusal before 11 applies.
pub const NUMBERS: [u32; 3] = [0, PAIR_STANDS, OVERWEIGHT];

/// A grant for a standing pair to which no refusal before 11 applies.
pub struct Standing {
    pub passed: Passed,
    pub table: Table,
    /// As it was before the call.
    pub register: Register,
    /// Where the pair's record is.
    pub place: usize,
}

/// What a call returned; and where it was accepted, the register that it left and its first answer.
pub struct Left {
    pub number: u32,
    pub register: Register,
    pub answer: i32,
}

impl Standing {
    /// From the block before the call and the number that is due, if the call is such a grant.
    pub fn of(asked: &Asked, table: &Table, block: &[u8], due: u32) -> Option<Standing> {
        let Asked::Call(passed) = asked else { return None };
        if !matches!(passed.call, Call::Grant | Call::GrantKind) || !NUMBERS.contains(&due) {
            return None;
        }
        let register = decode(block)?;
        let place = register.place(passed.giver, passed.receiver).ok()?;
        Some(Standing { passed: *passed, table: *table, register, place })
    }

    pub fn is_full(&self) -> bool {
        self.register.delegations.len() == MOST_DELEGATIONS
    }

    pub fn same_need(&self) -> bool {
        self.record().need as u32 == self.passed.need
    }

    pub fn same_bar(&self) -> bool {
        self.record().bar as u32 == self.passed.bar
    }

    pub fn same_condition(&self) -> bool {
        self.same_need() && self.same_bar()
    }

    pub fn same_kind(&self) -> bool {
        self.record().kind as u32 == self.passed.kind
    }

    /// How much heavier it is than what stands; below 0 where it is lighter.
    pub fn gain(&self) -> i64 {
        self.passed.weight as i64 - self.record().weight as i64
    }

    pub fn is_raise(&self) -> bool {
        self.same_condition() && self.same_kind() && self.gain() > 0
    }

    /// The pair's reach by a table.
    pub fn reach(&self, table: &Table) -> i64 {
        reach_table(table, &self.register, self.passed.giver, self.passed.receiver) as i64
    }

    /// Whether the reach allows the weight, by the table of the call.
    pub fn is_allowed(&self) -> bool {
        self.reach(&self.table) >= self.passed.weight as i64
    }

    pub fn is_accepted(&self) -> bool {
        self.is_raise() && self.is_allowed()
    }

    pub fn refused(&self, number: u32) -> Left {
        Left { number, register: self.register.clone(), answer: 0 }
    }

    /// Accepted, with the weight passed and all else as it stood.
    pub fn raised(&self) -> Left {
        let mut register = self.register.clone();
        register.delegations[self.place].weight = self.passed.weight as u8;
        let answer = register.delegations.len() as i32;
        Left { number: 0, register, answer }
    }

    /// What stands.
    pub fn record(&self) -> &Delegation {
        &self.register.delegations[self.place]
    }
}
