//! A small generator of numbers with a fixed sequence, random registers and
//! random step tables.

use crate::block::{Delegation, Register, ORDINARY};
use crate::chain::NONE;
use crate::table::{Table, WEIGHTS};

/// The generator known as splitmix64.
pub struct Random {
    state: u64,
}

impl Random {
    pub fn new(seed: u64) -> Random {
        Random { state: seed }
    }

    pub fn next(&mut self) -> u64 {
        self.state = self.state.wrapping_add(0x9E37_79B9_7F4A_7C15);
        let mut z = self.state;
        z = (z ^ (z >> 30)).wrapping_mul(0xBF58_476D_1CE4_E5B9);
        z = (z ^ (z >> 27)).wrapping_mul(0x94D0_49BB_1331_11EB);
        z ^ (z >> 31)
    }

    /// A number from 0 to `bound` - 1; the bound is not 0.
    pub fn below(&mut self, bound: u32) -> u32 {
        ((self.next() >> 32) * bound as u64 >> 32) as u32
    }

    /// A number from `least` to `most`.
    pub fn range(&mut self, least: u32, most: u32) -> u32 {
        least + self.below(most - least + 1)
    }

    /// True in `percent` of 100 cases.
    pub fn chance(&mut self, percent: u32) -> bool {
        self.below(100) < percent
    }

    pub fn pick<T: Copy>(&mut self, of: &[T]) -> T {
        of[self.below(of.len() as u32) as usize]
    }
}

/// What random registers are made of.
pub struct Shape<'a> {
    pub subjects: u32,
    pub delegations: u32,
    pub weights: &'a [u8],
    /// Marks and masks are made of these bits.
    pub marks: u16,
    /// How many of 100 delegations have a condition.
    pub conditions: u32,
}

/// A well-formed register, supported or not, of at most the named size.
pub fn random_register(random: &mut Random, shape: &Shape) -> Register {
    let mut marks = vec![0];
    for _ in 1..shape.subjects {
        marks.push(random.next() as u16 & shape.marks);
    }
    let mut register = Register { marks, retired: 0, delegations: Vec::new() };
    for _ in 0..shape.delegations {
        let new = random_delegation(random, shape);
        if new.giver == new.receiver {
            continue;
        }
        if let Err(at) = register.place(new.giver as u32, new.receiver as u32) {
            register.delegations.insert(at, new);
        }
    }
    register
}

fn random_delegation(random: &mut Random, shape: &Shape) -> Delegation {
    let (need, bar) = if random.chance(shape.conditions) { random_masks(random, shape.marks) } else { (0, 0) };
    Delegation {
        giver: random.below(shape.subjects) as u8,
        receiver: random.range(1, shape.subjects - 1) as u8,
        weight: random.pick(shape.weights),
        kind: ORDINARY,
        need,
        bar,
    }
}

/// Two masks that share no mark, with few bits each.
pub fn random_masks(random: &mut Random, marks: u16) -> (u16, u16) {
    let need = random.next() as u16 & random.next() as u16 & marks;
    let bar = random.next() as u16 & random.next() as u16 & marks & !need;
    (need, bar)
}

/// A step table that passes: many fall by little, some keep one next for long,
/// some are -1 nearly everywhere, and 255 often stays.
pub fn random_table(random: &mut Random) -> Table {
    let rising = random.pick(&[100, 100, 90, 50, 10, 1]);
    let least_fall = random.pick(&[1, 1, 1, 2, 3, 40]);
    let more = random.pick(&[1, 2, 2, 3, 20, 256]);
    let mut next = [NONE; WEIGHTS];
    for weight in 1..WEIGHTS {
        let before = next[weight - 1];
        let fall = least_fall + random.below(more) as i16;
        next[weight] = if random.chance(rising) { before.max(weight as i16 - fall) } else { before };
    }
    if random.chance(60) {
        next[255] = 255;
    }
    Table { next }
}
