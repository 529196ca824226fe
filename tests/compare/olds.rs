//! Random blocks as they were stored before there were retired subjects: well
//! formed, with some bytes changed, and of other lengths.

use crate::draw::{any_bytes, any_register, spoiled};
use second::block::{encode, Register, MOST_DELEGATIONS, MOST_SUBJECTS, RECORDS_AT, RETIRED_AT};
use second::random::{Random, Shape};

const NEAR_LENGTHS: [usize; 12] = [0, 1, 4, 132, 140, 2172, 2179, 2179, 2181, 2181, 2188, 4360];

/// What a list's old blocks are made of beside its own register.
pub struct Olds<'a> {
    pub register: &'a Register,
    pub weights: &'a [u8],
    pub marks: u16,
    pub conditions: u32,
}

impl Olds<'_> {
    /// What is brought over.
    pub fn next(&self, random: &mut Random) -> Vec<u8> {
        let block = encode(&self.register(random));
        match random.below(20) {
            0..=9 => old_layout(&block),
            10..=14 => old_layout(&spoiled(random, &block)),
            15 => block,
            16 => old_layout(&any_bytes(random)),
            _ => {
                let mut old = old_layout(&block);
                old.resize(random.pick(&NEAR_LENGTHS), 0);
                old
            }
        }
    }

    /// Without the retired: the list's own, another one, or a full one.
    fn register(&self, random: &mut Random) -> Register {
        match random.below(10) {
            0..=4 => Register { retired: 0, ..self.register.clone() },
            5..=8 => {
                let subjects = random.pick(&[2, 3, 5, 8, 13, 64]);
                self.of_size(random, subjects, subjects * 3)
            }
            _ => self.of_size(random, MOST_SUBJECTS as u32, 1000),
        }
    }

    fn of_size(&self, random: &mut Random, subjects: u32, delegations: u32) -> Register {
        let Olds { weights, marks, conditions, .. } = *self;
        let mut register = any_register(random, &Shape { subjects, delegations, weights, marks, conditions });
        register.delegations.truncate(MOST_DELEGATIONS);
        register
    }
}

/// A block as it was laid out before: without the bits of the retired.
pub fn old_layout(block: &[u8]) -> Vec<u8> {
    [&block[..RETIRED_AT], &block[RECORDS_AT..]].concat()
}

/// An old block in the new layout, well formed or not.
pub fn new_layout(old: &[u8]) -> Vec<u8> {
    [&old[..RETIRED_AT], &[0; RECORDS_AT - RETIRED_AT], &old[RETIRED_AT..]].concat()
}
