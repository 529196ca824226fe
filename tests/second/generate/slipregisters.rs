//! Registers in which cuts are taken back, and cases that follow one another.

use super::*;
use second::block::{encode, ORDINARY};
use second::engine::FAST;
use second::lentcase::{Asked, Bytes, LentCase};
use second::slip::{slip_of, SLIP_LEN};

/// P2's register.
pub fn example() -> Register {
    let named = examples::proved().into_iter().find(|example| example.name == "P2");
    named.expect("an example").built()
}

/// The cut of the example: 3-4 falls to 1 with it.
pub const EXAMPLE_CUT: Passed = Passed { by: 1, giver: 1, receiver: 3, weight: 1, ..blank(Call::Downgrade) };

/// The registers of which every delegation is cut: supported ones and others, some with a
/// subject that has retired.
pub fn small() -> Vec<Register> {
    let proved = examples::proved().into_iter().filter(|example| ["P1", "P2", "P5"].contains(&example.name));
    let others = [markregisters::round_by_round(), markregisters::givers(), retireregisters::each_way()];
    let unsupported = [refusals::unsupported(), raises::above_reach()];
    let retired = [named::few(), retireregisters::without(retireregisters::ninth(), &[9])];
    let own = [markregisters::ways(), markregisters::cycles()].concat();
    proved.map(|example| example.built()).chain(others).chain(unsupported).chain(retired).chain(own).collect()
}

/// A register with one delegation more, or one that is heavier.
pub fn with(register: &Register, (giver, receiver, weight, need, bar): Grant) -> Register {
    let mut changed = register.clone();
    let new = Delegation { giver, receiver, weight, kind: ORDINARY, need, bar };
    match changed.place(giver as u32, receiver as u32) {
        Ok(at) => changed.delegations[at] = new,
        Err(at) => changed.delegations.insert(at, new),
    }
    changed
}

/// The slip of a cut that nobody made.
pub fn unwritten(n: &Passed, before: &Register, after: &Register) -> Vec<u8> {
    slip_of(n, &encode(before), &encode(after))
}

/// Cases, each on the bytes that the one before left unless they are changed.
pub struct Sequence {
    pub cases: Vec<LentCase>,
    pub now: Bytes,
}

impl Sequence {
    /// On a register, with a slip of zeros.
    pub fn new(register: &Register) -> Sequence {
        let now = Bytes { lent: vec![0; SLIP_LEN], table: Vec::new(), block: encode(register) };
        Sequence { cases: Vec::new(), now }
    }

    /// Makes a call on the bytes that are there.
    pub fn ask(&mut self, asked: Asked) {
        let case = LentCase { asked, on: self.now.clone() };
        self.now = case.made(&FAST).1;
        self.cases.push(case);
    }

    pub fn cut(&mut self, n: Passed) {
        self.ask(Asked::Cut(n));
    }

    pub fn back(&mut self, by: u32) {
        self.ask(Asked::TakeBack(by));
    }

    pub fn call(&mut self, n: Passed) {
        self.ask(Asked::Call(n));
    }

    /// Hands in the slip with other bytes at some places, on the register that is there. Both
    /// are then as they were.
    pub fn back_with(&mut self, by: u32, bytes: &[(usize, u8)]) {
        let kept = self.now.clone();
        bytes.iter().for_each(|&(at, byte)| self.now.lent[at] = byte);
        self.back(by);
        self.now = kept;
    }

    /// Hands in another slip.
    pub fn back_by_slip(&mut self, by: u32, slip: &[u8]) {
        self.now.lent = slip.to_vec();
        self.back(by);
    }
}
