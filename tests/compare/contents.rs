//! A call, the bytes of the buffers that it is lent, and what the second
//! implementation makes of them.

use crate::entry::FileCall;
use second::engine::FAST;
use second::host::{host_bring_over, host_call_table, host_cut_slip, host_order, host_read, host_take_back, host_write};
use second::refusal::Passed;

/// A call with its numbers, a cut that writes a slip, the taking back of one by a caller, the order for a
/// receiver, a call on a register file, or the bringing over of an old block.
#[derive(Clone, Copy, Debug)]
pub enum Asked {
    Call(Passed),
    CutSlip(Passed),
    TakeBack(u32),
    Order(u32),
    File(FileCall),
    BringOver,
}

/// What the lent buffers hold; those that a call isn't lent are empty.
#[derive(Clone)]
pub struct Contents {
    pub block: Vec<u8>,
    /// The register file of a read, the buffer that a write or an order writes into, the slip, or the old block.
    pub file: Vec<u8>,
    /// The table's text.
    pub table: Vec<u8>,
    pub answers: Vec<u8>,
}

impl Contents {
    /// Makes the call by the second implementation; answers the number that is due.
    pub fn call(&mut self, asked: &Asked) -> u32 {
        match asked {
            Asked::Call(n) => host_call_table(&FAST, n, &self.table, &mut self.block, &mut self.answers),
            Asked::CutSlip(n) => {
                host_cut_slip(&FAST, n, &self.table, &mut self.block, &mut self.file, &mut self.answers)
            }
            Asked::TakeBack(by) => {
                host_take_back(&FAST, &mut self.block, *by, &self.table, &self.file, &mut self.answers)
            }
            Asked::Order(receiver) => {
                host_order(&FAST, &self.block, *receiver, &self.table, &mut self.file, &mut self.answers)
            }
            Asked::File(FileCall::Write) => host_write(&self.block, &mut self.file, &mut self.answers),
            Asked::File(FileCall::Read) => host_read(&FAST, &mut self.block, &self.file, &self.table, &mut self.answers),
            Asked::BringOver => host_bring_over(&self.file, &mut self.block, &mut self.answers),
        }
    }

    /// What the second implementation returns and leaves of these.
    pub fn right(&self, asked: &Asked) -> (u32, Contents) {
        let mut left = self.clone();
        let number = left.call(asked);
        (number, left)
    }

    /// For the self test: the same, changed where it is accepted.
    pub fn accepted(&self, asked: &Asked, change: impl Fn(&mut Contents)) -> (u32, Contents) {
        let (number, mut left) = self.right(asked);
        if number == 0 {
            change(&mut left);
        }
        (number, left)
    }

    /// For the self test: other answers.
    pub fn set_answers(&mut self, answers: [i32; 3]) {
        self.answers = answers.map(i32::to_le_bytes).concat();
    }

    /// After an accepted order, its subjects, each with its limit.
    pub fn items(&self) -> impl Iterator<Item = (u8, u8)> + '_ {
        self.file[..self.answer()].chunks_exact(2).map(|item| (item[0], item[1]))
    }

    /// The first answer.
    pub fn answer(&self) -> usize {
        self.three_answers()[0] as usize
    }

    /// All three answers of an accepted call.
    pub fn three_answers(&self) -> [i32; 3] {
        let bytes = &self.answers;
        [0, 4, 8].map(|at| i32::from_le_bytes([bytes[at], bytes[at + 1], bytes[at + 2], bytes[at + 3]]))
    }
}
