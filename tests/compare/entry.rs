//! The C entry points of libseatreg.a, as include/seatreg.h declares them.

use crate::lent::Lent;
use second::refusal::{Call, Passed};

extern "C" {
    fn seatreg_open(block: *mut u8, block_len: usize, answers: *mut u8, answers_len: usize) -> u32;
    fn seatreg_enrol(block: *mut u8, block_len: usize, marks: u32, answers: *mut u8, answers_len: usize) -> u32;
    fn seatreg_grant(
        block: *mut u8, block_len: usize, giver: u32, receiver: u32, weight: u32, need: u32, bar: u32,
        answers: *mut u8, answers_len: usize,
    ) -> u32;
    fn seatreg_revoke(
        block: *mut u8, block_len: usize, by: u32, giver: u32, receiver: u32,
        answers: *mut u8, answers_len: usize,
    ) -> u32;
    fn seatreg_downgrade(
        block: *mut u8, block_len: usize, by: u32, giver: u32, receiver: u32, weight: u32,
        answers: *mut u8, answers_len: usize,
    ) -> u32;
    fn seatreg_reach(
        block: *const u8, block_len: usize, giver: u32, receiver: u32,
        answers: *mut u8, answers_len: usize,
    ) -> u32;
    fn seatreg_use(
        block: *const u8, block_len: usize, receiver: u32,
        answers: *mut u8, answers_len: usize,
    ) -> u32;
    fn seatreg_grant_table(
        block: *mut u8, block_len: usize, giver: u32, receiver: u32, weight: u32, need: u32, bar: u32,
        table: *const u8, table_len: usize, answers: *mut u8, answers_len: usize,
    ) -> u32;
    fn seatreg_grant_kind(
        block: *mut u8, block_len: usize, giver: u32, receiver: u32, weight: u32, need: u32, bar: u32, kind: u32,
        table: *const u8, table_len: usize, answers: *mut u8, answers_len: usize,
    ) -> u32;
    fn seatreg_reach_table(
        block: *const u8, block_len: usize, giver: u32, receiver: u32,
        table: *const u8, table_len: usize, answers: *mut u8, answers_len: usize,
    ) -> u32;
    fn seatreg_revoke_table(
        block: *mut u8, block_len: usize, by: u32, giver: u32, receiver: u32,
        table: *const u8, table_len: usize, answers: *mut u8, answers_len: usize,
    ) -> u32;
    fn seatreg_downgrade_table(
        block: *mut u8, block_len: usize, by: u32, giver: u32, receiver: u32, weight: u32,
        table: *const u8, table_len: usize, answers: *mut u8, answers_len: usize,
    ) -> u32;
    fn seatreg_set_marks(
        block: *mut u8, block_len: usize, by: u32, subject: u32, marks: u32,
        table: *const u8, table_len: usize, answers: *mut u8, answers_len: usize,
    ) -> u32;
    fn seatreg_retire(
        block: *mut u8, block_len: usize, by: u32, subject: u32,
        table: *const u8, table_len: usize, answers: *mut u8, answers_len: usize,
    ) -> u32;
    fn seatreg_revoke_slip(
        block: *mut u8, block_len: usize, by: u32, giver: u32, receiver: u32, table: *const u8, table_len: usize,
        slip: *mut u8, slip_len: usize, answers: *mut u8, answers_len: usize,
    ) -> u32;
    fn seatreg_downgrade_slip(
        block: *mut u8, block_len: usize, by: u32, giver: u32, receiver: u32, weight: u32,
        table: *const u8, table_len: usize, slip: *mut u8, slip_len: usize, answers: *mut u8, answers_len: usize,
    ) -> u32;
    fn seatreg_take_back(
        block: *mut u8, block_len: usize, by: u32, table: *const u8, table_len: usize,
        slip: *const u8, slip_len: usize, answers: *mut u8, answers_len: usize,
    ) -> u32;
    fn seatreg_order(
        block: *const u8, block_len: usize, receiver: u32, table: *const u8, table_len: usize,
        out: *mut u8, out_len: usize, answers: *mut u8, answers_len: usize,
    ) -> u32;
    fn seatreg_write(
        block: *const u8, block_len: usize, text: *mut u8, text_len: usize,
        answers: *mut u8, answers_len: usize,
    ) -> u32;
    fn seatreg_read(
        block: *mut u8, block_len: usize, text: *const u8, text_len: usize,
        table: *const u8, table_len: usize, answers: *mut u8, answers_len: usize,
    ) -> u32;
    fn seatreg_bring_over(
        old: *const u8, old_len: usize, block: *mut u8, block_len: usize,
        answers: *mut u8, answers_len: usize,
    ) -> u32;
}

/// An entry point: a call, lent a table's text or not, a call that is always lent one, a cut that writes a
/// slip, the taking back of one, the order, a call on a register file, or the bringing over of an old block.
#[derive(Clone, Copy, PartialEq, Eq)]
pub enum Entry {
    Without(Call),
    WithTable(Call),
    /// The grant of a kind, the setting of marks, the retirement.
    Always(Call),
    /// Lent a table's text, and the slip that it writes.
    CutSlip(Call),
    /// Lent a table's text, and the slip.
    TakeBack,
    /// Lent a table's text, and a buffer that it writes into.
    Order,
    File(FileCall),
    /// Lent the old block too.
    BringOver,
}

/// The calls on a register file. Read is lent a table's text, write is not.
#[derive(Clone, Copy, Debug, PartialEq, Eq)]
pub enum FileCall {
    Write,
    Read,
}

/// All of them, in the header's order.
pub const ENTRIES: [Entry; 21] = [
    Entry::Without(Call::Open),
    Entry::Without(Call::Enrol),
    Entry::Without(Call::Grant),
    Entry::Without(Call::Reach),
    Entry::Without(Call::Use),
    Entry::Without(Call::Revoke),
    Entry::Without(Call::Downgrade),
    Entry::WithTable(Call::Grant),
    Entry::Always(Call::GrantKind),
    Entry::WithTable(Call::Reach),
    Entry::WithTable(Call::Revoke),
    Entry::WithTable(Call::Downgrade),
    Entry::Always(Call::SetMarks),
    Entry::Always(Call::Retire),
    Entry::CutSlip(Call::Revoke),
    Entry::CutSlip(Call::Downgrade),
    Entry::TakeBack,
    Entry::Order,
    Entry::File(FileCall::Write),
    Entry::File(FileCall::Read),
    Entry::BringOver,
];

/// Whether a call has no entry point that takes no table's text.
pub fn is_always_lent(call: Call) -> bool {
    matches!(call, Call::GrantKind | Call::SetMarks | Call::Retire)
}

/// Makes a call on two lent buffers, one that is always lent a table's text with an empty one; answers the
/// number returned.
pub fn entry_call(n: &Passed, block: &mut Lent, answers: &mut Lent) -> u32 {
    if is_always_lent(n.call) {
        return entry_call_table(n, block, &mut Lent::new(), answers);
    }
    let (b, b_len, a, a_len) = (block.pointer(), block.len(), answers.pointer(), answers.len());
    // Each pointer is valid for its length, and the two buffers lie apart.
    unsafe {
        match n.call {
            Call::Open => seatreg_open(b, b_len, a, a_len),
            Call::Enrol => seatreg_enrol(b, b_len, n.need, a, a_len),
            Call::Grant => seatreg_grant(b, b_len, n.giver, n.receiver, n.weight, n.need, n.bar, a, a_len),
            Call::Revoke => seatreg_revoke(b, b_len, n.by, n.giver, n.receiver, a, a_len),
            Call::Downgrade => seatreg_downgrade(b, b_len, n.by, n.giver, n.receiver, n.weight, a, a_len),
            Call::Reach => seatreg_reach(b, b_len, n.giver, n.receiver, a, a_len),
            Call::Use => seatreg_use(b, b_len, n.receiver, a, a_len),
            Call::Chain => unreachable!("the chain call has no entry point"),
            _ => unreachable!("the call has a function of its own"),
        }
    }
}

/// Makes a call that is lent a table's text; answers the number returned.
pub fn entry_call_table(n: &Passed, block: &mut Lent, table: &mut Lent, answers: &mut Lent) -> u32 {
    let (b, b_len, a, a_len) = (block.pointer(), block.len(), answers.pointer(), answers.len());
    let (t, t_len) = (table.pointer(), table.len());
    // Each pointer is valid for its length, and the three buffers lie apart.
    unsafe {
        match n.call {
            Call::Grant => {
                seatreg_grant_table(b, b_len, n.giver, n.receiver, n.weight, n.need, n.bar, t, t_len, a, a_len)
            }
            Call::GrantKind => seatreg_grant_kind(
                b, b_len, n.giver, n.receiver, n.weight, n.need, n.bar, n.kind, t, t_len, a, a_len,
            ),
            Call::Reach => seatreg_reach_table(b, b_len, n.giver, n.receiver, t, t_len, a, a_len),
            Call::Revoke => seatreg_revoke_table(b, b_len, n.by, n.giver, n.receiver, t, t_len, a, a_len),
            Call::Downgrade => {
                seatreg_downgrade_table(b, b_len, n.by, n.giver, n.receiver, n.weight, t, t_len, a, a_len)
            }
            Call::SetMarks => seatreg_set_marks(b, b_len, n.by, n.receiver, n.need, t, t_len, a, a_len),
            Call::Retire => seatreg_retire(b, b_len, n.by, n.receiver, t, t_len, a, a_len),
            _ => unreachable!("the call takes no table"),
        }
    }
}

/// Makes a cut that writes a slip; answers the number returned.
pub fn entry_cut_slip(n: &Passed, block: &mut Lent, table: &mut Lent, slip: &mut Lent, answers: &mut Lent) -> u32 {
    let (b, b_len, a, a_len) = (block.pointer(), block.len(), answers.pointer(), answers.len());
    let (t, t_len, s, s_len) = (table.pointer(), table.len(), slip.pointer(), slip.len());
    // Each pointer is valid for its length, and the four buffers lie apart.
    unsafe {
        match n.call {
            Call::Revoke => seatreg_revoke_slip(b, b_len, n.by, n.giver, n.receiver, t, t_len, s, s_len, a, a_len),
            Call::Downgrade => {
                seatreg_downgrade_slip(b, b_len, n.by, n.giver, n.receiver, n.weight, t, t_len, s, s_len, a, a_len)
            }
            _ => unreachable!("the call writes no slip"),
        }
    }
}

/// Takes a cut back; answers the number returned.
pub fn entry_take_back(by: u32, block: &mut Lent, table: &mut Lent, slip: &mut Lent, answers: &mut Lent) -> u32 {
    let (b, b_len, a, a_len) = (block.pointer(), block.len(), answers.pointer(), answers.len());
    let (t, t_len) = (table.pointer(), table.len());
    // Each pointer is valid for its length, and the four buffers lie apart.
    unsafe { seatreg_take_back(b, b_len, by, t, t_len, slip.pointer(), slip.len(), a, a_len) }
}

/// Writes the order for a receiver; answers the number returned.
pub fn entry_order(receiver: u32, block: &mut Lent, table: &mut Lent, out: &mut Lent, answers: &mut Lent) -> u32 {
    let (b, b_len, a, a_len) = (block.pointer(), block.len(), answers.pointer(), answers.len());
    let (t, t_len) = (table.pointer(), table.len());
    // Each pointer is valid for its length, and the four buffers lie apart.
    unsafe { seatreg_order(b, b_len, receiver, t, t_len, out.pointer(), out.len(), a, a_len) }
}

/// Writes the register of a block as text; answers the number returned.
pub fn entry_write(block: &mut Lent, text: &mut Lent, answers: &mut Lent) -> u32 {
    let (b, b_len, a, a_len) = (block.pointer(), block.len(), answers.pointer(), answers.len());
    // Each pointer is valid for its length, and the three buffers lie apart.
    unsafe { seatreg_write(b, b_len, text.pointer(), text.len(), a, a_len) }
}

/// Reads a register file into a block; answers the number returned.
pub fn entry_read(block: &mut Lent, text: &mut Lent, table: &mut Lent, answers: &mut Lent) -> u32 {
    let (b, b_len, a, a_len) = (block.pointer(), block.len(), answers.pointer(), answers.len());
    let (t, t_len) = (table.pointer(), table.len());
    // Each pointer is valid for its length, and the four buffers lie apart.
    unsafe { seatreg_read(b, b_len, text.pointer(), text.len(), t, t_len, a, a_len) }
}

/// Brings an old block over into another; answers the number returned.
pub fn entry_bring_over(old: &mut Lent, block: &mut Lent, answers: &mut Lent) -> u32 {
    let (b, b_len, a, a_len) = (block.pointer(), block.len(), answers.pointer(), answers.len());
    // Each pointer is valid for its length, and the three buffers lie apart.
    unsafe { seatreg_bring_over(old.pointer(), old.len(), b, b_len, a, a_len) }
}
