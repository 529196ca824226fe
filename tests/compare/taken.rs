//! What a comparison counts of slips.

use crate::contents::Asked;
use crate::report::{absent, is_full, Case};
use crate::returned::is_supported;
use second::block::decode;
use second::refusal::OTHER_SLIP;
use second::slip::{AFTER_AT, BY_AT};

/// What became of the slips.
#[derive(Clone, Copy, Default)]
pub struct Taken {
    /// How many were written, and of these in full registers.
    written: u64,
    full: u64,
    /// How many were taken back; of these to an unsupported register, to a full one, and by another than the by
    /// on the slip.
    back: u64,
    unsupported: u64,
    pub to_full: u64,
    by_another: u64,
    /// Refused with 20: the register was another than the block after, and the cut was another.
    other_register: u64,
    other_cut: u64,
}

impl Taken {
    pub fn add(&mut self, case: &Case) {
        match case.asked {
            Asked::CutSlip(_) if case.due == 0 => {
                self.written += 1;
                self.full += case.began_full() as u64;
            }
            Asked::TakeBack(by) if case.due == 0 => self.add_back(case, by),
            Asked::TakeBack(_) if case.due == OTHER_SLIP => {
                let is_after = case.left.block == case.left.file[AFTER_AT..];
                self.other_register += !is_after as u64;
                self.other_cut += is_after as u64;
            }
            _ => (),
        }
    }

    fn add_back(&mut self, case: &Case, by: u32) {
        let register = decode(&case.left.block).expect("a block that was taken back to is well formed");
        self.back += 1;
        self.unsupported += !is_supported(&case.text.table, &register) as u64;
        self.to_full += is_full(&case.left.block) as u64;
        self.by_another += (by != case.left.file[BY_AT] as u32) as u64;
    }

    /// What did not occur; registers taken back to that are full need not occur under each table.
    pub fn missing(&self) -> Vec<String> {
        let Taken { written, full, back, unsupported, by_another, other_register, other_cut, .. } = *self;
        let counts = [
            (written, "a slip written"),
            (full, "a slip of a full register"),
            (back, "a cut taken back"),
            (unsupported, "a cut taken back to an unsupported register"),
            (by_another, "a cut taken back by another than the by on the slip"),
            (other_register, "20 for another register"),
            (other_cut, "20 for another cut"),
        ];
        absent(&counts)
    }

    pub fn print(&self, table: &str) {
        let Taken { written, full, back, unsupported, to_full, by_another, other_register, other_cut } = *self;
        println!("slips under {table}: {written} written, {full} of them in full registers");
        println!("        {back} cuts taken back, {unsupported} of them to unsupported registers, {to_full} to full ones");
        println!("        {by_another} by another than on the slip");
        println!("        20: {other_register} for another register, {other_cut} for another cut");
    }
}
