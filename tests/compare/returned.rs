//! A register file that was written is read back, into other bytes: the block is
//! the same, or the file is refused with 18, precisely where some delegation is
//! unsupported.

use crate::entry::entry_read;
use crate::lent::Lent;
use crate::tables::Text;
use second::block::{decode, Register, BLOCK_LEN};
use second::host::ANSWERS_LEN;
use second::random::Random;
use second::refusal::UNSUPPORTED;
use second::search::reaches;
use second::table::Table;

#[derive(Clone, Copy, Debug, PartialEq, Eq)]
pub enum Back {
    Same,
    Unsupported,
    Wrong,
}

/// What becomes of the file of a well-formed block under a table that passes.
pub fn come_back(random: &mut Random, block: &[u8], file: &[u8], text: &Text) -> Back {
    let held = vec![random.next() as u8; BLOCK_LEN];
    let table = text.bytes.as_deref().unwrap_or_default();
    let contents = [&held[..], file, table, &[1; ANSWERS_LEN]];
    let [mut other, mut file, mut table, mut answers] = contents.map(|content| {
        let mut buffer = Lent::new();
        buffer.lend(content, random.below(8) as usize, random.next() as u8);
        buffer
    });
    let number = entry_read(&mut other, &mut file, &mut table, &mut answers);
    let guarded = [&other, &file, &table, &answers].iter().all(|buffer| buffer.is_guarded());
    let register = decode(block).expect("a block that was written is well formed");
    match (number, is_supported(&text.table, &register)) {
        (0, true) if guarded && other.content() == block => Back::Same,
        (UNSUPPORTED, false) if guarded && other.content() == held => Back::Unsupported,
        _ => Back::Wrong,
    }
}

/// No weight is above the reach of its pair.
pub fn is_supported(table: &Table, register: &Register) -> bool {
    let reaches = reaches(table, register);
    register.delegations.iter().zip(reaches).all(|(d, reach)| d.weight as i16 <= reach)
}
