//! Register files with pass-only delegations.

use super::passregisters::*;
use super::registerfiles::{other_block, read, round_trip};
use super::*;
use second::lentcase::LentCase;
use second::regfile::file_text;

pub fn cases() -> Vec<LentCase> {
    let mut registers = vec![several(), full(), all_passing(&filetexts::longest_supported())];
    registers.extend(small());
    let mut cases: Vec<LentCase> = registers.iter().flat_map(round_trip).collect();
    cases.extend(filetexts::passes().iter().map(|text| read(&other_block(), text, b"")));
    cases.extend(registers.iter().take(9).map(|register| old_file(register)));
    cases.extend(under_a_table());
    cases
}

/// Without the column.
fn old_file(register: &Register) -> LentCase {
    read(&other_block(), &filetexts::without_pass(&file_text(register)), b"")
}

/// Supported under ours and not by the table that falls by two.
fn under_a_table() -> Vec<LentCase> {
    let table = texts::by_two().text();
    small().iter().step_by(2).map(|register| read(&other_block(), &file_text(register), &table)).collect()
}
