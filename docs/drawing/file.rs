//! A register file, read through the archive's entry point.

use crate::entry::entry_read;
use crate::lent::Lent;
use second::block::{decode, Register, BLOCK_LEN};
use second::host::ANSWERS_LEN;
use second::refusal::UNSUPPORTED;
use second::regfile::Rows;
use second::search::reaches;
use second::table::Table;
use std::ffi::{c_char, CStr};

extern "C" {
    fn read_refusal_text(refusal: u32) -> *const c_char;
}

/// A register, and what its step table says of it.
pub struct Loaded {
    pub register: Register,
    /// For each delegation whether some chain carries its weight.
    pub supported: Vec<bool>,
    /// A text was lent for the table.
    pub lent: bool,
}

/// The register of a file, or what is wrong with the file or the table's text.
pub fn load(path: &str, table_path: Option<&str>) -> Result<Loaded, String> {
    let text = bytes(path)?;
    let table_text = table_path.map_or(Ok(Vec::new()), bytes)?;
    let table = Table::read(&table_text).map_err(|number| refused(table_path.unwrap_or_default(), number))?;
    let (number, block) = read(&text, &table_text);
    if number != 0 && number != UNSUPPORTED {
        return Err(refused(path, number));
    }
    let register = Rows::read(&text).and_then(|rows| rows.register()).expect("the second implementation reads it too");
    let carried = reaches(&table, &register);
    let supported: Vec<bool> = register.delegations.iter().zip(carried).map(|(d, reach)| reach >= d.weight as i16).collect();
    assert_eq!(number == 0, supported.iter().all(|&supported| supported));
    assert!(number != 0 || decode(&block).as_ref() == Some(&register));
    Ok(Loaded { register, supported, lent: table_path.is_some() })
}

fn bytes(path: &str) -> Result<Vec<u8>, String> {
    std::fs::read(path).map_err(|error| format!("{path}: {error}"))
}

/// The number that the entry point returns, and the block that it leaves.
fn read(text: &[u8], table: &[u8]) -> (u32, Vec<u8>) {
    let contents = [&[0; BLOCK_LEN][..], text, table, &[0; ANSWERS_LEN]];
    let [mut block, mut text, mut table, mut answers] = contents.map(|content| {
        let mut buffer = Lent::new();
        buffer.lend(content, 0, 0);
        buffer
    });
    let number = entry_read(&mut block, &mut text, &mut table, &mut answers);
    (number, block.content().to_vec())
}

fn refused(path: &str, number: u32) -> String {
    // The header's texts are never null, and end with a 0 byte.
    let text = unsafe { CStr::from_ptr(read_refusal_text(number)) };
    format!("{path}: refused with {number}, {}", text.to_string_lossy())
}
