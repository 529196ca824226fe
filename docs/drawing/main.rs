//! Drawings as SVG on standard output.
//!
//! `drawing` draws document 01's example P5 before and after its cut.
//! `drawing FILE [TABLE]` draws the register of a register file, its delegations
//! judged by the step table of a text, or by ours; a file that is refused with 18
//! is drawn too, and shows which delegations are unsupported.

#[path = "../../tests/compare/entry.rs"]
mod entry;
mod example;
mod file;
mod layout;
#[path = "../../tests/compare/lent.rs"]
mod lent;
mod map;
mod picture;
mod places;
mod routes;
mod svg;

use std::io::Write;
use std::process::ExitCode;

fn main() -> ExitCode {
    let words: Vec<String> = std::env::args().skip(1).collect();
    let words: Vec<&str> = words.iter().map(String::as_str).collect();
    let drawn = match words[..] {
        [] => Ok(example::draw()),
        [file] => file::load(file, None).map(|loaded| map::draw(&loaded)),
        [file, table] => file::load(file, Some(table)).map(|loaded| map::draw(&loaded)),
        _ => {
            eprintln!("usage: drawing [FILE [TABLE]]");
            return ExitCode::from(2);
        }
    };
    match drawn.and_then(print) {
        Ok(()) => ExitCode::SUCCESS,
        Err(problem) => {
            eprintln!("drawing: {problem}");
            ExitCode::FAILURE
        }
    }
}

fn print(svg: String) -> Result<(), String> {
    std::io::stdout().write_all(svg.as_bytes()).map_err(|error| format!("standard output: {error}"))
}
