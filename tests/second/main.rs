//! `calls` runs the program on standard input, `cases FILE` prints what is
//! expected of a case file, `generate DIR` writes all cases into a folder.

use second::{callfile, casefile, engine::FAST, lentcase};
use std::io::{self, Read, Write};
use std::path::Path;
use std::process::ExitCode;

fn main() -> ExitCode {
    let arguments: Vec<String> = std::env::args().skip(1).collect();
    let words: Vec<&str> = arguments.iter().map(String::as_str).collect();
    let done = match words[..] {
        ["calls"] => calls(),
        ["cases", file] => cases(Path::new(file)),
        ["generate", folder] => generate::write_all(Path::new(folder)),
        _ => Err(io::Error::other("usage: second calls | cases FILE | generate DIR")),
    };
    match done {
        Ok(()) => ExitCode::SUCCESS,
        Err(error) => {
            eprintln!("{error}");
            ExitCode::FAILURE
        }
    }
}

/// Reads one byte more than is allowed; a read error is the end of the input.
fn calls() -> io::Result<()> {
    let mut input = Vec::new();
    let most = callfile::MOST_INPUT as u64 + 1;
    let _ = io::stdin().lock().take(most).read_to_end(&mut input);
    io::stdout().write_all(&callfile::print(&FAST, &input))
}

/// The lines of the kinds `file`, `slip` and `pass` have a form of their own.
fn cases(file: &Path) -> io::Result<()> {
    let text = std::fs::read(file)?;
    let name = file.file_name().and_then(|name| name.to_str()).unwrap_or_default();
    let expected_text = match name.split('-').next() {
        Some("file" | "slip" | "pass") => lentcase::expected_text,
        _ => casefile::expected_text,
    };
    let expected = expected_text(&FAST, &text);
    let expected = expected.map_err(|line| io::Error::other(format!("line {line} is no case")))?;
    io::stdout().write_all(expected.as_bytes())
}
