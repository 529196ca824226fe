//! Writes the cases: files of at most 65,536 bytes, an index and the counts.

use super::{callfiles, cases, listfiles, marks, orders, passes, registerfiles, retires, slips, Call, Kind, KINDS};
use second::callfile::{print, MOST_INPUT};
use second::casefile::{case_line, expected_line, Case};
use second::engine::FAST;
use second::lentcase::{self, LentCase};
use second::listfile::{expected_lines, list_line, List};
use std::fs;
use std::io;
use std::path::Path;

/// The text of a case file and what is expected of it.
#[derive(Default)]
pub struct File {
    pub cases: String,
    pub expected: String,
}

/// A line of a file: after the one before it, as the first, and what is expected of it.
struct Line {
    after: String,
    first: String,
    expected: String,
}

/// Distributes cases over files. A text and a block that are already there are
/// written `=`.
pub fn files(cases: &[Case]) -> Vec<File> {
    let (mut text, mut current) = (None, Vec::new());
    distributed(cases.iter().map(|case| {
        let block = case.block.clone().unwrap_or_else(|| current.clone());
        let whole = Case { block: Some(block), ..case.clone() };
        let same = whole.block.as_deref() == Some(&current[..]);
        let short = if same { Case { block: None, ..whole.clone() } } else { whole.clone() };
        let after = case_line(&short, text);
        text = case.text.as_deref();
        Line { after, first: case_line(&whole, None), expected: expected_line(&FAST, &whole, &mut current) }
    }))
}

/// Distributes cases of the kinds `file`, `slip` and `pass` over files. Bytes that are already
/// there are written `=`.
pub fn lent_files(cases: &[LentCase]) -> Vec<File> {
    let mut left = None;
    distributed(cases.iter().map(|case| {
        let after = lentcase::case_line(case, left.as_ref());
        let (expected, leaves) = lentcase::expected_line(&FAST, case);
        left = Some(leaves);
        Line { after, first: lentcase::case_line(case, None), expected }
    }))
}

/// Distributes lists over files. Texts that are already there are written `=`.
pub fn list_files(lists: &[List]) -> Vec<File> {
    let mut texts = None;
    distributed(lists.iter().map(|list| {
        let after = list_line(list, texts);
        texts = Some(&list.texts[..]);
        Line { after, first: list_line(list, None), expected: expected_lines(&FAST, list) }
    }))
}

/// Distributes lines over files of at most 65,536 bytes.
fn distributed(lines: impl Iterator<Item = Line>) -> Vec<File> {
    let mut files: Vec<File> = Vec::new();
    for line in lines {
        match files.last_mut() {
            Some(file) if file.holds(&line.after, &line.expected) => file.add(&line.after, &line.expected),
            _ => files.push(File { cases: line.first, expected: line.expected }),
        }
    }
    files
}

impl File {
    fn holds(&self, case: &str, expected: &str) -> bool {
        self.cases.len() + case.len() <= MOST_INPUT && self.expected.len() + expected.len() <= MOST_INPUT
    }

    fn add(&mut self, case: &str, expected: &str) {
        self.cases.push_str(case);
        self.expected.push_str(expected);
    }
}

/// The cases of a kind by the name of their files. The chain calls of the kind
/// `reach` have files of their own: they change no block, so that the others
/// are the same without them.
fn parts(kind: &Kind) -> Vec<(&'static str, Vec<Case>)> {
    let all = cases(kind);
    if kind.name != "reach" {
        return vec![(kind.name, all)];
    }
    let (chain, others) = with_blocks(&all).into_iter().partition(|case| case.passed.call == Call::Chain);
    vec![(kind.name, others), ("chain", chain)]
}

/// The same cases, each with the block that it is made on.
pub fn with_blocks(cases: &[Case]) -> Vec<Case> {
    let mut current = Vec::new();
    let mut whole = Vec::with_capacity(cases.len());
    for case in cases {
        let block = case.block.clone().unwrap_or_else(|| current.clone());
        let made = Case { block: Some(block), ..case.clone() };
        expected_line(&FAST, &made, &mut current);
        whole.push(made);
    }
    whole
}

/// Writes every file into an existing or new folder.
pub fn write_all(folder: &Path) -> io::Result<()> {
    fs::create_dir_all(folder)?;
    let mut counts = String::new();
    for (name, cases) in KINDS.iter().flat_map(parts) {
        counts.push_str(&format!("{name} {}\n", cases.len()));
        write_files(folder, name, "cases", &files(&cases))?;
    }
    counts.push_str(&write_lent(folder, "file", &registerfiles::cases())?);
    for (name, cases) in [&orders::KIND, &marks::KIND, &retires::KIND].into_iter().flat_map(parts) {
        counts.push_str(&format!("{name} {}\n", cases.len()));
        write_files(folder, name, "cases", &files(&cases))?;
    }
    counts.push_str(&write_lent(folder, "slip", &slips::cases())?);
    counts.push_str(&write_lent(folder, "pass", &passes::cases())?);
    let lists = listfiles::all();
    counts.push_str(&format!("list {}\n", lists.len()));
    write_files(folder, "list", "lists", &list_files(&lists))?;
    counts.push_str(&format!("calls {}\n", write_call_files(folder)?));
    fs::write(folder.join("counts.txt"), counts)
}

/// Writes the cases of a kind that are lent bytes; answers the line of their count.
fn write_lent(folder: &Path, name: &str, cases: &[LentCase]) -> io::Result<String> {
    write_files(folder, name, "cases", &lent_files(cases))?;
    Ok(format!("{name} {}\n", cases.len()))
}

/// Writes files with what is expected of each.
fn write_files(folder: &Path, name: &str, extension: &str, files: &[File]) -> io::Result<()> {
    for (at, file) in files.iter().enumerate() {
        fs::write(folder.join(format!("{name}-{at:02}.{extension}")), &file.cases)?;
        fs::write(folder.join(format!("{name}-{at:02}.expected")), &file.expected)?;
    }
    Ok(())
}

/// Writes the call files and their index; answers how many there are.
fn write_call_files(folder: &Path) -> io::Result<usize> {
    let mut index = String::new();
    let files = callfiles::all();
    for (at, file) in files.iter().enumerate() {
        fs::write(folder.join(format!("{at:03}.calls")), &file.input)?;
        fs::write(folder.join(format!("{at:03}.out")), print(&FAST, &file.input))?;
        index.push_str(&format!("{at:03} {}\n", file.shows));
    }
    fs::write(folder.join("calls.txt"), index)?;
    Ok(files.len())
}
