//! Random calls through the C entry points of libseatreg.a and through the
//! second implementation, side by side. After every call the number returned,
//! the answers, every byte of the block, of the table's text and of the register
//! file, the slip, the old block or the buffer that is written to, and the bytes
//! around each lent buffer are compared; after an accepted one also what the
//! header's readers list; and what was written is read back.
//!
//! `compare SEED CASES` runs; where there are many cases, every refusal must be
//! among what is returned. `compare self-test SEED CASES` runs once for each
//! fault that is put in on purpose, and each must be found; `compare header`
//! prints what include/seatreg.h has to say by the second implementation.

mod brings;
mod buffers;
mod contents;
mod draw;
mod entry;
mod fault;
mod filetexts;
mod handed;
mod header;
mod kinds;
mod lent;
mod marks;
mod named;
mod olds;
mod orders;
mod passes;
mod raises;
mod readers;
mod reads;
mod report;
mod retires;
mod returned;
mod settling;
mod slips;
mod standing;
mod tables;
mod taken;
mod writes;

use brings::BRINGS;
use buffers::Buffers;
use fault::{Fault, FAULTS, NONE};
use marks::MARKS;
use named::NAMED;
use orders::ORDERS;
use passes::PASSES;
use raises::RAISES;
use reads::READS;
use report::Report;
use retires::RETIRES;
use second::random::Random;
use slips::{CUT_SLIPS, TAKE_BACKS};
use std::process::ExitCode;
use writes::WRITES;

fn main() -> ExitCode {
    let arguments: Vec<String> = std::env::args().skip(1).collect();
    let words: Vec<&str> = arguments.iter().map(String::as_str).collect();
    let passed = match words[..] {
        ["header"] => Some(header::print()),
        ["self-test", seed, cases] => numbers(seed, cases).map(|(seed, cases)| finds_faults(seed, cases)),
        [seed, cases] => numbers(seed, cases).map(|(seed, cases)| finds_nothing(seed, cases)),
        _ => None,
    };
    match passed {
        Some(true) => ExitCode::SUCCESS,
        Some(false) => ExitCode::FAILURE,
        None => {
            eprintln!("usage: compare SEED CASES | self-test SEED CASES | header");
            ExitCode::from(2)
        }
    }
}

fn numbers(seed: &str, cases: &str) -> Option<(u64, u64)> {
    Some((seed.parse().ok()?, cases.parse().ok()?))
}

/// From so many cases on, every refusal must be returned.
const MANY: u64 = 100_000;

fn finds_nothing(seed: u64, cases: u64) -> bool {
    let report = compare(seed, cases, &NONE, true);
    report.print(seed);
    report.differences() == 0 && (cases < MANY || report.missing().is_empty())
}

/// Each fault is found, and only in the parts where it was put in.
fn finds_faults(seed: u64, cases: u64) -> bool {
    let mut all_found = true;
    let faults: [&[Fault]; 12] = [
        &FAULTS, &RAISES, &PASSES, &MARKS, &RETIRES, &NAMED, &CUT_SLIPS, &TAKE_BACKS, &ORDERS, &WRITES, &READS, &BRINGS,
    ];
    for fault in faults.concat() {
        let report = compare(seed, cases, &fault, false);
        let found = fault.is_found(&report);
        let verdict = if found { "found" } else { "NOT FOUND" };
        println!("self test: {}: {verdict}, {} differences in {cases} cases", fault.name, report.differences());
        all_found &= found;
    }
    all_found
}

/// `shows` prints the first differences.
fn compare(seed: u64, cases: u64, fault: &Fault, shows: bool) -> Report {
    let mut random = Random::new(seed);
    let mut report = Report::new(shows);
    let mut lent = Buffers::new();
    while report.cases < cases {
        let mut list = (fault.lists)(&mut random);
        let mut block = list.first_block();
        while report.cases < cases {
            let Some(drawn) = list.next(&mut random, &mut block) else { break };
            let case = lent.call(&mut random, drawn, &mut block, fault);
            report.add(list.kind, &case);
            list.keep(&case);
        }
    }
    report
}
