//! The archive and the second implementation, measured side by side in one
//! run: nanoseconds a call, and their ratio. A call that is lent a table's text
//! is also measured beside the same call without it; an order beside the second
//! implementation's by a search; a read of a register file, which judges support
//! as a round does, beside a cut of one round; a cut with a slip and the taking back,
//! which makes the cut again, beside the cut without one; a pass-only grant and a use
//! behind pass-only delegations beside ordinary ones.

#[path = "../tests/compare/contents.rs"]
mod contents;
#[path = "../tests/compare/entry.rs"]
mod entry;
#[path = "../tests/compare/lent.rs"]
mod lent;
mod rows;

use contents::Asked;
use entry::FileCall;
use rows::{archive_batch, batch_size, file_rows, order_rows, retire_rows, rows, slip_rows, Batch, Row};
use second::call::blank;
use second::engine::FAST;
use second::host::{host_bring_over, host_call_table, host_cut_slip, host_read, host_take_back, host_write};
use second::order::popped;
use second::refusal::{admit, Call, Passed};
use std::time::Instant;

fn main() {
    println!("{:<44} {:>12} {:>12} {:>7}", "", "archive", "second", "ratio");
    for row in rows().into_iter().chain(order_rows()) {
        measure(&row);
    }
    for (what, rows) in file_rows() {
        measure_files(what, &rows);
    }
    for row in retire_rows() {
        measure(&row);
    }
    for (what, rows) in slip_rows() {
        measure_slips(what, &rows);
    }
}

/// By the second implementation.
fn second_batch(row: &Row, size: usize) -> Batch {
    let mut blocks = vec![row.block.clone(); size];
    let (text, mut file, mut answers) = (row.text.as_deref().unwrap_or_default(), row.file.clone(), vec![0; 12]);
    let start = Instant::now();
    for block in &mut blocks {
        let refusal = match row.asked {
            Asked::Call(n) => host_call_table(&FAST, &n, text, block, &mut answers),
            Asked::CutSlip(n) => host_cut_slip(&FAST, &n, text, block, &mut file, &mut answers),
            Asked::TakeBack(by) => host_take_back(&FAST, block, by, text, &file, &mut answers),
            Asked::Order(receiver) => popped_order(receiver, block, text, &mut file, &mut answers),
            Asked::File(FileCall::Write) => host_write(block, &mut file, &mut answers),
            Asked::File(FileCall::Read) => host_read(&FAST, block, &file, text, &mut answers),
            Asked::BringOver => host_bring_over(&file, block, &mut answers),
        };
        assert_eq!(refusal, row.refusal);
    }
    let time = start.elapsed().as_nanos() as u64 / size as u64;
    Batch { time, left: [blocks.swap_remove(0), file, answers] }
}

/// The order by a search: the one that a host is given searches once for each subject.
fn popped_order(receiver: u32, block: &[u8], text: &[u8], out: &mut [u8], answers: &mut [u8]) -> u32 {
    let passed = Passed { receiver, ..blank(Call::Order) };
    let (table, register) = match admit(&FAST, &passed, text, block, out.len()) {
        Err(refusal) => return refusal,
        Ok(admitted) => admitted,
    };
    let order = popped(&table, &register, receiver);
    for (place, &(subject, limit)) in out.chunks_exact_mut(2).zip(&order) {
        place.copy_from_slice(&[subject, limit]);
    }
    answers.copy_from_slice(&[2 * order.len() as i32, 0, 0].map(i32::to_le_bytes).concat());
    0
}

/// The medians of many batches, each batch first with the one, then with the
/// other, then, where a text is lent, without it; all must leave the same bytes
/// and answers. Hands back the archive's.
fn measure(row: &Row) -> u64 {
    let repeats = if row.rounds > 256 { 9 } else { 301 };
    let size = batch_size(row);
    let (mut ours, mut theirs, mut without) = (Vec::new(), Vec::new(), Vec::new());
    for _ in 0..repeats {
        let (one, other) = (archive_batch(row, size, row.text.as_deref()), second_batch(row, size));
        assert_eq!(one.left, other.left);
        assert!(!answers_rounds(row) || one.left[2][8..] == row.rounds.to_le_bytes());
        ours.push(one.time);
        theirs.push(other.time);
        if row.text.is_some() {
            let plain = archive_batch(row, size, None);
            assert_eq!(one.left, plain.left);
            without.push(plain.time);
        }
    }
    let time = median(ours);
    print(row, time, median(theirs));
    if row.text.is_some() {
        print_difference(time, median(without));
    }
    time
}

/// Whether the third answer is the rounds.
fn answers_rounds(row: &Row) -> bool {
    row.rounds > 0 && !matches!(row.asked, Asked::TakeBack(_))
}

/// A revocation, the same with a slip, and the taking back of it, each beside the first.
fn measure_slips(what: &str, rows: &[Row; 3]) {
    println!("slips, {what}");
    let [plain, with, back] = rows.each_ref().map(measure);
    println!("{:<44} {:>33.2}", "  with a slip, ratio to without", with as f64 / plain as f64);
    println!("{:<44} {:>33.2}", "  take back, ratio to the cut", back as f64 / plain as f64);
}

/// The register's file written and read, and beside it a cut of one round on the
/// same register: a read may take 25 microseconds and one round, a write 15.
fn measure_files(what: &str, rows: &[Row; 3]) {
    println!("register file of {} bytes, {what}", rows[1].file.len());
    let [_, read, round] = rows.each_ref().map(measure);
    println!("{:<44} {:>9} ns", "  read without the time of that revocation", read.saturating_sub(round));
}

fn print(row: &Row, a: u64, b: u64) {
    println!("{:<44} {:>9} ns {:>9} ns {:>7.2}", row.what, a, b, a as f64 / b as f64);
    if row.rounds > 3 {
        println!("{:<44} {:>9} ns {:>9} ns", "  a round", a / row.rounds as u64, b / row.rounds as u64);
    }
}

/// What the text costs: the call without it, and how much less that takes.
fn print_difference(with: u64, without: u64) {
    let (what, ratio) = ("  without the text; ratio of with to without", with as f64 / without as f64);
    println!("{what:<44} {without:>9} ns {:>12} {ratio:>7.2}", "");
    println!("{:<44} {:>9} ns", "  the difference", with.saturating_sub(without));
}

fn median(mut times: Vec<u64>) -> u64 {
    times.sort_unstable();
    times[times.len() / 2]
}
