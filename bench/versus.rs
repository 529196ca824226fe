//! Two archives beside each other, such as those of two landings, in one run: what
//! each row of the measurement takes in either, and their ratio.
//!
//! The place that the linker gives to a function's code moves a row by up to 13 in
//! 100, with the same code. So each archive is laid out many times, its functions in
//! an order drawn at random and each at a place drawn at random in a line of 64
//! bytes, and all layouts are measured in turn. A row is the mean over the layouts,
//! once of the least time in each and once of the median; beside each ratio stands
//! its standard error, by how the layouts differ.

#[path = "../tests/compare/contents.rs"]
mod contents;
#[path = "../tests/compare/entry.rs"]
mod entry;
mod layout;
#[path = "../tests/compare/lent.rs"]
mod lent;
mod rows;

use layout::{layouts, Layout};
use rows::{archive_batch, batch_size, file_rows, is_returned, order_rows, retire_rows, rows, slip_rows, Row};

/// How many layouts of each archive, how often all are gone through, and how many
/// batches of one are measured before the next.
const LAYOUTS: usize = 64;
const TURNS: usize = 12;
const BATCHES: usize = 4;

type Sides = [Vec<Layout>; 2];

fn main() {
    let words: Vec<String> = std::env::args().skip(1).collect();
    let [first, second, folder, seed] = &words[..] else {
        panic!("two archives, a folder for their layouts, and a seed");
    };
    let seed = seed.parse().expect("a seed");
    let laid = |archive, side| layouts(archive, &format!("{folder}/{side}"), LAYOUTS, seed);
    let sides = [laid(first, "first"), laid(second, "second")];
    println!("{:<44} {:>12} {:>12} {:>14} {:>15}", "", "first", "second", "least, ratio", "median, ratio");
    for row in rows().iter().chain(&order_rows()) {
        compare([row, row], &sides);
    }
    for (what, [write, read, revoke]) in &file_rows() {
        println!("register file, {what}");
        compare([write, write], &sides);
        let [first, second] = sides.each_ref().map(|layouts| Row { file: written(write, &layouts[0]), ..read.clone() });
        compare([&first, &second], &sides);
        compare([revoke, revoke], &sides);
    }
    for row in &retire_rows() {
        compare([row, row], &sides);
    }
    for (what, rows) in &slip_rows() {
        println!("slips, {what}");
        rows.iter().for_each(|row| compare([row, row], &sides));
    }
}

/// The text that an archive writes: each reads its own.
fn written(write: &Row, layout: &Layout) -> Vec<u8> {
    let [_, text, answers] = layout.enter(|| archive_batch(write, 1, None)).left;
    let length = u32::from_le_bytes([answers[0], answers[1], answers[2], answers[3]]);
    text[..length as usize].to_vec()
}

/// A row through both, where each has its call and returns what is due.
fn compare(rows: [&Row; 2], sides: &Sides) {
    let what = rows[0].what;
    if !rows.iter().zip(sides).all(|(row, layouts)| layouts[0].enter(|| is_returned(row))) {
        println!("{what:<44} {:>12}", "not in both");
        return;
    }
    let times = times(rows, sides);
    let [least, median] = [|sorted: &[u64]| sorted[0], |sorted: &[u64]| sorted[sorted.len() / 2]]
        .map(|of| times.each_ref().map(|layouts| mean(&layouts.each_ref().map(|sorted| of(sorted)))));
    let ((ratio, error), (of_medians, their_error)) = (ratio(least), ratio(median));
    let [(first, _), (second, _)] = least;
    println!("{what:<44} {first:>9.0} ns {second:>9.0} ns {ratio:>6.3} ± {error:.3} {of_medians:>7.3} ± {their_error:.3}");
}

/// The times of each layout's batches, sorted, in nanoseconds for a call.
fn times(rows: [&Row; 2], sides: &Sides) -> [[Vec<u64>; LAYOUTS]; 2] {
    let (turns, batches) = if rows[0].rounds > 256 { (3, 1) } else { (TURNS, BATCHES) };
    let mut times = [const { [const { Vec::new() }; LAYOUTS] }; 2];
    for turn in 0..turns {
        for at in 0..LAYOUTS {
            for side in [turn % 2, 1 - turn % 2] {
                let (row, taken) = (rows[side], &mut times[side][at]);
                let batch = || archive_batch(row, batch_size(row), row.text.as_deref()).time;
                sides[side][at].enter(|| taken.extend((0..batches).map(|_| batch())));
            }
        }
    }
    times.iter_mut().flatten().for_each(|times| times.sort_unstable());
    times
}

/// The mean over the layouts, and its standard error.
fn mean(times: &[u64; LAYOUTS]) -> (f64, f64) {
    let n = LAYOUTS as f64;
    let mean = times.iter().sum::<u64>() as f64 / n;
    let variance = times.iter().map(|&time| (time as f64 - mean).powi(2)).sum::<f64>() / (n - 1.0);
    (mean, (variance / n).sqrt())
}

fn ratio([(first, first_error), (second, second_error)]: [(f64, f64); 2]) -> (f64, f64) {
    let ratio = first / second;
    (ratio, ratio * (first_error / first).hypot(second_error / second))
}
