//! The lists of calls that are made by one call.

use super::*;
use second::block::BLOCK_LEN;
use second::callfile::used_columns;
use second::listfile::{lengths, List, NUMBERS};
use second::random::Random;

/// The program that runs the lists has room for so many calls.
pub const MOST_CALLS: usize = 200;

const MOST: u32 = 4_294_967_295;

pub fn all() -> Vec<List> {
    let mut all = vec![list(&[]), list(&few())];
    all.extend(examples());
    all.push(unused_columns(&few()));
    all.extend(parts_of_calls());
    all.extend(wrong_lengths());
    all.extend(no_calls());
    all.extend(random_lists(0x4E91, lists::likely, &lists::FILE));
    all.extend(textlists::all());
    all.extend(raises::examples().iter().map(|example| list(&example.calls())));
    all.extend(random_lists(0x4E92, raises::likely, &lists::FILE));
    all.extend(marklists::all());
    all.extend(retirelists::all());
    all
}

/// A list of calls that are lent no texts.
pub fn list(calls: &[Passed]) -> List {
    let calls: Vec<_> = calls.iter().map(|n| (*n, (0, 0))).collect();
    textlists::under(b"", &calls)
}

/// Accepted calls and refused ones.
fn few() -> Vec<Passed> {
    vec![enrol(3), enrol(MOST), grant(0, 1, 9, 0, 0), grant(0, 1, 9, 0, 0), revoke(0, 0, 1), reach(0, 1), use_right(1)]
}

fn examples() -> Vec<List> {
    let mut examples = examples::proved();
    examples.push(examples::counting(5));
    examples.iter().map(|example| list(&example.calls())).collect()
}

/// A number in every column that a call does not use.
pub fn unused_columns(calls: &[Passed]) -> List {
    let mut list = list(calls);
    for (call, n) in list.numbers.chunks_exact_mut(NUMBERS).zip(calls) {
        for (number, used) in call[1..].iter_mut().zip(used_columns(n.call)) {
            if !used {
                *number = MOST;
            }
        }
    }
    list
}

/// Every number of numbers from 1 to 19, with the lengths of the whole calls
/// and of one call more.
fn parts_of_calls() -> Vec<List> {
    let mut lists = Vec::new();
    for count in 1..=19 {
        let numbers = list(&few()).numbers[..count].to_vec();
        for calls in [count / NUMBERS, count / NUMBERS + 1] {
            lists.push(List { lengths: lengths(calls), numbers: numbers.clone(), texts: Vec::new() });
        }
    }
    lists
}

/// Each buffer too short and too long, by one and by a call's share, and empty.
fn wrong_lengths() -> Vec<List> {
    let right = list(&few());
    let mut lists = Vec::new();
    for (buffer, share) in [BLOCK_LEN, 1, 3].into_iter().enumerate() {
        let length = right.lengths[buffer];
        let mut wrong = vec![0, length - share, length - 1, length + 1, length + share];
        wrong.dedup();
        for wrong in wrong {
            let mut list = right.clone();
            list.lengths[buffer] = wrong;
            lists.push(list);
        }
    }
    lists
}

/// A number that is no call's, first, last and between, also where a length is
/// wrong.
fn no_calls() -> Vec<List> {
    let mut lists = Vec::new();
    for (at, number) in [(0, 8), (3, 8), (6, 8), (0, 256), (6, MOST)] {
        let mut list = list(&few());
        list.numbers[NUMBERS * at] = number;
        lists.push(list.clone());
        list.lengths[1] += 1;
        lists.push(list);
    }
    lists
}

pub fn random_lists(seed: u64, draw: lists::Draw, calls: &[Call]) -> Vec<List> {
    let mut random = Random::new(seed);
    let mut drawn = |length| list(&lists::list(draw, &mut random, calls, length));
    [30, 30, 30, 30, MOST_CALLS].map(|length| drawn(length)).to_vec()
}
