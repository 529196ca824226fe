//! Lists of calls with marks that change, made by one call.

use super::listfiles::{list, random_lists, unused_columns};
use super::textlists::{four, not_within, outside, places, texts, under, Place, NOT_WITHIN_NONE};
use super::*;
use second::listfile::{List, NUMBERS};

/// The calls of lists.
pub const DRAWN: [Call; 16] = [
    Call::Enrol, Call::Grant, Call::Grant, Call::Grant, Call::Grant, Call::Grant, Call::Grant, Call::Revoke,
    Call::Downgrade, Call::Downgrade, Call::Reach, Call::Use, Call::SetMarks, Call::SetMarks, Call::SetMarks,
    Call::SetMarks,
];

pub fn all() -> Vec<List> {
    let mut all: Vec<List> = markregisters::examples().iter().map(|example| list(&example.calls())).collect();
    all.extend([list(&everywhere()), unused_columns(&few())]);
    all.extend(no_calls());
    all.extend(wrong_lengths());
    all.extend(outside(b"", &without_texts(), &[Call::SetMarks], &NOT_WITHIN_NONE));
    all.extend(random_lists(0x4EA1, drawnmarks::likely, &DRAWN));
    all.extend([example(), every_text()]);
    all.extend(outside(&texts(), &without_texts(), &[Call::SetMarks], &not_within(texts().len() as u32)));
    all.extend(textlists::random_lists(0x4EAD, drawnmarks::likely, &DRAWN));
    all
}

/// Accepted calls and refused ones, the second and the last of them for a subject that is
/// not enrolled.
fn few() -> Vec<Passed> {
    vec![
        enrol(1), set_marks(0, 2, 1), enrol(1), grant(0, 1, 9, 1, 0), grant(1, 2, 8, 0, 0), set_marks(1, 2, 0),
        set_marks(0, 2, 0), set_marks(0, 0, 0), set_marks(0, 2, 65_536), use_right(2), set_marks(64, 1, 7),
        set_marks(0, 1, 7), set_marks(0, 3, 0),
    ]
}

fn without_texts() -> Vec<(Passed, Place)> {
    few().into_iter().map(|n| (n, (0, 0))).collect()
}

/// Marks before, between and after all other calls.
fn everywhere() -> Vec<Passed> {
    let calls = examples::counting(254).calls();
    let between = |(at, n): (usize, &Passed)| [set_marks(0, at as u32 % 5, (at as u32 * 5) % 8), *n];
    let mut list: Vec<Passed> = calls.iter().enumerate().flat_map(between).collect();
    list.extend([set_marks(0, 2, 2), set_marks(0, 4, 0), set_marks(0, 1, 65_535)]);
    list
}

/// A number that is no call's beside marks that are set.
fn no_calls() -> Vec<List> {
    let with = |(at, number): (usize, u32)| {
        let mut list = list(&few());
        list.numbers[NUMBERS * at] = number;
        list
    };
    [(1, 8), (6, 8), (12, 11), (0, 10)].map(with).to_vec()
}

/// Each buffer a call's share too short for the last call, which sets marks.
fn wrong_lengths() -> Vec<List> {
    let short = list(&few()[..few().len() - 1]).lengths;
    let with = |buffer: usize| {
        let mut list = list(&few());
        list.lengths[buffer] = short[buffer];
        list
    };
    [0, 1, 2].map(with).to_vec()
}

/// The marks of 5 are lost under the table that falls by two, under two texts that are
/// refused, under the level one, and under ours; the way stands again before each.
pub fn example() -> List {
    let ours = (0, 0);
    let register = markregisters::by_table();
    let mut calls: Vec<(Passed, Place)> = register.marks[1..].iter().map(|&m| (enrol(m as u32), ours)).collect();
    let of = |d: &Delegation| grant_of(&(d.giver, d.receiver, d.weight, d.need, d.bar));
    let all: Vec<Passed> = register.delegations.iter().map(of).collect();
    for place in [&places(&four())[..], &[ours]].concat() {
        calls.push((set_marks(0, 5, 1), ours));
        calls.extend(all.iter().map(|&n| (n, ours)));
        calls.extend([set_marks(0, 5, 0), set_marks(0, 5, 0)].map(|n| (n, place)));
    }
    under(&texts(), &calls)
}

/// Marks that are lost under the text of every place, and set again under ours.
pub fn every_text() -> List {
    let mut calls: Vec<(Passed, Place)> = [0, 1, 1].map(|marks| (enrol(marks), (0, 0))).to_vec();
    for place in textlists::every_place() {
        calls.extend(markregisters::EXAMPLE.iter().map(|grant| (grant_of(grant), (0, 0))));
        calls.push((set_marks(0, 2, 0), place));
        calls.extend([reach(2, 3), set_marks(0, 2, 1)].map(|n| (n, (0, 0))));
    }
    under(&texts(), &calls)
}
