//! Lists of calls with subjects that retire, made by one call.

use super::listfiles::{list, random_lists, unused_columns};
use super::textlists::{four, not_within, outside, places, texts, under, Place, NOT_WITHIN_NONE};
use super::*;
use second::listfile::{List, NUMBERS};

/// The calls of lists.
pub const DRAWN: [Call; 16] = [
    Call::Enrol, Call::Enrol, Call::Grant, Call::Grant, Call::Grant, Call::Grant, Call::Grant, Call::Grant,
    Call::Grant, Call::Revoke, Call::Downgrade, Call::Reach, Call::Use, Call::SetMarks, Call::Retire, Call::Retire,
];

pub fn all() -> Vec<List> {
    let mut all: Vec<List> = retireregisters::examples().iter().map(|example| list(&example.calls())).collect();
    all.extend([list(&everywhere()), list(&full_and_empty()), unused_columns(&few())]);
    all.extend(no_calls());
    all.extend(wrong_lengths());
    all.extend(outside(b"", &without_texts(), &[Call::Retire], &NOT_WITHIN_NONE));
    all.extend(random_lists(0x4EB1, drawnmarks::likely, &DRAWN));
    all.extend([example(), every_text()]);
    all.extend(outside(&texts(), &without_texts(), &[Call::Retire], &not_within(texts().len() as u32)));
    all.extend(textlists::random_lists(0x4EB2, drawnmarks::likely, &DRAWN));
    all
}

/// Accepted calls and refused ones, the first and the last of them for a subject that is not
/// enrolled.
fn few() -> Vec<Passed> {
    vec![
        retire(0, 1), enrol(1), enrol(2), enrol(3), grant(0, 1, 9, 0, 0), grant(1, 2, 8, 0, 0), retire(1, 1),
        retire(0, 0), retire(64, 2), retire(0, 1), use_right(1), set_marks(0, 1, 0), grant(0, 2, 3, 0, 0),
        retire(1, 2), retire(0, 3), retire(0, 4),
    ]
}

fn without_texts() -> Vec<(Passed, Place)> {
    few().into_iter().map(|n| (n, (0, 0))).collect()
}

/// After each of the counting case's grants and cuts a subject is enrolled and retires.
fn everywhere() -> Vec<Passed> {
    let mut list = examples::counting(254).calls();
    let calls = list.split_off(examples::COUNTING_MARKS.len());
    let between = |(n, subject): (&Passed, u32)| [*n, enrol(1), retire(0, subject)];
    list.extend(calls.iter().zip(5..).flat_map(between));
    list.extend([retire(0, 4), retire(0, 2), reach(3, 1), retire(0, 3), use_right(1)]);
    list
}

/// 63 are enrolled and retire, and none of them leaves room.
fn full_and_empty() -> Vec<Passed> {
    let mut list: Vec<Passed> = (1..64).map(|marks| enrol(marks * 1001)).collect();
    list.extend([grant(0, 63, 255, 0, 0), grant(63, 1, 9, 0, 0), grant(1, 8, 3, 0, 0)]);
    list.extend((1..64).rev().map(|subject| retire(0, subject)));
    list.extend([enrol(0), use_right(0), grant(0, 63, 0, 0, 0), retire(0, 63), retire(0, 0)]);
    list
}

/// A number that is no call's beside retirements.
fn no_calls() -> Vec<List> {
    let with = |(at, number): (usize, u32)| {
        let mut list = list(&few());
        list.numbers[NUMBERS * at] = number;
        list
    };
    [(0, 8), (9, 12), (14, 9), (15, 4_294_967_295), (10, 13)].map(with).to_vec()
}

/// Each buffer a call's share too short for the last call, which retires a subject.
fn wrong_lengths() -> Vec<List> {
    let short = list(&few()[..few().len() - 1]).lengths;
    let with = |buffer: usize| {
        let mut list = list(&few());
        list.lengths[buffer] = short[buffer];
        list
    };
    [0, 1, 2].map(with).to_vec()
}

/// A subject without which 4-5 has one way left retires under the table that falls by two,
/// under two texts that are refused, under the level one, and under ours.
pub fn example() -> List {
    let ours = (0, 0);
    let mut calls: Vec<(Passed, Place)> = [0; 6].map(|marks| (enrol(marks), ours)).to_vec();
    for (place, at) in [&places(&four())[..], &[ours]].concat().into_iter().zip(7..) {
        let ways = [(0, at, 255), (0, 4, 5), (at, 2, 255), (2, 4, 255), (4, 5, 252), (2, 6, 9)];
        calls.push((enrol(0), ours));
        calls.extend(ways.map(|(giver, receiver, weight)| (grant(giver, receiver, weight, 0, 0), ours)));
        calls.extend([retire(0, at), retire(0, at)].map(|n| (n, place)));
        calls.push((retire(0, at), ours));
    }
    under(&texts(), &calls)
}

/// A subject that is enrolled and given to retires under the text of every place.
pub fn every_text() -> List {
    let mut calls: Vec<(Passed, Place)> = vec![(enrol(0), (0, 0))];
    for (place, at) in textlists::every_place().into_iter().zip(2..) {
        calls.extend([enrol(1), grant(0, at, 9, 0, 0), grant(at, 1, 8, 0, 0)].map(|n| (n, (0, 0))));
        calls.push((retire(0, at), place));
        calls.extend([use_right(1), reach(at, 1)].map(|n| (n, (0, 0))));
    }
    under(&texts(), &calls)
}
