//! Lists of calls that are made by one call and lent texts of step tables.

use super::*;
use second::block::encode;
use second::listfile::{lengths, numbers_of, List, MOST_TEXTS, NUMBERS};
use second::random::{random_table, Random};

const MOST: u32 = 4_294_967_295;

/// Where a text begins in the texts, and its length.
pub type Place = (u32, u32);

/// The calls of a list that take a table.
const TAKING: [Call; 4] = [Call::Grant, Call::Revoke, Call::Downgrade, Call::Reach];

pub fn all() -> Vec<List> {
    let texts = texts();
    let mut all = vec![under(&texts, &[]), example(), every_text(), ignored()];
    all.extend(outside(&texts, &few(), &TAKING, &not_within(texts.len() as u32)));
    all.extend(no_calls());
    all.extend(wrong_lengths());
    all.push(longest_texts());
    all.extend(outside(b"", &few(), &TAKING, &NOT_WITHIN_NONE));
    all.extend(random_lists(0x4E97, lists::likely, &lists::FILE));
    all.push(raised());
    all.extend(random_lists(0x4E98, raises::likely, &lists::FILE));
    all
}

/// A list of calls, each with the place of its text, and the lengths that they need.
pub fn under(texts: &[u8], calls: &[(Passed, Place)]) -> List {
    let numbers = calls.iter().flat_map(|(n, place)| numbers_of(n, *place)).collect();
    List { lengths: lengths(calls.len()), texts: texts.to_vec(), numbers }
}

/// Two texts that pass, one of another form and one that breaks a rule.
pub fn four() -> [Vec<u8>; 4] {
    let [malformed, broken] = texts::refused_at_the_end();
    [texts::by_two().text(), malformed, broken, texts::level().text()]
}

pub fn texts() -> Vec<u8> {
    four().concat()
}

/// The place of each of some texts that stand one after another.
pub fn places(texts: &[Vec<u8>]) -> Vec<Place> {
    let mut begin = 0;
    let mut places = Vec::new();
    for text in texts {
        places.push((begin, text.len() as u32));
        begin += text.len() as u32;
    }
    places
}

/// The cut of the example under ours, its grant again, and the cut under the
/// table that falls by two.
pub fn example() -> List {
    let two = places(&four())[0];
    let mut calls: Vec<(Passed, Place)> = (0..4).map(|_| (enrol(0), (0, 0))).collect();
    calls.extend(tables::EXAMPLE.iter().map(|grant| (grant_of(grant), (0, 0))));
    calls.push((tables::EXAMPLE_CUT, (0, 0)));
    calls.push((grant_of(&tables::EXAMPLE[3]), two));
    calls.push((tables::EXAMPLE_CUT, two));
    calls.extend([(reach(2, 3), two), (reach(2, 3), (0, 0)), (use_right(3), two)]);
    under(&texts(), &calls)
}

/// A standing pair granted again under each of the four texts and under ours, which
/// alone allows it; then the owner's, and the first once more under two texts.
pub fn raised() -> List {
    let ours = (0, 0);
    let mut places = places(&four());
    let (two, level) = (places[0], places[3]);
    places.push(ours);
    let mut calls: Vec<(Passed, Place)> = (0..3).map(|_| (enrol(0), ours)).collect();
    calls.extend([(grant(0, 1, 9, 0, 0), two), (grant(1, 2, 5, 0, 0), level), (grant(1, 2, 0, 0, 0), level)]);
    calls.extend(places.into_iter().map(|place| (grant(1, 2, 8, 0, 0), place)));
    calls.extend([two, ours].map(|place| (grant(0, 1, 255, 0, 0), place)));
    calls.extend([level, two].map(|place| (grant(1, 2, 255, 0, 0), place)));
    calls.push((downgrade(0, 0, 1, 9), two));
    under(&texts(), &calls)
}

/// The places of the four, of ours as an empty text at every end, and of texts that
/// overlap others, the last of them the first of the four again.
pub fn every_place() -> Vec<Place> {
    let whole = texts().len() as u32;
    let mut places = places(&four());
    let (second, length) = places[1];
    places.extend([(0, 0), (second, 0), (whole, 0), (0, whole), (second - 1, length), (second, length + 1)]);
    places.extend([(0, second - 1), (12, second - 12), (whole - 1, 1), (0, second)]);
    places
}

/// Every call under the text of every place.
pub fn every_text() -> List {
    let mut calls: Vec<(Passed, Place)> = [0, 1, 2, 3].map(|marks| (enrol(marks), (0, 0))).to_vec();
    for place in every_place() {
        calls.push((grant(0, 3, 255, 0, 0), place));
        calls.extend([reach(3, 4), downgrade(3, 0, 3, 7), downgrade(0, 0, 3, 7)].map(|n| (n, place)));
        calls.extend([reach(3, 4), revoke(0, 0, 3), use_right(3)].map(|n| (n, place)));
    }
    under(&texts(), &calls)
}

/// The longest texts there may be, zero bytes, as one text and with an empty one
/// at their end.
fn longest_texts() -> List {
    let length = MOST_TEXTS as u32;
    let places = [(0, length), (length, 0), (0, 0), (length - 1, 1)];
    let mut calls = vec![(enrol(0), (0, 0)), (enrol(0), (0, 0))];
    calls.extend(places.map(|place| (reach(0, 1), place)));
    under(&[0; MOST_TEXTS], &calls)
}

/// Places that are not within an empty text.
pub const NOT_WITHIN_NONE: [Place; 4] = [(0, 1), (1, 0), (1, MOST), (MOST, MOST)];

/// Places that are not within so many bytes, by one byte and by many.
pub fn not_within(whole: u32) -> Vec<Place> {
    vec![
        (whole, 1), (whole + 1, 0), (0, whole + 1), (whole - 5, 6),
        (MOST, 0), (0, MOST), (MOST, MOST), (MOST, 1), (1, MOST), (MOST - whole, whole + 1),
    ]
}

/// Accepted calls, one of each.
fn few() -> Vec<(Passed, Place)> {
    let calls = [enrol(3), grant(0, 1, 9, 0, 0), downgrade(0, 0, 1, 4), reach(0, 1), use_right(1), revoke(0, 0, 1)];
    calls.map(|n| (n, (0, 0))).to_vec()
}

/// Calls that take no table ignore the place.
fn ignored() -> List {
    let mut calls = few();
    for place in not_within(texts().len() as u32) {
        calls.extend([(enrol(1), place), (use_right(1), place)]);
    }
    under(&texts(), &calls)
}

/// Some calls with each place that is not within the texts, for each that takes a table.
pub fn outside(texts: &[u8], few: &[(Passed, Place)], taking: &[Call], places: &[Place]) -> Vec<List> {
    let mut lists = Vec::new();
    for (call, &place) in taking.iter().flat_map(|call| places.iter().map(move |place| (call, place))) {
        let mut calls = few.to_vec();
        calls.iter_mut().filter(|(n, _)| n.call == *call).for_each(|(_, of_call)| *of_call = place);
        lists.push(under(texts, &calls));
    }
    lists
}

/// A number that is no call's ignores the place; another call's text may be
/// outside too.
fn no_calls() -> Vec<List> {
    let mut lists = Vec::new();
    for (number, place) in [(8, (0, MOST)), (8, (MOST, 1)), (MOST, (MOST, MOST))] {
        let mut list = under(&texts(), &few());
        list.numbers[4 * NUMBERS] = number;
        list.numbers[4 * NUMBERS + 7] = place.0;
        list.numbers[4 * NUMBERS + 8] = place.1;
        lists.push(list.clone());
        list.numbers[3 * NUMBERS + 8] = MOST;
        lists.push(list);
    }
    lists
}

/// A buffer too short or too long, also where a text is outside.
fn wrong_lengths() -> Vec<List> {
    let mut lists = Vec::new();
    for (buffer, length) in [(0, MOST), (1, 0), (2, MOST)] {
        let mut list = under(&texts(), &few());
        list.numbers[NUMBERS + 8] = length;
        for change in [-1, 1] {
            let mut list = list.clone();
            list.lengths[buffer] = list.lengths[buffer].wrapping_add_signed(change);
            lists.push(list);
        }
    }
    lists
}

/// Lists in which the table changes from call to call.
pub fn random_lists(seed: u64, draw: lists::Draw, calls: &[Call]) -> Vec<List> {
    let mut random = Random::new(seed);
    let mut lists = Vec::new();
    for _ in 0..2 {
        let [malformed, _] = texts::refused_at_the_end();
        let mut texts: Vec<Vec<u8>> = (0..3).map(|_| random_table(&mut random).text()).collect();
        texts.extend([malformed, Vec::new()]);
        lists.extend([30, 30, 60].map(|length| drawn(&mut random, draw, calls, &texts, length)));
    }
    lists
}

fn drawn(random: &mut Random, draw: lists::Draw, calls: &[Call], texts: &[Vec<u8>], length: usize) -> List {
    let places = places(texts);
    let mut block = encode(&Register::fresh());
    let mut list = Vec::new();
    while list.len() < length {
        let at = random.below(texts.len() as u32) as usize;
        let call = if list.len() < 5 { Call::Enrol } else { random.pick(calls) };
        list.push((lists::drawn(draw, random, call, &texts[at], &mut block), places[at]));
    }
    under(&texts.concat(), &list)
}
