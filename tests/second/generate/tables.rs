//! Calls that are lent a step table's text.

use super::*;
use second::block::encode;
use second::cut::settle;
use second::engine::FAST;
use second::random::{random_register, random_table, Random, Shape};
use second::table::OURS;
use std::collections::BTreeSet;

/// The calls that take a table.
pub const CALLS: [Call; 5] = [Call::Grant, Call::Reach, Call::Revoke, Call::Downgrade, Call::Chain];

pub fn cases() -> Vec<Case> {
    let mut cases = example();
    cases.extend(refused_texts());
    cases.extend(refusals());
    cases.extend(passing());
    cases.extend(large_cuts());
    cases.extend(alternating());
    cases.extend(changing());
    cases
}

/// The same cases, each lent this text.
pub fn lent(text: &[u8], cases: impl IntoIterator<Item = Case>) -> Vec<Case> {
    cases.into_iter().map(|case| Case { text: Some(text.to_vec()), ..case }).collect()
}

/// What is supported under our table and not under the one that falls by two.
pub const EXAMPLE: [Grant; 4] = [(0, 1, 9, 0, 0), (1, 2, 8, 0, 0), (2, 3, 6, 0, 0), (0, 4, 1, 0, 0)];

/// The cut that the example makes under both tables.
pub const EXAMPLE_CUT: Passed = Passed { receiver: 4, ..blank(Call::Revoke) };

/// The cut of the example under our table, and under the one that falls by two.
fn example() -> Vec<Case> {
    let enrolled = encode(&register(&[0; 5], &[]));
    let granted = encode(&register(&[0; 5], &EXAMPLE));
    let two = texts::by_two().text();
    let grants = EXAMPLE.iter().map(|grant| next(grant_of(grant)));
    let asks = || [reach(1, 2), reach(2, 3), chain(1, 2, 126), chain(2, 3, 126)].map(next);
    let mut cases = lent(b"", [on(&enrolled, reach(0, 1))]);
    cases.extend(lent(b"", grants));
    cases.extend(lent(&two, asks()));
    cases.extend(lent(b"", [next(EXAMPLE_CUT)]));
    cases.extend(lent(&two, [on(&granted, EXAMPLE_CUT)]));
    cases.extend(lent(&two, asks()));
    cases.extend(lent(b"", asks()));
    cases
}

/// Every text that is refused, with calls that are accepted under every table.
fn refused_texts() -> Vec<Case> {
    let block = encode(&broken::valid());
    let mut cases = Vec::new();
    for text in texts::malformed().iter().chain(&texts::broken()) {
        cases.extend(lent(&text.bytes, CALLS.map(|call| on(&block, accepted(call)))));
    }
    cases
}

/// A call on the valid register for which the owner's limit is enough.
pub fn accepted(call: Call) -> Passed {
    match call {
        Call::Grant => grant(0, 3, 255, 2, 1),
        Call::Revoke => revoke(0, 2, 4),
        Call::Downgrade => downgrade(0, 0, 1, 7),
        Call::Chain => chain(0, 1, 126),
        _ => reach(2, 3),
    }
}

/// Every set of refusals that apply at once with 7 or 17, and two calls that no
/// table supports.
fn refusals() -> Vec<Case> {
    let unsupported = encode(&refusals::unsupported());
    let mut cases = Vec::new();
    for text in texts::refused_at_the_end() {
        CALLS.iter().for_each(|&call| cases.extend(lent(&text, at_once(call, &text))));
        cases.extend(lent(&text, [grant(1, 3, 255, 0, 0), chain(2, 3, 126)].map(|n| on(&unsupported, n))));
    }
    cases
}

/// Some texts of another form and some whose entries break a rule, with two calls of one
/// kind, and every set of refusals that apply at once with 7 or 17.
pub fn some_refused(block: &[u8], calls: [Passed; 2]) -> Vec<Case> {
    let short = texts::malformed().into_iter().map(|text| text.bytes).filter(|bytes| bytes.len() < 64);
    let broken = texts::broken().into_iter().map(|text| text.bytes).step_by(9);
    let mut cases = Vec::new();
    for text in short.chain(broken) {
        cases.extend(lent(&text, calls.map(|n| on(block, n))));
    }
    for text in texts::refused_at_the_end() {
        cases.extend(lent(&text, at_once(calls[0].call, &text)));
    }
    cases
}

/// One case for each that `told` tells from the others.
pub fn at_once(call: Call, text: &[u8]) -> Vec<Case> {
    let mut seen = BTreeSet::new();
    let mut cases = Vec::new();
    for block in refusals::blocks() {
        let candidates = refusals::candidates(call).into_iter();
        let new = candidates.filter(|n| seen.insert(refusals::told(n, text, &block)));
        cases.extend(new.map(|n| on(&block, n)));
    }
    cases
}

/// Two ways from the owner to 4, one of one link and one of three; both serve 4-5
/// under some table.
pub fn two_ways(weight: u8) -> Register {
    let ways = [(0, 1, 255, 0, 0), (0, 4, 5, 0, 0), (1, 2, 255, 0, 0), (2, 4, 255, 0, 0), (4, 5, weight, 0, 0)];
    register(&[0; 7], &ways)
}

/// Weights at the ends of the table.
pub fn ends() -> Register {
    let first = [(0, 1, 255, 0, 0), (0, 2, 254, 0, 0), (0, 3, 1, 0, 0), (0, 4, 0, 0, 0), (0, 5, 7, 0, 0)];
    let second = [(1, 6, 255, 0, 0), (2, 6, 253, 0, 0), (3, 6, 0, 0, 0), (5, 6, 6, 0, 0), (6, 1, 255, 0, 0)];
    register(&[0; 8], &[first, second].concat())
}

/// Every call under each table that passes.
fn passing() -> Vec<Case> {
    let mut cases = Vec::new();
    for (_, table) in texts::passing() {
        cases.extend(lent(&table.text(), on_ends()));
        cases.extend(lent(&table.text(), on_ways()));
        cases.extend(lent(&table.text(), on_path()));
        cases.extend(lent(&table.text(), on_cycle()));
        cases.extend(lent(&table.text(), raises::under(&table)));
    }
    cases
}

fn on_ends() -> Vec<Case> {
    let block = encode(&ends());
    let mut cases: Vec<Case> = (0..7).map(|giver| on(&block, reach(giver, 7))).collect();
    cases.extend([(1, 6), (2, 6), (3, 6), (5, 6), (6, 1)].map(|(giver, receiver)| next(chain(giver, receiver, 126))));
    cases.extend([254, 252, 5, 0].map(|weight| on(&block, grant(1, 7, weight, 0, 0))));
    cases.extend([revoke(0, 0, 4), revoke(0, 0, 1), downgrade(0, 0, 2, 3)].map(|n| on(&block, n)));
    cases
}

fn on_ways() -> Vec<Case> {
    let mut cases = Vec::new();
    for weight in [0, 4, 252] {
        let block = encode(&two_ways(weight));
        cases.push(on(&block, chain(4, 5, 126)));
        cases.extend([reach(4, 6), chain(2, 4, 126), revoke(0, 0, 4)].map(next));
    }
    cases
}

/// Chains of many links.
fn on_path() -> Vec<Case> {
    let block = encode(&deep::path(|_| 255));
    let mut cases = vec![on(&block, chain(63, 1, 126))];
    cases.extend([reach(63, 2), reach(8, 2), chain(7, 8, 126), chain(1, 2, 126)].map(next));
    cases
}

/// The counting case: its cycle falls by the table's steps.
fn on_cycle() -> Vec<Case> {
    let marks = [&[0], &examples::COUNTING_MARKS[..]].concat();
    let block = encode(&register(&marks, &examples::COUNTING));
    vec![on(&block, revoke(0, 0, 2)), next(downgrade(0, 2, 3, 254))]
}

/// The cut of many rounds, and a cut on a full register, under tables that fall
/// faster than ours.
fn large_cuts() -> Vec<Case> {
    let (deep, full) = (encode(&rounds::built()), encode(&full::all_enrolled()));
    let mut cases = lent(&texts::by_two().text(), [on(&deep, rounds::FIRST_CUT)]);
    cases.extend(lent(&texts::half().text(), [on(&full, revoke(5, 5, 6))]));
    cases
}

/// Another table with every call: ours, lent as an empty text, and a drawn one, on
/// blocks that need not be supported under either.
fn alternating() -> Vec<Case> {
    let mut random = Random::new(0xA17E);
    let mut cases = Vec::new();
    for _ in 0..6 {
        let mut block = encode(&unsupported::random_unsupported(&mut random));
        let text = random_table(&mut random).text();
        for text in [b"", &text[..], b""] {
            cases.push(drawn(&mut random, text, &mut block));
        }
    }
    cases
}

/// Lists of calls from several blocks, most under two drawn tables.
fn changing() -> Vec<Case> {
    let mut random = Random::new(0xC4A9);
    let mut cases = Vec::new();
    for start in starts(&mut random) {
        let mut block = encode(&start);
        let texts = [random_table(&mut random).text(), b"\n".to_vec(), random_table(&mut random).text(), Vec::new()];
        for (text, calls) in texts.iter().zip([12, 1, 12, 3]) {
            cases.extend((0..calls).map(|_| drawn(&mut random, text, &mut block)));
        }
    }
    cases
}

const DRAWN: [Call; 9] = [
    Call::Grant, Call::Grant, Call::Grant, Call::Revoke, Call::Revoke, Call::Downgrade, Call::Downgrade, Call::Reach,
    Call::Chain,
];

/// A plausible call on the block, which is left as the call leaves it.
fn drawn(random: &mut Random, text: &[u8], block: &mut Vec<u8>) -> Case {
    let before = block.clone();
    let call = random.pick(&DRAWN);
    let n = lists::drawn(lists::likely, random, call, text, block);
    Case { text: Some(text.to_vec()), ..on(&before, n) }
}

/// No delegation yet; not supported; left by the rounds under our table and under
/// another one; large.
fn starts(random: &mut Random) -> Vec<Register> {
    let mut starts = vec![register(&[0, 1, 2, 3, 4, 5, 6], &[]), register(&[0; 4], &[])];
    for (subjects, delegations) in [(4, 8), (6, 14), (9, 30), (24, 60)] {
        let shape = Shape { subjects, delegations, weights: &unsupported::WEIGHTS, marks: 7, conditions: 30 };
        let drawn = random_register(random, &shape);
        let mut left = drawn.clone();
        let table = random_table(random);
        settle(&FAST, random.pick(&[&OURS, &table]), &mut left);
        starts.extend([drawn, left]);
    }
    starts
}
