//! Passing on without using: document 02's C-18, and other calls among pass-only delegations.

use super::passregisters::*;
use super::slipregisters::Sequence;
use super::*;
use second::block::{encode, KIND as KIND_BYTE, RECORDS_AT, RECORD_LEN};
use second::engine::FAST;
use second::lentcase::{Asked, Bytes, LentCase};
use second::refusal::applying;
use second::table::{Table, OURS};
use std::collections::BTreeSet;

/// The kind, for what is generated of each kind alike.
pub const KIND: Kind = Kind { name: "pass", added: &[Call::GrantKind], calls: &second::refusal::ALL_CALLS };

/// Kinds, there and not; some keep the lowest bits of one that is there.
pub const KINDS: [u32; 10] = [0, 1, 2, 3, 255, 256, 257, 65_537, 2_147_483_648, 4_294_967_295];

/// Weights that each kind is granted with.
pub const WEIGHTS: [u32; 6] = [0, 1, 2, 255, 256, 4_294_967_295];

pub fn cases() -> Vec<LentCase> {
    let mut cases = example_cases();
    cases.extend(kinds_and_weights());
    cases.extend(at_once());
    cases.extend(plain(&limits::cases(&KIND)));
    cases.extend(plain(&broken::cases(&KIND)));
    cases.extend(raised());
    cases.extend(uses());
    cases.extend(links());
    cases.extend(changes());
    cases.extend(fourth_byte());
    cases.extend(passfiles::cases());
    cases.extend(passslips::cases());
    cases.extend(drawnpasses::cases());
    cases
}

/// Calls on one block, each on it as it is here.
pub fn each_on(block: &[u8], table: &[u8], calls: impl IntoIterator<Item = Passed>) -> Vec<LentCase> {
    let on = Bytes { lent: Vec::new(), table: table.to_vec(), block: block.to_vec() };
    calls.into_iter().map(|n| LentCase { asked: Asked::Call(n), on: on.clone() }).collect()
}

/// Cases of the form of other kinds.
fn plain(cases: &[Case]) -> Vec<LentCase> {
    let on = |case: &Case| each_on(case.block.as_deref().unwrap_or_default(), case.lent(), [case.passed]);
    write::with_blocks(cases).iter().flat_map(on).collect()
}

/// Calls from a fresh register on.
fn example_cases() -> Vec<LentCase> {
    let passing = |giver, receiver, weight| grant_kind(grant(giver, receiver, weight, 0, 0), 1);
    let ordinary = |giver, receiver, weight| grant_kind(grant(giver, receiver, weight, 0, 0), 0);
    let calls = [
        open(), enrol(0), enrol(0), enrol(0), passing(0, 1, 3), ordinary(1, 2, 2), use_right(1), use_right(2),
        reach(1, 2), chain(1, 2, 126), order(2, 128), ordinary(0, 1, 9), grant(0, 1, 9, 0, 0), passing(0, 1, 3),
        passing(0, 1, 9), passing(1, 2, 3), reach(1, 2), downgrade(0, 0, 1, 0), use_right(1), use_right(2),
        ordinary(0, 1, 0), grant(0, 1, 0, 0, 0), passing(0, 1, 0), passing(0, 1, 1), ordinary(1, 2, 0), use_right(2),
        passing(2, 3, 0), passing(1, 3, 1), revoke(0, 0, 1), use_right(2), ordinary(0, 1, 5), use_right(1),
        passing(0, 1, 9), revoke(0, 0, 1), passing(0, 1, 255), passing(1, 2, 255), passing(2, 3, 255), use_right(3),
        reach(3, 1), retire(0, 2), use_right(3), set_marks(0, 1, 1), use_right(1),
    ];
    let mut sequence = Sequence::new(&Register::fresh());
    calls.iter().for_each(|&n| sequence.call(n));
    sequence.cases
}

/// Every kind with every weight: where the pair doesn't stand, where it does in either kind, in
/// a full register, and where the numbers are refused before.
fn kinds_and_weights() -> Vec<LentCase> {
    let all = |of: Passed| {
        let weights = WEIGHTS.map(|weight| Passed { weight, ..of });
        weights.into_iter().flat_map(|of| KINDS.map(|kind| grant_kind(of, kind)))
    };
    let small = encode(&example());
    let mut cases = Vec::new();
    for of in [grant(0, 3, 0, 0, 0), grant(0, 1, 0, 0, 0), grant(1, 2, 0, 0, 0)] {
        cases.extend(each_on(&small, b"", all(of)));
    }
    cases.extend(each_on(&encode(&full()), b"", all(grant(15, 1, 0, 0, 0))));
    let refused = [grant(0, 64, 1, 0, 0), grant(0, 1, 1, 3, 1), grant(1, 1, 1, 0, 0), grant(1, 0, 1, 0, 0)];
    let kinds = refused.into_iter().flat_map(|of| KINDS.map(|kind| grant_kind(of, kind)));
    cases.extend(each_on(&small, b"", kinds));
    cases
}

/// The blocks that candidates are tried on: those of the other refusals, some of them with
/// pass-only delegations.
fn blocks() -> Vec<Vec<u8>> {
    let passing = |block: &Vec<u8>| second::block::decode(block).map(|register| encode(&all_passing(&register)));
    let others: Vec<Vec<u8>> = refusals::blocks().into_iter().chain(named::blocks()).collect();
    let passing: Vec<Vec<u8>> = others.iter().filter_map(passing).collect();
    [others, passing].concat()
}

/// One case for each refusal with each that applies at once, under ours and under refused texts.
fn at_once() -> Vec<LentCase> {
    let [malformed, broken] = texts::refused_at_the_end();
    let mut cases = Vec::new();
    for text in [Vec::new(), malformed, broken] {
        let mut seen = BTreeSet::new();
        for block in blocks() {
            let candidates = refusals::candidates(Call::GrantKind).into_iter();
            let new = candidates.filter(|n| sliprefusals::is_new(&mut seen, &applying(&FAST, n, &text, &block, 0)));
            cases.extend(each_on(&block, &text, new));
        }
    }
    cases
}

/// A standing delegation granted again, with either kind and without one.
fn again(of: Passed) -> [Passed; 3] {
    [of, grant_kind(of, 0), grant_kind(of, 1)]
}

/// Standing delegations of either kind granted again at, below and above their weight and their
/// reach; in some registers under other conditions too, and in a full one.
fn raised() -> Vec<LentCase> {
    let mut cases = Vec::new();
    for register in [three_of_each(), two_ways(), versions(&raises::above_reach())[1].clone()] {
        cases.extend(raises_on(&OURS, &register, 0..register.delegations.len()));
    }
    cases.extend(raises_on(&texts::by_two(), &two_ways(), 0..5));
    for register in versions(&raises::with_room()) {
        cases.extend(raises_on(&OURS, &register, [0, 2, 5]));
        let others = register.delegations.iter().flat_map(|d| raises::otherwise(&grant_again(d)));
        cases.extend(each_on(&encode(&register), b"", others.flat_map(|n| [0, 1].map(|kind| grant_kind(n, kind)))));
    }
    cases.extend(raises_on(&OURS, &full(), [0, 1, 254, 255]));
    cases
}

/// At a weight more than it has.
fn grant_again(d: &Delegation) -> Passed {
    grant_of(&(d.giver, d.receiver, d.weight.saturating_add(1), d.need, d.bar))
}

fn raises_on(table: &Table, register: &Register, places: impl IntoIterator<Item = usize>) -> Vec<LentCase> {
    let text = if *table == OURS { Vec::new() } else { table.text() };
    let around = places.into_iter().flat_map(|place| raises::around(table, register, &register.delegations[place]));
    each_on(&encode(register), &text, around.flat_map(again))
}

/// Every subject of registers with none, one and several delegations to it, and after cuts that
/// take the ordinary one, lower it, or take the pass-only ones.
fn uses() -> Vec<LentCase> {
    let all = |register: &Register| (0..register.marks.len() as u32 + 1).map(use_right).collect::<Vec<_>>();
    let mut cases = Vec::new();
    for register in [several(), three_of_each(), row(), two_ways()] {
        cases.extend(each_on(&encode(&register), b"", all(&register)));
    }
    cases.extend(each_on(&encode(&several()), b"", [use_right(63), use_right(64), use_right(4_294_967_295)]));
    for d in several().delegations.iter().filter(|d| d.receiver != 4) {
        let (giver, receiver) = (d.giver as u32, d.receiver as u32);
        for n in [revoke(0, giver, receiver), downgrade(0, giver, receiver, 0)] {
            let mut sequence = Sequence::new(&several());
            [n, use_right(receiver)].iter().for_each(|&n| sequence.call(n));
            cases.extend(sequence.cases);
        }
    }
    cases
}

/// Reach, chain and order over pass-only links, alone and mixed, under ours and another table.
fn links() -> Vec<LentCase> {
    let mut cases = Vec::new();
    for (at, register) in small().iter().enumerate() {
        let text = if at % 3 == 2 { texts::by_two().text() } else { Vec::new() };
        let subjects = register.marks.len() as u32;
        let pairs = (0..subjects).flat_map(|giver| (1..subjects).map(move |receiver| (giver, receiver)));
        let some = pairs.filter(|pair| (pair.0 + pair.1) as usize % 3 == at % 3);
        let chains = register.delegations.iter().map(|d| chain(d.giver as u32, d.receiver as u32, 126));
        let orders = (1..subjects).map(|receiver| order(receiver, 128));
        let calls = some.map(|(giver, receiver)| reach(giver, receiver)).chain(chains).chain(orders);
        cases.extend(each_on(&encode(register), &text, calls));
    }
    cases
}

/// Every cut of every delegation, all marks of every subject set and cleared, and every
/// retirement; then uses, and what was lowered to 0 is raised again.
fn changes() -> Vec<LentCase> {
    let mut cases = Vec::new();
    for (at, register) in small().iter().enumerate() {
        let cuts = register.delegations.iter().flat_map(|d| cuts_of(d, at));
        let subjects = 1..register.marks.len() as u32;
        let marks = subjects.clone().map(|s| set_marks(0, s, if register.marks_of(s) == 0 { 65_535 } else { 0 }));
        let calls = cuts.chain(marks).chain(subjects.map(|subject| retire(0, subject)));
        calls.for_each(|n| cases.extend(changed_by(register, n)));
    }
    cases
}

/// Revoked, and downgraded to 0 or to the weight below.
fn cuts_of(d: &Delegation, at: usize) -> [Passed; 2] {
    let (giver, receiver) = (d.giver as u32, d.receiver as u32);
    let weight = if at % 2 == 0 { 0 } else { d.weight.max(1) as u32 - 1 };
    [revoke(0, giver, receiver), downgrade(giver, giver, receiver, weight)]
}

/// The change; where it leaves a pass-only delegation lighter, its receiver's use, and both
/// kinds granted again.
fn changed_by(register: &Register, n: Passed) -> Vec<LentCase> {
    let mut sequence = Sequence::new(register);
    sequence.now.lent.clear();
    sequence.call(n);
    let after = second::block::decode(&sequence.now.block).unwrap_or(Register::fresh());
    let lighter = |d: &&Delegation| {
        let before = register.standing(d.giver as u32, d.receiver as u32);
        d.kind == 1 && before.is_some_and(|before| before.weight > d.weight)
    };
    for d in after.delegations.iter().filter(lighter).take(1) {
        let again = grant_again(d);
        let calls = [use_right(d.receiver as u32), grant_kind(again, 0), grant_kind(again, 1)];
        calls.iter().for_each(|&n| sequence.call(n));
    }
    sequence.cases
}

/// Every value in the fourth byte of a record, and some in those of the last one that can be and
/// of one that is not used; old blocks with some are brought over.
fn fourth_byte() -> Vec<LentCase> {
    let place = |at: usize| RECORDS_AT + RECORD_LEN * at + KIND_BYTE;
    let with = |register: &Register, at: usize, byte: u8| {
        let mut block = encode(register);
        block[place(at)] = byte;
        block
    };
    let mut cases = Vec::new();
    for byte in 0..=255 {
        cases.extend(each_on(&with(&example(), 1, byte), b"", [use_right(2)]));
    }
    for byte in [0, 1, 2, 128, 255] {
        cases.extend(each_on(&with(&full(), 255, byte), b"", [use_right(13), revoke(0, 0, 1)]));
        cases.extend(each_on(&with(&example(), 2, byte), b"", [use_right(2), enrol(0)]));
        let old = brought::old(&with(&example(), 0, byte));
        let on = Bytes { lent: Vec::new(), table: old, block: encode(&several()) };
        cases.push(LentCase { asked: Asked::Call(blank(Call::BringOver)), on });
    }
    cases
}
