//! Orders of document 02's C-14, and other calls among them.

use super::orderregisters::*;
use super::tables::lent;
use super::*;
use second::block::encode;
use second::random::{random_table, Random};
use second::refusal::ORDER_BUFFER;

/// The length of an order's buffer, if nothing else is shown.
pub const BUFFER: u32 = ORDER_BUFFER as u32;

/// Lengths of an order's buffer; only one is right.
pub const BUFFERS: [u32; 10] = [0, 1, 2, 126, 127, 128, 129, 130, 256, 4096];

/// The calls that take a table.
pub const CALLS: [Call; 6] = [Call::Grant, Call::Reach, Call::Revoke, Call::Downgrade, Call::Chain, Call::Order];

/// The kind, for what is generated of each kind alike.
pub const KIND: Kind = Kind { name: "order", added: &[Call::Order], calls: &CALLS };

/// All cases, each lent a text.
pub fn cases() -> Vec<Case> {
    let mut cases = lent(b"", for_every_receiver(&small()));
    cases.extend(lent(b"", for_every_mark()));
    cases.extend(lent(b"", for_some_receivers()));
    cases.extend(lent(b"", wrapped()));
    cases.extend(lent(b"", buffers()));
    cases.extend(lent(b"", limits::cases(&KIND)));
    cases.extend(lent(b"", broken::cases(&KIND)));
    cases.extend(lent(b"", refusals::cases(&KIND)));
    cases.extend(tables::some_refused(&encode(&example()), [order(5, BUFFER), order(1, BUFFER)]));
    cases.extend(under_tables());
    cases.extend(under_drawn_tables());
    cases.extend(lent(b"", after_changes()));
    cases.extend(lists_of_calls());
    cases
}

/// The registers that are asked for every receiver.
pub fn small() -> Vec<Register> {
    [vec![example()], plateaus(), ties(), raised(), lightest(), conditions(), known(), drawn()].concat()
}

fn for_every_receiver(registers: &[Register]) -> Vec<Case> {
    let mut cases = Vec::new();
    for register in registers {
        let block = encode(register);
        cases.extend((1..register.marks.len() as u32).map(|receiver| on(&block, order(receiver, BUFFER))));
    }
    cases
}

/// Receivers with and without each of the marks.
fn for_every_mark() -> Vec<Case> {
    let blocks = [false, true].map(|barred| encode(&every_mark(barred)));
    blocks.iter().flat_map(|block| (16..21).map(|receiver| on(block, order(receiver, BUFFER)))).collect()
}

/// Receivers above 63 whose lowest 6, 8 or 16 bits are an enrolled subject's number.
fn wrapped() -> Vec<Case> {
    let block = encode(&example());
    [65, 69, 257, 261, 65_537, 65_541, 2_147_483_649].map(|receiver| on(&block, order(receiver, BUFFER))).to_vec()
}

/// Large registers: the first receiver, the last and some between.
fn for_some_receivers() -> Vec<Case> {
    let nobody = register(&[0; 64], &[]);
    let mut cases = Vec::new();
    for register in [all_subjects(), large(), vec![nobody]].concat() {
        let (block, last) = (encode(&register), register.marks.len() as u32 - 1);
        cases.extend([1, 2, 8, last / 2, last].map(|receiver| on(&block, order(receiver, BUFFER))));
    }
    cases
}

/// Every length of the buffer, for receivers that are in the list and for others.
fn buffers() -> Vec<Case> {
    let (few, all) = (encode(&example()), encode(&deep::path(|_| 255)));
    let mut cases: Vec<Case> = BUFFERS.map(|buffer| on(&few, order(5, buffer))).to_vec();
    cases.extend(BUFFERS.map(|buffer| on(&all, order(63, buffer))));
    cases.extend(BUFFERS.map(|buffer| on(&encode(&register(&[0; 2], &[])), order(1, buffer))));
    cases
}

/// Registers whose order depends on the table, under every table that passes.
fn under_tables() -> Vec<Case> {
    let mut registers = vec![example(), tables::ends()];
    registers.extend(raised().into_iter().take(3));
    let rows = plateaus();
    let mut cases = Vec::new();
    for (_, table) in texts::passing() {
        let mut of_table = for_every_receiver(&registers[..1]);
        for register in registers[1..].iter().chain(&rows) {
            let last = register.marks.len() as u32 - 1;
            of_table.push(on(&encode(register), order(last, BUFFER)));
        }
        cases.extend(lent(&table.text(), of_table));
    }
    cases
}

/// Drawn tables with some of the drawn registers, and with a full one.
fn under_drawn_tables() -> Vec<Case> {
    let mut random = Random::new(0x04DE6);
    let registers = drawn();
    let mut cases = Vec::new();
    for few in registers.chunks(2).step_by(3) {
        let mut of_table = for_every_receiver(few);
        of_table.push(on(&encode(&full::some_enrolled()), order(random.range(1, 19), BUFFER)));
        cases.extend(lent(&random_table(&mut random).text(), of_table));
    }
    cases
}

/// The example's grants from a register without delegations on, then raises and cuts,
/// with orders for two receivers after each.
fn after_changes() -> Vec<Case> {
    let mut calls: Vec<Passed> = EXAMPLE.iter().map(grant_of).collect();
    calls.extend([
        grant(0, 2, 255, 0, 0), grant(2, 3, 254, 0, 0), grant(3, 5, 200, 0, 0), grant(5, 1, 3, 1, 0), revoke(4, 4, 1),
        downgrade(0, 0, 2, 9), grant(4, 1, 7, 0, 1), grant(0, 2, 8, 0, 0), grant(0, 6, 255, 0, 0),
        grant(6, 2, 254, 0, 0), downgrade(0, 0, 4, 1), revoke(0, 0, 6), revoke(0, 0, 2), revoke(0, 0, 4),
    ]);
    let first = on(&encode(&register(&[0, 0, 0, 1, 0, 0, 1], &[])), order(5, BUFFER));
    let with_orders = |n: Passed| [n, order(5, BUFFER), order(3, BUFFER)].map(next);
    [vec![first], calls.into_iter().flat_map(with_orders).collect()].concat()
}

const DRAWN: [Call; 9] = [
    Call::Grant, Call::Grant, Call::Grant, Call::Grant, Call::Grant, Call::Revoke, Call::Downgrade, Call::Chain,
    Call::Reach,
];

/// Lists of calls from a register without delegations, some under a drawn table.
fn lists_of_calls() -> Vec<Case> {
    let mut random = Random::new(0x04DE7);
    let tables = [random_table(&mut random).text(), texts::by_two().text()];
    let texts = [b"", b"", b"", &tables[0][..], &tables[1][..]];
    texts.iter().flat_map(|text| list(&mut random, text, 17)).collect()
}

/// A list under one table: an order after each call.
fn list(random: &mut Random, text: &[u8], calls: usize) -> Vec<Case> {
    let mut block = lists::without_delegations(random);
    let mut cases = vec![on(&block, reach(0, 1))];
    for _ in 0..calls {
        let drawn = [random.pick(&DRAWN), Call::Order];
        cases.extend(drawn.map(|call| next(lists::drawn(raises::likely, random, call, text, &mut block))));
    }
    lent(text, cases)
}
