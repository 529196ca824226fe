//! The rows that are measured, and a batch of calls through the archive.

use crate::contents::Asked;
use crate::entry::{
    entry_bring_over, entry_call, entry_call_table, entry_cut_slip, entry_order, entry_read, entry_take_back, entry_write,
    FileCall,
};
use crate::lent::Lent;
use generate::{examples, register, retires, rounds, slow, Grant};
use second::block::{
    encode, Delegation, Register, BLOCK_LEN, MOST_DELEGATIONS, ORDINARY, PASS_ONLY, RECORDS_AT, RETIRED_AT,
};
use second::call::blank;
use second::engine::FAST;
use second::host::host_call;
use second::refusal::{Call, Passed, NOT_WELL_FORMED, ORDER_BUFFER};
use second::regfile::{file_text, LEAST_TEXT};
use second::slip::{cut_slip, SLIP_LEN};
use second::table::OURS;
use std::time::Instant;

/// A row: what is measured, the block, the call, what it returns, how many
/// rounds it takes, the table's text that it is lent, and the register file, the
/// buffer of an order, the slip or the old block.
#[derive(Clone)]
pub struct Row {
    pub what: &'static str,
    pub block: Vec<u8>,
    pub asked: Asked,
    pub refusal: u32,
    pub rounds: u32,
    pub text: Option<Vec<u8>>,
    pub file: Vec<u8>,
}

pub fn rows() -> Vec<Row> {
    let full = full_register();
    let block = encode(&full);
    let mut before_last = full.clone();
    let last = before_last.delegations.pop().expect("256 delegations");
    let mut lighter = full.clone();
    lighter.delegations[MOST_DELEGATIONS - 1].weight = 254;
    let mut lighter_pass_only = lighter.clone();
    lighter_pass_only.delegations[MOST_DELEGATIONS - 1].kind = PASS_ONLY;
    let pass_only = encode(&pass_only_but_last(full.clone()));
    let deep = deep_block();
    let small = encode(&eight());
    vec![
        row("open", &block, passed(Call::Open, 0, 0, 0, 0), 0),
        row("use, full register", &block, passed(Call::Use, 0, 0, 63, 0), 0),
        row("  all pass-only but the last delegation", &pass_only, passed(Call::Use, 0, 0, last.receiver as u32, 0), 0),
        row("reach, full register", &block, passed(Call::Reach, 0, 63, 62, 0), 0),
        row("grant of the 256th delegation", &encode(&before_last), grant_of(&last), 0),
        row("  pass-only", &encode(&before_last), pass_only_grant_of(&last), 0),
        row("raise in a full register", &encode(&lighter), grant_of(&last), 0),
        row("  pass-only", &encode(&lighter_pass_only), pass_only_grant_of(&last), 0),
        row("revoke, full register, one round", &block, revoke_of(&last), 1),
        row("  the same, all marks equal", &encode(&equal_marks(full)), revoke_of(&last), 1),
        row("  all limits distinct, one round", &encode(&descending()), passed(Call::Revoke, 0, 0, 5, 0), 1),
        row("  64 delegations, distinct marks", &encode(&ring()), passed(Call::Revoke, 0, 63, 1, 0), 1),
        row("  a star of 63 delegations", &encode(&star()), passed(Call::Revoke, 0, 0, 63, 0), 1),
        row("  8 subjects, weights 9 and 5", &small, passed(Call::Revoke, 0, 0, 7, 0), 2),
        row("marks set, full register, one round", &block, Passed { need: 64, ..passed(Call::SetMarks, 0, 0, 63, 0) }, 1),
        row("downgrade of the example P5", &encode(&p5()), passed(Call::Downgrade, 0, 0, 2, 2), 3),
        row("revoke of 256 rounds, 6 delegations", &encode(&countdown()), passed(Call::Revoke, 0, 0, 3, 0), 256),
        row("revoke of 485 rounds", &deep, rounds::FIRST_CUT, 485),
        row("marks set, 486 rounds", &deep, rounds::FIRST_MARKS, 486),
        row("the slowest cut recorded", &slow::SLOW[0].block(), slow::SLOW[0].cut(), slow::SLOW[0].rounds),
        with_text(row("reach, full register, our text", &block, passed(Call::Reach, 0, 63, 62, 0), 0)),
        with_text(row("reach, 8 subjects, our text", &small, passed(Call::Reach, 0, 7, 6, 0), 0)),
        with_text(row("grant of a pass-only delegation, our text", &encode(&before_last), pass_only_grant_of(&last), 0)),
        with_text(row("revoke, full register, our text", &block, revoke_of(&last), 1)),
        with_text(row("revoke, 8 subjects, our text", &small, passed(Call::Revoke, 0, 0, 7, 0), 2)),
        Row {
            refusal: NOT_WELL_FORMED,
            ..with_text(row("reach, refused with 8, our text", &[0; BLOCK_LEN], passed(Call::Reach, 0, 0, 1, 0), 0))
        },
    ]
}

pub fn order_rows() -> Vec<Row> {
    let [full, star, small] = [full_register(), star(), eight()].map(|register| encode(&register));
    vec![
        order_row("order, full register", &full, 62),
        order_row("  all limits distinct", &encode(&descending()), 62),
        order_row("  a star of 63 delegations", &star, 63),
        order_row("  8 subjects, weights 9 and 5", &small, 6),
        with_text(order_row("order, full register, our text", &full, 62)),
        with_text(order_row("order, a star, our text", &star, 63)),
        with_text(order_row("order, 8 subjects, our text", &small, 6)),
    ]
}

/// Retirements, and an old block brought over.
pub fn retire_rows() -> Vec<Row> {
    let (full, small) = (encode(&full_register()), encode(&eight()));
    let [slowest, _, longest, _] = [0, 1, 2, 3].map(|at| (slow::SLOW[at].block(), retires::SLOW[at]));
    let of = |(block, (subject, rounds)): (Vec<u8>, (u32, i32)), what| row(what, &block, retire(subject), rounds as u32);
    vec![
        row("subject retired, full register, one round", &full, retire(63), 1),
        row("  8 subjects, weights 9 and 5", &small, retire(7), 1),
        of(longest, "subject retired, many rounds"),
        of(slowest, "subject retired, register of the slowest cut"),
        with_text(row("subject retired, full register, our text", &full, retire(63), 1)),
        old_row("old block brought over, full register", &full),
    ]
}

/// A register's file written and read, and a cut of one round on the same register.
pub fn file_rows() -> [(&'static str, [Row; 3]); 2] {
    [("full register", full_register()), ("the longest numbers", longest())].map(|(what, register)| {
        let (block, file) = (encode(&register), file_text(&register));
        let last = register.delegations.last().expect("256 delegations");
        let write = file_row("  write", FileCall::Write, &block, vec![0; LEAST_TEXT]);
        let read = file_row("  read", FileCall::Read, &[0; BLOCK_LEN], file);
        (what, [write, read, row("  revoke, one round", &block, revoke_of(last), 1)])
    })
}

/// A revocation, the same with a slip, and the taking back of it.
pub fn slip_rows() -> [(&'static str, [Row; 3]); 3] {
    let full = full_register();
    let last = revoke_of(full.delegations.last().expect("256 delegations"));
    let small = passed(Call::Revoke, 0, 0, 7, 0);
    [
        ("full register", encode(&full), last, 1),
        ("8 subjects, weights 9 and 5", encode(&eight()), small, 2),
        ("485 rounds", deep_block(), rounds::FIRST_CUT, 485),
    ]
    .map(|(what, block, cut, rounds)| {
        let (mut after, mut slip) = (block.clone(), vec![0; SLIP_LEN]);
        assert_eq!(cut_slip(&FAST, &cut, b"", &mut after, &mut slip).refusal, 0);
        let with = slip_row("  revoke with a slip", &block, Asked::CutSlip(cut), rounds, vec![0; SLIP_LEN]);
        let back = slip_row("  take back", &after, Asked::TakeBack(cut.by), rounds, slip);
        (what, [row("  revoke", &block, cut, rounds), with, back])
    })
}

fn old_row(what: &'static str, block: &[u8]) -> Row {
    let file = old_layout(block);
    Row { what, block: block.to_vec(), asked: Asked::BringOver, refusal: 0, rounds: 0, text: None, file }
}

/// A block as it was laid out before there were retired subjects.
fn old_layout(block: &[u8]) -> Vec<u8> {
    [&block[..RETIRED_AT], &block[RECORDS_AT..]].concat()
}

/// Lent an empty text, which stands for our table.
fn order_row(what: &'static str, block: &[u8], receiver: u32) -> Row {
    let file = vec![0; ORDER_BUFFER];
    Row { what, block: block.to_vec(), asked: Asked::Order(receiver), refusal: 0, rounds: 0, text: None, file }
}

fn row(what: &'static str, block: &[u8], call: Passed, rounds: u32) -> Row {
    Row { what, block: block.to_vec(), asked: Asked::Call(call), refusal: 0, rounds, text: None, file: Vec::new() }
}

fn file_row(what: &'static str, call: FileCall, block: &[u8], file: Vec<u8>) -> Row {
    Row { what, block: block.to_vec(), asked: Asked::File(call), refusal: 0, rounds: 0, text: None, file }
}

/// Lent an empty text, which stands for our table. The rounds are those of the cut that is made or made again.
fn slip_row(what: &'static str, block: &[u8], asked: Asked, rounds: u32, slip: Vec<u8>) -> Row {
    Row { what, block: block.to_vec(), asked, refusal: 0, rounds, text: None, file: slip }
}

/// The same with our table's text.
fn with_text(row: Row) -> Row {
    Row { text: Some(OURS.text()), ..row }
}

fn passed(call: Call, by: u32, giver: u32, receiver: u32, weight: u32) -> Passed {
    Passed { by, giver, receiver, weight, ..blank(call) }
}

fn retire(subject: u32) -> Passed {
    passed(Call::Retire, 0, 0, subject, 0)
}

fn grant_of(d: &Delegation) -> Passed {
    Passed { need: d.need as u32, bar: d.bar as u32, ..passed(Call::Grant, 0, d.giver as u32, d.receiver as u32, d.weight as u32) }
}

fn pass_only_grant_of(d: &Delegation) -> Passed {
    Passed { call: Call::GrantKind, kind: PASS_ONLY as u32, ..grant_of(d) }
}

fn revoke_of(d: &Delegation) -> Passed {
    passed(Call::Revoke, 0, d.giver as u32, d.receiver as u32, 0)
}

/// 64 subjects, all marks distinct, and 256 delegations: one from the owner
/// to each, then from each to those that follow it. All are supported.
fn full_register() -> Register {
    let mut register = Register::fresh();
    register.marks = (0..64).collect();
    for ahead in 0..=4u8 {
        for giver in 1..64u8 {
            let (giver, receiver) = if ahead == 0 { (0, giver) } else { (giver, (giver - 1 + ahead) % 63 + 1) };
            if register.delegations.len() < MOST_DELEGATIONS {
                register.delegations.push(Delegation { giver, receiver, weight: 255, kind: ORDINARY, need: 0, bar: 0 });
            }
        }
    }
    register.delegations.sort_by_key(|d| (d.giver, d.receiver));
    register
}

/// The same pairs with marks, need and bar of five digits each, met by all.
fn longest() -> Register {
    let mut register = full_register();
    register.marks[1..].fill(0xAAAA);
    register.delegations.iter_mut().for_each(|d| (d.need, d.bar) = (0xAAAA, 0x5555));
    register
}

fn pass_only_but_last(mut register: Register) -> Register {
    register.delegations.iter_mut().rev().skip(1).for_each(|d| d.kind = PASS_ONLY);
    register
}

fn equal_marks(register: Register) -> Register {
    Register { marks: vec![0; 64], ..register }
}

/// 64 subjects, all marks distinct; from each a delegation to the next that
/// carries all it has, and lighter ones to the three or four after that. No two
/// subjects have the same limit, so none ties with another in the search.
fn descending() -> Register {
    let mut register = Register::fresh();
    register.marks = (0..64).collect();
    for giver in 0..64u8 {
        let past = if giver < 10 { giver + 6 } else { giver + 5 };
        for receiver in giver + 1..past.min(64) {
            register.delegations.push(Delegation { giver, receiver, weight: 255 - receiver, kind: ORDINARY, need: 0, bar: 0 });
        }
    }
    assert_eq!(register.delegations.len(), MOST_DELEGATIONS);
    register
}

/// 64 subjects, all marks distinct, no condition: one delegation from the owner
/// and a ring of the others.
fn ring() -> Register {
    let marks: Vec<u16> = (0..64).collect();
    let mut grants: Vec<Grant> = vec![(0, 1, 255, 0, 0)];
    grants.extend((1..64).map(|giver| (giver, giver % 63 + 1, 255, 0, 0)));
    register(&marks, &grants)
}

/// The owner gives each of 63 subjects weight 1.
fn star() -> Register {
    let grants: Vec<Grant> = (1..64).map(|receiver| (0, receiver, 1, 0, 0)).collect();
    register(&[0; 64], &grants)
}

/// The owner gives each of 7 subjects weight 9, and each of these the next one
/// weight 5.
fn eight() -> Register {
    let mut grants: Vec<Grant> = (1..8).map(|receiver| (0, receiver, 9, 0, 0)).collect();
    grants.extend((1..8).map(|giver| (giver, giver % 7 + 1, 5, 0, 0)));
    register(&[0; 8], &grants)
}

fn p5() -> Register {
    let all = examples::proved();
    let p5 = all.iter().find(|example| example.name == "P5").expect("P5");
    register(&[&[0], p5.marks].concat(), &p5.grants)
}

/// Two unlimited delegations, 1 to 2 and 2 to 1, each on every chain of the
/// other. With 0 to 3 gone, the chain of the second begins with weight 254, and
/// each round lowers one of the two to 1 less than the other.
fn countdown() -> Register {
    register(&[0, 1, 2, 4], &[
        (0, 1, 254, 1, 0), (0, 2, 255, 2, 0), (0, 3, 255, 0, 0),
        (1, 2, 255, 1, 0), (2, 1, 255, 2, 0), (3, 1, 255, 0, 4),
    ])
}

/// The register of the deepest cut, made by its calls.
fn deep_block() -> Vec<u8> {
    let mut block = encode(&Register::fresh());
    for call in rounds::calls() {
        assert_eq!(host_call(&FAST, &call, &mut block, &mut [0; 12]), 0);
    }
    block
}

fn lent_bytes(content: &[u8]) -> Lent {
    let mut lent = Lent::new();
    lent.lend(content, 0, 0);
    lent
}

/// The calls of a batch.
pub fn batch_size(row: &Row) -> usize {
    if row.rounds > 3 { 1 } else { 32 }
}

/// What a batch of calls took, in nanoseconds a call, and what the first left.
pub struct Batch {
    pub time: u64,
    /// The block, the register file, the buffer of an order, the slip or the old block, and the answers.
    pub left: [Vec<u8>; 3],
}

/// A row's call through the archive, with the table's text or without one; the number returned.
fn archive_call(row: &Row, block: &mut Lent, text: Option<&[u8]>, lent: &mut [Lent; 3]) -> u32 {
    let [table, file, answers] = lent;
    match row.asked {
        Asked::Call(n) if text.is_some() => entry_call_table(&n, block, table, answers),
        Asked::Call(n) => entry_call(&n, block, answers),
        Asked::CutSlip(n) => entry_cut_slip(&n, block, table, file, answers),
        Asked::TakeBack(by) => entry_take_back(by, block, table, file, answers),
        Asked::Order(receiver) => entry_order(receiver, block, table, file, answers),
        Asked::File(FileCall::Write) => entry_write(block, file, answers),
        Asked::File(FileCall::Read) => entry_read(block, file, table, answers),
        Asked::BringOver => entry_bring_over(file, block, answers),
    }
}

fn lent_beside(row: &Row, text: Option<&[u8]>) -> [Lent; 3] {
    [text.unwrap_or_default(), &row.file, &[0; 12]].map(lent_bytes)
}

/// Whether the archive returns what the row says.
pub fn is_returned(row: &Row) -> bool {
    let text = row.text.as_deref();
    archive_call(row, &mut lent_bytes(&row.block), text, &mut lent_beside(row, text)) == row.refusal
}

/// Through the archive, with the table's text or without one.
pub fn archive_batch(row: &Row, size: usize, text: Option<&[u8]>) -> Batch {
    let mut blocks: Vec<Lent> = (0..size).map(|_| lent_bytes(&row.block)).collect();
    let mut lent = lent_beside(row, text);
    let start = Instant::now();
    for block in &mut blocks {
        assert_eq!(archive_call(row, block, text, &mut lent), row.refusal);
    }
    let time = start.elapsed().as_nanos() as u64 / size as u64;
    Batch { time, left: [&blocks[0], &lent[1], &lent[2]].map(|left| left.content().to_vec()) }
}
