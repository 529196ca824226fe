//! What holds for every call: refused calls change no byte, accepted ones
//! leave a well-formed block, reach, use, chain and order change nothing, and no
//! input makes a call panic.

use super::same;
use crate::faults::{ONE_ROUND, TEXT_LEFT_OUT, VISITED_ONCE};
use generate::{drawnmarks, lists, marklists, raises, retirelists, texts, unsupported};
use second::block::{decode, encode, well_formed, Register, BLOCK_LEN};
use second::call::{self, Outcome};
use second::casefile::{answer, answer_table};
use second::engine::{Engine, FAST, LITERAL};
use second::random::{random_table, Random};
use second::refusal::{applying, tests, Call, Passed, ALL_CALLS};
use second::table::{Table, OURS};

/// Runs a call and checks what it did to the block.
fn checked(engine: &Engine, n: &Passed, text: &[u8], block: &mut Vec<u8>) -> Result<Outcome, String> {
    let before = block.clone();
    let outcome = answer_table(engine, n, text, block);
    let reads_only = matches!(n.call, Call::Reach | Call::Use | Call::Chain | Call::Order);
    if (outcome.refusal != 0 || reads_only) && *block != before {
        return Err(format!("{n:?} changed the block"));
    }
    if outcome.refusal != 0 {
        same("answers of a refused call", outcome.answers, [0, 0, 0])?;
    }
    if outcome.refusal == 0 && !well_formed(block) {
        return Err(format!("{n:?} left a block that is not well formed"));
    }
    Ok(outcome)
}

/// The refusal is the first that applies in the order of the lists.
fn first_applying(n: &Passed, text: &[u8], block: &[u8]) -> u32 {
    let all = applying(&LITERAL, n, text, block, n.weight as usize);
    let lists = tests(n.call);
    let mut order = vec![1];
    order.extend(lists.passed.iter().map(|(number, _)| *number));
    order.extend(lists.table);
    order.push(8);
    order.extend(lists.held.iter().map(|(number, _)| *number));
    order.into_iter().find(|number| all.contains(number)).unwrap_or(0)
}

/// What random lists are made of: how a call is drawn, and which calls there are.
type Mix = (lists::Draw, &'static [Call]);

const MIXES: [Mix; 4] = [
    (lists::likely, &lists::CUT),
    (raises::likely, &lists::CUT),
    (drawnmarks::likely, &marklists::DRAWN),
    (drawnmarks::likely, &retirelists::DRAWN),
];

/// Random lists of calls with an engine and with the definition.
fn same_lists(engine: &Engine, (draw, calls): Mix) -> Result<usize, String> {
    let mut random = Random::new(0x1157);
    let mut accepted = 0;
    for _ in 0..250 {
        let mut block = encode(&Register::fresh());
        for n in lists::list(draw, &mut random, calls, 60) {
            let mut literal = block.clone();
            let due = first_applying(&n, b"", &block);
            let found = checked(engine, &n, b"", &mut block)?;
            same("outcome", found, answer(&LITERAL, &n, &mut literal))?;
            same("block", &block, &literal)?;
            same("refusal", found.refusal, due)?;
            accepted += (found.refusal == 0) as usize;
        }
    }
    Ok(accepted)
}

#[test]
fn lists_are_literal() {
    for mix in MIXES {
        assert!(same_lists(&FAST, mix).unwrap() > 5000);
        assert!(same_lists(&VISITED_ONCE, mix).is_err());
        assert!(same_lists(&ONE_ROUND, mix).is_err());
    }
}

/// Any text: empty, refused, or of a table that passes.
fn any_text(random: &mut Random, refused: &[Vec<u8>]) -> Vec<u8> {
    match random.below(8) {
        0 => Vec::new(),
        1 => refused[random.below(refused.len() as u32) as usize].clone(),
        _ => random_table(random).text(),
    }
}

/// Lists of calls from blocks that are not supported, each call lent another
/// text, with an engine and with the definition.
fn same_lists_under_tables(engine: &Engine, (draw, calls): Mix) -> Result<usize, String> {
    let mut random = Random::new(0x7AB5);
    let refused = texts::refused_at_the_end();
    let mut accepted = 0;
    for _ in 0..250 {
        let mut block = encode(&unsupported::random_unsupported(&mut random));
        for _ in 0..20 {
            let text = any_text(&mut random, &refused);
            let call = random.pick(calls);
            let register = decode(&block).ok_or("not well formed")?;
            let n = draw(&mut random, call, &Table::read(&text).unwrap_or(OURS), &register);
            let mut literal = block.clone();
            let due = first_applying(&n, &text, &block);
            let found = checked(engine, &n, &text, &mut block)?;
            same("outcome", found, answer_table(&LITERAL, &n, &text, &mut literal))?;
            same("block", &block, &literal)?;
            same("refusal", found.refusal, due)?;
            accepted += (found.refusal == 0) as usize;
        }
    }
    Ok(accepted)
}

#[test]
fn lists_under_tables_are_literal() {
    for mix in MIXES {
        assert!(same_lists_under_tables(&FAST, mix).unwrap() > 2000);
        assert!(same_lists_under_tables(&VISITED_ONCE, mix).is_err());
        assert!(same_lists_under_tables(&ONE_ROUND, mix).is_err());
        assert!(same_lists_under_tables(&TEXT_LEFT_OUT, mix).is_err());
    }
}

/// Calls on the pair of a delegation, or on its receiver.
const ON_PAIRS: [Call; 7] =
    [Call::Revoke, Call::Downgrade, Call::Chain, Call::Reach, Call::Use, Call::SetMarks, Call::Retire];

/// From random well-formed blocks that are not supported.
#[test]
fn calls_on_unsupported_blocks() {
    let mut random = Random::new(0x0550);
    let mut accepted = 0;
    for _ in 0..1500 {
        let register = unsupported::random_unsupported(&mut random);
        let start = encode(&register);
        for d in &register.delegations {
            let (giver, receiver) = (d.giver as u32, d.receiver as u32);
            for call in ON_PAIRS {
                let n = Passed { giver, receiver, weight: 126, ..call::blank(call) };
                let mut block = start.clone();
                let found = checked(&FAST, &n, b"", &mut block).unwrap();
                assert_ne!(found.refusal, 8);
                accepted += (found.refusal == 0) as u32;
            }
        }
    }
    assert!(accepted > 5000);
}

fn any_number(random: &mut Random) -> u32 {
    match random.below(4) {
        0 => random.next() as u32,
        1 => random.pick(&[63, 64, 255, 256, 65_535, 65_536, 4_294_967_295]),
        _ => random.below(6),
    }
}

/// Any bytes and any numbers are answered.
#[test]
fn any_input_is_answered() {
    let mut random = Random::new(0xA11);
    let refused: Vec<Vec<u8>> = texts::malformed().into_iter().chain(texts::broken()).map(|text| text.bytes).collect();
    for _ in 0..30_000 {
        let length = random.pick(&[0, 1, 4, 132, 140, 2180, 2187, 2188, 2188, 2188, 2189, 4096]);
        let mut block = vec![0; length];
        for _ in 0..random.below(12) {
            let near = if random.chance(70) { 160 } else { 4096 };
            let place = random.below(near) as usize;
            if place < length {
                block[place] = random.next() as u8;
            }
        }
        let numbers = [(); 7].map(|_| any_number(&mut random));
        let [by, giver, receiver, weight, need, bar, kind] = numbers;
        let n = Passed { call: random.pick(&ALL_CALLS), by, giver, receiver, weight, need, bar, kind };
        let text = any_text(&mut random, &refused);
        let outcome = checked(&FAST, &n, &text, &mut block).unwrap();
        assert!(length == BLOCK_LEN || outcome.refusal == 1);
    }
}

/// The public functions take the numbers in the order of their names.
#[test]
fn public_calls() {
    let mut block = vec![9; BLOCK_LEN];
    let accepted = |answers| Outcome { refusal: 0, answers };
    assert_eq!(call::open(&mut block), accepted([0, 0, 0]));
    assert_eq!(call::enrol(&mut block, 1), accepted([1, 0, 0]));
    assert_eq!(call::enrol(&mut block, 0), accepted([2, 0, 0]));
    assert_eq!(call::grant(&mut block, 0, 1, 9, 1, 2), accepted([1, 0, 0]));
    assert_eq!(call::reach(&block, 1, 2), accepted([-1, 0, 0]));
    assert_eq!(call::grant(&mut block, 0, 2, 7, 0, 0), accepted([2, 0, 0]));
    assert_eq!(call::grant(&mut block, 2, 1, 6, 0, 0), accepted([3, 0, 0]));
    assert_eq!(call::reach(&block, 1, 2), accepted([5, 0, 0]));
    assert_eq!(call::use_right(&block, 2), accepted([1, 0, 0]));
    let mut buffer = [7; 126];
    let written = call::chain(&block, 2, 1, &mut buffer);
    assert_eq!((written.refusal, written.filled, &buffer[..3]), (0, 2, &[0, 2, 7][..]));
    let mut buffer = [7; 128];
    let written = call::order(&block, 2, &mut buffer);
    assert_eq!((written.refusal, written.filled, &buffer[..7]), (0, 6, &[0, 255, 2, 6, 1, 5, 7][..]));
    assert_eq!(call::downgrade(&mut block, 0, 0, 2, 3), accepted([0, 1, 2]));
    assert_eq!(call::revoke(&mut block, 2, 2, 1), accepted([0, 0, 1]));
    assert_eq!(call::set_marks(&mut block, 0, 2, 3), accepted([0, 0, 1]));
    assert_eq!(decode(&block).map(|register| register.marks), Some(vec![0, 1, 3]));
    assert_eq!(call::set_marks(&mut block, 2, 1, 3), Outcome { refusal: 14, answers: [0, 0, 0] });
    assert_eq!(call::retire(&mut block, 2, 1), Outcome { refusal: 14, answers: [0, 0, 0] });
    assert_eq!(call::retire(&mut block, 0, 1), accepted([0, 0, 1]));
    assert_eq!(decode(&block).map(|register| (register.marks, register.retired)), Some((vec![0, 0, 3], 2)));
}
