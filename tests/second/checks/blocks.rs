//! Decode, encode and the rules of well-formedness.

use generate::{broken, full, retireregisters};
use second::block::*;
use second::call;
use second::casefile::{answer, block_text, read_block};
use second::engine::FAST;
use second::random::{random_register, Random, Shape};
use second::refusal::{Call, ALL_CALLS};
use std::collections::BTreeSet;

fn any_register(random: &mut Random) -> Register {
    let weights: Vec<u8> = (0..=255).collect();
    let shape = Shape {
        subjects: random.range(2, 64),
        delegations: random.range(0, 256),
        weights: &weights,
        marks: 0xFFFF,
        conditions: 70,
    };
    let register = random_register(random, &shape);
    let gone = random.range(1, shape.subjects - 1);
    if random.chance(50) { retireregisters::without(register, &[gone]) } else { register }
}

#[test]
fn decode_and_encode_are_inverse() {
    let mut random = Random::new(0xDEC0);
    for _ in 0..3000 {
        let register = any_register(&mut random);
        let block = encode(&register);
        assert_eq!(decode(&block), Some(register));
    }
}

/// A changed byte leaves a block that is not well formed or that is encoded
/// from what is decoded.
#[test]
fn encode_gives_every_byte_back() {
    let mut random = Random::new(0xE9C0);
    let (mut formed, mut not_formed) = (0, 0);
    for _ in 0..20_000 {
        let mut block = encode(&broken::valid());
        let most = if random.chance(90) { RECORDS_AT + 6 * RECORD_LEN } else { BLOCK_LEN };
        block[random.below(most as u32) as usize] = random.next() as u8;
        match decode(&block) {
            None => not_formed += 1,
            Some(register) => {
                assert_eq!(encode(&register), block);
                formed += 1;
            }
        }
    }
    assert!(formed > 1000 && not_formed > 1000);
}

/// Every rule is broken on its own by some block, and each block breaks the
/// rules that it is said to break.
#[test]
fn every_rule_is_broken_alone() {
    let mut alone = BTreeSet::new();
    for broken in broken::all() {
        assert_eq!(broken_rules(&broken.block), broken.rules);
        assert!(!well_formed(&broken.block));
        if let [rule] = broken.rules[..] {
            alone.insert(rule);
        }
    }
    assert_eq!(alone, (0..RULES.len()).collect());
}

/// The calls that the broken blocks are handed are accepted on the valid one.
#[test]
fn calls_on_the_valid_block_are_accepted() {
    for call in ALL_CALLS {
        for n in broken::calls(call) {
            let mut block = encode(&broken::valid());
            let outcome = answer(&FAST, &n, &mut block);
            assert_eq!(outcome.refusal, 0, "{n:?}");
            assert!(call != Call::Chain || outcome.answers == [1, 1, 1]);
        }
    }
}

#[test]
fn open_writes_a_fresh_block() {
    let mut block = vec![0xEE; BLOCK_LEN];
    assert_eq!(call::open(&mut block).refusal, 0);
    assert_eq!(block_text(&block), "2188:01");
    let mut short = vec![0xEE; BLOCK_LEN - 1];
    assert_eq!(call::open(&mut short).refusal, 1);
    assert!(short.iter().all(|&byte| byte == 0xEE));
}

#[test]
fn block_texts_are_read_back() {
    let mut random = Random::new(0x7E47);
    for length in [0, 1, 2, 2180, 2187, 2188, 2189, 4096] {
        for _ in 0..20 {
            let block: Vec<u8> = (0..length).map(|_| if random.chance(50) { 0 } else { random.next() as u8 }).collect();
            assert_eq!(read_block(block_text(&block).as_bytes()), Some(block));
        }
    }
    assert_eq!(read_block(b"1:0101"), None);
    assert_eq!(read_block(b"9:0"), None);
    assert_eq!(read_block(b"4097:"), None);
}

#[test]
fn full_registers_are_full() {
    for register in [full::all_enrolled(), full::some_enrolled()] {
        assert_eq!(register.delegations.len(), MOST_DELEGATIONS);
        assert!(well_formed(&encode(&register)));
    }
    assert_eq!(full::all_enrolled().marks.len(), MOST_SUBJECTS);
}
