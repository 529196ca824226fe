//! The old rules, document 01's, on 2,180 bytes, with document 02's kinds: what is brought over
//! keeps them, and the calls on it answer as on the register that they describe.

use generate::{broken, brought, enrol, full, grant, lists, reach, retire, revoke, unsupported, use_right};
use second::block::{decode, encode, Delegation, Register, BLOCK_LEN};
use second::call::{bring_over, run};
use second::engine::FAST;
use second::host::{host_bring_over, ANSWERS_LEN};
use second::random::{random_register, Random, Shape};

/// The register of an old block by those sentences, or nothing if they don't hold. It
/// shares no code with the block of 2,188 bytes.
fn old_register(block: &[u8]) -> Option<Register> {
    let number = |at: usize| block[at] as usize + 256 * block[at + 1] as usize;
    if block.len() != 2180 || !(1..=64).contains(&block[0]) || block[1] != 0 || number(2) > 256 {
        return None;
    }
    let (subjects, count) = (block[0] as usize, number(2));
    let marks: Vec<u16> = (0..64).map(|subject| number(4 + 2 * subject) as u16).collect();
    let records: Vec<&[u8]> = block[132..].chunks_exact(8).collect();
    let right = |record: &&[u8]| {
        let (giver, receiver) = (record[0] as usize, record[1] as usize);
        let apart = giver != receiver && receiver != 0 && giver < subjects && receiver < subjects;
        apart && record[3] < 2 && record[4] & record[6] == 0 && record[5] & record[7] == 0
    };
    let rising = records[..count].windows(2).all(|two| two[0][..2] < two[1][..2]);
    let unused = records[count..].iter().all(|record| record.iter().all(|&byte| byte == 0));
    let unmarked = marks[0] == 0 && marks[subjects..].iter().all(|&marks| marks == 0);
    let formed = unmarked && rising && unused && records[..count].iter().all(right);
    formed.then(|| Register {
        marks: marks[..subjects].to_vec(),
        retired: 0,
        delegations: records[..count].iter().map(|record| delegation(record)).collect(),
    })
}

fn delegation(record: &[u8]) -> Delegation {
    let both = |at: usize| record[at] as u16 + 256 * record[at + 1] as u16;
    let [giver, receiver, weight, kind] = [record[0], record[1], record[2], record[3]];
    Delegation { giver, receiver, weight, kind, need: both(4), bar: both(6) }
}

/// Bytes that a new block holds before.
fn held(random: &mut Random, length: usize) -> Vec<u8> {
    let fill = random.next() as u8;
    (0..length).map(|_| if random.chance(50) { fill } else { random.next() as u8 }).collect()
}

/// What is due by the old rules: the refusal and the new block.
fn due(old: &[u8], new: &[u8]) -> (u32, Vec<u8>) {
    if old.len() != 2180 || new.len() != 2188 {
        return (1, new.to_vec());
    }
    match old_register(old) {
        None => (8, new.to_vec()),
        Some(_) => (0, [&old[..132], &[0; 8], &old[132..]].concat()),
    }
}

/// Brings a block over and checks what is left; answers the refusal.
fn checked(old: &[u8], new: &[u8]) -> u32 {
    let mut left = new.to_vec();
    let outcome = bring_over(old, &mut left);
    assert_eq!(outcome.answers, [0, 0, 0]);
    assert!((outcome.refusal, left.clone()) == due(old, new));
    if outcome.refusal == 0 {
        assert_eq!(decode(&left), old_register(old));
    }
    outcome.refusal
}

/// An old block of some register, with a few bytes changed or none.
fn drawn(random: &mut Random) -> Vec<u8> {
    let shape = Shape {
        subjects: random.range(2, 64),
        delegations: random.pick(&[0, 3, 8, 40, 256]),
        weights: &[0, 1, 9, 254, 255],
        marks: random.pick(&[0, 3, 0xFFFF]),
        conditions: 40,
    };
    let mut block = brought::old(&encode(&random_register(random, &shape)));
    let near = random.pick(&[4, 132, 180, 2180]);
    for _ in 0..random.pick(&[0, 1, 1, 2]) {
        let byte = if random.chance(30) { random.next() as u8 } else { random.pick(&[0, 1, 2, 63, 64, 255]) };
        block[random.below(near) as usize] = byte;
    }
    block
}

#[test]
fn drawn_blocks_are_brought_over_by_the_old_rules() {
    let mut random = Random::new(0x01D0);
    let (mut accepted, mut refused) = (0, 0);
    for _ in 0..20_000 {
        let (old, new) = (drawn(&mut random), held(&mut random, BLOCK_LEN));
        match checked(&old, &new) {
            0 => accepted += 1,
            number => refused += (number == 8) as u32,
        }
    }
    assert!(accepted > 5000 && refused > 5000, "{accepted} {refused}");
}

/// Every byte of an old block, with every value, in turn.
#[test]
fn every_byte_is_judged_by_the_old_rules() {
    let valid = brought::old(&encode(&broken::valid()));
    let new = vec![0; BLOCK_LEN];
    let mut found = [0; 2];
    for place in (0..180).chain([2171, 2172, 2179]) {
        for value in 0..=255 {
            let mut old = valid.clone();
            old[place] = value;
            found[(checked(&old, &new) == 0) as usize] += 1;
        }
    }
    assert!(found[0] > 20_000 && found[1] > 4000, "{found:?}");
}

/// Any bytes at all.
#[test]
fn any_bytes_are_answered() {
    let mut random = Random::new(0x01D1);
    for _ in 0..3000 {
        let few = random.range(1, 40);
        let mut old = vec![0; 2180];
        (0..few).for_each(|_| old[random.below(2180) as usize] = random.next() as u8);
        checked(&old, &held(&mut random, BLOCK_LEN));
        let old = held(&mut random, 2180);
        assert_eq!(checked(&old, &vec![0; BLOCK_LEN]), 8);
    }
}

/// Other lengths get 1, whatever the bytes, and no byte changes.
#[test]
fn wrong_lengths_are_refused() {
    let mut random = Random::new(0x01D2);
    let lengths = [0, 1, 2, 132, 140, 2172, 2179, 2180, 2181, 2187, 2188, 2189, 2196, 4096];
    for (old, new) in lengths.iter().flat_map(|&old| lengths.map(|new| (old, new))) {
        let mut block = drawn(&mut random);
        block.resize(old, 0);
        let due = if (old, new) == (2180, 2188) { [0, 8] } else { [1, 1] };
        assert!(due.contains(&checked(&block, &held(&mut random, new))));
    }
}

/// The calls on what is left answer as on the old register, and none gets 8 or 19.
#[test]
fn calls_go_on_from_what_is_brought_over() {
    let mut random = Random::new(0x01D3);
    let mut accepted = 0;
    for _ in 0..600 {
        let small = random.chance(80);
        let draw = if small { unsupported::random_unsupported } else { full::large };
        let start = draw(&mut random);
        let old = brought::old(&encode(&start));
        let mut block = held(&mut random, BLOCK_LEN);
        assert_eq!(bring_over(&old, &mut block).refusal, 0);
        let register = old_register(&old).expect("well formed by the old rules");
        for n in lists::CUT.map(|call| lists::likely(&mut random, call, &second::table::OURS, &register)) {
            let (mut left, mut other) = (block.clone(), encode(&register));
            let outcome = run(&FAST, &n, &mut left);
            assert_eq!(outcome, run(&FAST, &n, &mut other));
            assert!(left == other && ![8, 19].contains(&outcome.refusal));
            accepted += (outcome.refusal == 0) as u32;
        }
    }
    assert!(accepted > 3000, "{accepted}");
}

/// Spoiled old blocks are refused, so that what a call finds there is as before.
#[test]
fn refused_blocks_leave_the_register() {
    let old_rules = broken::all().into_iter().filter(|broken| broken.rules.iter().all(|&rule| rule < 13));
    let (before, mut count) = (encode(&broken::valid()), 0);
    for broken in old_rules {
        let mut block = before.clone();
        assert_eq!(bring_over(&brought::old(&broken.block), &mut block).refusal, 8);
        for n in [enrol(3), grant(1, 4, 98, 2, 1), revoke(0, 0, 1), reach(2, 3), use_right(2), retire(0, 2)] {
            assert_eq!(run(&FAST, &n, &mut block.clone()).refusal, 0);
        }
        assert_eq!(block, before);
        count += 1;
    }
    assert!(count > 50);
}

/// A host's answers are 12 bytes, all zero, and written only when accepted.
#[test]
fn hosts_bring_blocks_over() {
    let old = brought::old(&encode(&broken::valid()));
    let mut spoilt = old.clone();
    spoilt[1] = 1;
    let called = |old: &[u8], new: usize, length: usize| {
        let (mut block, mut answers) = (vec![9; new], vec![7; length]);
        let number = host_bring_over(old, &mut block, &mut answers);
        (number, block, answers)
    };
    assert_eq!(called(&old, BLOCK_LEN, ANSWERS_LEN), (0, encode(&broken::valid()), vec![0; 12]));
    assert_eq!(called(&spoilt, BLOCK_LEN, ANSWERS_LEN), (8, vec![9; BLOCK_LEN], vec![7; 12]));
    assert_eq!(called(&spoilt, 2180, ANSWERS_LEN), (1, vec![9; 2180], vec![7; 12]));
    assert_eq!(called(&old[1..], BLOCK_LEN, ANSWERS_LEN), (1, vec![9; BLOCK_LEN], vec![7; 12]));
    for length in (0..=20).filter(|&length| length != ANSWERS_LEN) {
        assert_eq!(called(&old, BLOCK_LEN, length), (1, vec![9; BLOCK_LEN], vec![7; length]));
        assert_eq!(called(&spoilt, BLOCK_LEN, length), (1, vec![9; BLOCK_LEN], vec![7; length]));
    }
}
