//! Blocks of 2,180 bytes, as they were before document 02's C-16, that are brought over.

use super::retireregisters::{example, wide};
use super::tables::lent;
use super::*;
use second::block::{encode, BLOCK_LEN, OLD_BLOCK_LEN, RECORDS_AT, RETIRED_AT};
use second::random::Random;

/// The old block of a new one, which has none retired: it has not these eight bytes.
pub fn old(block: &[u8]) -> Vec<u8> {
    [&block[..RETIRED_AT], &block[RECORDS_AT..]].concat()
}

pub fn cases() -> Vec<Case> {
    let mut cases = well_formed();
    cases.extend(any_content());
    cases.extend(spoiled());
    cases.extend(random_bytes());
    cases.extend(lengths());
    cases
}

/// Old registers that are brought over, supported or not.
fn registers() -> Vec<Register> {
    let mut registers = vec![Register::fresh(), example(), wide(), broken::valid(), refusals::unsupported()];
    registers.extend(markregisters::cycles());
    registers.extend([filetexts::longest(), full::all_enrolled(), deep::path(|_| 255)]);
    registers
}

/// Each, and some calls on what is left.
fn well_formed() -> Vec<Case> {
    let mut cases = Vec::new();
    for register in registers() {
        cases.push(bring_over(&old(&encode(&register)), &vec![0; BLOCK_LEN]));
        cases.extend(lent(b"", [use_right(1), reach(1, 2), retire(0, 1), use_right(1), enrol(5)].map(next)));
    }
    cases
}

/// Bytes that a new block holds before.
pub fn contents() -> Vec<Vec<u8>> {
    let mut random = Random::new(0xB09E);
    let drawn: Vec<u8> = (0..BLOCK_LEN).map(|_| random.next() as u8).collect();
    let mut last = vec![0; BLOCK_LEN];
    last[BLOCK_LEN - 1] = 1;
    let gone = encode(&retireregisters::without(example(), &[1, 4]));
    vec![drawn, vec![255; BLOCK_LEN], last, encode(&full::all_enrolled()), encode(&Register::fresh()), gone]
}

/// Into a block of any content, accepted and refused; also one that holds the same already.
fn any_content() -> Vec<Case> {
    let register = old(&encode(&example()));
    let mut spoilt = register.clone();
    spoilt[1] = 1;
    let mut cases = Vec::new();
    for block in contents() {
        cases.extend([&spoilt, &register].map(|old| bring_over(old, &block)));
    }
    cases.push(bring_over(&register, &encode(&example())));
    cases
}

/// Every old rule broken, the new block holding a register; and the first 2,180 bytes of new
/// blocks, of which that of a fresh register is an old one.
fn spoiled() -> Vec<Case> {
    let register = encode(&example());
    let of_old_rules = broken::all().into_iter().filter(|broken| broken.rules.iter().all(|&rule| rule < 13));
    let mut cases: Vec<Case> = of_old_rules.map(|broken| bring_over(&old(&broken.block), &register)).collect();
    let retired = encode(&retireregisters::without(example(), &[1]));
    cases.push(bring_over(&retired[..OLD_BLOCK_LEN], &register));
    cases.push(bring_over(&encode(&example())[..OLD_BLOCK_LEN], &register));
    cases.push(bring_over(&encode(&Register::fresh())[..OLD_BLOCK_LEN], &register));
    cases
}

/// The valid block with one random byte changed, which may leave it well formed.
fn random_bytes() -> Vec<Case> {
    let mut random = Random::new(0xB09F);
    let valid = old(&encode(&broken::valid()));
    let one = |_| {
        let mut block = valid.clone();
        let place = if random.chance(90) { random.below(184) } else { random.below(OLD_BLOCK_LEN as u32) };
        block[place as usize] = random.pick(&[0, 1, 2, 4, 63, 64, 128, 255]);
        bring_over(&block, &held(BLOCK_LEN))
    };
    (0..60).map(one).collect()
}

/// So many bytes, the first of them no register's.
fn held(length: usize) -> Vec<u8> {
    let mut block = vec![85; length.min(9)];
    block.resize(length, 0);
    block
}

/// Lengths of an old block and of a new one; the right one of each is among the other's.
pub const OLD_LENGTHS: [usize; 9] = [0, 1, 132, 2172, 2179, 2180, 2181, 2188, 4096];
pub const NEW_LENGTHS: [usize; 9] = [0, 1, 140, 2180, 2187, 2188, 2189, 2196, 4096];

/// Every length of each with every length of the other, of blocks that are well formed where the
/// length is right, and of others.
fn lengths() -> Vec<Case> {
    let mut spoilt = old(&encode(&broken::valid()));
    spoilt[1] = 9;
    let mut cases = Vec::new();
    for block in [old(&encode(&example())), spoilt] {
        for (length, new) in OLD_LENGTHS.iter().flat_map(|&old| NEW_LENGTHS.map(|new| (old, new))) {
            let mut of_length = block.clone();
            of_length.resize(length, 0);
            cases.push(bring_over(&of_length, &held(new)));
        }
    }
    cases
}
