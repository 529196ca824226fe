//! The eight bytes of the retired: every bit set, right and wrong.

use super::tables::lent;
use super::*;
use second::block::{encode, set_word, GIVER, MARKS_AT, RECEIVER, RECORDS_AT, RETIRED_AT};

/// A block with this subject's bit set, whatever else it holds.
pub fn with_bit(block: &[u8], subject: usize) -> Vec<u8> {
    let mut block = block.to_vec();
    block[RETIRED_AT + subject / 8] |= 1 << (subject % 8);
    block
}

/// 64 subjects without marks; 1-2 stands, or 62-61 where 1 or 2 is the subject.
pub fn all_enrolled(subject: usize) -> Vec<u8> {
    let pair = if subject == 1 || subject == 2 { (62, 61) } else { (1, 2) };
    encode(&register(&[0; 64], &[(pair.0, pair.1, 3, 0, 0)]))
}

pub fn cases() -> Vec<Case> {
    let mut cases = Vec::new();
    for subject in 0..64 {
        cases.extend(formed(subject));
        cases.extend(unformed(subject).iter().map(|block| on(block, asked(subject))));
    }
    cases.extend(whole_bytes());
    lent(b"", cases)
}

/// A call that names nobody but the owner and one other, or only the owner.
fn asked(subject: usize) -> Passed {
    if subject % 3 == 0 { use_right(0) } else { retire(0, 1 + subject as u32 % 60) }
}

/// The subject has retired, alone; for the owner the block is not well formed.
fn formed(subject: usize) -> Vec<Case> {
    let block = with_bit(&all_enrolled(subject), subject);
    let number = subject as u32;
    [use_right(number), use_right((number + 1) % 64), retire(0, (number + 8) % 64)].map(|n| on(&block, n)).to_vec()
}

/// The bit of a subject that is not enrolled, just not and by far; that has marks, low and high;
/// that gives; that receives.
pub fn unformed(subject: usize) -> Vec<Vec<u8>> {
    let all = with_bit(&all_enrolled(subject), subject);
    let mut blocks = Vec::new();
    for enrolled in [subject, 1].into_iter().filter(|enrolled| (1..=subject).contains(enrolled)) {
        blocks.push(with_bit(&encode(&register(&vec![0; enrolled], &[])), subject));
    }
    if subject == 0 {
        return blocks;
    }
    for marks in [1, 0x8000] {
        let mut block = all.clone();
        set_word(&mut block, MARKS_AT + 2 * subject, marks);
        blocks.push(block);
    }
    let mut gives = all.clone();
    (gives[RECORDS_AT + GIVER], gives[RECORDS_AT + RECEIVER]) = (subject as u8, if subject == 9 { 10 } else { 9 });
    let mut receives = all;
    (receives[RECORDS_AT + GIVER], receives[RECORDS_AT + RECEIVER]) = (0, subject as u8);
    [blocks, vec![gives, receives]].concat()
}

/// Every byte with all its bits; the first also without the owner's.
fn whole_bytes() -> Vec<Case> {
    let mut cases = Vec::new();
    for byte in 0..8 {
        let mut block = encode(&register(&[0; 64], &[]));
        block[RETIRED_AT + byte] = 255;
        cases.push(on(&block, retire(0, 1 + (8 * byte as u32 + 20) % 63)));
        block[RETIRED_AT + byte] = 254;
        cases.push(on(&block, retire(0, 8 * byte as u32)));
        cases.push(on(&block, use_right(8 * byte as u32 + 7)));
    }
    let mut all = encode(&register(&[0; 64], &[]));
    all[RETIRED_AT..RECORDS_AT].copy_from_slice(&[254, 255, 255, 255, 255, 255, 255, 255]);
    cases.extend([use_right(0), use_right(63), retire(0, 9), enrol(0), retire(0, 0)].map(|n| on(&all, n)));
    cases
}
