//! Every refusal of a cut that writes its slip and of its being taken back, and every two that
//! apply at once, the first of which is returned, from lists of candidates.

use super::slipregisters::*;
use super::*;
use second::block::{encode, ZERO_AT};
use second::engine::FAST;
use second::lentcase::{Asked, Bytes, LentCase};
use second::slip::{applying, HandedIn, BY_AT, GIVER_AT, SLIP_LEN};
use std::collections::BTreeSet;

pub fn cases() -> Vec<LentCase> {
    let [malformed, broken] = texts::refused_at_the_end();
    let mut cases = Vec::new();
    for text in [Vec::new(), malformed, broken] {
        cases.extend([Call::Revoke, Call::Downgrade].iter().flat_map(|&call| cuts(call, &text)));
        cases.extend(taken_back(&text));
    }
    cases
}

/// The refusals that apply to a cut with a slip of this length: another length is a refusal
/// more, the first.
pub fn applying_to_cut(n: &Passed, on: &Bytes) -> Vec<u32> {
    let mut numbers = second::refusal::applying(&FAST, n, &on.table, &on.block, 0);
    if on.lent.len() != SLIP_LEN && numbers.first() != Some(&1) {
        numbers.insert(0, 1);
    }
    numbers
}

/// The same of taking back.
pub fn applying_to_take_back(by: u32, on: &Bytes) -> Vec<u32> {
    applying(&HandedIn { engine: &FAST, block: &on.block, by, text: &on.table, slip: &on.lent })
}

/// Whether a set of refusals that apply at once has one, with the first, that is new.
pub fn is_new(seen: &mut BTreeSet<(u32, u32)>, numbers: &[u32]) -> bool {
    let first = numbers.first().copied().unwrap_or(0);
    let others = if numbers.len() > 1 { &numbers[1..] } else { numbers };
    let new: Vec<bool> = others.iter().map(|&other| seen.insert((first, other))).collect();
    new.contains(&true)
}

/// The slip holds another cut.
fn cuts(call: Call, text: &[u8]) -> Vec<LentCase> {
    let mut sequence = Sequence::new(&example());
    sequence.cut(EXAMPLE_CUT);
    sequence.now.table = text.to_vec();
    let kept = sequence.now.lent.clone();
    let mut seen = BTreeSet::new();
    for (block, shorter) in blocks().into_iter().flat_map(|block| [(block.clone(), 0), (block, 1)]) {
        sequence.now.block = block;
        sequence.now.lent = kept[..SLIP_LEN - shorter].to_vec();
        for n in refusals::candidates(call) {
            if is_new(&mut seen, &applying_to_cut(&n, &sequence.now)) {
                sequence.cut(n);
            }
        }
    }
    sequence.cases.split_off(1)
}

/// The blocks of few subjects that candidates are tried on; in one 3 has retired.
fn blocks() -> Vec<Vec<u8>> {
    let few = |block: &Vec<u8>| block.iter().filter(|&&byte| byte != 0).count() < 200;
    refusals::blocks().into_iter().chain(named::blocks()).filter(few).collect()
}

/// Who hands a slip in: the owner, the giver, one who is neither, one who has retired, and
/// numbers that nobody has.
const CALLERS: [u32; 8] = [0, 1, 2, 3, 9, 63, 64, 4_294_967_295];

/// On registers in which 3 has retired; a slip that names 3, 9, 63 or 64 as its giver is among
/// the candidates.
fn taken_back(text: &[u8]) -> Vec<LentCase> {
    let mut sequence = Sequence::new(&named::few());
    sequence.cut(revoke(1, 1, 2));
    let made = sequence.now.clone();
    let mut unformed = made.block.clone();
    unformed[ZERO_AT] = 1;
    let mut others = made.block.clone();
    others[0] = 64;
    let other = encode(&retireregisters::without(example(), &[3]));
    let blocks = [made.block.clone(), unformed, others, other, made.block[..2180].to_vec()];
    for block in blocks {
        let mut seen = BTreeSet::new();
        for (slip, &by) in slips(&made.lent).iter().flat_map(|slip| CALLERS.iter().map(move |by| (slip, by))) {
            let on = Bytes { lent: slip.clone(), table: text.to_vec(), block: block.clone() };
            if is_new(&mut seen, &applying_to_take_back(by, &on)) {
                sequence.now = on;
                sequence.ask(Asked::TakeBack(by));
            }
        }
    }
    sequence.cases.split_off(1)
}

/// The slip, shorter and longer ones, and ones with another giver or another by.
fn slips(made: &[u8]) -> Vec<Vec<u8>> {
    let with = |at: usize, byte: u8| {
        let mut slip = made.to_vec();
        slip[at] = byte;
        slip
    };
    let longer = [made, &[0]].concat();
    let givers = [0, 2, 3, 9, 63, 64].map(|giver| with(GIVER_AT, giver));
    let mut slips = vec![made.to_vec(), with(BY_AT, 2), made[..SLIP_LEN - 1].to_vec(), longer];
    slips.extend(givers);
    slips
}
