//! Wrong ways to bring over an old block, to see that the comparison finds them.

use crate::contents::{Asked, Contents};
use crate::draw::List;
use crate::fault::{Fault, NONE};
use crate::kinds::make_ordinary;
use crate::olds::{new_layout, old_layout};
use crate::report::Part;
use crate::returned::is_supported;
use crate::settling::{Left, ACCEPTED, ANSWERS, BLOCK, NUMBER, UNFORMED};
use second::block::{
    brought, decode, word, BLOCK_LEN, DELEGATIONS_AT, MARKS_AT, OLD_BLOCK_LEN,
    PASS_ONLY, RECORDS_AT, RECORD_LEN, RETIRED_AT, ZERO_AT,
};
use second::refusal::{NOT_WELL_FORMED, UNSUPPORTED, WRONG_LENGTH};
use second::table::OURS;

/// Where the old records begin.
const OLD_RECORDS_AT: usize = RETIRED_AT;

pub const BRINGS: [Fault; 22] = [
    wrong("a spoiled old block brought over", ACCEPTED, |lent| formed(lent, |_| true)),
    wrong("an old block's unused records not looked at", ACCEPTED, |lent| formed(lent, |old| {
        let used = OLD_RECORDS_AT + RECORD_LEN * word(old, DELEGATIONS_AT).min(256) as usize;
        mended(old, |old| old[used..].fill(0))
    })),
    wrong("an old block's records not compared with each other", ACCEPTED, |lent| formed(lent, |old| {
        mended(old, |old| sort_records(old))
    })),
    wrong("an old block's zero byte and its owner's marks not looked at", ACCEPTED, |lent| formed(lent, |old| {
        mended(old, |old| {
            old[ZERO_AT] = 0;
            old[MARKS_AT..MARKS_AT + 2].fill(0);
        })
    })),
    wrong("an old block's kinds not looked at", ACCEPTED, |lent| formed(lent, |old| {
        let mut block = new_layout(old);
        make_ordinary(&mut block);
        decode(&block).is_some()
    })),
    wrong("all made ordinary in the new block", BLOCK, |lent| accepted(lent, |left| make_ordinary(&mut left.block))),
    wrong("8 for a pass-only delegation of an old block", ACCEPTED, |lent| match right(lent) {
        (0, left) if decode(&left.block).is_some_and(|r| r.delegations.iter().any(|d| d.kind == PASS_ONLY)) => {
            (NOT_WELL_FORMED, lent.clone())
        }
        right => right,
    }),
    wrong("the bits left as they were in the new block", UNFORMED, |lent| accepted(lent, |left| {
        left.block[RETIRED_AT..RECORDS_AT].copy_from_slice(&lent.block[RETIRED_AT..RECORDS_AT]);
    })),
    wrong("the bits all set", UNFORMED, |lent| accepted(lent, |left| left.block[RETIRED_AT..RECORDS_AT].fill(255))),
    wrong("the eight bytes put at the end", UNFORMED, |lent| accepted(lent, |left| {
        left.block = [&lent.file[..], &[0; RECORDS_AT - RETIRED_AT]].concat();
    })),
    wrong("the eight bytes put after the first record", UNFORMED, |lent| accepted(lent, |left| {
        let (head, rest) = lent.file.split_at(OLD_RECORDS_AT + RECORD_LEN);
        left.block = [head, &[0; RECORDS_AT - RETIRED_AT], rest].concat();
    })),
    wrong("the last record lost", UNFORMED, |lent| accepted(lent, |left| left.block[BLOCK_LEN - RECORD_LEN..].fill(0))),
    wrong("the bytes that the old register doesn't use left as they were", UNFORMED, |lent| accepted(lent, |left| {
        let used = RECORDS_AT + RECORD_LEN * word(&left.block, DELEGATIONS_AT) as usize;
        left.block[used..].copy_from_slice(&lent.block[used..]);
    })),
    wrong("a block of today brought over", ACCEPTED, |lent| {
        if lent.file.len() != BLOCK_LEN {
            return right(lent);
        }
        let (number, left) = right(&Contents { file: old_layout(&lent.file), ..lent.clone() });
        (number, Contents { file: lent.file.clone(), ..left })
    }),
    wrong("a byte too many in the old block", ACCEPTED, |lent| sized(lent, OLD_BLOCK_LEN + 1)),
    wrong("a byte too few in the old block", ACCEPTED, |lent| sized(lent, OLD_BLOCK_LEN - 1)),
    wrong("8 for a new block that is not well formed", ACCEPTED, |lent| {
        let refused = (NOT_WELL_FORMED, lent.clone());
        if right(lent).0 == 0 && decode(&lent.block).is_none() { refused } else { right(lent) }
    }),
    wrong("18 for an old register that is unsupported", ACCEPTED, |lent| match right(lent) {
        (0, left) if decode(&left.block).is_some_and(|register| !is_supported(&OURS, &register)) => {
            (UNSUPPORTED, lent.clone())
        }
        right => right,
    }),
    wrong("8 before 1", NUMBER, |lent| match right(lent) {
        (WRONG_LENGTH, left) if is_unformed(&lent.file) => (NOT_WELL_FORMED, left),
        right => right,
    }),
    wrong("the new block cleared before the old one is judged", BLOCK, |lent| {
        let (number, mut left) = right(lent);
        if number == NOT_WELL_FORMED {
            left.block.fill(0);
        }
        (number, left)
    }),
    wrong("the answers left as they were by a bringing over", ANSWERS, |lent| {
        let (number, left) = right(lent);
        (number, Contents { answers: lent.answers.clone(), ..left })
    }),
    wrong("the old block's last byte changed", &[Part::File], |lent| {
        let (number, mut left) = right(lent);
        left.file.last_mut().into_iter().for_each(|byte| *byte ^= 1);
        (number, left)
    }),
];

const fn wrong(name: &'static str, parts: &'static [Part], bring_over: fn(&Contents) -> Left) -> Fault {
    Fault { name, lists: List::on_olds, parts, bring_over: Some(bring_over), ..NONE }
}

/// What the second implementation returns and leaves.
fn right(lent: &Contents) -> Left {
    lent.right(&Asked::BringOver)
}

/// The same, changed where it is accepted.
fn accepted(lent: &Contents, change: impl Fn(&mut Contents)) -> Left {
    lent.accepted(&Asked::BringOver, change)
}

/// Accepted, with these bytes in the new block.
fn put(lent: &Contents, block: Vec<u8>) -> Left {
    let mut left = Contents { block, ..lent.clone() };
    left.set_answers([0, 0, 0]);
    (0, left)
}

/// Accepts an old block that is refused with 8 where this is so of it.
fn formed(lent: &Contents, is: fn(&[u8]) -> bool) -> Left {
    match right(lent) {
        (NOT_WELL_FORMED, _) if is(&lent.file) => put(lent, new_layout(&lent.file)),
        right => right,
    }
}

/// As if the old block had the right length, where it has this one.
fn sized(lent: &Contents, length: usize) -> Left {
    if lent.file.len() != length {
        return right(lent);
    }
    let mut file = lent.file.clone();
    file.resize(OLD_BLOCK_LEN, 0);
    let (number, left) = right(&Contents { file, ..lent.clone() });
    (number, Contents { file: lent.file.clone(), ..left })
}

/// Whether an old block is well formed with a change made to it.
fn mended(old: &[u8], change: impl Fn(&mut [u8])) -> bool {
    let mut old = old.to_vec();
    change(&mut old);
    brought(&old).is_some()
}

/// An old block of the right length that is not well formed.
fn is_unformed(old: &[u8]) -> bool {
    old.len() == OLD_BLOCK_LEN && brought(old).is_none()
}

/// Puts the used records of an old block in order.
fn sort_records(old: &mut [u8]) {
    let used = RECORD_LEN * word(old, DELEGATIONS_AT).min(256) as usize;
    let records = &mut old[OLD_RECORDS_AT..OLD_RECORDS_AT + used];
    let mut sorted: Vec<Vec<u8>> = records.chunks(RECORD_LEN).map(<[u8]>::to_vec).collect();
    sorted.sort();
    records.copy_from_slice(&sorted.concat());
}
