//! Calls that name a retired subject, as by, giver or receiver, with every set of refusals that
//! apply at once.

use super::retireregisters::{full_without_two, some_without_one, without};
use super::tables::lent;
use super::*;
use second::block::{encode, BLOCK_LEN, ZERO_AT};
use second::engine::FAST;
use second::refusal::{applying, takes_table};
use std::collections::BTreeSet;

/// The calls that name subjects.
pub const NAMING: [Call; 9] = [
    Call::Grant, Call::Revoke, Call::Downgrade, Call::Reach, Call::Use, Call::Chain, Call::Order, Call::SetMarks,
    Call::Retire,
];

/// 3 has retired.
pub fn few() -> Register {
    let grants = [(0, 1, 255, 0, 0), (0, 4, 9, 1, 0), (1, 2, 3, 0, 0), (2, 4, 2, 0, 2), (4, 1, 0, 0, 0)];
    without(register(&[0, 1, 2, 0, 3], &grants), &[3])
}

/// The same, but not supported.
fn unsupported() -> Register {
    let grants = [(0, 1, 2, 0, 0), (1, 2, 9, 0, 0), (2, 4, 255, 0, 0), (4, 2, 5, 0, 0)];
    without(register(&[0, 1, 2, 0, 3], &grants), &[3])
}

/// The blocks that candidates are tried on. 3 has retired in each, and 63 where it is enrolled.
pub fn blocks() -> Vec<Vec<u8>> {
    let supported = encode(&few());
    let mut malformed = supported.clone();
    malformed[ZERO_AT] = 1;
    vec![
        supported[..BLOCK_LEN - 1].to_vec(),
        malformed,
        encode(&unsupported()),
        encode(&some_without_one()),
        encode(&full_without_two()),
        supported,
    ]
}

/// Which of by, giver and receiver name 3 or 63.
fn named(n: &Passed) -> [bool; 3] {
    [n.by, n.giver, n.receiver].map(|subject| subject == 3 || subject == 63)
}

/// Under ours also by which of the three it is that names it.
pub fn cases() -> Vec<Case> {
    let mut cases = Vec::new();
    for call in NAMING {
        cases.extend(lent(b"", at_once(call, b"", named)));
        for text in texts::refused_at_the_end().iter().filter(|_| takes_table(call)) {
            cases.extend(lent(text, at_once(call, text, |_| [true; 3])));
        }
    }
    cases.extend(lent(b"", blocks().iter().map(|block| on(block, enrol(1)))));
    cases
}

/// One case for each set of refusals that apply at once and what else is told of the call.
fn at_once(call: Call, text: &[u8], told: fn(&Passed) -> [bool; 3]) -> Vec<Case> {
    let mut seen = BTreeSet::new();
    let mut cases = Vec::new();
    for block in blocks() {
        let candidates = refusals::candidates(call).into_iter().filter(|n| named(n).contains(&true));
        let apply = |n: &Passed| applying(&FAST, n, text, &block, n.weight as usize);
        let new = candidates.filter(|n| seen.insert((apply(n), told(n))));
        cases.extend(new.map(|n| on(&block, n)));
    }
    cases
}
