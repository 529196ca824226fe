//! Slips: document 02's C-17. A cut may write one, and handing it in takes the cut back.
//! A slip is judged by making its cut on its own before.

use crate::block::{decode, BLOCK_LEN, MOST_SUBJECTS};
use crate::call::{accepted, blank, refused, run_table, Outcome};
use crate::engine::{Engine, FAST};
use crate::refusal::{Call, Passed, BAD_TABLE, MALFORMED, NOT_WELL_FORMED, OTHER_SLIP, RETIRED, WRONG_LENGTH};
use crate::table::Table;

pub const SLIP_LEN: usize = 4381;

// Places within a slip: the block before is at 0, the five bytes of the cut follow it, then
// comes the block after.
pub const CALL_AT: usize = BLOCK_LEN;
pub const BY_AT: usize = BLOCK_LEN + 1;
pub const GIVER_AT: usize = BLOCK_LEN + 2;
pub const RECEIVER_AT: usize = BLOCK_LEN + 3;
pub const WEIGHT_AT: usize = BLOCK_LEN + 4;
pub const AFTER_AT: usize = BLOCK_LEN + 5;

/// The first of the five bytes.
pub const REVOKE: u8 = 2;
pub const DOWNGRADE: u8 = 3;

pub fn revoke_slip(block: &mut [u8], by: u32, giver: u32, receiver: u32, text: &[u8], slip: &mut [u8]) -> Outcome {
    cut_slip(&FAST, &Passed { by, giver, receiver, ..blank(Call::Revoke) }, text, block, slip)
}

pub fn downgrade_slip(
    block: &mut [u8],
    by: u32,
    giver: u32,
    receiver: u32,
    weight: u32,
    text: &[u8],
    slip: &mut [u8],
) -> Outcome {
    cut_slip(&FAST, &Passed { by, giver, receiver, weight, ..blank(Call::Downgrade) }, text, block, slip)
}

/// A revoke or a downgrade that writes its slip, with the engine named.
pub fn cut_slip(engine: &Engine, n: &Passed, text: &[u8], block: &mut [u8], slip: &mut [u8]) -> Outcome {
    if slip.len() != SLIP_LEN {
        return refused(WRONG_LENGTH);
    }
    let before = block.to_vec();
    let outcome = run_table(engine, n, text, block);
    if outcome.refusal == 0 {
        slip.copy_from_slice(&slip_of(n, &before, block));
    }
    outcome
}

/// The slip of a cut that was accepted.
pub fn slip_of(n: &Passed, before: &[u8], after: &[u8]) -> Vec<u8> {
    let (call, weight) = if n.call == Call::Revoke { (REVOKE, 0) } else { (DOWNGRADE, n.weight as u8) };
    let cut = [call, n.by as u8, n.giver as u8, n.receiver as u8, weight];
    [before, &cut, after].concat()
}

/// Restores the block before.
pub fn take_back(block: &mut [u8], by: u32, text: &[u8], slip: &[u8]) -> Outcome {
    take_back_table(&FAST, block, by, text, slip)
}

/// The same, with the engine named.
pub fn take_back_table(engine: &Engine, block: &mut [u8], by: u32, text: &[u8], slip: &[u8]) -> Outcome {
    let handed = HandedIn { engine, block, by, text, slip };
    if let Some((number, _)) = TESTS.iter().find(|(_, applies)| applies(&handed)) {
        return refused(*number);
    }
    block.copy_from_slice(&slip[..BLOCK_LEN]);
    accepted([0, 0, 0])
}

/// What a slip is handed in with.
pub struct HandedIn<'a> {
    pub engine: &'a Engine,
    pub block: &'a [u8],
    pub by: u32,
    pub text: &'a [u8],
    pub slip: &'a [u8],
}

/// A refusal of taking back and whether it applies, whichever others do. Tests of the
/// register are judged on well-formed blocks only, 8 on 2,188 bytes only, 14 and 20 on slips
/// of 4,381 bytes only, and 20 under tables that pass only.
pub type Test = (u32, fn(&HandedIn) -> bool);

/// In their order. Only the caller counts as named.
pub const TESTS: [Test; 9] = [
    (WRONG_LENGTH, |h| h.block.len() != BLOCK_LEN || h.slip.len() != SLIP_LEN),
    (2, |h| h.by as usize >= MOST_SUBJECTS),
    (MALFORMED, |h| Table::read(h.text) == Err(MALFORMED)),
    (BAD_TABLE, |h| Table::read(h.text) == Err(BAD_TABLE)),
    (NOT_WELL_FORMED, |h| h.block.len() == BLOCK_LEN && decode(h.block).is_none()),
    (9, |h| decode(h.block).is_some_and(|register| !register.enrolled(h.by))),
    (RETIRED, |h| decode(h.block).is_some_and(|register| register.is_retired(h.by))),
    (14, |h| h.slip.len() == SLIP_LEN && h.by != 0 && h.by != h.slip[GIVER_AT] as u32),
    (OTHER_SLIP, |h| h.slip.len() == SLIP_LEN && Table::read(h.text).is_ok() && !restores(h)),
];

/// Every refusal of taking back that applies, each judged on its own, in their order.
pub fn applying(handed: &HandedIn) -> Vec<u32> {
    TESTS.iter().filter(|(_, applies)| applies(handed)).map(|(number, _)| *number).collect()
}

/// The register equals the slip's after, and the cut, accepted on the slip's before, writes
/// this same slip.
fn restores(handed: &HandedIn) -> bool {
    let HandedIn { engine, block, text, slip, .. } = *handed;
    block == &slip[AFTER_AT..] && written_again(engine, text, slip).is_some_and(|again| again == slip)
}

/// What the cut on a slip writes, made on the slip's before by the by on the slip; nothing if
/// it is refused.
fn written_again(engine: &Engine, text: &[u8], slip: &[u8]) -> Option<Vec<u8>> {
    let mut block = slip[..BLOCK_LEN].to_vec();
    let mut again = vec![0; SLIP_LEN];
    let outcome = cut_slip(engine, &cut_on(slip)?, text, &mut block, &mut again);
    (outcome.refusal == 0).then_some(again)
}

/// The cut that a slip names, if it names one.
pub fn cut_on(slip: &[u8]) -> Option<Passed> {
    let call = match slip[CALL_AT] {
        REVOKE => Call::Revoke,
        DOWNGRADE => Call::Downgrade,
        _ => return None,
    };
    let at = |place: usize| slip[place] as u32;
    Some(Passed { by: at(BY_AT), giver: at(GIVER_AT), receiver: at(RECEIVER_AT), weight: at(WEIGHT_AT), ..blank(call) })
}
