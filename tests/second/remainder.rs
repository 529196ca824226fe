//! All remainders of a cut, enumerated on tiny registers. Chains are judged by
//! the step table given to that cut.

use crate::block::{Delegation, Register};
use crate::chain::{literal_reach, NONE};
use crate::table::Table;

/// How many candidates there are: each delegation is absent or has one of the
/// weights up to the standing one.
pub fn candidates(start: &Register) -> u64 {
    start.delegations.iter().map(|d| d.weight as u64 + 2).product()
}

/// Hands every remainder of the register after the named change to `each`, as
/// weights in the order of the records, -1 for absent. Stops at the first error.
pub fn each_remainder(
    table: &Table,
    start: &Register,
    each: &mut dyn FnMut(&[i16]) -> Result<(), String>,
) -> Result<(), String> {
    let mut weights = vec![NONE; start.delegations.len()];
    loop {
        if is_supported(table, &with_weights(start, &weights)) {
            each(&weights)?;
        }
        if !advance(start, &mut weights) {
            return Ok(());
        }
    }
}

/// The next candidate; false after the last.
fn advance(start: &Register, weights: &mut [i16]) -> bool {
    for (weight, delegation) in weights.iter_mut().zip(&start.delegations) {
        if *weight < delegation.weight as i16 {
            *weight += 1;
            return true;
        }
        *weight = NONE;
    }
    false
}

/// The same subjects, marks, retired ones, conditions and kinds with these weights.
pub fn with_weights(start: &Register, weights: &[i16]) -> Register {
    let present = start.delegations.iter().zip(weights).filter(|(_, &weight)| weight != NONE);
    let delegations = present.map(|(d, &weight)| Delegation { weight: weight as u8, ..*d }).collect();
    Register { delegations, ..start.clone() }
}

/// Every delegation is supported within the register itself.
pub fn is_supported(table: &Table, register: &Register) -> bool {
    let reach = |d: &Delegation| literal_reach(table, register, d.giver as u32, d.receiver as u32);
    register.delegations.iter().all(|d| d.weight as i16 <= reach(d))
}

/// Whether `left` is a remainder of the cut with this register after the named change.
pub fn is_remainder(table: &Table, start: &Register, left: &Register) -> bool {
    let stands = |d: &Delegation| {
        let before = start.standing(d.giver as u32, d.receiver as u32);
        before.is_some_and(|b| (b.need, b.bar, b.kind) == (d.need, d.bar, d.kind) && d.weight <= b.weight)
    };
    let same_subjects = left.marks == start.marks && left.retired == start.retired;
    same_subjects && left.delegations.iter().all(stands) && is_supported(table, left)
}

/// Checks that `left` is the best remainder, against all others.
pub fn check_best(table: &Table, start: &Register, left: &Register) -> Result<u64, String> {
    if !is_remainder(table, start, left) {
        return Err(format!("{left:?} is no remainder of {start:?}"));
    }
    let of_pair = |d: &Delegation| left.standing(d.giver as u32, d.receiver as u32).map_or(NONE, |l| l.weight as i16);
    let best: Vec<i16> = start.delegations.iter().map(of_pair).collect();
    let mut count = 0;
    each_remainder(table, start, &mut |weights| {
        count += 1;
        if weights.iter().zip(&best).all(|(weight, best)| weight <= best) {
            return Ok(());
        }
        Err(format!("{weights:?} is a remainder of {start:?}, heavier than {best:?}"))
    })?;
    Ok(count)
}
