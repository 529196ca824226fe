//! Slips of registers with pass-only delegations.

use super::passregisters::*;
use super::slipregisters::{with, Sequence};
use super::slips::every_cut;
use super::*;
use second::block::{encode, KIND, RECORDS_AT, RECORD_LEN};
use second::lentcase::LentCase;
use second::slip::{slip_of, AFTER_AT};

pub fn cases() -> Vec<LentCase> {
    let mut cases: Vec<LentCase> = small().iter().step_by(2).enumerate().flat_map(every_cut).collect();
    for (register, n) in cuts() {
        cases.extend(other_kinds(&register, n));
    }
    cases.extend(unwritten());
    cases
}

/// Cuts that leave delegations alone, lower some and drop some.
fn cuts() -> Vec<(Register, Passed)> {
    let p2 = &versions(&slipregisters::example())[1];
    vec![
        (row(), revoke(0, 1, 2)), (row(), downgrade(1, 1, 2, 1)), (row(), downgrade(0, 0, 1, 0)),
        (p2.clone(), revoke(0, 0, 1)), (two_ways(), revoke(2, 2, 3)), (two_ways(), downgrade(0, 0, 2, 3)),
    ]
}

/// The kind of each record is another in the slip's before, in its after, in both, in the after
/// and in the register, and in all three.
fn other_kinds(register: &Register, n: Passed) -> Vec<LentCase> {
    let place = |at: usize| RECORDS_AT + RECORD_LEN * at + KIND;
    let mut sequence = Sequence::new(register);
    sequence.cut(n);
    let made = sequence.now.clone();
    for at in 0..register.delegations.len() {
        let (before, after) = (place(at), AFTER_AT + place(at));
        for byte in [0, 1, 2] {
            sequence.back_with(n.by, &[(before, byte)]);
            sequence.back_with(n.by, &[(after, byte)]);
            sequence.back_with(n.by, &[(before, byte), (after, byte)]);
            sequence.now.block[place(at)] = byte;
            sequence.back_with(n.by, &[(after, byte)]);
            sequence.back_with(n.by, &[(before, byte), (after, byte)]);
            sequence.now = made.clone();
        }
    }
    sequence.back(n.by);
    sequence.cases
}

/// Slips that no cut wrote, whose before has a pass-only delegation more, of each weight: the one
/// that is revoked, or one that the rounds drop or lower.
fn unwritten() -> Vec<LentCase> {
    let mut sequence = Sequence::new(&Register::fresh());
    for kind in [0, 1] {
        let now = with_kinds(&register(&[0; 7], &[(0, 1, 3, 0, 0), (1, 2, 2, 0, 0)]), |_| kind);
        for weight in [0, 9] {
            let more = with(&with(&now, (5, 6, weight, 0, 0)), (6, 5, 4, 0, 0));
            for before in versions(&more).iter().filter(|before| before.standing(0, 1) == now.standing(0, 1)) {
                sequence.now.block = encode(&now);
                sequence.back_by_slip(5, &slip_of(&revoke(5, 5, 6), &encode(before), &encode(&now)));
                sequence.call(use_right(6));
                sequence.call(set_marks(0, 1, 1));
            }
        }
    }
    sequence.cases
}
