//! The inline readers of include/seatreg.h, through readers.c.

use second::block::{decode, BLOCK_LEN, MOST_DELEGATIONS, MOST_SUBJECTS};
use second::host::ANSWERS_LEN;
use second::slip::{BY_AT, CALL_AT, GIVER_AT, RECEIVER_AT, SLIP_LEN, WEIGHT_AT};

/// As the header has it.
#[repr(C)]
#[derive(Clone, Copy, Debug, PartialEq, Eq)]
pub struct Delegation {
    pub giver: u32,
    pub receiver: u32,
    pub weight: u32,
    pub need: u32,
    pub bar: u32,
    pub kind: u32,
}

/// As the header has it.
#[repr(C)]
#[derive(Clone, Copy, Debug, PartialEq, Eq)]
pub struct Cut {
    pub kind: u32,
    pub by: u32,
    pub giver: u32,
    pub receiver: u32,
    pub weight: u32,
}

extern "C" {
    fn read_subjects(block: *const u8) -> u32;
    fn read_marks(block: *const u8, subject: u32) -> u32;
    fn read_is_retired(block: *const u8, subject: u32) -> u32;
    fn read_delegations(block: *const u8) -> u32;
    fn read_delegation_at(block: *const u8, i: u32) -> Delegation;
    fn read_slip_cut(slip: *const u8) -> Cut;
    fn read_answer(answers: *const u8, i: usize) -> i32;
}

/// What a host can read after an accepted call.
#[derive(Clone, Debug, PartialEq, Eq)]
pub struct Listed {
    pub marks: Vec<u32>,
    pub retired: Vec<u32>,
    pub delegations: Vec<Delegation>,
    pub answers: [i32; 3],
    /// Of a call that is lent a slip.
    pub cut: Option<Cut>,
}

/// What the readers give.
pub fn read(block: &[u8], answers: &[u8], slip: Option<&[u8]>) -> Listed {
    assert!(block.len() == BLOCK_LEN && answers.len() == ANSWERS_LEN);
    assert!(!slip.is_some_and(|slip| slip.len() != SLIP_LEN));
    let (b, a) = (block.as_ptr(), answers.as_ptr());
    // All buffers are whole, and no index leaves the block, even where a reader is wrong.
    unsafe {
        let subjects = read_subjects(b).min(MOST_SUBJECTS as u32);
        let delegations = read_delegations(b).min(MOST_DELEGATIONS as u32);
        Listed {
            marks: (0..subjects).map(|subject| read_marks(b, subject)).collect(),
            retired: (0..subjects).map(|subject| read_is_retired(b, subject)).collect(),
            delegations: (0..delegations).map(|i| read_delegation_at(b, i)).collect(),
            answers: [0, 1, 2].map(|i| read_answer(a, i)),
            cut: slip.map(|slip| read_slip_cut(slip.as_ptr())),
        }
    }
}

/// What the second implementation decodes; nothing where the block is not well formed.
pub fn due(block: &[u8], answers: &[u8], slip: Option<&[u8]>) -> Option<Listed> {
    let register = decode(block)?;
    let subjects = 0..register.marks.len() as u32;
    Some(Listed {
        marks: register.marks.iter().map(|&marks| marks.into()).collect(),
        retired: subjects.map(|subject| register.is_retired(subject).into()).collect(),
        delegations: register.delegations.iter().map(plain).collect(),
        answers: [0, 1, 2].map(|i| i32::from_le_bytes(answers[4 * i..4 * i + 4].try_into().unwrap())),
        cut: slip.map(cut_of),
    })
}

fn cut_of(slip: &[u8]) -> Cut {
    let [kind, by, giver, receiver, weight] = [CALL_AT, BY_AT, GIVER_AT, RECEIVER_AT, WEIGHT_AT].map(|at| slip[at].into());
    Cut { kind, by, giver, receiver, weight }
}

fn plain(d: &second::block::Delegation) -> Delegation {
    Delegation {
        giver: d.giver.into(),
        receiver: d.receiver.into(),
        weight: d.weight.into(),
        need: d.need.into(),
        bar: d.bar.into(),
        kind: d.kind.into(),
    }
}
