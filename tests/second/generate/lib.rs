//! The cases that every implementation is compared on: block-level ones in
//! five kinds, those of register files, orders, marks, retirements, slips, pass-only
//! delegations, lists of calls, and call files.

pub mod bits;
pub mod broken;
pub mod brought;
pub mod callfiles;
pub mod deep;
pub mod drawnmarks;
pub mod drawnpasses;
pub mod drawnretires;
pub mod drawnslips;
pub mod examples;
pub mod filetexts;
pub mod full;
pub mod limits;
pub mod listfiles;
pub mod lists;
pub mod malformed;
pub mod marklists;
pub mod markregisters;
pub mod marks;
pub mod named;
pub mod orderregisters;
pub mod orders;
pub mod passes;
pub mod passfiles;
pub mod passregisters;
pub mod passslips;
pub mod raises;
pub mod refusals;
pub mod registerfiles;
pub mod retirelists;
pub mod retireregisters;
pub mod retires;
pub mod rounds;
pub mod slipregisters;
pub mod sliprefusals;
pub mod slips;
pub mod slow;
pub mod tables;
pub mod textlists;
pub mod texts;
pub mod unsupported;
mod write;

pub use write::{files, lent_files, list_files, write_all};

use second::block::{Delegation, Register, ORDINARY};
use second::call::blank;
use second::casefile::Case;
use second::refusal::{Call, Passed};

/// A kind of cases: those of one kind use no call that is not listed.
pub struct Kind {
    pub name: &'static str,
    /// The calls that this kind adds to the one before.
    pub added: &'static [Call],
    /// All calls of this kind.
    pub calls: &'static [Call],
}

pub const KINDS: [Kind; 5] = [
    Kind {
        name: "base",
        added: &[Call::Open, Call::Enrol, Call::Use],
        calls: &[Call::Open, Call::Enrol, Call::Use],
    },
    Kind {
        name: "reach",
        added: &[Call::Grant, Call::Reach, Call::Chain],
        calls: &[Call::Open, Call::Enrol, Call::Use, Call::Grant, Call::Reach, Call::Chain],
    },
    Kind {
        name: "cut",
        added: &[Call::Revoke, Call::Downgrade],
        calls: &second::refusal::CALLS,
    },
    Kind { name: "table", added: &tables::CALLS, calls: &tables::CALLS },
    Kind { name: "raise", added: &[], calls: &second::refusal::CALLS },
];

/// All cases of a kind, in a fixed order.
pub fn cases(kind: &Kind) -> Vec<Case> {
    match kind.name {
        "table" => return tables::cases(),
        "raise" => return raises::cases(),
        "order" => return orders::cases(),
        "marks" => return marks::cases(),
        "retire" => return retires::cases(),
        _ => {}
    }
    let mut cases = Vec::new();
    cases.extend(examples::cases(kind));
    cases.extend(refusals::cases(kind));
    cases.extend(broken::cases(kind));
    cases.extend(limits::cases(kind));
    cases.extend(unsupported::cases(kind));
    cases.extend(full::cases(kind));
    cases.extend(deep::cases(kind));
    cases.extend(lists::cases(kind));
    cases.extend(slow::cases(kind));
    cases
}

/// Giver, receiver, weight, need, bar.
pub type Grant = (u8, u8, u8, u16, u16);

/// A register with these marks, the owner's first, and these delegations in any order.
pub fn register(marks: &[u16], grants: &[Grant]) -> Register {
    let mut register = Register { marks: marks.to_vec(), retired: 0, delegations: Vec::new() };
    for &(giver, receiver, weight, need, bar) in grants {
        if let Err(at) = register.place(giver as u32, receiver as u32) {
            register.delegations.insert(at, Delegation { giver, receiver, weight, kind: ORDINARY, need, bar });
        }
    }
    register
}

/// A case with its own block.
pub fn on(block: &[u8], passed: Passed) -> Case {
    Case { passed, text: None, block: Some(block.to_vec()) }
}

/// A case on the block as the case before left it.
pub fn next(passed: Passed) -> Case {
    Case { passed, text: None, block: None }
}

pub fn open() -> Passed {
    blank(Call::Open)
}

pub fn enrol(marks: u32) -> Passed {
    Passed { need: marks, ..blank(Call::Enrol) }
}

pub fn grant(giver: u32, receiver: u32, weight: u32, need: u32, bar: u32) -> Passed {
    Passed { giver, receiver, weight, need, bar, ..blank(Call::Grant) }
}

/// A grant with a kind.
pub fn grant_kind(of: Passed, kind: u32) -> Passed {
    Passed { call: Call::GrantKind, kind, ..of }
}

pub fn revoke(by: u32, giver: u32, receiver: u32) -> Passed {
    Passed { by, giver, receiver, ..blank(Call::Revoke) }
}

pub fn downgrade(by: u32, giver: u32, receiver: u32, weight: u32) -> Passed {
    Passed { by, giver, receiver, weight, ..blank(Call::Downgrade) }
}

pub fn reach(giver: u32, receiver: u32) -> Passed {
    Passed { giver, receiver, ..blank(Call::Reach) }
}

pub fn use_right(receiver: u32) -> Passed {
    Passed { receiver, ..blank(Call::Use) }
}

/// The buffer's length is passed as the weight.
pub fn chain(giver: u32, receiver: u32, buffer: u32) -> Passed {
    Passed { giver, receiver, weight: buffer, ..blank(Call::Chain) }
}

/// The buffer's length is passed as the weight.
pub fn order(receiver: u32, buffer: u32) -> Passed {
    Passed { receiver, weight: buffer, ..blank(Call::Order) }
}

/// The subject is passed as the receiver, the marks as the need.
pub fn set_marks(by: u32, subject: u32, marks: u32) -> Passed {
    Passed { by, receiver: subject, need: marks, ..blank(Call::SetMarks) }
}

/// The subject is passed as the receiver.
pub fn retire(by: u32, subject: u32) -> Passed {
    Passed { by, receiver: subject, ..blank(Call::Retire) }
}

/// A case that brings an old block over into one that holds these bytes.
pub fn bring_over(old: &[u8], block: &[u8]) -> Case {
    Case { passed: blank(Call::BringOver), text: Some(old.to_vec()), block: Some(block.to_vec()) }
}

/// The grant call of a listed delegation.
pub fn grant_of(&(giver, receiver, weight, need, bar): &Grant) -> Passed {
    grant(giver as u32, receiver as u32, weight as u32, need as u32, bar as u32)
}
