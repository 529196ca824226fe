//! Faults put in on purpose, on the side of the entry points, to see that the
//! comparison finds them.

use crate::buffers::Buffers;
use crate::contents::Contents;
use crate::draw::List;
use crate::readers::{Delegation, Listed};
use crate::report::{Part, Report};
use crate::standing::{Left, Standing};
use second::random::Random;
use second::refusal::{Call, Passed};
use std::mem::swap;

/// What is made in place of a call with its numbers, from what it is lent.
pub type Wrong = fn(&Contents, &Passed) -> (u32, Contents);

#[derive(Clone)]
pub struct Fault {
    pub name: &'static str,
    /// The lists in which it is looked for.
    pub lists: fn(&mut Random) -> List,
    /// What is passed in place of the call.
    pub before: fn(&Passed) -> Passed,
    /// What is lent in place of a table's text; nothing calls the entry point that takes none.
    pub text: fn(&[u8]) -> Option<&[u8]>,
    /// For which grants for a standing pair the entry point is not called, and what these do.
    pub when: fn(&Standing) -> bool,
    pub does: fn(&Standing) -> Left,
    /// What is made in place of the entry point that sets marks, of the one that retires, of every call with
    /// numbers, or of a cut with a slip, a taking back, an order, a write, a read or a bringing over, from what it
    /// is lent: the number that it returns, and the buffers as it leaves them. A taking back is made by a caller,
    /// an order for a receiver.
    pub set_marks: Option<Wrong>,
    pub retire: Option<Wrong>,
    pub every: Option<Wrong>,
    pub cut_slip: Option<Wrong>,
    pub take_back: Option<fn(&Contents, u32) -> (u32, Contents)>,
    pub order: Option<fn(&Contents, u32) -> (u32, Contents)>,
    pub write: Option<fn(&Contents) -> (u32, Contents)>,
    pub read: Option<fn(&Contents) -> (u32, Contents)>,
    pub bring_over: Option<fn(&Contents) -> (u32, Contents)>,
    /// What happens to a file between a write and the read that follows it.
    pub carried: fn(&mut Vec<u8>),
    /// What happens to the lent buffers after a call that returned a number.
    pub after: fn(u32, &mut Buffers),
    /// What happens to what the header's readers gave.
    pub listed: fn(&mut Listed),
    /// The parts in which differences are due; no other part has any.
    pub parts: &'static [Part],
}

/// A fault that changes nothing, for those that differ from it.
pub const NONE: Fault = Fault {
    name: "none",
    lists: List::draw,
    before: |n| *n,
    text: |text| Some(text),
    when: |_| false,
    does: Standing::raised,
    set_marks: None,
    retire: None,
    every: None,
    cut_slip: None,
    take_back: None,
    order: None,
    write: None,
    read: None,
    bring_over: None,
    carried: |_| (),
    after: |_, _| (),
    listed: |_| (),
    parts: &[],
};

pub const FAULTS: [Fault; 27] = [
    Fault {
        name: "giver and receiver exchanged",
        before: |n| Passed { giver: n.receiver, receiver: n.giver, ..*n },
        parts: &[Part::Number, Part::Block, Part::Answers],
        ..NONE
    },
    Fault {
        name: "numbers narrowed to 16 bits",
        before: |n| Passed {
            giver: n.giver & 0xFFFF, receiver: n.receiver & 0xFFFF, need: n.need & 0xFFFF, kind: n.kind & 0xFFFF, ..*n
        },
        parts: &[Part::Number, Part::Block, Part::Answers],
        ..NONE
    },
    Fault {
        name: "the answers' last byte changed where the call is accepted",
        after: |number, lent| if number == 0 { lent.answers.change_last() },
        parts: &[Part::Answers],
        ..NONE
    },
    Fault {
        name: "the answers' last byte changed where the call is refused",
        after: |number, lent| if number != 0 { lent.answers.change_last() },
        parts: &[Part::Answers],
        ..NONE
    },
    Fault {
        name: "the block's last byte changed where the call is refused with 1",
        after: |number, lent| if number == 1 { lent.block.change_last() },
        parts: &[Part::Block],
        ..NONE
    },
    Fault {
        name: "a byte written past the answers",
        after: |_, lent| lent.answers.break_guard(),
        parts: &[Part::Guards],
        ..NONE
    },
    Fault {
        name: "the table's text left out",
        text: |_| None,
        parts: &[Part::Number, Part::Block, Part::Answers, Part::File],
        ..NONE
    },
    Fault {
        name: "the table's text lent without its last byte",
        text: |text| Some(&text[..text.len().max(1) - 1]),
        parts: &[Part::Number, Part::Block, Part::Answers, Part::File],
        ..NONE
    },
    Fault {
        name: "the table's last byte changed",
        after: |_, lent| lent.table.change_last(),
        parts: &[Part::Table],
        ..NONE
    },
    Fault {
        name: "a byte written past the table's text",
        after: |_, lent| lent.table.break_guard(),
        parts: &[Part::Guards],
        ..NONE
    },
    Fault {
        name: "a byte written past the register file, the slip or the buffer",
        after: |_, lent| lent.file.break_guard(),
        parts: &[Part::Guards],
        ..NONE
    },
    Fault {
        name: "a register file's last line lost before it is read back",
        carried: |file| file.truncate(file[..file.len() - 1].iter().rposition(|&byte| byte == b'\n').unwrap_or(0) + 1),
        parts: &[Part::Back],
        ..NONE
    },
    listed("a subject missing in the list", |listed| { listed.marks.pop(); }),
    listed("the last subject's marks changed", |listed| *listed.marks.last_mut().unwrap() ^= 0x8000),
    listed("nobody retired in the list", |listed| listed.retired.fill(0)),
    listed("the retired read from the highest bit on", |listed| {
        listed.retired.chunks_mut(8).for_each(|byte| byte.reverse());
    }),
    listed("a delegation missing in the list", |listed| { listed.delegations.pop(); }),
    listed("giver and receiver exchanged in the list", |listed| each(listed, |d| swap(&mut d.giver, &mut d.receiver))),
    listed("weights in the list cut down to 7 bits", |listed| each(listed, |d| d.weight &= 0x7F)),
    listed("the high byte of need lost in the list", |listed| each(listed, |d| d.need &= 0xFF)),
    listed("the high byte of bar lost in the list", |listed| each(listed, |d| d.bar &= 0xFF)),
    listed("every delegation listed as ordinary", |listed| each(listed, |d| d.kind = 0)),
    listed("the weight read as the kind", |listed| each(listed, |d| d.kind = d.weight)),
    listed("an answer of -1 read as 255", |listed| listed.answers.iter_mut().for_each(|answer| *answer &= 0xFF)),
    listed("giver and receiver exchanged in the cut on a slip", |listed| {
        listed.cut.iter_mut().for_each(|cut| swap(&mut cut.giver, &mut cut.receiver));
    }),
    listed("the giver read as by in the cut on a slip", |listed| {
        listed.cut.iter_mut().for_each(|cut| cut.by = cut.giver);
    }),
    listed("the cut on a slip read one byte further on", |listed| {
        listed.cut.iter_mut().for_each(|cut| (cut.kind, cut.by) = (cut.by, cut.giver));
    }),
];

/// A fault of the readers alone.
const fn listed(name: &'static str, listed: fn(&mut Listed)) -> Fault {
    Fault { name, listed, parts: &[Part::Listed], ..NONE }
}

fn each(listed: &mut Listed, change: fn(&mut Delegation)) {
    listed.delegations.iter_mut().for_each(change);
}

impl Fault {
    /// What is made in place of this call with its numbers.
    pub fn call(&self, call: Call) -> Option<Wrong> {
        match call {
            Call::SetMarks => self.set_marks.or(self.every),
            Call::Retire => self.retire.or(self.every),
            _ => self.every,
        }
    }

    /// Differences in each of its parts, and in no other.
    pub fn is_found(&self, report: &Report) -> bool {
        crate::report::PARTS.iter().all(|part| (report.differing(*part) > 0) == self.parts.contains(part))
    }
}
