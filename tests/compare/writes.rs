//! Wrong writes of a register file, to see that the comparison finds them.

use crate::contents::{Asked, Contents};
use crate::draw::List;
use crate::entry::FileCall;
use crate::fault::{Fault, NONE};
use crate::filetexts::without_pass;
use crate::report::Part;
use crate::returned::is_supported;
use second::block::{decode, Register};
use second::refusal::{UNSUPPORTED, WRONG_LENGTH};
use second::regfile::{Rows, LEAST_TEXT};
use second::table::OURS;

/// What differs where one side accepts and the other refuses.
const ACCEPTED: &[Part] = &[Part::Number, Part::Answers, Part::File, Part::Back];
const FILE: &[Part] = &[Part::File];
const ANSWERS: &[Part] = &[Part::Answers];

pub const WRITES: [Fault; 20] = [
    wrong("the rest of the buffer zeroed", FILE, |lent| accepted(lent, |left| {
        let length = left.answer();
        left.file[length..].fill(0);
    })),
    wrong("a 0 byte put after the file", FILE, |lent| accepted(lent, |left| {
        let length = left.answer();
        left.file[length] = 0;
    })),
    wrong("the file's last byte left out", &[Part::Answers, Part::File, Part::Back], |lent| accepted(lent, |left| {
        let length = left.answer() - 1;
        left.file[length] = 0;
        set_answer(left, length);
    })),
    wrong("the buffer's length answered", ANSWERS, |lent| accepted(lent, |left| set_answer(left, left.file.len()))),
    wrong("the number of delegations answered", ANSWERS, |lent| accepted(lent, |left| {
        let count = register(left).delegations.len();
        set_answer(left, count);
    })),
    wrong("delegations written by receiver", &[Part::File, Part::Back], |lent| accepted(lent, |left| {
        let mut rows = Rows::of(&register(left));
        rows.delegations.sort_by_key(|row| (row[1], row[0]));
        put(left, lent, &rows);
    })),
    wrong("conditions left out", &[Part::Answers, Part::File, Part::Back], |lent| accepted(lent, |left| {
        let mut rows = Rows::of(&register(left));
        rows.delegations.iter_mut().for_each(|row| (row[3], row[4]) = (0, 0));
        put(left, lent, &rows);
    })),
    wrong("nobody written as retired", &[Part::File, Part::Back], |lent| accepted(lent, |left| {
        let mut rows = Rows::of(&register(left));
        rows.subjects.iter_mut().for_each(|row| row[2] = 0);
        put(left, lent, &rows);
    })),
    wrong("retired and not retired exchanged", &[Part::File, Part::Back], |lent| accepted(lent, |left| {
        let mut rows = Rows::of(&register(left));
        rows.subjects.iter_mut().for_each(|row| row[2] = 1 - row[2]);
        put(left, lent, &rows);
    })),
    wrong("the column of the retired before the marks", &[Part::File, Part::Back], |lent| accepted(lent, |left| {
        let mut rows = Rows::of(&register(left));
        rows.subjects.iter_mut().for_each(|row| row.swap(1, 2));
        put(left, lent, &rows);
    })),
    wrong("retired subjects left out", &[Part::Answers, Part::File, Part::Back], |lent| accepted(lent, |left| {
        let mut rows = Rows::of(&register(left));
        rows.subjects.retain(|row| row[2] == 0);
        put(left, lent, &rows);
    })),
    wrong("every delegation written as ordinary", &[Part::File, Part::Back], |lent| accepted(lent, |left| {
        let mut rows = Rows::of(&register(left));
        rows.delegations.iter_mut().for_each(|row| row[5] = 0);
        put(left, lent, &rows);
    })),
    wrong("ordinary and pass-only exchanged", &[Part::File, Part::Back], |lent| accepted(lent, |left| {
        let mut rows = Rows::of(&register(left));
        rows.delegations.iter_mut().for_each(|row| row[5] = 1 - row[5]);
        put(left, lent, &rows);
    })),
    wrong("the column pass after the weight", &[Part::File, Part::Back], |lent| accepted(lent, |left| {
        let mut rows = Rows::of(&register(left));
        rows.delegations.iter_mut().for_each(|row| row[3..].rotate_right(1));
        put(left, lent, &rows);
    })),
    wrong("pass-only delegations left out", &[Part::Answers, Part::File, Part::Back], |lent| accepted(lent, |left| {
        let mut rows = Rows::of(&register(left));
        rows.delegations.retain(|row| row[5] == 0);
        put(left, lent, &rows);
    })),
    wrong("the column pass left out", &[Part::Answers, Part::File, Part::Back], |lent| accepted(lent, |left| {
        let text = without_pass(&Rows::of(&register(left)).text());
        put_text(left, lent, &text);
    })),
    wrong("18 for an unsupported register", ACCEPTED, |lent| {
        let (number, left) = right(lent);
        if number == 0 && !is_supported(&OURS, &register(&left)) { (UNSUPPORTED, lent.clone()) } else { (number, left) }
    }),
    wrong("a buffer of 8,191 bytes accepted", &[Part::Number, Part::Answers, Part::File], |lent| {
        if lent.file.len() != LEAST_TEXT - 1 {
            return right(lent);
        }
        let longer = [&lent.file[..], b"\0"].concat();
        let (number, mut left) = right(&Contents { file: longer, ..lent.clone() });
        left.file.pop();
        (number, left)
    }),
    wrong("a buffer of 8,192 bytes refused", ACCEPTED, |lent| {
        if lent.file.len() == LEAST_TEXT { (WRONG_LENGTH, lent.clone()) } else { right(lent) }
    }),
    wrong("the block's last byte changed by a write", &[Part::Block, Part::Listed], |lent| accepted(lent, |left| {
        *left.block.last_mut().unwrap() ^= 1;
    })),
];

const fn wrong(name: &'static str, parts: &'static [Part], write: fn(&Contents) -> (u32, Contents)) -> Fault {
    Fault { name, lists: List::on_files, parts, write: Some(write), ..NONE }
}

/// What the second implementation returns and leaves.
fn right(lent: &Contents) -> (u32, Contents) {
    lent.right(&Asked::File(FileCall::Write))
}

/// The same, changed where it is accepted.
fn accepted(lent: &Contents, change: impl Fn(&mut Contents)) -> (u32, Contents) {
    lent.accepted(&Asked::File(FileCall::Write), change)
}

/// The register that was written.
fn register(left: &Contents) -> Register {
    decode(&left.block).expect("a block that was written is well formed")
}

/// These rows in the buffer that was lent, and their length answered.
fn put(left: &mut Contents, lent: &Contents, rows: &Rows) {
    put_text(left, lent, &rows.text());
}

/// The same of any text.
fn put_text(left: &mut Contents, lent: &Contents, text: &[u8]) {
    left.file.clone_from(&lent.file);
    left.file[..text.len()].copy_from_slice(text);
    set_answer(left, text.len());
}

fn set_answer(left: &mut Contents, answer: usize) {
    left.set_answers([answer as i32, 0, 0]);
}
