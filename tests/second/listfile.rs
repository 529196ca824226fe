//! List files. A line is a list of calls that are made by one call, every block
//! kept: the lengths of the buffers lent for blocks, refusals and answers, the
//! texts of the list's tables, `=` for those of the line before or `LENGTH:BYTES`,
//! the list's numbers, nine for each call, and a full stop. The nine are the seven
//! of the call file and, for a call that takes a table, where its text begins in
//! the texts and how long it is. Call 6, which is none of the call file's, is
//! set_marks: the subject is under receiver and the marks are under need. Call 7 is
//! retire: the subject is under receiver.
//! A list is refused with 1 if its numbers are no whole calls, or a buffer has
//! not the length of a block more than calls, a refusal a call, three answers a
//! call, or a call's text is not within the texts; then with 7 if a call's number
//! is above 7. A refused list writes nothing. Else block 0 is open's, and each call
//! is made on a copy of the block before; columns that it does not use are not
//! looked at.
//! Expected is a line `refusal BLOCK` with block 0, `=` if it is not written,
//! and for each whole call what its refusal, answers and block hold, the line
//! of a case file.

use crate::block::{encode, Register, BLOCK_LEN};
use crate::call::{run_table, Outcome};
use crate::callfile::{from_values, used_only, values_of};
use crate::casefile::{block_text, left_line};
use crate::engine::Engine;
use crate::refusal::{takes_table, Call, Passed, MALFORMED, WRONG_LENGTH};

/// Numbers of a call.
pub const NUMBERS: usize = 9;

/// The calls of a list, in the order of their numbers there.
pub const CALLS_IN_LIST: [Call; 8] =
    [Call::Enrol, Call::Grant, Call::Revoke, Call::Downgrade, Call::Reach, Call::Use, Call::SetMarks, Call::Retire];

/// Texts have at most so many bytes.
pub const MOST_TEXTS: usize = 8192;

/// What the buffers of refusals and answers hold before the call.
const UNWRITTEN: Outcome = Outcome { refusal: 77, answers: [-7, -7, -7] };

/// The lengths of the buffers of blocks, refusals and answers, the texts and the
/// numbers.
#[derive(Clone, Debug, PartialEq, Eq)]
pub struct List {
    pub lengths: [usize; 3],
    pub texts: Vec<u8>,
    pub numbers: Vec<u32>,
}

/// The lengths that so many calls need.
pub fn lengths(calls: usize) -> [usize; 3] {
    [BLOCK_LEN * (calls + 1), calls, 3 * calls]
}

impl List {
    /// How many whole calls the numbers are.
    pub fn calls(&self) -> usize {
        self.numbers.len() / NUMBERS
    }

    /// 0 when accepted.
    pub fn refusal(&self) -> u32 {
        let mut calls = self.numbers.chunks_exact(NUMBERS);
        let sized = self.numbers.len() % NUMBERS == 0 && self.lengths == lengths(self.calls());
        if !sized || calls.clone().any(|call| self.text(call).is_none()) {
            return WRONG_LENGTH;
        }
        if calls.any(|call| passed(call).is_none()) {
            return MALFORMED;
        }
        0
    }

    /// The text of a call's table, empty if the call takes none; nothing if it is
    /// not within the texts.
    pub fn text(&self, call: &[u32]) -> Option<&[u8]> {
        if !passed(call).is_some_and(|n| takes_table(n.call)) {
            return Some(b"");
        }
        let [begin, length] = [call[NUMBERS - 2], call[NUMBERS - 1]].map(|number| number as usize);
        self.texts.get(begin..begin.checked_add(length)?)
    }
}

/// A line of a list file, after one with the texts before, if there is such a line.
/// Empty texts are written as they are.
pub fn list_line(list: &List, before: Option<&[u8]>) -> String {
    let [blocks, refusals, answers] = list.lengths;
    let again = !list.texts.is_empty() && before == Some(&list.texts);
    let texts = if again { "=".to_string() } else { block_text(&list.texts) };
    let numbers: String = list.numbers.iter().map(|number| format!("{number} ")).collect();
    format!("{blocks} {refusals} {answers} {texts} {numbers}.\n")
}

/// What is expected of a list.
pub fn expected_lines(engine: &Engine, list: &List) -> String {
    match list.refusal() {
        0 => made(engine, list),
        refusal => format!("{refusal} =\n{}", left_line(&UNWRITTEN, &[], &[]).repeat(list.calls())),
    }
}

fn made(engine: &Engine, list: &List) -> String {
    let mut block = encode(&Register::fresh());
    let mut text = format!("0 {}\n", block_text(&block));
    for call in list.numbers.chunks_exact(NUMBERS) {
        let (Some(n), Some(lent)) = (passed(call), list.text(call)) else { continue };
        let before = block.clone();
        let outcome = run_table(engine, &n, lent, &mut block);
        text.push_str(&left_line(&outcome, &before, &block));
    }
    text
}

/// The call of nine numbers, if the first is a call's.
pub fn passed(numbers: &[u32]) -> Option<Passed> {
    let mut values: [u32; 7] = numbers[..NUMBERS - 2].try_into().ok()?;
    values[0] = *CALLS_IN_LIST.get(values[0] as usize)? as u32;
    Some(used_only(&from_values(values)?))
}

/// The nine numbers of a call of lists whose text has this place.
pub fn numbers_of(n: &Passed, (begin, length): (u32, u32)) -> [u32; NUMBERS] {
    let [_, by, giver, receiver, weight, need, bar] = values_of(n);
    let call = CALLS_IN_LIST.iter().position(|&call| call == n.call).unwrap_or(CALLS_IN_LIST.len());
    [call as u32, by, giver, receiver, weight, need, bar, begin, length]
}
