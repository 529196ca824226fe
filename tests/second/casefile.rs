//! Case files. A line is seven numbers and the block that the call is handed:
//! `call by giver receiver weight need bar BLOCK`. Calls 0 to 5 are those of
//! the call file, 6 is open, 7 is chain with its buffer's length as the weight.
//! BLOCK is `=`, the block as the line before left it, or `LENGTH:BYTES`.
//! In a file of the kind `table` a step table's text stands before the block,
//! `... bar TABLE BLOCK`: `=`, the text of the line before, or `LENGTH:BYTES`.
//! The expected line is `refusal first second third BLOCK`, with `=` if no byte
//! changed. Chain is called twice, each time on a fresh buffer: by the function
//! that counts its links, which gives the first answer, and by the one that
//! hands back its part, which gives the second of the whole buffer afterwards
//! and the third of the part. Accepted, an answer is 1 if the chain is right;
//! refused, 0 if nothing was written.
//! In a file of the kind `order`, whose lines are those of the kind `table`, 10 is
//! order, also with its buffer's length as the weight. An accepted one leaves the
//! block and shows, in its place, the front that it wrote. It is called three times,
//! each time on a fresh buffer: by the function that counts its bytes, which gives
//! the first answer, -1 if a byte past them changed; and twice by the one that hands
//! back its part, which gives the second of the whole buffer afterwards and the third
//! of the part. Accepted, these two are 1 if the bytes are those that were counted,
//! and the rest is kept; refused, 0 if nothing was written.
//! In a file of the kind `marks`, whose lines are those of the kind `table`, 11 is
//! set_marks: the subject is under receiver and the marks are under need.
//! In a file of the kind `retire`, whose lines are those of the kind `table`, 12 is
//! retire, with the subject under receiver, and 13 is bring_over: the old block is in the
//! place of the text, and BLOCK is the one that it is brought into.

use crate::call::{chain_table, order_table, run_table, Outcome, Written};
use crate::callfile::{from_values, joined, lines, read_values, used_only, values_of};
use crate::engine::Engine;
use crate::judge::judge;
use crate::refusal::{Call, Passed};
use crate::table::Table;

pub const MOST_BYTES: usize = 4096;

/// What a lent buffer holds before the call.
pub const UNWRITTEN: u8 = 0xA5;

/// A call, the table's text lent to it if it is lent one, and its block; without
/// one, the block as the case before left it.
#[derive(Clone, Debug, PartialEq, Eq)]
pub struct Case {
    pub passed: Passed,
    pub text: Option<Vec<u8>>,
    pub block: Option<Vec<u8>>,
}

impl Case {
    /// The table's text; a call that is lent none is lent an empty one.
    pub fn lent(&self) -> &[u8] {
        self.text.as_deref().unwrap_or_default()
    }
}

/// `LENGTH:BYTES`, a dot for a zero byte, trailing zero bytes left out.
pub fn block_text(block: &[u8]) -> String {
    let kept = block.iter().rposition(|&byte| byte != 0).map_or(0, |last| last + 1);
    format!("{}:{}", block.len(), bytes_text(&block[..kept]))
}

/// Two digits for a byte, a dot for a zero byte.
pub fn bytes_text(bytes: &[u8]) -> String {
    bytes.iter().map(|&byte| if byte == 0 { ".".to_string() } else { format!("{byte:02x}") }).collect()
}

/// The block that a text writes, or nothing if it writes none.
pub fn read_block(text: &[u8]) -> Option<Vec<u8>> {
    read_sized(text, MOST_BYTES)
}

/// The same, of at most so many bytes.
pub fn read_sized(text: &[u8], most: usize) -> Option<Vec<u8>> {
    let colon = text.iter().position(|&byte| byte == b':')?;
    let length: usize = std::str::from_utf8(&text[..colon]).ok()?.parse().ok()?;
    if length > most {
        return None;
    }
    let mut block = read_bytes(&text[colon + 1..])?;
    if block.len() > length {
        return None;
    }
    block.resize(length, 0);
    Some(block)
}

/// The bytes of a text of that form.
pub fn read_bytes(text: &[u8]) -> Option<Vec<u8>> {
    let mut bytes = Vec::new();
    let mut at = 0;
    while at < text.len() {
        if text[at] == b'.' {
            bytes.push(0);
            at += 1;
            continue;
        }
        let digits = std::str::from_utf8(text.get(at..at + 2)?).ok()?;
        bytes.push(u8::from_str_radix(digits, 16).ok()?);
        at += 2;
    }
    Some(bytes)
}

/// A line of a case file, after one with the text before, if there is such a line.
pub fn case_line(case: &Case, before: Option<&[u8]>) -> String {
    let numbers = joined(&values_of(&case.passed));
    let block = column(case.block.as_deref());
    match case.text.as_deref() {
        None => format!("{numbers} {block}\n"),
        text => format!("{numbers} {} {block}\n", column(text.filter(|_| text != before))),
    }
}

/// Bytes, or the sign for those of the line before.
fn column(bytes: Option<&[u8]>) -> String {
    bytes.map_or("=".to_string(), block_text)
}

/// The case on a line without its byte 10, after a line with the text before.
pub fn read_case(line: &[u8], before: &[u8]) -> Option<Case> {
    let (front, block) = split_last(line)?;
    let block = read_column(block)?;
    if let Some(values) = read_values(front) {
        return Some(Case { passed: from_values(values)?, text: None, block });
    }
    let (numbers, text) = split_last(front)?;
    let passed = from_values(read_values(numbers)?)?;
    let text = read_column(text)?.unwrap_or(before.to_vec());
    Some(Case { passed, text: Some(text), block })
}

/// The last word of a line and what is before its space.
pub fn split_last(line: &[u8]) -> Option<(&[u8], &[u8])> {
    let space = line.iter().rposition(|&byte| byte == b' ')?;
    Some((&line[..space], &line[space + 1..]))
}

/// The bytes of a column, none for those of the line before.
fn read_column(text: &[u8]) -> Option<Option<Vec<u8>>> {
    match text {
        b"=" => Some(None),
        text => read_block(text).map(Some),
    }
}

/// Runs a case on the block left before it; answers the expected line and
/// leaves the new block.
pub fn expected_line(engine: &Engine, case: &Case, current: &mut Vec<u8>) -> String {
    if let Some(block) = &case.block {
        current.clone_from(block);
    }
    if case.passed.call == Call::Order {
        let (written, buffer) = ordered(engine, &case.passed, case.lent(), current);
        return order_line(&written, &buffer);
    }
    let before = current.clone();
    let outcome = answer_table(engine, &case.passed, case.lent(), current);
    left_line(&outcome, &before, current)
}

/// `refusal first second third BLOCK` for a call and the block before and after it.
pub fn left_line(outcome: &Outcome, before: &[u8], after: &[u8]) -> String {
    let [first, second, third] = outcome.answers;
    let block = if after == before { "=".to_string() } else { block_text(after) };
    format!("{} {first} {second} {third} {block}\n", outcome.refusal)
}

/// The outcome of any call; for chain each answer is 1 if it is right.
pub fn answer(engine: &Engine, n: &Passed, block: &mut [u8]) -> Outcome {
    answer_table(engine, n, b"", block)
}

/// The same, lent a table's text.
pub fn answer_table(engine: &Engine, n: &Passed, text: &[u8], block: &mut [u8]) -> Outcome {
    let n = used_only(n);
    match n.call {
        Call::Chain => chain_outcome(&n, text, block),
        Call::Order => {
            let (written, buffer) = ordered(engine, &n, text, block);
            filled_outcome(&written, &buffer)
        }
        _ => run_table(engine, &n, text, block),
    }
}

fn chain_outcome(n: &Passed, text: &[u8], block: &[u8]) -> Outcome {
    let mut buffer = vec![UNWRITTEN; (n.weight as usize).min(MOST_BYTES)];
    let written = chain_table(block, n.giver, n.receiver, text, &mut buffer);
    let rest_kept = buffer[written.filled..].iter().all(|&byte| byte == UNWRITTEN);
    if written.refusal != 0 {
        return Outcome { refusal: written.refusal, answers: [0, 0, 0] };
    }
    let is_chain = |table: Table| judge(&table, block, n.giver, n.receiver, &buffer[..written.filled]).is_ok();
    let right = rest_kept && Table::read(text).is_ok_and(is_chain);
    Outcome { refusal: 0, answers: [right as i32; 3] }
}

/// What an order wrote, and its buffer afterwards.
pub fn ordered(engine: &Engine, n: &Passed, text: &[u8], block: &[u8]) -> (Written, Vec<u8>) {
    let mut buffer = vec![UNWRITTEN; (n.weight as usize).min(MOST_BYTES)];
    let written = order_table(engine, block, n.receiver, text, &mut buffer);
    (written, buffer)
}

/// The answers of an order, or of a write, that filled so much of the buffer.
pub fn filled_outcome(written: &Written, buffer: &[u8]) -> Outcome {
    let rest_kept = buffer[written.filled..].iter().all(|&byte| byte == UNWRITTEN);
    let answers = match (written.refusal, rest_kept) {
        (0, true) => [written.filled as i32, 1, 1],
        (0, false) => [-1, 0, 0],
        (_, kept) => [0, !kept as i32, !kept as i32],
    };
    Outcome { refusal: written.refusal, answers }
}

/// The expected line of an order: in the place of the block the front that was written.
pub fn order_line(written: &Written, buffer: &[u8]) -> String {
    let outcome = filled_outcome(written, buffer);
    let [first, second, third] = outcome.answers;
    let front = if written.refusal != 0 { "=".to_string() } else { block_text(&buffer[..written.filled]) };
    format!("{} {first} {second} {third} {front}\n", outcome.refusal)
}

/// The expected text of a whole case file, or the number of a line that is no case.
pub fn expected_text(engine: &Engine, text: &[u8]) -> Result<String, usize> {
    let (mut before, mut current) = (Vec::new(), Vec::new());
    expected_by(text, |line| {
        let case = read_case(line, &before)?;
        let expected = expected_line(engine, &case, &mut current);
        before = case.text.unwrap_or_default();
        Some(expected)
    })
}

/// The same by what is expected of each line without its byte 10, nothing if it is no case. On
/// the first there is no line before.
pub fn expected_by(text: &[u8], mut expected: impl FnMut(&[u8]) -> Option<String>) -> Result<String, usize> {
    let mut output = String::new();
    for (at, line) in lines(text).enumerate() {
        let line = line.strip_suffix(b"\n").filter(|line| at > 0 || !line.contains(&b'='));
        output.push_str(&line.and_then(&mut expected).ok_or(at + 1)?);
    }
    Ok(output)
}
