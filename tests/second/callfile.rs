//! The program: a call file in, a line of refusal and answers out for each call.

use crate::block::{encode, Register};
use crate::call::{blank, run, Outcome};
use crate::engine::Engine;
use crate::refusal::{Call, Passed, ALL_CALLS, MALFORMED};

pub const MOST_INPUT: usize = 65_536;
pub const NAMES_IN: &[u8] = b"call by giver receiver weight need bar\n";
pub const NAMES_OUT: &[u8] = b"refusal first second third\n";

/// The largest call number of a call file is 5.
pub const CALLS_IN_FILE: usize = 6;

/// What the program prints for an input.
pub fn print(engine: &Engine, input: &[u8]) -> Vec<u8> {
    let mut output = NAMES_OUT.to_vec();
    if input.len() > MOST_INPUT || !input.starts_with(NAMES_IN) {
        output.extend(malformed(1));
        return output;
    }
    let mut block = encode(&Register::fresh());
    for (at, line) in lines(&input[NAMES_IN.len()..]).enumerate() {
        let Some(n) = read_call(line) else {
            output.extend(malformed(at + 2));
            return output;
        };
        output.extend(outcome_line(&run(engine, &n, &mut block)));
    }
    output
}

/// The lines with their byte 10; the last may lack it.
pub fn lines(text: &[u8]) -> impl Iterator<Item = &[u8]> {
    text.split_inclusive(|&byte| byte == b'\n')
}

/// The call on a line, or nothing if the line is malformed.
pub fn read_call(line: &[u8]) -> Option<Passed> {
    let text = line.strip_suffix(b"\n")?;
    let values = read_values(text)?;
    if values[0] as usize >= CALLS_IN_FILE {
        return None;
    }
    let n = from_values(values)?;
    (values_of(&used_only(&n)) == values).then_some(n)
}

/// Seven decimal numbers with one space between and nothing else.
pub fn read_values(text: &[u8]) -> Option<[u32; 7]> {
    read_columns(text)
}

/// So many decimal numbers with one space between and nothing else.
pub fn read_columns<const COLUMNS: usize>(text: &[u8]) -> Option<[u32; COLUMNS]> {
    let mut parts = text.split(|&byte| byte == b' ');
    let mut values = [0; COLUMNS];
    for value in &mut values {
        *value = read_number(parts.next()?)?;
    }
    parts.next().is_none().then_some(values)
}

/// Digits only, no leading zero, at most 4,294,967,295.
pub fn read_number(digits: &[u8]) -> Option<u32> {
    let leading_zero = digits.len() > 1 && digits[0] == b'0';
    if digits.is_empty() || digits.len() > 10 || leading_zero || !digits.iter().all(u8::is_ascii_digit) {
        return None;
    }
    let value = digits.iter().fold(0u64, |sum, digit| 10 * sum + (digit - b'0') as u64);
    u32::try_from(value).ok()
}

/// The kind of a grant with one is under by, which no grant uses.
pub fn from_values(values: [u32; 7]) -> Option<Passed> {
    let [call, by, giver, receiver, weight, need, bar] = values;
    let call = ALL_CALLS.into_iter().find(|&known| known as u32 == call)?;
    let (by, kind) = if call == Call::GrantKind { (0, by) } else { (by, 0) };
    Some(Passed { call, by, giver, receiver, weight, need, bar, kind })
}

pub fn values_of(n: &Passed) -> [u32; 7] {
    let by = if n.call == Call::GrantKind { n.kind } else { n.by };
    [n.call as u32, by, n.giver, n.receiver, n.weight, n.need, n.bar]
}

/// The columns after the call number that a call uses:
/// by, giver, receiver, weight, need, bar.
pub fn used_columns(call: Call) -> [bool; 6] {
    let columns = match call {
        Call::Enrol => [0, 0, 0, 0, 1, 0],
        Call::Grant => [0, 1, 1, 1, 1, 1],
        Call::Revoke => [1, 1, 1, 0, 0, 0],
        Call::Downgrade => [1, 1, 1, 1, 0, 0],
        Call::Reach => [0, 1, 1, 0, 0, 0],
        Call::Use => [0, 0, 1, 0, 0, 0],
        Call::Open => [0, 0, 0, 0, 0, 0],
        // The length of the buffer is passed as the weight in case files.
        Call::Chain => [0, 1, 1, 1, 0, 0],
        Call::Order => [0, 0, 1, 1, 0, 0],
        Call::SetMarks => [1, 0, 1, 0, 1, 0],
        Call::Retire => [1, 0, 1, 0, 0, 0],
        Call::BringOver => [0, 0, 0, 0, 0, 0],
        Call::GrantKind => [1, 1, 1, 1, 1, 1],
    };
    columns.map(|used| used == 1)
}

/// The same call with 0 in every column that it does not use.
pub fn used_only(n: &Passed) -> Passed {
    let mut values = values_of(n);
    for (value, used) in values[1..].iter_mut().zip(used_columns(n.call)) {
        if !used {
            *value = 0;
        }
    }
    from_values(values).unwrap_or(blank(n.call))
}

pub fn call_line(n: &Passed) -> String {
    format!("{}\n", joined(&values_of(n)))
}

pub fn outcome_line(outcome: &Outcome) -> Vec<u8> {
    let [first, second, third] = outcome.answers;
    format!("{} {first} {second} {third}\n", outcome.refusal).into_bytes()
}

fn malformed(line: usize) -> Vec<u8> {
    format!("{MALFORMED} {line}\n").into_bytes()
}

/// Numbers with one space between.
pub fn joined(values: &[u32]) -> String {
    let texts: Vec<String> = values.iter().map(u32::to_string).collect();
    texts.join(" ")
}
