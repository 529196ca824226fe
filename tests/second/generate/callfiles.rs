//! The call files: whole inputs of the program.

use super::*;
use second::callfile::{call_line, MOST_INPUT, NAMES_IN};
use second::random::Random;

/// An input and what it shows.
pub struct CallFile {
    pub shows: String,
    pub input: Vec<u8>,
}

pub fn all() -> Vec<CallFile> {
    let mut all = vec![listing(), file("the names line alone", &[]), raw("empty input", b"")];
    all.extend(malformed::all());
    all.extend(examples());
    all.push(deepest());
    all.extend(numbers());
    all.extend(whole_length());
    all.extend(random_lists());
    all.extend(raised());
    all
}

pub fn raw(shows: &str, input: &[u8]) -> CallFile {
    CallFile { shows: shows.to_string(), input: input.to_vec() }
}

/// The names line and a line for each call.
pub fn file(shows: &str, calls: &[Passed]) -> CallFile {
    let mut input = NAMES_IN.to_vec();
    for n in calls {
        input.extend(call_line(n).into_bytes());
    }
    CallFile { shows: shows.to_string(), input }
}

fn listing() -> CallFile {
    let calls = [
        enrol(0),
        enrol(0),
        grant(0, 1, 255, 0, 0),
        grant(1, 2, 255, 0, 0),
        grant(2, 1, 255, 0, 0),
        revoke(0, 0, 1),
        use_right(2),
    ];
    file("document 01's listing", &calls)
}

fn examples() -> Vec<CallFile> {
    let mut files: Vec<CallFile> = Vec::new();
    for example in examples::proved() {
        files.push(file(example.name, &example.calls()));
    }
    for weight in [0, 5, 254] {
        let shows = format!("the counting case, 2-3 downgraded to {weight}");
        files.push(file(&shows, &examples::counting(weight).calls()));
    }
    files
}

/// Enrolments and 256 grants, a grant too many, then the cut of 485 rounds.
fn deepest() -> CallFile {
    let mut calls = rounds::calls();
    calls.extend([grant(1, 23, 0, 0, 0), rounds::FIRST_CUT, use_right(23), reach(2, 23), reach(23, 2)]);
    file("a cut of 485 rounds", &calls)
}

/// Refusals by numbers that are too large, and a full register.
fn numbers() -> Vec<CallFile> {
    const MOST: u32 = 4_294_967_295;
    let wide = [
        enrol(MOST),
        enrol(65_536),
        enrol(65_535),
        grant(MOST, MOST, MOST, MOST, MOST),
        grant(0, 1, MOST, 0, 0),
        grant(0, 1, 255, MOST, 0),
        grant(0, 1, 255, 0, MOST),
        revoke(MOST, MOST, MOST),
        revoke(0, 0, MOST),
        downgrade(MOST, 0, 1, MOST),
        downgrade(0, 0, 1, MOST),
        reach(MOST, MOST),
        use_right(MOST),
    ];
    let over = [
        grant(64, 1, 0, 0, 0),
        grant(0, 64, 0, 0, 0),
        revoke(64, 0, 1),
        downgrade(0, 64, 1, 0),
        reach(0, 64),
        use_right(64),
        use_right(63),
    ];
    let mut many: Vec<Passed> = (0..64).map(enrol).collect();
    many.extend((1..64).map(|receiver| grant(0, receiver, 255, 0, 0)));
    many.extend((1..63).map(|giver| grant(giver, giver + 1, 255 - giver, 0, 0)));
    many.extend([revoke(0, 0, 1), downgrade(0, 0, 2, 5), revoke(63, 62, 63), use_right(63)]);
    vec![
        file("4294967295 in used columns", &wide),
        file("subject 64 is refused with 2", &over),
        file("64 subjects, the 64th enrolment refused", &many),
    ]
}

/// Inputs of 65,536 bytes and of one more.
fn whole_length() -> Vec<CallFile> {
    let exact = filled(MOST_INPUT);
    let longer = filled(MOST_INPUT + 1);
    let mut cut_off = filled(MOST_INPUT);
    let last = cut_off.len() - 1;
    cut_off[last] = b'0';
    vec![
        raw("65536 bytes, every call accepted", &exact),
        raw("65537 bytes are malformed at line 1", &longer),
        raw("65536 bytes without the last byte 10", &cut_off),
    ]
}

/// Accepted calls of 14 bytes, the last ones of 15 so that the length is exact.
fn filled(length: usize) -> Vec<u8> {
    let mut input = file("", &[enrol(1), grant(0, 1, 9, 0, 0)]).input;
    let longer = (length - input.len()) % 14;
    let lines = (length - input.len()) / 14 - longer;
    let cycle = [use_right(1), reach(0, 1), use_right(0)];
    for at in 0..lines + longer {
        let n = if at < lines { cycle[at % cycle.len()] } else { enrol(10) };
        input.extend(call_line(&n).into_bytes());
    }
    input
}

/// Grants for standing pairs: named ones, in a full register, and drawn ones.
fn raised() -> Vec<CallFile> {
    let mut files: Vec<CallFile> = Vec::new();
    files.extend(raises::examples().iter().map(|example| file(example.name, &example.calls())));
    files.push(file("raises in a full register", &raises::on_full_calls()));
    let mut random = Random::new(0xF11F);
    for at in 1..=8 {
        let calls = lists::list(raises::likely, &mut random, &lists::FILE, 80);
        files.push(file(&format!("a random list of calls with raises, {at}"), &calls));
    }
    files
}

fn random_lists() -> Vec<CallFile> {
    let mut random = Random::new(0xF11E);
    let mut files = Vec::new();
    for at in 1..=24 {
        let length = if at % 4 == 0 { 400 } else { 80 };
        let calls = lists::list(lists::likely, &mut random, &lists::FILE, length);
        files.push(file(&format!("a random list of calls, {at}"), &calls));
    }
    files
}
