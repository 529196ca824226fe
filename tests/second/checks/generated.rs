//! The generated files: sizes, kinds, what they cover, and that the expected
//! lines of small registers follow from the definition.

use crate::faults::{ONE_ROUND, TEXT_LEFT_OUT, VISITED_ONCE};
use crate::relaxed::RELAXED;
use generate::{callfiles, cases, files, limits, Kind, KINDS};
use second::block::{decode, BLOCK_LEN};
use second::call::Outcome;
use second::callfile::{print, used_columns, values_of, MOST_INPUT};
use second::casefile::{answer_table, case_line, expected_line, expected_text, read_case, Case, MOST_BYTES};
use second::engine::{Engine, FAST, LITERAL};
use second::refusal::{Call, CALLS};
use std::collections::BTreeSet;

/// Every case of a kind with the block it is handed.
pub fn with_blocks(kind: &Kind) -> Vec<Case> {
    let mut block = Vec::new();
    let mut all = Vec::new();
    for case in cases(kind) {
        block = case.block.clone().unwrap_or(block);
        let whole = Case { block: Some(block.clone()), ..case };
        answered(&FAST, &whole, &mut block);
        all.push(whole);
    }
    all
}

/// The block of a case.
pub fn block_of(case: &Case) -> &[u8] {
    case.block.as_deref().unwrap_or_default()
}

/// The line that is expected of a case.
pub fn recorded(engine: &Engine, case: &Case) -> String {
    expected_line(engine, case, &mut Vec::new())
}

/// The outcome of a case on this block.
fn answered(engine: &Engine, case: &Case, block: &mut [u8]) -> Outcome {
    answer_table(engine, &case.passed, case.lent(), block)
}

/// The files of some cases are small and read back. Answers the bytes of the cases and of
/// what is expected of them.
pub fn read_back(cases: &[Case]) -> (usize, usize) {
    let (mut lines, mut bytes, mut expected) = (0, 0, 0);
    for file in files(cases) {
        assert!(file.cases.len() <= MOST_INPUT && file.expected.len() <= MOST_INPUT);
        assert_eq!(expected_text(&FAST, file.cases.as_bytes()), Ok(file.expected.clone()));
        assert!(file.cases.lines().next().is_some_and(|line| !line.contains('=')));
        lines += file.cases.lines().count();
        bytes += file.cases.len();
        expected += file.expected.len();
    }
    assert_eq!(lines, cases.len());
    (bytes, expected)
}

#[test]
fn files_are_small_and_read_back() {
    let mut bytes = 0;
    for kind in &KINDS {
        let (of_cases, of_expected) = read_back(&with_blocks(kind));
        assert!(of_cases <= 550_000);
        bytes += of_cases + of_expected;
    }
    bytes += callfiles::all().iter().map(|file| file.input.len() + print(&FAST, &file.input).len()).sum::<usize>();
    assert!(bytes < 4_000_000);
}

#[test]
fn kinds_use_their_calls_only() {
    for kind in &KINDS {
        let cases = cases(kind);
        assert!(cases.iter().all(|case| kind.calls.contains(&case.passed.call)));
        assert!(kind.calls.iter().all(|call| cases.iter().any(|case| case.passed.call == *call)));
    }
}

/// Columns that a call does not use are 0, lengths are at most 4,096, and the line of the
/// case reads back.
pub fn keeps_the_form(case: &Case) {
    let values = values_of(&case.passed);
    let used = used_columns(case.passed.call);
    assert!(values[1..].iter().zip(used).all(|(&value, used)| used || value == 0));
    assert!(case.lent().len() <= MOST_BYTES && block_of(case).len() <= MOST_BYTES);
    let has_buffer = matches!(case.passed.call, Call::Chain | Call::Order);
    assert!(!has_buffer || case.passed.weight as usize <= MOST_BYTES);
    for before in [None, case.text.as_deref()] {
        let line = case_line(case, before);
        assert_eq!(line.contains('='), before.is_some());
        assert_eq!(read_case(line.trim_end().as_bytes(), case.lent()).as_ref(), Some(case));
    }
}

/// A text is there in the kind `table`, and only there.
#[test]
fn lines_keep_the_form() {
    for (kind, case) in KINDS.iter().flat_map(|kind| with_blocks(kind).into_iter().map(move |case| (kind, case))) {
        keeps_the_form(&case);
        assert_eq!(case.text.is_some(), kind.name == "table");
    }
}

/// Every number of the limits in every column that a call uses, every wrong
/// length and every buffer.
#[test]
fn limits_are_covered() {
    let mut numbers = BTreeSet::new();
    let mut lengths = BTreeSet::new();
    let mut buffers = BTreeSet::new();
    for case in KINDS.iter().flat_map(with_blocks) {
        let call = case.passed.call;
        let values = values_of(&case.passed);
        numbers.extend((1..7).map(|column| (call, column, values[column])));
        lengths.insert((call, case.block.map_or(0, |block| block.len())));
        buffers.extend((call == Call::Chain).then_some(case.passed.weight));
    }
    for call in CALLS {
        let used = used_columns(call);
        let columns = (1..7).filter(|&column| used[column - 1] && !(call == Call::Chain && column == 4));
        for (column, number) in columns.flat_map(|column| limits::NUMBERS.map(|number| (column, number))) {
            assert!(numbers.contains(&(call, column, number)), "{call:?} {column} {number}");
        }
        assert!(limits::LENGTHS.iter().all(|&length| lengths.contains(&(call, length))));
    }
    assert!(limits::BUFFERS.iter().all(|buffer| buffers.contains(buffer)));
}

/// How many cases were run with an engine too, and how many had another line.
/// Chain is left out, since it has one search only.
pub fn compared(cases: &[Case], engine: &Engine, of: fn(&[u8]) -> bool) -> (u32, u32) {
    let (mut all, mut differing) = (0, 0);
    for case in cases.iter().filter(|case| case.passed.call != Call::Chain && of(block_of(case))) {
        all += 1;
        differing += (recorded(&FAST, case) != recorded(engine, case)) as u32;
    }
    (all, differing)
}

/// The literal search can be made on the block.
pub fn is_small(block: &[u8]) -> bool {
    decode(block).is_none_or(|register| register.delegations.len() <= 16)
}

/// The cases of all kinds.
fn all_cases() -> Vec<Case> {
    KINDS.iter().flat_map(with_blocks).collect()
}

/// Small registers are run with the literal search, all with the relaxed one: more of each
/// than these, and none has another line.
pub fn follow_from_the_definition(cases: &[Case], least_small: u32, least: u32) {
    let (small, differing) = compared(cases, &LITERAL, is_small);
    assert!(small > least_small && differing == 0, "{small} {differing}");
    let (all, differing) = compared(cases, &RELAXED, |_| true);
    assert!(all > least && differing == 0, "{all} {differing}");
}

#[test]
fn expected_lines_follow_from_the_definition() {
    follow_from_the_definition(&all_cases(), 3000, 4500);
}

#[test]
fn faults_are_noticed_by_the_cases() {
    assert!(compared(&all_cases(), &ONE_ROUND, |_| true).1 > 50);
    assert!(compared(&all_cases(), &VISITED_ONCE, is_small).1 > 50);
    assert!(compared(&all_cases(), &TEXT_LEFT_OUT, |_| true).1 > 50);
}

/// Every accepted chain is right.
#[test]
fn chains_are_right() {
    let mut accepted = 0;
    for case in KINDS.iter().flat_map(with_blocks).filter(|case| case.passed.call == Call::Chain) {
        let mut block = case.block.clone().unwrap_or_default();
        let outcome = answered(&FAST, &case, &mut block);
        assert_eq!(outcome.answers, [(outcome.refusal == 0) as i32; 3]);
        accepted += outcome.answers[0];
    }
    assert!(accepted > 100);
}

/// Rounds from 1 to over 400, and unsupported blocks among the cut ones.
#[test]
fn cuts_are_deep() {
    let mut rounds = BTreeSet::new();
    for case in with_blocks(&KINDS[2]) {
        if matches!(case.passed.call, Call::Revoke | Call::Downgrade) {
            let mut block = case.block.clone().unwrap_or_default();
            rounds.insert(answered(&FAST, &case, &mut block).answers[2]);
        }
    }
    assert!([1, 2, 3, 4, 5, 6, 172, 485].iter().all(|number| rounds.contains(number)));
    assert!(rounds.len() > 20);
}

#[test]
fn wrong_lengths_are_refused_with_1() {
    let mut wrong = 0;
    for case in KINDS.iter().flat_map(with_blocks) {
        let mut block = case.block.clone().unwrap_or_default();
        if block.len() != BLOCK_LEN {
            assert_eq!(answered(&FAST, &case, &mut block).refusal, 1);
            wrong += 1;
        }
    }
    assert!(wrong >= 40);
}
