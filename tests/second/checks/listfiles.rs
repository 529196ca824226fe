//! The lists of calls that are made by one call.

use generate::callfiles::file;
use crate::faults::TEXT_LEFT_OUT;
use generate::{list_files, listfiles, marklists, retirelists, textlists};
use second::block::decode;
use second::callfile::{print, MOST_INPUT};
use second::casefile::read_block;
use second::engine::{FAST, LITERAL};
use second::listfile::{expected_lines, lengths, passed, List, MOST_TEXTS, NUMBERS};
use second::refusal::{Call, Passed};

fn calls(list: &List) -> Vec<Passed> {
    list.numbers.chunks_exact(NUMBERS).map(|numbers| passed(numbers).unwrap()).collect()
}

fn accepted() -> Vec<List> {
    listfiles::all().into_iter().filter(|list| list.refusal() == 0).collect()
}

/// The four numbers of every line after the first.
fn answers(expected: &str) -> Vec<&str> {
    expected.lines().skip(1).map(|line| line.rsplit_once(' ').unwrap().0).collect()
}

fn sets_marks(list: &List) -> bool {
    calls(list).iter().any(|n| n.call == Call::SetMarks)
}

fn retires(list: &List) -> bool {
    calls(list).iter().any(|n| n.call == Call::Retire)
}

/// Those that are lent no texts, as call files are, and in which no marks are set and nobody
/// retires.
#[test]
fn a_list_answers_as_its_call_file() {
    let of_calls = |list: &List| list.texts.is_empty() && !sets_marks(list) && !retires(list);
    let of_calls: Vec<List> = accepted().into_iter().filter(of_calls).collect();
    assert!(of_calls.len() > 15);
    for list in of_calls {
        let printed = String::from_utf8(print(&FAST, &file("", &calls(&list)).input)).unwrap();
        let printed: Vec<&str> = printed.lines().skip(1).collect();
        assert_eq!(answers(&expected_lines(&FAST, &list)), printed);
    }
}

/// A block is written where a call changed it, and only there.
#[test]
fn a_list_keeps_every_block() {
    let (mut kept, mut changed) = (0, 0);
    for list in accepted() {
        let expected = expected_lines(&FAST, &list);
        let mut before = "2188:01";
        assert_eq!(expected.lines().next(), Some("0 2188:01"));
        for line in expected.lines().skip(1) {
            let block = line.rsplit_once(' ').unwrap().1;
            if block == "=" {
                kept += 1;
                continue;
            }
            assert!(line.starts_with("0 ") && block != before);
            assert!(read_block(block.as_bytes()).is_some_and(|bytes| decode(&bytes).is_some()));
            before = block;
            changed += 1;
        }
    }
    assert!(kept > 100 && changed > 100);
}

#[test]
fn short_lists_are_literal() {
    let short: Vec<List> = accepted().into_iter().filter(|list| list.calls() <= 30).collect();
    assert!(short.len() > 10);
    for list in short {
        assert_eq!(expected_lines(&FAST, &list), expected_lines(&LITERAL, &list));
    }
}

/// The cut under ours, then under the table that falls by two.
#[test]
fn a_list_is_judged_by_the_tables_of_its_calls() {
    let list = textlists::example();
    let expected = expected_lines(&FAST, &list);
    let due = ["0 0 0 1", "0 4 0 0", "0 0 2 2", "0 5 0 0", "0 6 0 0", "0 1 0 0"];
    assert_eq!(answers(&expected)[8..], due);
    assert_ne!(expected_lines(&TEXT_LEFT_OUT, &list), expected);
}

/// 1-2 stands at 0 and is granted at 8: under the table that falls by two, the two
/// texts that are refused, the level one and ours.
#[test]
fn the_raises_of_a_list_are_judged_by_their_tables() {
    let list = textlists::raised();
    let expected = expected_lines(&FAST, &list);
    let first = ["16 0 0 0", "7 0 0 0", "17 0 0 0", "16 0 0 0", "0 2 0 0"];
    let due = [&first[..], &["0 2 0 0", "11 0 0 0", "16 0 0 0", "0 2 0 0", "0 0 1 2"]].concat();
    assert_eq!(answers(&expected)[6..], due);
    assert_ne!(expected_lines(&TEXT_LEFT_OUT, &list), expected);
}

/// 5 loses its mark, and has it set to the same again: under the table that falls by two, the
/// two texts that are refused, the level one and ours.
#[test]
fn the_marks_of_a_list_are_judged_by_their_tables() {
    let list = marklists::example();
    let expected = expected_lines(&FAST, &list);
    let all = answers(&expected);
    let two: Vec<&[&str]> = all[6..].chunks_exact(8).map(|calls| &calls[6..]).collect();
    let due = [["0 0 1 2", "0 0 0 1"], ["7 0 0 0", "7 0 0 0"], ["17 0 0 0", "17 0 0 0"], ["0 1 2 2", "0 0 0 1"]];
    assert_eq!(two, [&due[..], &[["0 0 1 2", "0 0 0 1"]]].concat());
    assert_ne!(expected_lines(&TEXT_LEFT_OUT, &list), expected);
}

/// Marks are lost at every place of a text that passes, and accepted lists hold them at
/// every place, refused calls among them.
#[test]
fn lists_set_marks() {
    let expected = expected_lines(&FAST, &marklists::every_text());
    let refusals: Vec<&str> = answers(&expected)[3..].iter().map(|line| line.split(' ').next().unwrap()).collect();
    let of_marks: Vec<&str> = refusals.chunks_exact(7).map(|calls| calls[4]).collect();
    assert_eq!(of_marks, ["0", "7", "17", "0", "0", "0", "0", "7", "7", "7", "7", "7", "7", "0"]);
    let setting: Vec<List> = accepted().into_iter().filter(sets_marks).collect();
    let is_marks = |n: Option<&Passed>| n.is_some_and(|n| n.call == Call::SetMarks);
    assert!(setting.len() > 15);
    assert!(setting.iter().any(|list| is_marks(calls(list).first())));
    assert!(setting.iter().any(|list| is_marks(calls(list).last())));
    assert!(setting.iter().any(|list| list.texts.is_empty()) && setting.iter().any(|list| !list.texts.is_empty()));
}

/// A subject retires twice under each text and once more under ours: under the table that falls
/// by two, the two texts that are refused, the level one and ours.
#[test]
fn the_retirements_of_a_list_are_judged_by_their_tables() {
    let list = retirelists::example();
    let expected = expected_lines(&FAST, &list);
    let all = answers(&expected);
    let three: Vec<&[&str]> = all[6..].chunks_exact(10).map(|calls| &calls[7..]).collect();
    let passing = ["0 2 1 2", "19 0 0 0", "19 0 0 0"];
    let [malformed, bad] = ["7 0 0 0", "17 0 0 0"].map(|refused| [refused, refused, "0 2 1 2"]);
    assert_eq!(three, [passing, malformed, bad, passing, passing]);
    assert_ne!(expected_lines(&TEXT_LEFT_OUT, &list), expected);
}

/// Subjects retire at every place of a text that passes, and accepted lists hold retirements at
/// every place, refused ones among them.
#[test]
fn lists_retire_subjects() {
    let expected = expected_lines(&FAST, &retirelists::every_text());
    let refusals: Vec<&str> = answers(&expected)[1..].iter().map(|line| line.split(' ').next().unwrap()).collect();
    let retired: Vec<&str> = refusals.chunks_exact(6).map(|calls| calls[3]).collect();
    assert_eq!(retired, ["0", "7", "17", "0", "0", "0", "0", "7", "7", "7", "7", "7", "7", "0"]);
    let named_again = refusals.chunks_exact(6).map(|calls| calls[5] == "19");
    assert_eq!(named_again.collect::<Vec<_>>(), retired.iter().map(|number| *number == "0").collect::<Vec<_>>());
    let retiring: Vec<List> = accepted().into_iter().filter(retires).collect();
    let is_retire = |n: Option<&Passed>| n.is_some_and(|n| n.call == Call::Retire);
    assert!(retiring.len() > 20);
    assert!(retiring.iter().any(|list| is_retire(calls(list).first())));
    assert!(retiring.iter().any(|list| is_retire(calls(list).last())));
    assert!(retiring.iter().any(|list| list.texts.is_empty()) && retiring.iter().any(|list| !list.texts.is_empty()));
}

/// Seven calls for each place of a text: 0 where it passes, 7 or 17 where it does
/// not, and use as without one.
#[test]
fn every_text_of_a_list_is_read() {
    let expected = expected_lines(&FAST, &textlists::every_text());
    let refusals: Vec<&str> = answers(&expected)[4..].iter().map(|line| line.split(' ').next().unwrap()).collect();
    let due = ["0", "7", "17", "0", "0", "0", "0", "7", "7", "7", "7", "7", "7", "0"];
    assert_eq!(refusals.len(), 7 * due.len());
    for (refusals, due) in refusals.chunks_exact(7).zip(due) {
        // The third call's by is neither giver nor owner.
        let third = if due == "0" { "14" } else { due };
        assert_eq!(refusals, [due, due, third, due, due, due, "0"]);
    }
}

/// The texts of calls 1 to 4, 6 and 7 are within the texts.
fn texts_fit(list: &List) -> bool {
    let end = |call: &[u32]| call[7] as u64 + call[8] as u64;
    let mut calls = list.numbers.chunks_exact(NUMBERS);
    calls.all(|call| ![1, 2, 3, 4, 6, 7].contains(&call[0]) || end(call) <= list.texts.len() as u64)
}

/// The refusals are 1 and 7, 1 where both apply; nothing is written.
#[test]
fn refused_lists_write_nothing() {
    let (mut wrong, mut malformed, mut outside) = (0, 0, 0);
    for list in listfiles::all().iter().filter(|list| list.refusal() != 0) {
        let sized = list.numbers.len() % NUMBERS == 0 && list.lengths == lengths(list.calls());
        let whole = sized && texts_fit(list);
        outside += (sized && !whole) as u32;
        assert_eq!(list.refusal(), if whole { 7 } else { 1 });
        wrong += !whole as u32;
        malformed += whole as u32;
        let expected = expected_lines(&FAST, list);
        assert_eq!(expected.lines().next(), Some(&format!("{} =", list.refusal())[..]));
        assert!(expected.lines().skip(1).all(|line| line == "77 -7 -7 -7 ="));
        assert_eq!(expected.lines().count(), 1 + list.calls());
    }
    // 36 parts of calls, 13 lengths and 5 of both, 6 beside texts, 3 beside marks and 3
    // beside retirements; 10 and 4 places for each of six calls and 3 beside a number that
    // is no call's; 5, 3, 4 and 5 such numbers.
    assert_eq!(outside, 6 * (10 + 4) + 3);
    assert_eq!((wrong, malformed), (36 + 13 + 5 + 6 + 3 + 3 + outside, 5 + 3 + 4 + 5));
}

#[test]
fn lists_fit_the_program() {
    let lists = listfiles::all();
    assert!(lists.iter().all(|list| list.calls() <= listfiles::MOST_CALLS));
    assert!(lists.iter().any(|list| list.calls() == listfiles::MOST_CALLS));
    assert_eq!(lists.iter().map(|list| list.texts.len()).max(), Some(MOST_TEXTS));
    let files = list_files(&lists);
    assert!(files.iter().all(|file| file.cases.len() <= MOST_INPUT && file.expected.len() <= MOST_INPUT));
    assert_eq!(files.iter().map(|file| file.cases.lines().count()).sum::<usize>(), lists.len());
}
