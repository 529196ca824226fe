//! Step tables lent as text: the form, the rules, and the calls that take one.

use super::same;
use crate::faults::{ONE_ROUND, TEXT_LEFT_OUT};
use generate::{broken, enrol, marks, open, orders, reach, register, tables, texts, use_right};
use second::block::{decode, encode, Register};
use second::call::{run, run_table};
use second::casefile::answer_table;
use second::engine::{Engine, FAST, LITERAL};
use second::host::{host_call, host_call_table};
use second::random::{random_table, Random};
use second::refusal::{takes_table, Call, ALL_CALLS};
use second::table::{table_text, Table, NAMES, OURS};
use std::collections::BTreeSet;

/// What is due for a text, by other means than the reader's: a text of the form
/// is the rendering of its own numbers.
fn due(text: &[u8]) -> Result<Vec<i64>, u32> {
    let next = numbers(text).filter(|next| table_text(next) == text).ok_or(7u32)?;
    let writable = next.iter().all(|&next| next >= -1 && next <= u32::MAX as i64);
    if next.len() != 256 || !writable {
        return Err(7);
    }
    for weight in 0..256 {
        let least = if weight == 0 { -1 } else { next[weight - 1] };
        let most = if weight == 255 { 255 } else { weight as i64 - 1 };
        if next[weight] < least || next[weight] > most {
            return Err(17);
        }
    }
    Ok(next)
}

/// The second word of every line but the first, if all are numbers.
fn numbers(text: &[u8]) -> Option<Vec<i64>> {
    let text = std::str::from_utf8(text).ok()?;
    text.lines().skip(1).map(|line| line.split(' ').nth(1)?.parse().ok()).collect()
}

fn entries(table: Table) -> Vec<i64> {
    table.next.map(i64::from).to_vec()
}

#[test]
fn tables_that_pass_are_read_back() {
    let mut random = Random::new(0x7AB1);
    let drawn = (0..3000).map(|_| random_table(&mut random));
    for table in texts::passing().into_iter().map(|(_, table)| table).chain(drawn) {
        assert_eq!(Table::read(&table.text()), Ok(table));
        assert_eq!(due(&table.text()), Ok(entries(table)));
    }
}

#[test]
fn an_empty_text_is_ours() {
    assert_eq!(Table::read(b""), Ok(OURS));
    let text = String::from_utf8(OURS.text()).unwrap();
    assert!(text.starts_with("weight next\n0 -1\n1 0\n2 1\n") && text.ends_with("\n254 253\n255 255\n"));
    assert_eq!(text.lines().count(), 257);
}

#[test]
fn every_other_form_is_refused_with_7() {
    let malformed = texts::malformed();
    for text in &malformed {
        assert_eq!(Table::read(&text.bytes), Err(7), "{}", text.shows);
        assert_eq!(due(&text.bytes), Err(7), "{}", text.shows);
    }
    let distinct: BTreeSet<&[u8]> = malformed.iter().map(|text| &text.bytes[..]).collect();
    assert_eq!(distinct.len(), 53 + 4 + 9);
}

/// Entries where each rule is broken: not below the weight, and smaller than
/// the one before.
fn broken_at(next: &[i64]) -> (Vec<usize>, Vec<usize>) {
    let too_high = |&weight: &usize| next[weight] >= weight as i64 && (weight, next[weight]) != (255, 255);
    let too_low = |&weight: &usize| next[weight] < next[weight - 1];
    ((0..256).filter(too_high).collect(), (1..256).filter(too_low).collect())
}

/// Each rule is broken alone at the ends and in the middle. A next below the one
/// of weight 0 breaks the other rule too.
#[test]
fn every_broken_rule_is_refused_with_17() {
    let (mut high, mut low) = (BTreeSet::new(), BTreeSet::new());
    for text in texts::broken() {
        assert_eq!(Table::read(&text.bytes), Err(17), "{}", text.shows);
        assert_eq!(due(&text.bytes), Err(17), "{}", text.shows);
        match broken_at(&numbers(&text.bytes).unwrap()) {
            (too_high, too_low) if too_low.is_empty() => high.extend(too_high),
            (too_high, too_low) if too_high.is_empty() => low.extend(too_low),
            (_, too_low) => assert!(too_low.len() == 1),
        }
    }
    assert_eq!(high, BTreeSet::from([0, 1, 100, 254, 255]));
    assert_eq!(low, BTreeSet::from([2, 100, 254, 255]));
}

/// A text with one byte changed, taken out or put in.
fn changed(random: &mut Random, text: &[u8]) -> Vec<u8> {
    let mut text = text.to_vec();
    let near_end = random.chance(30);
    let from = if near_end { text.len() as u32 - 10 } else { 0 };
    let place = random.range(from, text.len() as u32 - 1) as usize;
    let byte = random.pick(b"0123456789 \n\r-+\0a");
    match random.below(3) {
        0 => text[place] = byte,
        1 => drop(text.remove(place)),
        _ => text.insert(place + random.below(2) as usize, byte),
    }
    text
}

/// A text is read exactly if it is the rendering of its numbers.
#[test]
fn texts_are_read_exactly_as_rendered() {
    let mut random = Random::new(0x7E87);
    let mut found = [0; 3];
    for _ in 0..6000 {
        let table = random_table(&mut random);
        let text = changed(&mut random, &table.text());
        let read = Table::read(&text).map(entries);
        assert_eq!(read, due(&text), "{:?}", String::from_utf8_lossy(&text));
        found[match read {
            Ok(_) => 0,
            Err(7) => 1,
            Err(_) => 2,
        }] += 1;
    }
    assert!(found.iter().all(|&count| count > 100), "{found:?}");
}

/// A front of a text that passes passes only if it is whole or empty.
#[test]
fn fronts_of_a_text_are_refused() {
    let text = texts::by_two().text();
    assert!((1..text.len()).all(|length| Table::read(&text[..length]) == Err(7)));
    assert!(text.starts_with(NAMES));
}

/// What a call left: its answers and the weights that stand.
type Left = ([i32; 3], Vec<(u8, u8, u8)>);

/// The example's cut under a text, and reach 2-3 afterwards under it and under ours.
fn example(engine: &Engine, text: &[u8]) -> (Left, i32, i32) {
    let mut block = encode(&register(&[0; 5], &[]));
    for grant in tables::EXAMPLE.iter().map(generate::grant_of) {
        assert_eq!(run(engine, &grant, &mut block).refusal, 0);
    }
    let answers = run_table(engine, &tables::EXAMPLE_CUT, text, &mut block).answers;
    let register = decode(&block).unwrap();
    let weights = register.delegations.iter().map(|d| (d.giver, d.receiver, d.weight)).collect();
    let reaches = [text, b""].map(|text| run_table(engine, &reach(2, 3), text, &mut block).answers[0]);
    ((answers, weights), reaches[0], reaches[1])
}

fn example_holds(engine: &Engine) -> Result<(), String> {
    let ours = (([0, 0, 1], vec![(0, 1, 9), (1, 2, 8), (2, 3, 6)]), 7, 7);
    same("under ours", example(engine, b""), ours.clone())?;
    same("under ours as text", example(engine, &OURS.text()), ours)?;
    let two = (([0, 2, 2], vec![(0, 1, 9), (1, 2, 7), (2, 3, 5)]), 5, 6);
    same("falling by two", example(engine, &texts::by_two().text()), two)
}

#[test]
fn a_cut_is_judged_by_the_table_given_to_it() {
    assert_eq!(example_holds(&FAST), Ok(()));
    assert_eq!(example_holds(&LITERAL), Ok(()));
    assert!(example_holds(&TEXT_LEFT_OUT).unwrap_err().starts_with("falling by two"));
    assert!(example_holds(&ONE_ROUND).is_ok());
}

/// Every refused text with every call that takes one; no byte changes.
#[test]
fn refused_texts_refuse_every_call() {
    let block = encode(&broken::valid());
    for (number, texts) in [(7, texts::malformed()), (17, texts::broken())] {
        for (text, call) in texts.iter().flat_map(|text| tables::CALLS.map(|call| (text, call))) {
            let (n, mut left) = (tables::accepted(call), block.clone());
            let outcome = answer_table(&FAST, &n, &text.bytes, &mut left);
            assert_eq!((outcome.refusal, outcome.answers), (number, [0, 0, 0]), "{} {n:?}", text.shows);
            assert_eq!(left, block);
        }
    }
}

/// The calls that the refused texts are lent to are accepted under every table.
#[test]
fn calls_are_accepted_under_every_table() {
    let block = encode(&broken::valid());
    for (shows, table) in texts::passing() {
        for n in tables::CALLS.map(tables::accepted) {
            assert_eq!(answer_table(&FAST, &n, &table.text(), &mut block.clone()).refusal, 0, "{shows} {n:?}");
        }
    }
}

/// Open, enrol and use take no table: a text beside them changes nothing. What is lent beside a
/// block to bring over is no table.
#[test]
fn other_calls_take_no_table() {
    let taking: Vec<Call> = ALL_CALLS.into_iter().filter(|&call| takes_table(call)).collect();
    let due = orders::CALLS.iter().chain(&marks::CALLS).chain(&[Call::Retire, Call::GrantKind]);
    assert_eq!(taking.iter().collect::<BTreeSet<_>>(), due.collect());
    for (n, text) in [open(), enrol(3), use_right(2)].iter().zip([&b"\n"[..], b"0", &[0; 4096]]) {
        let (mut with, mut without) = (encode(&broken::valid()), encode(&broken::valid()));
        assert_eq!(run_table(&FAST, n, text, &mut with), run(&FAST, n, &mut without));
        assert_eq!(with, without);
    }
}

/// A host's answers are judged before the text, and written only if it passes.
#[test]
fn hosts_lend_a_text() {
    let called = |text: &[u8], length: usize| {
        let mut answers = vec![9; length];
        let number = host_call_table(&FAST, &reach(1, 2), text, &mut encode(&example_register()), &mut answers);
        (number, answers)
    };
    assert_eq!(called(b"\n", 11), (1, vec![9; 11]));
    assert_eq!(called(b"\n", 12), (7, vec![9; 12]));
    assert_eq!(called(&texts::broken()[0].bytes, 12), (17, vec![9; 12]));
    assert_eq!(called(&texts::by_two().text(), 12), (0, vec![7, 0, 0, 0, 0, 0, 0, 0, 0, 0, 0, 0]));
    let mut answers = [9; 12];
    assert_eq!(host_call(&FAST, &reach(1, 2), &mut encode(&example_register()), &mut answers), 0);
    assert_eq!(answers, [8, 0, 0, 0, 0, 0, 0, 0, 0, 0, 0, 0]);
}

fn example_register() -> Register {
    register(&[0; 5], &tables::EXAMPLE)
}
