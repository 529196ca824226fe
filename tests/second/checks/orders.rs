//! The order of document 02's C-14: the sentence step by step, a search that takes out
//! the heaviest, and a judge of what is written.

use super::{lent, ours, same, Draw};
use crate::faults::{TEXT_LEFT_OUT, VISITED_ONCE};
use crate::relaxed::{self, RELAXED};
use generate::orderregisters::{all_subjects, example, large};
use generate::{broken, examples, full, register, texts};
use second::block::{encode, Register, BLOCK_LEN, ZERO_AT};
use second::call::{order, order_table, Written};
use second::chain::literal_reach;
use second::engine::{Engine, FAST, LITERAL};
use second::order::{self, popped};
use second::random::{random_register, random_table, Random, Shape};
use second::refusal::ORDER_BUFFER;
use second::table::{Table, OURS};
use std::collections::BTreeSet;

type List = Vec<(u8, u8)>;

/// What the buffer holds before a call.
const UNWRITTEN: u8 = 0xA5;

/// The list that an order writes, or its refusal. The rest of the buffer is kept.
fn written(engine: &Engine, register: &Register, receiver: u32, text: &[u8]) -> Result<List, u32> {
    let mut buffer = [UNWRITTEN; ORDER_BUFFER];
    let Written { refusal, filled } = order_table(engine, &encode(register), receiver, text, &mut buffer);
    assert!(buffer[filled..].iter().all(|&byte| byte == UNWRITTEN));
    if refusal != 0 {
        return Err(refusal);
    }
    Ok(buffer[..filled].chunks_exact(2).map(|two| (two[0], two[1])).collect())
}

/// Nobody has marks, so that the list is the same for every receiver.
#[test]
fn the_example_holds() {
    let due = vec![(0, 255), (4, 255), (1, 255), (3, 19), (2, 8), (5, 5)];
    for receiver in 1..6 {
        assert_eq!(written(&FAST, &example(), receiver, b""), Ok(due.clone()));
        assert_eq!(written(&LITERAL, &example(), receiver, b""), Ok(due.clone()));
        assert_eq!(popped(&OURS, &example(), receiver), due);
    }
}

/// The example under a table that falls by two, one in which 255 falls, and one of -1.
#[test]
fn the_example_under_other_tables() {
    let highest = |next: i64| Table::of(&(0..256).map(|w| if w == 255 { next } else { w - 1 }).collect::<Vec<i64>>());
    let falls = highest(254).expect("a table that passes");
    let nothing = Table::of(&[-1; 256]).expect("a table that passes");
    let due = [
        (texts::by_two(), vec![(0, 255), (4, 255), (1, 255), (3, 18), (2, 7), (5, 4)]),
        (falls, vec![(0, 255), (4, 254), (1, 253), (3, 19), (2, 8), (5, 5)]),
        (nothing, vec![(0, 255)]),
    ];
    for (table, due) in due {
        for engine in [&FAST, &LITERAL] {
            assert_eq!(written(engine, &example(), 5, &table.text()), Ok(due.clone()));
        }
    }
}

/// P4: only subjects with mark 1 meet the condition of 0-1.
#[test]
fn conditions_are_met_by_the_receiver() {
    let p4 = examples::proved().into_iter().find(|example| example.name == "P4").expect("P4");
    let register = register(&[&[0], p4.marks].concat(), &p4.grants);
    for engine in [&FAST, &LITERAL] {
        assert_eq!(written(engine, &register, 5, b""), Ok(vec![(0, 255), (1, 5), (3, 4), (5, 3), (2, 2)]));
        assert_eq!(written(engine, &register, 4, b""), Ok(vec![(0, 255), (2, 2), (3, 1), (5, 0)]));
    }
}

/// What lists are judged by: the reach of every subject for the receiver.
struct Judge<'a> {
    table: &'a Table,
    register: &'a Register,
    receiver: u32,
    reaches: &'a [i16],
}

impl Judge<'_> {
    /// Each part of the sentence is a test here.
    fn judge(&self, list: &[(u8, u8)]) -> Result<(), String> {
        same("the first", list.first(), Some(&(0, 255)))?;
        let subjects: BTreeSet<u8> = list.iter().map(|&(subject, _)| subject).collect();
        same("subjects", subjects.len(), list.len())?;
        let reached = |&subject: &u8| self.reaches[subject as usize] != -1;
        let due: BTreeSet<u8> = (0..self.reaches.len() as u8).filter(reached).collect();
        same("those whose reach isn't -1", &subjects, &due)?;
        for (at, &(subject, limit)) in list.iter().enumerate().skip(1) {
            same("the limit", limit as i16, self.reaches[subject as usize])?;
            let before: BTreeSet<u8> = list[..at].iter().map(|&(subject, _)| subject).collect();
            let open = due.difference(&before).copied().filter(|&to| self.comes(&before, to));
            let first = open.min_by_key(|&to| (-self.reaches[to as usize], to));
            same("the heaviest, ties by lower number", Some(subject), first)?;
        }
        Ok(())
    }

    /// The limit of a subject comes by one delegation from one of those before.
    fn comes(&self, before: &BTreeSet<u8>, to: u8) -> bool {
        let marks = self.register.marks[self.receiver as usize];
        for d in self.register.delegations.iter().filter(|d| d.receiver == to && before.contains(&d.giver)) {
            let met = d.need & !marks == 0 && d.bar & marks == 0;
            let smaller = self.reaches[d.giver as usize].min(d.weight as i16);
            if met && self.table.next[smaller as usize] == self.reaches[to as usize] {
                return true;
            }
        }
        false
    }
}

/// Small registers: conditions, cycles, many unlimited ones, unsupported ones.
fn small(random: &mut Random) -> Register {
    let shape = Shape {
        subjects: random.range(2, 7),
        delegations: random.range(0, 16),
        weights: random.pick(&[&[0, 1, 2, 3, 4, 5][..], &[0, 1, 254, 255, 255, 255][..], &[255][..]]),
        marks: 0x4003,
        conditions: random.pick(&[0, 30, 70]),
    };
    random_register(random, &shape)
}

/// Every receiver of many small registers: what an engine writes is the list that the
/// judge accepts, with every chain listed. Answers how many subjects were written.
fn judged_lists(engine: &Engine, draw: Draw) -> Result<usize, String> {
    let mut random = Random::new(0x04D41);
    let mut subjects = 0;
    for _ in 0..2000 {
        let (register, table) = (small(&mut random), draw(&mut random));
        let count = register.marks.len() as u32;
        for receiver in 1..count {
            let list = written(engine, &register, receiver, &lent(&table)).map_err(|number| format!("{number}"))?;
            let reaches: Vec<i16> = (0..count).map(|giver| literal_reach(&table, &register, giver, receiver)).collect();
            Judge { table: &table, register: &register, receiver, reaches: &reaches }.judge(&list)?;
            subjects += list.len();
        }
    }
    Ok(subjects)
}

#[test]
fn written_orders_are_judged() {
    assert!(judged_lists(&FAST, ours).unwrap() > 15_000);
    assert!(judged_lists(&FAST, random_table).unwrap() > 10_000);
    assert!(judged_lists(&LITERAL, random_table).unwrap() > 10_000);
}

#[test]
fn faults_are_noticed_by_the_judge() {
    assert!(judged_lists(&VISITED_ONCE, ours).is_err());
    assert!(judged_lists(&VISITED_ONCE, random_table).is_err());
    assert!(judged_lists(&TEXT_LEFT_OUT, ours).is_ok());
    assert!(judged_lists(&TEXT_LEFT_OUT, random_table).is_err());
}

/// The judge accepts no other order of the same entries, and no front of a list.
#[test]
fn the_judge_accepts_one_list() {
    let mut random = Random::new(0x04D42);
    let mut turned_back = 0;
    for _ in 0..600 {
        let (register, receiver) = (small(&mut random), 1);
        let limits = relaxed::limits(&OURS, &register, receiver);
        let judge = Judge { table: &OURS, register: &register, receiver, reaches: &limits[..register.marks.len()] };
        let list = popped(&OURS, &register, receiver);
        assert_eq!(judge.judge(&list), Ok(()));
        for (at, other) in (0..list.len()).flat_map(|at| (0..at).map(move |other| (at, other))) {
            let mut exchanged = list.clone();
            exchanged.swap(at, other);
            assert!(judge.judge(&exchanged).is_err());
            turned_back += 1;
        }
        assert!((0..list.len()).all(|length| judge.judge(&list[..length]).is_err()));
    }
    assert!(turned_back > 1000, "{turned_back}");
}

/// The sentence, with every chain listed, and the search. Answers how many subjects
/// came in another order than that of their limits and numbers.
fn sentence_is_search(draw: Draw) -> usize {
    let mut random = Random::new(0x04D43);
    let mut unsorted = 0;
    for _ in 0..3000 {
        let (register, table) = (small(&mut random), draw(&mut random));
        for receiver in 1..register.marks.len() as u32 {
            let list = order::order(&table, &register, receiver, LITERAL.reach);
            assert_eq!(list, popped(&table, &register, receiver), "{receiver} {register:?}");
            unsorted += list.windows(2).filter(|two| (255 - two[0].1, two[0].0) > (255 - two[1].1, two[1].0)).count();
        }
    }
    unsorted
}

#[test]
fn sentence_is_search_on_small_registers() {
    assert!(sentence_is_search(ours) > 500);
    assert!(sentence_is_search(random_table) > 200);
}

/// The sentence with the fast search's reaches, and the search that takes out the
/// heaviest. The limits are those of the relaxed search.
fn sentence_is_search_on_large(draw: Draw) {
    let mut random = Random::new(0x04D44);
    let mut registers = [all_subjects(), large()].concat();
    for delegations in [64, 128, 200, 256] {
        let shape = Shape { subjects: 64, delegations, weights: &[255, 255, 254, 9, 3], marks: 7, conditions: 30 };
        registers.extend((0..10).map(|_| random_register(&mut random, &shape)));
    }
    for register in &registers {
        let table = draw(&mut random);
        for receiver in (1..register.marks.len() as u32).step_by(9) {
            let list = order::order(&table, register, receiver, FAST.reach);
            assert_eq!(list, popped(&table, register, receiver));
            let limits = relaxed::limits(&table, register, receiver);
            assert_eq!(Judge { table: &table, register, receiver, reaches: &limits }.judge(&list), Ok(()));
            assert_eq!(written(&RELAXED, register, receiver, &lent(&table)), Ok(list));
        }
    }
}

#[test]
fn sentence_is_search_on_large_registers() {
    sentence_is_search_on_large(ours);
    sentence_is_search_on_large(random_table);
}

/// Every length but 128 is refused with 1, and no byte changes.
#[test]
fn buffers_have_128_bytes() {
    let block = encode(&full::all_enrolled());
    for length in (0..=300).chain([4096]) {
        let mut buffer = vec![UNWRITTEN; length];
        let found = order(&block, 1, &mut buffer);
        if length == ORDER_BUFFER {
            assert_eq!(found, Written { refusal: 0, filled: 128 });
            continue;
        }
        assert_eq!(found, Written { refusal: 1, filled: 0 });
        assert!(buffer.iter().all(|&byte| byte == UNWRITTEN));
    }
}

/// Each refusal with all that can apply after it.
#[test]
fn refusals_come_in_their_order() {
    let [malformed, broken] = texts::refused_at_the_end();
    let right = encode(&broken::valid());
    let mut spoiled = right.clone();
    spoiled[ZERO_AT] = 1;
    let calls: [(u32, &[u8], u32, &[u8], usize); 10] = [
        (1, &right[1..], 64, &malformed, 127),
        (1, &right[1..], 0, &malformed, 128),
        (1, &spoiled, 64, &broken, 129),
        (2, &spoiled, 64, &malformed, 128),
        (2, &right, 4_294_967_295, &broken, 128),
        (6, &spoiled, 0, &malformed, 128),
        (7, &spoiled, 9, &malformed, 128),
        (17, &spoiled, 63, &broken, 128),
        (8, &spoiled, 9, b"", 128),
        (9, &right, 5, b"", 128),
    ];
    for (number, block, receiver, text, length) in calls {
        let mut buffer = vec![UNWRITTEN; length];
        let found = order_table(&FAST, block, receiver, text, &mut buffer);
        assert_eq!(found, Written { refusal: number, filled: 0 }, "{receiver} {length}");
        assert!(buffer.iter().all(|&byte| byte == UNWRITTEN));
    }
    assert_eq!(right.len(), BLOCK_LEN);
    assert_eq!(written(&FAST, &broken::valid(), 4, b""), Ok(vec![(0, 255), (1, 255), (2, 199), (4, 49)]));
}

/// Every text that is refused refuses an order.
#[test]
fn refused_texts_refuse_an_order() {
    for (number, texts) in [(7, texts::malformed()), (17, texts::broken())] {
        for text in texts {
            assert_eq!(written(&FAST, &example(), 5, &text.bytes), Err(number), "{}", text.shows);
        }
    }
}

/// A list has at most 64 subjects, and the owner is always in it.
#[test]
fn lists_have_1_to_64_subjects() {
    for register in all_subjects() {
        assert_eq!(written(&FAST, &register, 63, b"").map(|list| list.len()), Ok(64));
    }
    for subjects in [2, 64] {
        let alone = register(&vec![0; subjects], &[]);
        assert_eq!(written(&FAST, &alone, 1, b""), Ok(vec![(0, 255)]));
    }
}
