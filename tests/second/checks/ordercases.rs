//! What the generated cases of the kind `order` hold, and which wrong programs they
//! notice.

use crate::faults::{TEXT_LEFT_OUT, VISITED_ONCE};
use crate::generated::{block_of, compared, follow_from_the_definition, is_small, keeps_the_form, read_back, recorded, with_blocks};
use generate::orders::{self, BUFFER, BUFFERS};
use generate::limits;
use second::block::{broken_rules, decode, Delegation, Register, BLOCK_LEN, RULES};
use second::call::Written;
use second::callfile::read_call;
use second::casefile::{order_line, Case, UNWRITTEN};
use second::chain::meets;
use second::cut::settle;
use second::engine::FAST;
use second::listfile::{lengths, List};
use second::order::popped;
use second::refusal::{admit, Call, Passed};
use second::table::{Table, OURS};
use std::cmp::Reverse;
use std::collections::BTreeSet;
use std::sync::OnceLock;

/// Subjects and their limits.
type Order = Vec<(u8, u8)>;

/// Every case with the block that it is made on.
fn cases() -> &'static [Case] {
    static CASES: OnceLock<Vec<Case>> = OnceLock::new();
    CASES.get_or_init(|| with_blocks(&orders::KIND))
}

fn asked() -> impl Iterator<Item = &'static Case> {
    cases().iter().filter(|case| case.passed.call == Call::Order)
}

#[test]
fn files_are_small_and_read_back() {
    let (bytes, expected) = read_back(cases());
    assert!((600..=1250).contains(&cases().len()) && bytes + expected < 300_000, "{bytes} {expected}");
}

/// Every call takes a table and is lent a text.
#[test]
fn lines_keep_the_form() {
    assert_eq!(Call::Order as u32, 10);
    for case in cases() {
        keeps_the_form(case);
        assert!(orders::CALLS.contains(&case.passed.call) && case.text.is_some());
    }
}

/// Call files and lists know no order, and neither brings a block over or grants with a kind.
/// Lists set marks as call 6 and retire subjects as call 7, call files do neither.
#[test]
fn other_files_have_no_orders() {
    let of_calls = |call: u32| read_call(format!("{call} 0 0 1 0 0 0\n").as_bytes());
    assert!(of_calls(5).is_some() && [6, 7, 10, 11, 12, 13, 17].map(of_calls).iter().all(Option::is_none));
    let of_list = |call: u32| {
        let numbers = vec![call, 0, 0, 1, 0, 0, 0, 0, 0];
        List { lengths: lengths(1), texts: Vec::new(), numbers }.refusal()
    };
    assert_eq!([5, 6, 7, 8, 10, 11, 12, 13, 17].map(of_list), [0, 0, 0, 7, 7, 7, 7, 7, 7]);
}

/// The front is shown at its full length, a refusal with nothing.
#[test]
fn expected_lines_have_the_form() {
    let lines = |number: u32, length: usize| {
        let register = generate::orderregisters::example();
        let case = generate::on(&second::block::encode(&register), generate::order(number, length as u32));
        recorded(&FAST, &case)
    };
    assert_eq!(lines(5, 128), "0 12 1 1 12:.ff04ff01ff031302080505\n");
    assert_eq!(lines(5, 127), "1 0 0 0 =\n");
    assert_eq!(lines(6, 128), "9 0 0 0 =\n");
    let right = Written { refusal: 0, filled: 4 };
    assert_eq!(order_line(&right, &[0, 255, 3, 0, UNWRITTEN]), "0 4 1 1 4:.ff03\n");
    assert_eq!(order_line(&right, &[0, 255, 3, 0, 0]), "0 -1 0 0 4:.ff03\n");
    assert_eq!(order_line(&Written { refusal: 8, filled: 0 }, &[0, UNWRITTEN]), "8 0 1 1 =\n");
}

/// Every number of the limits as the receiver, every length of a block and of a buffer,
/// and every rule of a block broken alone.
#[test]
fn limits_are_covered() {
    let (mut receivers, mut lengths) = (BTreeSet::new(), BTreeSet::new());
    let (mut buffers, mut rules) = (BTreeSet::new(), BTreeSet::new());
    for case in asked() {
        receivers.insert(case.passed.receiver);
        lengths.insert(block_of(case).len());
        buffers.insert(case.passed.weight);
        if let (BLOCK_LEN, BUFFER) = (block_of(case).len(), case.passed.weight) {
            rules.insert(broken_rules(block_of(case)));
        }
    }
    assert!(limits::NUMBERS.iter().chain(&[65, 257, 65_537]).all(|number| receivers.contains(number)));
    assert!(limits::LENGTHS.iter().all(|length| lengths.contains(length)));
    assert!(BUFFERS.iter().all(|buffer| buffers.contains(buffer)));
    assert!((0..RULES.len()).all(|rule| rules.contains(&vec![rule])));
}

#[test]
fn expected_lines_follow_from_the_definition() {
    follow_from_the_definition(cases(), 900, 1000);
    assert!(compared(cases(), &VISITED_ONCE, is_small).1 > 20);
    assert!(compared(cases(), &TEXT_LEFT_OUT, |_| true).1 > 50);
}

/// What a program answers: a list or a refusal.
type Answer = Result<Order, u32>;

fn admitted(n: &Passed, text: &[u8], block: &[u8]) -> Result<(Table, Register), u32> {
    admit(&FAST, n, text, block, n.weight as usize)
}

/// The right program, with other numbers or another text than it was passed.
fn right(n: &Passed, text: &[u8], block: &[u8]) -> Answer {
    let (table, register) = admitted(n, text, block)?;
    Ok(popped(&table, &register, n.receiver))
}

/// The buffer of a case and how much of it was filled.
fn filled(case: &Case, answer: Answer) -> (Written, Vec<u8>) {
    let mut buffer = vec![UNWRITTEN; case.passed.weight as usize];
    let bytes: Vec<u8> = answer.iter().flatten().flat_map(|&(subject, limit)| [subject, limit]).collect();
    let filled = bytes.len().min(buffer.len());
    buffer[..filled].copy_from_slice(&bytes[..filled]);
    (Written { refusal: answer.err().unwrap_or(0), filled }, buffer)
}

/// The line of a program that leaves the rest of the buffer.
fn shown(case: &Case, answer: Answer) -> String {
    let (written, buffer) = filled(case, answer);
    order_line(&written, &buffer)
}

/// How many orders have another line than the recorded one.
fn noticed(program: impl Fn(&Case) -> String) -> usize {
    asked().filter(|case| program(case) != recorded(&FAST, case)).count()
}

#[test]
fn the_right_program_is_not_noticed() {
    assert_eq!(noticed(|case| shown(case, right(&case.passed, case.lent(), block_of(case)))), 0);
    assert!(asked().count() > 900);
}

/// A subject that waits: the limit that it was reached with, its number, and how many
/// came before it.
type Waiting = (i16, u8, Reverse<usize>);

/// A search that takes out the one of the largest key.
fn searched<K: Ord>(table: &Table, register: &Register, receiver: u32, key: fn(&Waiting) -> K) -> Order {
    let marks = register.marks_of(receiver);
    let mut waiting: Vec<Waiting> = vec![(255, 0, Reverse(0))];
    let (mut list, mut came) = (Order::new(), 0);
    while let Some(at) = (0..waiting.len()).max_by_key(|&at| key(&waiting[at])) {
        let (limit, subject, _) = waiting.swap_remove(at);
        if list.iter().any(|&(before, _)| before == subject) {
            continue;
        }
        list.push((subject, limit as u8));
        for d in register.delegations.iter().filter(|d| d.giver == subject && meets(marks, d)) {
            came += 1;
            waiting.push((table.step(limit, d.weight), d.receiver, Reverse(came)));
        }
        waiting.retain(|&(limit, _, _)| limit != -1);
    }
    list
}

/// A list in its order, with the limits that are due.
fn with_limits(list: Order, right: &Order) -> Order {
    let limit = |subject: u8| right.iter().find(|&&(other, _)| other == subject).map_or(0, |&(_, limit)| limit);
    list.into_iter().map(|(subject, _)| (subject, limit(subject))).collect()
}

/// The right list of a register whose delegations were changed.
fn on_changed(table: &Table, register: &Register, receiver: u32, change: impl Fn(&mut Delegation)) -> Order {
    let mut other = register.clone();
    other.delegations.iter_mut().for_each(change);
    popped(table, &other, receiver)
}

/// The right list of a register with those delegations only.
fn on_kept(table: &Table, register: &Register, receiver: u32, keep: impl Fn(&Delegation) -> bool) -> Order {
    let mut other = register.clone();
    other.delegations.retain(keep);
    popped(table, &other, receiver)
}

/// The right list, each entry changed or left out.
fn on_entries(
    table: &Table,
    register: &Register,
    receiver: u32,
    change: impl Fn((u8, u8)) -> Option<(u8, u8)>,
) -> Order {
    popped(table, register, receiver).into_iter().filter_map(change).collect()
}

/// A delegation by which the limit of a subject comes.
fn entered_by(table: &Table, register: &Register, receiver: u32, (subject, limit): (u8, u8)) -> Option<Delegation> {
    let (list, marks) = (popped(table, register, receiver), register.marks_of(receiver));
    let from = |giver: u8| list.iter().find(|&&(other, _)| other == giver).map(|&(_, limit)| limit as i16);
    let comes = |d: &&Delegation| {
        let takes = |before: i16| table.step(before, d.weight) == limit as i16;
        d.receiver == subject && meets(marks, d) && from(d.giver).is_some_and(takes)
    };
    register.delegations.iter().find(comes).copied()
}

/// Conditions that are judged by the marks of another subject than the receiver.
fn by_marks(table: &Table, register: &Register, receiver: u32, marks: impl Fn(&Delegation) -> u16) -> Order {
    let mut other = register.clone();
    other.delegations.retain(|d| meets(marks(d), d));
    on_changed(table, &other, receiver, |d| (d.need, d.bar) = (0, 0))
}

/// Adds those whose reach is -1, with this byte as the limit.
fn with_the_others(table: &Table, register: &Register, receiver: u32, limit: u8) -> Order {
    let mut list = popped(table, register, receiver);
    for subject in 0..register.marks.len() as u8 {
        if list.iter().all(|&(other, _)| other != subject) {
            list.push((subject, limit));
        }
    }
    list
}

/// A subject keeps the limit that it was first reached with, and waits with it.
fn first_limits(table: &Table, register: &Register, receiver: u32) -> Order {
    let marks = register.marks_of(receiver);
    let (mut list, mut waiting, mut reached) = (Order::new(), vec![(255, Reverse(0))], BTreeSet::from([0]));
    while let Some(at) = (0..waiting.len()).max_by_key(|&at| waiting[at]) {
        let (limit, Reverse(subject)) = waiting.swap_remove(at);
        list.push((subject, limit as u8));
        for d in register.delegations.iter().filter(|d| d.giver == subject && meets(marks, d)) {
            let next = table.step(limit, d.weight);
            if next != -1 && reached.insert(d.receiver) {
                waiting.push((next, Reverse(d.receiver)));
            }
        }
    }
    list
}

fn settled(table: &Table, register: &Register, receiver: u32) -> Order {
    let mut left = register.clone();
    settle(&FAST, table, &mut left);
    popped(table, &left, receiver)
}

/// Ours with another entry for 255.
fn with_highest(table: &Table, next: i16) -> Table {
    let mut other = *table;
    other.next[255] = next.min(table.next[255]);
    other
}

type Lister = fn(&Table, &Register, u32) -> Order;

/// Programs that write the subjects in another order.
const WRONG_ORDERS: [(&str, Lister); 10] = [
    ("sorted by limit, then number", |t, r, v| {
        let mut list = popped(t, r, v);
        list.sort_by_key(|&(subject, limit)| (Reverse(limit), subject));
        list
    }),
    ("sorted by number", |t, r, v| {
        let mut list = popped(t, r, v);
        list.sort();
        list
    }),
    ("ties by higher number", |t, r, v| searched(t, r, v, |&(limit, subject, _)| (limit, subject))),
    ("ties by first come", |t, r, v| searched(t, r, v, |&(limit, _, came)| (limit, came))),
    ("ties by last come", |t, r, v| searched(t, r, v, |&(limit, _, came)| (limit, Reverse(came)))),
    ("first come first written", |t, r, v| {
        with_limits(searched(t, r, v, |&(_, _, came)| came), &popped(t, r, v))
    }),
    ("last come first written", |t, r, v| {
        with_limits(searched(t, r, v, |&(_, _, came)| Reverse(came)), &popped(t, r, v))
    }),
    ("always the lowest number that is reached", |t, r, v| {
        with_limits(searched(t, r, v, |&(_, subject, _)| Reverse(subject)), &popped(t, r, v))
    }),
    ("lightest first", |t, r, v| {
        with_limits(searched(t, r, v, |&(limit, subject, _)| (Reverse(limit), Reverse(subject))), &popped(t, r, v))
    }),
    ("the receiver first after the owner", |t, r, v| {
        let mut list = popped(t, r, v);
        list[1..].sort_by_key(|&(subject, _)| subject as u32 != v);
        list
    }),
];

/// Programs that write other subjects.
const WRONG_SUBJECTS: [(&str, Lister); 14] = [
    ("the owner is left out", |t, r, v| on_entries(t, r, v, |e| (e.0 != 0).then_some(e))),
    ("the receiver is left out", |t, r, v| on_entries(t, r, v, |e| (e.0 as u32 != v).then_some(e))),
    ("the receiver is always written", |t, r, v| {
        let mut list = with_the_others(t, r, v, 0);
        let count = popped(t, r, v).len();
        let others = list.split_off(count);
        list.extend(others.into_iter().filter(|&(subject, _)| subject as u32 == v));
        list
    }),
    ("those of reach -1 are written as 255", |t, r, v| with_the_others(t, r, v, 255)),
    ("those of reach -1 are written as 0", |t, r, v| with_the_others(t, r, v, 0)),
    ("those of limit 0 are left out", |t, r, v| on_entries(t, r, v, |e| (e.1 != 0).then_some(e))),
    ("those of limit 255 are left out", |t, r, v| on_entries(t, r, v, |e| (e.1 != 255).then_some(e))),
    ("only those that gave to the receiver", |t, r, v| {
        on_entries(t, r, v, |e| r.standing(e.0 as u32, v).is_some().then_some(e))
    }),
    ("only the owner and those that gave", |t, r, v| {
        on_entries(t, r, v, |e| (e.0 == 0 || r.delegations.iter().any(|d| d.giver == e.0)).then_some(e))
    }),
    ("the owner's receivers only", |t, r, v| on_kept(t, r, v, |d| d.giver == 0)),
    ("what the receiver gave is not followed", |t, r, v| on_kept(t, r, v, |d| d.giver as u32 != v)),
    ("what was given to the receiver is not followed", |t, r, v| on_kept(t, r, v, |d| d.receiver as u32 != v)),
    ("the search ends with the receiver", |t, r, v| {
        let list = popped(t, r, v);
        let end = list.iter().position(|&(subject, _)| subject as u32 == v).map_or(list.len(), |at| at + 1);
        list[..end].to_vec()
    }),
    ("at most 63 subjects", |t, r, v| popped(t, r, v).into_iter().take(63).collect()),
];

/// Programs that write other limits, or reckon them otherwise.
const WRONG_LIMITS: [(&str, Lister); 20] = [
    ("a subject is written with the limit it was first reached with", first_limits),
    ("each is visited once, first come first served", |t, r, v| searched(t, r, v, |&(_, _, came)| came)),
    ("the weight of the link in place of the limit", |t, r, v| {
        on_entries(t, r, v, |e| Some((e.0, entered_by(t, r, v, e).map_or(255, |d| d.weight))))
    }),
    ("every limit but 255 is one too high", |t, r, v| {
        on_entries(t, r, v, |e| Some((e.0, e.1.saturating_add((e.0 != 0) as u8))))
    }),
    ("the limit follows from the last weight alone", |t, r, v| {
        on_entries(t, r, v, |e| {
            let last = entered_by(t, r, v, e).map_or(255, |d| t.step(255, d.weight));
            Some((e.0, last as u8))
        })
    }),
    ("limit and subject exchanged", |t, r, v| on_entries(t, r, v, |e| Some((e.1, e.0)))),
    ("ours in the place of the lent table", |_, r, v| popped(&OURS, r, v)),
    ("255 falls to 254", |t, r, v| popped(&with_highest(t, 254), r, v)),
    ("255 stays under every table", |t, r, v| {
        let mut other = *t;
        other.next[255] = 255;
        popped(&other, r, v)
    }),
    ("conditions are not looked at", |t, r, v| on_changed(t, r, v, |d| (d.need, d.bar) = (0, 0))),
    ("need is not looked at", |t, r, v| on_changed(t, r, v, |d| d.need = 0)),
    ("bar is not looked at", |t, r, v| on_changed(t, r, v, |d| d.bar = 0)),
    ("need and bar exchanged", |t, r, v| on_changed(t, r, v, |d| (d.need, d.bar) = (d.bar, d.need))),
    ("the high byte of the masks is left out", |t, r, v| {
        on_changed(t, r, v, |d| (d.need, d.bar) = (d.need & 255, d.bar & 255))
    }),
    ("one mark of need is enough", |t, r, v| {
        let marks = r.marks_of(v);
        on_changed(t, r, v, |d| d.need = if d.need & marks != 0 { d.need & marks } else { d.need })
    }),
    ("the owner's marks", |t, r, v| by_marks(t, r, v, |_| 0)),
    ("the next subject's marks", |t, r, v| by_marks(t, r, v, |_| r.marks_of(v + 1))),
    ("the marks of the one who is given to", |t, r, v| by_marks(t, r, v, |d| r.marks_of(d.receiver as u32))),
    ("the giver's marks", |t, r, v| by_marks(t, r, v, |d| r.marks_of(d.giver as u32))),
    ("rounds are run before", settled),
];

#[test]
fn wrong_lists_are_noticed() {
    for (shows, lister) in WRONG_ORDERS.iter().chain(&WRONG_SUBJECTS).chain(&WRONG_LIMITS) {
        let answer = |case: &Case| {
            let (table, register) = admitted(&case.passed, case.lent(), block_of(case))?;
            Ok(lister(&table, &register, case.passed.receiver))
        };
        let count = noticed(|case| shown(case, answer(case)));
        assert!(count > 2, "{shows}: {count}");
    }
}

/// The right program on a buffer of 128 bytes, where a case's own is let pass.
fn with_buffers(case: &Case, pass: fn(u32) -> bool) -> Answer {
    let n = case.passed;
    let weight = if pass(n.weight) { BUFFER } else { n.weight };
    right(&Passed { weight, ..n }, case.lent(), block_of(case))
}

/// The right program for another receiver than was passed.
fn for_another(case: &Case, receiver: u32) -> Answer {
    right(&Passed { receiver, ..case.passed }, case.lent(), block_of(case))
}

/// Another answer in the place of a refusal.
fn instead(case: &Case, number: u32, other: fn(&Case) -> Answer) -> Answer {
    let answer = right(&case.passed, case.lent(), block_of(case));
    if answer == Err(number) { other(case) } else { answer }
}

/// The list of a well-formed block, whatever receiver was passed.
fn unasked(case: &Case) -> Answer {
    let register = decode(block_of(case)).ok_or(8u32)?;
    Ok(popped(&Table::read(case.lent())?, &register, case.passed.receiver))
}

type Program = fn(&Case) -> Answer;

/// Programs that refuse otherwise.
const WRONG_REFUSALS: [(&str, Program); 17] = [
    ("127 bytes are enough", |case| with_buffers(case, |length| length == 127)),
    ("129 bytes are let pass", |case| with_buffers(case, |length| length == 129)),
    ("126 bytes and more are enough", |case| with_buffers(case, |length| length >= 126)),
    ("more than 128 bytes are let pass", |case| with_buffers(case, |length| length > 128)),
    ("4096 bytes are let pass", |case| with_buffers(case, |length| length == 4096)),
    ("any buffer with room", |case| {
        let answer = with_buffers(case, |_| true);
        let room = answer.as_ref().map_or(128, |list| 2 * list.len());
        if room <= case.passed.weight as usize { answer } else { Err(1) }
    }),
    ("receivers keep 6 bits", |case| for_another(case, case.passed.receiver & 63)),
    ("receivers keep 8 bits", |case| for_another(case, case.passed.receiver & 255)),
    ("receivers keep 16 bits", |case| for_another(case, case.passed.receiver & 65_535)),
    ("the owner is let pass", |case| instead(case, 6, unasked)),
    ("5 in the place of 6", |case| instead(case, 6, |_| Err(5))),
    ("a receiver that isn't enrolled is let pass", |case| instead(case, 9, unasked)),
    ("9 in the place of 2", |case| instead(case, 2, |_| Err(9))),
    ("a text of another form is ours", |case| instead(case, 7, |case| right(&case.passed, b"", block_of(case)))),
    ("a table that breaks a rule is ours", |case| instead(case, 17, |case| right(&case.passed, b"", block_of(case)))),
    ("17 in the place of 7", |case| instead(case, 7, |_| Err(17))),
    ("a block that is not well formed is a fresh one", |case| instead(case, 8, |_| Ok(vec![(0, 255)]))),
];

#[test]
fn wrong_refusals_are_noticed() {
    for (shows, program) in WRONG_REFUSALS {
        let count = noticed(|case| shown(case, program(case)));
        assert!(count > 0, "{shows}");
    }
}

/// What is done to the buffer afterwards, given how much was filled.
type Spoil = fn(&Written, &mut [u8]);

const SPOILT: [(&str, Spoil); 5] = [
    ("the rest is zeroed", |written, buffer| buffer[written.filled..].fill(0)),
    ("a sign after the last", |written, buffer| buffer[written.filled..].iter_mut().take(1).for_each(|b| *b = 255)),
    ("the last byte is zeroed", |_, buffer| buffer.iter_mut().rev().take(1).for_each(|byte| *byte = 0)),
    ("a refused call zeroes the buffer", |written, buffer| if written.refusal != 0 { buffer.fill(0) }),
    ("a refused call writes the owner", |written, buffer| {
        if written.refusal != 0 {
            buffer.iter_mut().take(1).for_each(|byte| *byte = 0);
        }
    }),
];

/// Bytes that are changed past the front, or by a refused call.
#[test]
fn spoilt_buffers_are_noticed() {
    for (shows, spoil) in SPOILT {
        let program = |case: &Case| {
            let (written, mut buffer) = filled(case, right(&case.passed, case.lent(), block_of(case)));
            spoil(&written, &mut buffer);
            order_line(&written, &buffer)
        };
        assert!(noticed(program) > 10, "{shows}");
    }
}

/// Orders stand among other calls, and show what these changed.
#[test]
fn orders_stand_among_other_calls() {
    let (mut after_change, mut other) = (0, 0);
    for two in cases().windows(2) {
        let changed = two[0].block != two[1].block && two[0].passed.call != Call::Order;
        let follows = changed && two[1].passed.call == Call::Order && two[1].passed.weight == BUFFER;
        if !follows {
            continue;
        }
        let of_before = Case { block: two[0].block.clone(), ..two[1].clone() };
        after_change += 1;
        other += (recorded(&FAST, &of_before) != recorded(&FAST, &two[1])) as u32;
    }
    assert!(after_change > 30 && other > 25, "{after_change} {other}");
}
