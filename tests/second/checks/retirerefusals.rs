//! Wrong programs that refuse otherwise: retirements, every call that names a retired subject,
//! blocks whose bits break a rule, and blocks that are brought over.

use crate::generated::{block_of, recorded};
use crate::markfaults::{settled, shown, Answer};
use crate::pairs::impossible;
use crate::retirecases::{asked, cases};
use crate::retirefaults::{noticed, right};
use generate::named::NAMING;
use second::block::{broken_rules, decode, encode, word, Register, BLOCK_LEN, GIVER, MARKS_AT, OLD_BLOCK_LEN};
use second::block::{RECEIVER, RECORDS_AT, RECORD_LEN, RETIRED_AT};
use second::call::{self, Outcome};
use second::callfile::used_columns;
use second::casefile::{expected_line, left_line, Case};
use second::engine::FAST;
use second::refusal::{applying, tests, Call, Passed};
use second::table::OURS;

/// The refusals of a call in their order.
fn order_of(call: Call) -> Vec<u32> {
    let lists = tests(call);
    let mut order = vec![1];
    order.extend(lists.passed.iter().map(|(number, _)| *number));
    order.extend(lists.table);
    order.push(8);
    order.extend(lists.held.iter().map(|(number, _)| *number));
    order
}

/// The first that applies in another order, 0 if none does.
fn first_in(order: &[u32], case: &Case) -> u32 {
    let n = &case.passed;
    let all = applying(&FAST, n, case.lent(), block_of(case), n.weight as usize);
    order.iter().copied().find(|number| all.contains(number)).unwrap_or(0)
}

/// The recorded refusal.
fn refusal_of(case: &Case) -> u32 {
    let line = recorded(&FAST, case);
    line.split(' ').next().and_then(|number| number.parse().ok()).expect("a number")
}

/// For every call that names subjects, 19 straight before each number that comes before it, and
/// each that comes after it straight before 19: noticed exactly if one of those passed over can
/// apply with the one moved.
#[test]
fn another_place_of_19_is_noticed() {
    let mut noticed = 0;
    for call in NAMING {
        let order = order_of(call);
        let of_call: Vec<&Case> = cases().iter().filter(|case| case.passed.call == call).collect();
        assert!(of_call.iter().all(|case| first_in(&order, case) == refusal_of(case)));
        let at = order.iter().position(|&number| number == 19).expect("19");
        let before = (0..at).map(|place| (at, place));
        for (from, to) in before.chain((at + 1..order.len()).map(|from| (from, at))) {
            let mut other = order.clone();
            other[to..=from].rotate_right(1);
            let count = of_call.iter().filter(|case| first_in(&other, case) != refusal_of(case)).count();
            let can = order[to..from].iter().any(|&passed| !impossible(call).contains(&(passed, order[from])));
            assert_eq!(count > 0, can, "{call:?} {from} {to}");
            noticed += can as u32;
        }
    }
    assert_eq!(noticed, 73);
}

/// The refusals of a retirement in their order.
const ORDER: [u32; 9] = [1, 2, 6, 7, 17, 8, 9, 19, 14];

/// Two of them that follow each other and cannot apply at once.
const APART: [(u32, u32); 2] = [(7, 17), (8, 9)];

/// Each refusal straight before each that comes before it.
#[test]
fn another_order_of_refusals_is_noticed() {
    let refused_in = |order: &[u32], case: &Case| match first_in(order, case) {
        0 => shown(case, right(&case.passed, case.lent(), block_of(case))),
        number => shown(case, Err(number)),
    };
    assert_eq!(noticed(|case| refused_in(&ORDER, case)), 0);
    for (at, later) in ORDER.into_iter().enumerate() {
        for (place, earlier) in ORDER[..at].iter().enumerate() {
            let mut order = ORDER.to_vec();
            order[place..=at].rotate_right(1);
            let count = noticed(|case| refused_in(&order, case));
            let next_apart = at == place + 1 && APART.contains(&(*earlier, later));
            assert_eq!(count > 0, !next_apart, "{later} before {earlier}");
        }
    }
}

/// The right program for other numbers than were passed.
fn with_numbers(case: &Case, numbers: impl Fn(Passed) -> Passed) -> Answer {
    right(&numbers(case.passed), case.lent(), block_of(case))
}

/// Another answer in the place of a refusal.
fn instead(case: &Case, number: u32, other: fn(&Case) -> Answer) -> Answer {
    let answer = right(&case.passed, case.lent(), block_of(case));
    if answer == Err(number) { other(case) } else { answer }
}

/// By the owner where the one who calls is let pass.
fn letting(case: &Case, pass: fn(&Passed, &Register) -> bool) -> Answer {
    let n = case.passed;
    let passes = decode(block_of(case)).is_some_and(|register| register.enrolled(n.by) && pass(&n, &register));
    with_numbers(case, |n| if passes { Passed { by: 0, ..n } } else { n })
}

/// The register as it was, with no answers.
fn untouched(case: &Case) -> Answer {
    Ok((decode(block_of(case)).unwrap_or(Register::fresh()), [0, 0, 0]))
}

/// The right program where the bits are not looked at; they are put back afterwards.
fn without_bits(case: &Case) -> Answer {
    let register = decode(block_of(case)).unwrap_or(Register::fresh());
    let (left, answers) = right(&case.passed, case.lent(), &encode(&Register { retired: 0, ..register.clone() }))?;
    Ok((Register { retired: left.retired | register.retired, ..left }, answers))
}

type Program = fn(&Case) -> Answer;

/// Programs that refuse a retirement otherwise.
const WRONG_REFUSALS: [(&str, Program); 30] = [
    ("a subject may retire itself", |case| letting(case, |n, _| n.by == n.receiver)),
    ("anyone may", |case| letting(case, |_, _| true)),
    ("those who gave to the subject may", |case| letting(case, |n, r| r.standing(n.by, n.receiver).is_some())),
    ("those to whom the owner gave may", |case| letting(case, |n, r| r.standing(0, n.by).is_some())),
    ("a retired one may", |case| letting(case, |n, r| r.is_retired(n.by))),
    ("nobody may", |case| with_numbers(case, |n| Passed { by: if n.by == 0 { 1 } else { n.by }, ..n })),
    ("by is not looked at", |case| with_numbers(case, |n| Passed { by: 0, ..n })),
    ("by keeps 6 bits", |case| with_numbers(case, |n| Passed { by: n.by & 63, ..n })),
    ("by keeps 8 bits", |case| with_numbers(case, |n| Passed { by: n.by & 255, ..n })),
    ("by keeps 16 bits", |case| with_numbers(case, |n| Passed { by: n.by & 65_535, ..n })),
    ("subjects keep 6 bits", |case| with_numbers(case, |n| Passed { receiver: n.receiver & 63, ..n })),
    ("subjects keep 8 bits", |case| with_numbers(case, |n| Passed { receiver: n.receiver & 255, ..n })),
    ("subjects keep 16 bits", |case| with_numbers(case, |n| Passed { receiver: n.receiver & 65_535, ..n })),
    ("by and subject exchanged", |case| with_numbers(case, |n| Passed { by: n.receiver, receiver: n.by, ..n })),
    ("the owner is let pass", |case| instead(case, 6, untouched)),
    ("14 in the place of 6", |case| instead(case, 6, |_| Err(14))),
    ("6 in the place of 14", |case| instead(case, 14, |_| Err(6))),
    ("9 in the place of 2", |case| instead(case, 2, |_| Err(9))),
    ("a subject that isn't enrolled is let pass", |case| instead(case, 9, untouched)),
    ("by need not be enrolled", |case| instead(case, 9, |case| with_numbers(case, |n| Passed { by: 0, ..n }))),
    ("a subject may retire twice", |case| instead(case, 19, without_bits)),
    ("retired twice changes nothing", |case| instead(case, 19, untouched)),
    ("9 in the place of 19", |case| instead(case, 19, |_| Err(9))),
    ("14 in the place of 19", |case| instead(case, 19, |_| Err(14))),
    ("13 in the place of 19", |case| instead(case, 19, |_| Err(13))),
    ("a text of another form is ours", |case| instead(case, 7, |case| right(&case.passed, b"", block_of(case)))),
    ("a table that breaks a rule is ours", |case| instead(case, 17, |case| right(&case.passed, b"", block_of(case)))),
    ("17 in the place of 7", |case| instead(case, 7, |_| Err(17))),
    ("a block that is not well formed is let pass", |case| instead(case, 8, |_| Ok((Register::fresh(), [0, 0, 1])))),
    ("a register that is not supported is refused", |case| {
        let settles = |register: &Register| settled(&OURS, register.clone()).1 == [0, 0, 1];
        let answer = right(&case.passed, case.lent(), block_of(case));
        if decode(block_of(case)).is_some_and(|register| !settles(&register)) { Err(18) } else { answer }
    }),
];

#[test]
fn wrong_refusals_are_noticed() {
    for (shows, program) in WRONG_REFUSALS {
        let count = noticed(|case| shown(case, program(case)));
        assert!(count > 2, "{shows}: {count}");
    }
}

/// A refused call that makes the change, and one that runs the rounds.
#[test]
fn refused_calls_that_change_are_noticed() {
    for makes_change in [true, false] {
        let program = |case: &Case| {
            let (before, n) = (block_of(case), case.passed);
            let Err(refusal) = right(&n, case.lent(), before) else { return recorded(&FAST, case) };
            let Some(mut left) = decode(before) else { return recorded(&FAST, case) };
            if makes_change && n.receiver != 0 && left.enrolled(n.receiver) {
                call::retire_subject(&mut left, n.receiver);
            }
            let left = if makes_change { left } else { settled(&OURS, left).0 };
            left_line(&Outcome { refusal, answers: [0, 0, 0] }, before, &encode(&left))
        };
        assert!(noticed(program) > 10);
    }
}

/// Which of by, giver and receiver the call uses and names a retired subject with.
fn retired_parts(case: &Case) -> [bool; 3] {
    let n = case.passed;
    let used = used_columns(n.call);
    let register = decode(block_of(case)).unwrap_or(Register::fresh());
    let named = [n.by, n.giver, n.receiver].map(|subject| register.is_retired(subject));
    [0, 1, 2].map(|part| used[part] && named[part])
}

/// The line of a program that does not look at the bits, which are put back afterwards.
fn blind_line(case: &Case) -> String {
    let mut block = block_of(case).to_vec();
    let bits = block[RETIRED_AT..RECORDS_AT].to_vec();
    block[RETIRED_AT..RECORDS_AT].fill(0);
    let blind = Case { block: Some(block), ..case.clone() };
    let mut left = Vec::new();
    let line = expected_line(&FAST, &blind, &mut left);
    left[RETIRED_AT..RECORDS_AT].iter_mut().zip(bits).for_each(|(byte, bits)| *byte |= bits);
    let mut words: Vec<String> = line.trim_end().split(' ').map(str::to_string).collect();
    if case.passed.call != Call::Order {
        words[4] = if left == block_of(case) { "=".to_string() } else { second::casefile::block_text(&left) };
    }
    format!("{}\n", words.join(" "))
}

/// For every call, that by, the giver or the receiver may be retired, each alone.
#[test]
fn one_who_may_be_retired_is_noticed() {
    for call in NAMING {
        for part in (0..3).filter(|&part| used_columns(call)[part]) {
            let alone = |case: &&Case| case.passed.call == call && retired_parts(case) == [0, 1, 2].map(|p| p == part);
            let count = cases().iter().filter(alone).filter(|case| blind_line(case) != recorded(&FAST, case)).count();
            assert!(count > 0, "{call:?} {part}");
        }
    }
}

/// Answers that would stand for a retired subject: no use, no reach, an order with nobody, and a
/// cut or marks that change nothing.
#[test]
fn answers_in_the_place_of_19_are_noticed() {
    let answer = |call: Call| match call {
        Call::Use => "0 0 0 0 =\n",
        Call::Reach => "0 -1 0 0 =\n",
        Call::Order => "0 0 1 1 0:\n",
        Call::Chain => "13 0 0 0 =\n",
        Call::Grant => "16 0 0 0 =\n",
        Call::Revoke | Call::Downgrade => "13 0 0 0 =\n",
        _ => "0 0 0 1 =\n",
    };
    for call in NAMING {
        let of_call = cases().iter().filter(|case| case.passed.call == call && refusal_of(case) == 19);
        assert!(of_call.filter(|case| recorded(&FAST, case) != answer(call)).count() > 1, "{call:?}");
    }
}

/// Whether a program that looks at less takes a block for well formed.
type Loose = (&'static str, fn(&[u8]) -> bool);

/// The subjects whose bit is set in a block.
fn bits_of(block: &[u8]) -> Vec<usize> {
    (0..64).filter(|&subject| block[RETIRED_AT + subject / 8] >> (subject % 8) & 1 == 1).collect()
}

/// Whether a retired subject is named at a place of a record.
fn at_place(block: &[u8], place: usize) -> bool {
    let count = (word(block, 2) as usize).min(256);
    let records = block[RECORDS_AT..].chunks_exact(RECORD_LEN).take(count);
    records.into_iter().any(|record| bits_of(block).contains(&(record[place] as usize)))
}

/// The marks of the retired, all together.
fn marks_of_retired(block: &[u8]) -> u16 {
    bits_of(block).iter().fold(0, |marks, &subject| marks | word(block, MARKS_AT + 2 * subject))
}

/// Programs that look at the bits less.
const LOOSE: [Loose; 16] = [
    ("nothing", |b| broken_rules(b).iter().all(|rule| *rule >= 13)),
    ("not at those who are not enrolled", |b| broken_rules(b) == [13]),
    ("not at the owner", |b| broken_rules(b) == [14]),
    ("not at marks", |b| broken_rules(b) == [15]),
    ("not at records", |b| broken_rules(b) == [16]),
    ("not at high marks", |b| broken_rules(b) == [15] && marks_of_retired(b) & 255 == 0),
    ("not at low marks", |b| broken_rules(b) == [15] && marks_of_retired(b) & !255 == 0),
    ("not at givers", |b| broken_rules(b) == [16] && !at_place(b, RECEIVER)),
    ("not at receivers", |b| broken_rules(b) == [16] && !at_place(b, GIVER)),
    ("not at the last subject", |b| broken_rules(b)[0] >= 13 && bits_of(b) == [63]),
    ("not at the first byte", |b| broken_rules(b)[0] >= 13 && bits_of(b).iter().all(|&s| s < 8)),
    ("at the first byte only", |b| broken_rules(b)[0] >= 13 && bits_of(b).iter().all(|&s| s >= 8)),
    ("not at the first half", |b| broken_rules(b)[0] >= 13 && bits_of(b).iter().all(|&s| s < 32)),
    ("not at the second half", |b| broken_rules(b)[0] >= 13 && bits_of(b).iter().all(|&s| s >= 32)),
    ("not just after the enrolled", |b| broken_rules(b) == [13] && bits_of(b) == [b[0] as usize]),
    ("only just after the enrolled", |b| broken_rules(b) == [13] && !bits_of(b).contains(&(b[0] as usize))),
];

/// Blocks that are refused with 8, and that such a program takes for well formed.
#[test]
fn loose_rules_are_noticed() {
    for (shows, takes) in LOOSE {
        let refused = cases().iter().filter(|case| block_of(case).len() == BLOCK_LEN && refusal_of(case) == 8);
        let of_bits = refused.filter(|case| case.passed.call != Call::BringOver && takes(block_of(case)));
        let count = of_bits.count();
        assert!(count > 0, "{shows}");
    }
}

/// Each bit, in a block that only this bit makes wrong: by a subject that is not enrolled, by
/// marks, by a record; and in one that is well formed, where the subject is named.
#[test]
fn every_bit_is_looked_at() {
    let mut broken = std::collections::BTreeSet::new();
    let mut named = std::collections::BTreeSet::new();
    for case in asked().chain(cases().iter().filter(|case| case.passed.call == Call::Use)) {
        let block = block_of(case);
        let [subject] = (if block.len() == BLOCK_LEN { bits_of(block) } else { vec![] })[..] else { continue };
        match (refusal_of(case), &broken_rules(block)[..]) {
            (8, [rule]) => drop(broken.insert((*rule, subject))),
            (19, []) => drop(named.insert(subject)),
            _ => {}
        }
    }
    assert!((1..64).all(|subject| named.contains(&subject)) && broken.contains(&(14, 0)));
    assert!((1..64).all(|subject| [13, 15, 16].iter().all(|&rule| broken.contains(&(rule, subject)))));
}

/// What a program that brings a block over makes of the old and the new one.
type Brought = (u32, [i32; 3], Vec<u8>);

fn brought(old: &[u8], block: &[u8]) -> Brought {
    let mut left = block.to_vec();
    let outcome = call::bring_over(old, &mut left);
    (outcome.refusal, outcome.answers, left)
}

/// The right program where another block is left.
fn leaving(old: &[u8], block: &[u8], left: impl Fn(Vec<u8>) -> Vec<u8>) -> Brought {
    match brought(old, block) {
        (0, answers, right) => (0, answers, left(right)),
        refused => refused,
    }
}

/// The old bytes with others put in somewhere.
fn put_in(old: &[u8], at: usize, bytes: &[u8]) -> Vec<u8> {
    [&old[..at], bytes, &old[at..]].concat()
}

/// The bytes without any rule, where the lengths are right.
fn copied(old: &[u8], block: &[u8]) -> Vec<u8> {
    let sized = old.len() == OLD_BLOCK_LEN && block.len() == BLOCK_LEN;
    if sized { put_in(old, RETIRED_AT, &[0; 8]) } else { block.to_vec() }
}

/// Bytes with zeros at the end or cut off.
fn sized(bytes: &[u8], length: usize) -> Vec<u8> {
    let mut bytes = bytes.to_vec();
    bytes.resize(length, 0);
    bytes
}

type WrongBrought = (&'static str, fn(&[u8], &[u8]) -> Brought);

const WRONG_BROUGHT: [WrongBrought; 22] = [
    ("no rule is looked at", |old, block| match brought(old, block) {
        (8, answers, _) => (0, answers, copied(old, block)),
        other => other,
    }),
    ("the bytes come last", |old, block| leaving(old, block, |_| put_in(old, OLD_BLOCK_LEN, &[0; 8]))),
    ("the bytes come first", |old, block| leaving(old, block, |_| put_in(old, 0, &[0; 8]))),
    ("the bytes come before the marks", |old, block| leaving(old, block, |_| put_in(old, 4, &[0; 8]))),
    ("the bytes come after a record", |old, block| leaving(old, block, |_| put_in(old, 140, &[0; 8]))),
    ("the bytes are all set", |old, block| leaving(old, block, |_| put_in(old, RETIRED_AT, &[255; 8]))),
    ("the bytes stay as they were", |old, block| leaving(old, block, |_| put_in(old, 132, &block[132..140]))),
    ("the records stay as they were", |old, block| leaving(old, block, |_| [&old[..132], &block[132..]].concat())),
    ("the last record stays as it was", |old, block| leaving(old, block, |n| [&n[..2180], &block[2180..]].concat())),
    ("zeros are not put in", |old, block| {
        leaving(old, block, |n| n.iter().zip(block).map(|(&n, &b)| if n == 0 { b } else { n }).collect())
    }),
    ("nothing is put in", |old, block| leaving(old, block, |_| block.to_vec())),
    ("rounds run", |old, block| {
        leaving(old, block, |n| encode(&settled(&OURS, decode(&n).unwrap_or(Register::fresh())).0))
    }),
    ("what is not supported is refused", |old, block| match brought(old, block) {
        (0, _, n) if decode(&n).is_some_and(|r| settled(&OURS, r).1 != [0, 0, 1]) => (18, [0; 3], block.to_vec()),
        other => other,
    }),
    ("the new block must be well formed", |old, block| match decode(block) {
        None if block.len() == BLOCK_LEN => (8, [0; 3], block.to_vec()),
        _ => brought(old, block),
    }),
    ("the subjects are answered", |old, block| match brought(old, block) {
        (0, _, left) => (0, [left[0] as i32, 0, 0], left),
        other => other,
    }),
    ("longer old blocks are cut off", |old, block| brought(&old[..old.len().min(OLD_BLOCK_LEN)], block)),
    ("shorter old blocks are filled up", |old, block| brought(&sized(old, old.len().max(OLD_BLOCK_LEN)), block)),
    ("longer new blocks are written in front", |old, block| {
        let (refusal, answers, left) = brought(old, &block[..block.len().min(BLOCK_LEN)]);
        let rest = if block.len() > BLOCK_LEN { &block[BLOCK_LEN..] } else { &[] };
        (refusal, answers, [&left[..], rest].concat())
    }),
    ("a new block of the old length is copied", |old, block| match brought(old, block) {
        (1, answers, _) if old.len() == OLD_BLOCK_LEN && block.len() == OLD_BLOCK_LEN => (0, answers, old.to_vec()),
        other => other,
    }),
    ("a block of the new length is copied", |old, block| match brought(old, block) {
        (1, answers, _) if old.len() == BLOCK_LEN && block.len() == BLOCK_LEN => (0, answers, old.to_vec()),
        other => other,
    }),
    ("8 before 1", |old, block| match brought(old, block) {
        (1, answers, left) if brought(old, &[0; BLOCK_LEN]).0 == 8 => (8, answers, left),
        other => other,
    }),
    ("a refused one is put in", |old, block| match brought(old, block) {
        (8, answers, _) => (8, answers, copied(old, block)),
        other => other,
    }),
];

#[test]
fn wrong_bringing_over_is_noticed() {
    let all: Vec<&Case> = cases().iter().filter(|case| case.passed.call == Call::BringOver).collect();
    assert!(all.len() > 250);
    for (shows, wrong) in WRONG_BROUGHT {
        let other = |case: &&&Case| wrong(case.lent(), block_of(case)) != brought(case.lent(), block_of(case));
        assert!(all.iter().filter(other).count() > 0, "{shows}");
    }
    let due = |case: &Case| {
        let (refusal, answers, left) = brought(case.lent(), block_of(case));
        left_line(&Outcome { refusal, answers }, block_of(case), &left)
    };
    assert!(all.iter().all(|case| due(case) == recorded(&FAST, case)));
}
