//! Wrong programs for slips, which the generated cases of the kind `slip` notice: other slips,
//! other judgements of them, other orders of the refusals, other restores.

use super::ours;
use crate::lentcases::{noticed_in, recorded, Recorded};
use crate::slipcases::cases;
use crate::slips::{slips_hold_the_cut, taken_back_directly, Program, RIGHT};
use generate::sliprefusals::applying_to_take_back;
use second::block::{decode, encode, well_formed, BLOCK_LEN, RECORDS_AT};
use second::call::{accepted, refused, run_table, Outcome};
use second::cut::settle;
use second::engine::FAST;
use second::random::random_table;
use second::refusal::{Call, Passed};
use second::lentcase::{Asked, Bytes, LentCase};
use second::slip::*;
use second::table::{Table, OURS};
use std::collections::BTreeSet;
use std::sync::OnceLock;

fn lines() -> &'static [Recorded] {
    static LINES: OnceLock<Vec<Recorded>> = OnceLock::new();
    LINES.get_or_init(|| recorded(cases()))
}

fn noticed(program: impl Fn(&LentCase) -> (Outcome, Bytes)) -> usize {
    noticed_in(lines(), program)
}

#[test]
fn the_right_program_is_not_noticed() {
    assert_eq!(noticed(RIGHT), 0);
    assert!(lines().len() > 1800, "{}", lines().len());
}

/// A cut that was accepted: what was passed, the bytes before it, and the block that it left.
struct Cut<'a> {
    n: &'a Passed,
    on: &'a Bytes,
    left: &'a [u8],
}

impl Cut<'_> {
    /// The right slip with another byte at a place.
    fn with(&self, at: usize, byte: u32) -> Vec<u8> {
        let mut slip = slip_of(self.n, &self.on.block, self.left);
        slip[at] = byte as u8;
        slip
    }

    /// The block after the named change, before any round.
    fn named(&self) -> Vec<u8> {
        let mut register = decode(&self.on.block).expect("a well-formed block");
        let at = register.place(self.n.giver, self.n.receiver).expect("a standing pair");
        match self.n.call {
            Call::Revoke => drop(register.delegations.remove(at)),
            _ => register.delegations[at].weight = self.n.weight as u8,
        }
        encode(&register)
    }

    /// The weight of the delegation before.
    fn weight(&self) -> u32 {
        let register = decode(&self.on.block).expect("a well-formed block");
        register.standing(self.n.giver, self.n.receiver).expect("a standing pair").weight as u32
    }
}

/// The right program, but for the slip that an accepted cut writes.
fn writing(case: &LentCase, slip: impl Fn(&Cut) -> Vec<u8>) -> (Outcome, Bytes) {
    let (outcome, mut left) = case.made(&FAST);
    if let (Asked::Cut(n), 0) = (case.asked, outcome.refusal) {
        left.lent = slip(&Cut { n: &n, on: &case.on, left: &left.block });
    }
    (outcome, left)
}

/// Programs that write another slip.
const WRONG_SLIPS: [(&str, Program); 24] = [
    ("nothing is written", |case| writing(case, |cut| cut.on.lent.clone())),
    ("the before is taken after the named change", |case| {
        writing(case, |cut| slip_of(cut.n, &cut.named(), cut.left))
    }),
    ("the before is taken after the rounds", |case| writing(case, |cut| slip_of(cut.n, cut.left, cut.left))),
    ("the after is taken before the rounds", |case| {
        writing(case, |cut| slip_of(cut.n, &cut.on.block, &cut.named()))
    }),
    ("the after is the block before", |case| writing(case, |cut| slip_of(cut.n, &cut.on.block, &cut.on.block))),
    ("before and after are exchanged", |case| writing(case, |cut| slip_of(cut.n, cut.left, &cut.on.block))),
    ("revoke and downgrade are exchanged", |case| {
        writing(case, |cut| cut.with(CALL_AT, if cut.n.call == Call::Revoke { 3 } else { 2 }))
    }),
    ("revoke is 0", |case| writing(case, |cut| cut.with(CALL_AT, if cut.n.call == Call::Revoke { 0 } else { 3 }))),
    ("the calls have the numbers of the cases", |case| writing(case, |cut| cut.with(CALL_AT, cut.n.call as u32 + 12))),
    ("the owner is by", |case| writing(case, |cut| cut.with(BY_AT, 0))),
    ("the giver is by", |case| writing(case, |cut| cut.with(BY_AT, cut.n.giver))),
    ("by and giver are exchanged", |case| {
        writing(case, |cut| slip_of(&Passed { by: cut.n.giver, giver: cut.n.by, ..*cut.n }, &cut.on.block, cut.left))
    }),
    ("giver and receiver are exchanged", |case| {
        let exchanged = |n: &Passed| Passed { giver: n.receiver, receiver: n.giver, ..*n };
        writing(case, |cut| slip_of(&exchanged(cut.n), &cut.on.block, cut.left))
    }),
    ("the weight is that before", |case| writing(case, |cut| cut.with(WEIGHT_AT, cut.weight()))),
    ("the weight is always 0", |case| writing(case, |cut| cut.with(WEIGHT_AT, 0))),
    ("the weight of a revoke is 255", |case| {
        writing(case, |cut| cut.with(WEIGHT_AT, if cut.n.call == Call::Revoke { 255 } else { cut.n.weight }))
    }),
    ("the weight is that left", |case| {
        writing(case, |cut| {
            let left = decode(cut.left).expect("a well-formed block");
            cut.with(WEIGHT_AT, left.standing(cut.n.giver, cut.n.receiver).map_or(0, |d| d.weight as u32))
        })
    }),
    ("the last byte is not written", |case| {
        writing(case, |cut| cut.with(SLIP_LEN - 1, cut.on.lent[SLIP_LEN - 1] as u32))
    }),
    ("the first byte is not written", |case| writing(case, |cut| cut.with(0, cut.on.lent[0] as u32))),
    ("the weight is not written for a revoke", |case| {
        let byte = |cut: &Cut| if cut.n.call == Call::Revoke { cut.on.lent[WEIGHT_AT] as u32 } else { cut.n.weight };
        writing(case, |cut| cut.with(WEIGHT_AT, byte(cut)))
    }),
    ("the five bytes come first", |case| {
        writing(case, |cut| {
            let slip = slip_of(cut.n, &cut.on.block, cut.left);
            [&slip[CALL_AT..AFTER_AT], &slip[..CALL_AT], &slip[AFTER_AT..]].concat()
        })
    }),
    ("zeros of the after are not written", |case| {
        writing(case, |cut| {
            let mut slip = slip_of(cut.n, &cut.on.block, cut.left);
            let used = slip.iter().rposition(|&byte| byte != 0).map_or(0, |last| last + 1);
            slip[used..].copy_from_slice(&cut.on.lent[used..]);
            slip
        })
    }),
    ("written on a refusal too", |case| {
        let (outcome, mut left) = case.made(&FAST);
        let sized = left.lent.len() == SLIP_LEN && left.block.len() == BLOCK_LEN;
        if let (Asked::Cut(n), true) = (case.asked, sized && outcome.refusal != 0) {
            left.lent = slip_of(&n, &left.block, &left.block);
        }
        (outcome, left)
    }),
    ("cleared on a refusal", |case| {
        let (outcome, mut left) = case.made(&FAST);
        if let (Asked::Cut(_), true) = (case.asked, outcome.refusal != 0) {
            left.lent.fill(0);
        }
        (outcome, left)
    }),
];

#[test]
fn wrong_slips_are_noticed() {
    for (shows, program) in WRONG_SLIPS {
        let count = noticed(program);
        assert!(count > 1, "{shows}: {count}");
        assert!(slips_hold_the_cut(program, ours).is_err(), "{shows}");
    }
}

/// A cut on a slip's buffer that may have another length: what is made of it, and the buffer.
fn of_length(case: &LentCase, ready: fn(usize) -> bool) -> (Outcome, Bytes) {
    let Asked::Cut(n) = case.asked else { return case.made(&FAST) };
    if !ready(case.on.lent.len()) {
        return (refused(1), case.on.clone());
    }
    let mut left = case.on.clone();
    let outcome = run_table(&FAST, &n, &left.table, &mut left.block);
    if outcome.refusal == 0 {
        let slip = slip_of(&n, &case.on.block, &left.block);
        left.lent.iter_mut().zip(slip).for_each(|(place, byte)| *place = byte);
    }
    (outcome, left)
}

/// Programs that look at the slip's length otherwise, or after other refusals, or that cut
/// otherwise than without a slip.
const WRONG_CUTS: [(&str, Program); 7] = [
    ("any length", |case| of_length(case, |_| true)),
    ("longer slips", |case| of_length(case, |length| length >= SLIP_LEN)),
    ("shorter slips", |case| of_length(case, |length| length <= SLIP_LEN)),
    ("a block's length too", |case| of_length(case, |length| length == SLIP_LEN || length == BLOCK_LEN)),
    ("the slip's length comes last", |case| {
        let (outcome, left) = of_length(case, |_| true);
        if outcome.refusal == 0 { case.made(&FAST) } else { (outcome, left) }
    }),
    ("the block is left as it was", |case| {
        let (outcome, left) = case.made(&FAST);
        let is_cut = matches!(case.asked, Asked::Cut(_));
        (outcome, Bytes { block: if is_cut { case.on.block.clone() } else { left.block.clone() }, ..left })
    }),
    ("a cut answers 0, 0, 0", |case| {
        let (outcome, left) = case.made(&FAST);
        let is_cut = matches!(case.asked, Asked::Cut(_));
        (Outcome { answers: if is_cut { [0; 3] } else { outcome.answers }, ..outcome }, left)
    }),
];

#[test]
fn wrong_cuts_are_noticed() {
    for (shows, program) in WRONG_CUTS {
        let count = noticed(program);
        assert!(count > 1, "{shows}: {count}");
    }
}

/// The program of taking back with these tests, which restores what a function says.
fn by_tests(case: &LentCase, tests: &[Test], restored: impl Fn(&HandedIn) -> Vec<u8>) -> (Outcome, Bytes) {
    let Asked::TakeBack(by) = case.asked else { return case.made(&FAST) };
    let on = &case.on;
    let handed = HandedIn { engine: &FAST, block: &on.block, by, text: &on.table, slip: &on.lent };
    if let Some((number, _)) = tests.iter().find(|(_, applies)| applies(&handed)) {
        return (refused(*number), on.clone());
    }
    (accepted([0, 0, 0]), Bytes { block: restored(&handed), ..on.clone() })
}

fn before_of(handed: &HandedIn) -> Vec<u8> {
    handed.slip[..BLOCK_LEN].to_vec()
}

/// The right program with another test for one number.
fn judging(case: &LentCase, number: u32, test: fn(&HandedIn) -> bool) -> (Outcome, Bytes) {
    let tests = TESTS.map(|(other, right)| (other, if other == number { test } else { right }));
    by_tests(case, &tests, before_of)
}

/// What is left by a cut on the slip's before, and what it writes; nothing if it is refused.
fn made_again(h: &HandedIn, n: &Passed, text: &[u8]) -> Option<(Vec<u8>, Vec<u8>)> {
    let (mut block, mut slip) = (h.slip[..BLOCK_LEN].to_vec(), vec![0; SLIP_LEN]);
    (cut_slip(&FAST, n, text, &mut block, &mut slip).refusal == 0).then_some((block, slip))
}

/// The register equals the slip's after.
fn equals(h: &HandedIn) -> bool {
    h.block == &h.slip[AFTER_AT..]
}

/// 20 is judged where the right program judges it.
fn can_be_judged(h: &HandedIn) -> bool {
    h.slip.len() == SLIP_LEN && Table::read(h.text).is_ok()
}

/// The right test of 20.
fn right_20(h: &HandedIn) -> bool {
    TESTS[8].1(h)
}

/// 20 unless the cut, changed so, leaves the slip's after and writes this slip again, but for
/// some bytes of it.
fn unless_made(h: &HandedIn, change: fn(&HandedIn, Passed) -> Passed, but_for: &[usize]) -> bool {
    let same = |slip: Vec<u8>| (0..SLIP_LEN).all(|at| but_for.contains(&at) || slip[at] == h.slip[at]);
    let made = || made_again(h, &change(h, cut_on(h.slip)?), h.text);
    can_be_judged(h) && !(equals(h) && made().is_some_and(|(_, slip)| same(slip)))
}

const FIVE: [usize; 5] = [CALL_AT, BY_AT, GIVER_AT, RECEIVER_AT, WEIGHT_AT];

/// Programs that judge a slip otherwise.
const WRONG_20: [(&str, Program); 21] = [
    ("always 20", |case| judging(case, 20, can_be_judged)),
    ("never 20", |case| judging(case, 20, |_| false)),
    ("the cut is not made again", |case| judging(case, 20, |h| can_be_judged(h) && !equals(h))),
    ("the register is not compared", |case| {
        judging(case, 20, |h| {
            let made = || made_again(h, &cut_on(h.slip)?, h.text);
            can_be_judged(h) && !made().is_some_and(|(_, slip)| slip == h.slip)
        })
    }),
    ("the register's records alone are compared", |case| {
        judging(case, 20, |h| {
            let after = &h.slip[AFTER_AT.min(h.slip.len())..];
            let alike = h.block.get(RECORDS_AT..) == after.get(RECORDS_AT..);
            right_20(&HandedIn { block: if alike { after } else { h.block }, ..*h })
        })
    }),
    ("the after alone is compared", |case| judging(case, 20, |h| unless_made(h, |_, n| n, &FIVE))),
    ("the new weight of a revoke is not compared", |case| {
        judging(case, 20, |h| unless_made(h, |_, n| n, &[WEIGHT_AT]))
    }),
    ("the last byte is not compared", |case| {
        judging(case, 20, |h| {
            let mut slip = h.slip.to_vec();
            slip.iter_mut().skip(SLIP_LEN - 1).take(1).for_each(|byte| *byte = h.block.last().copied().unwrap_or(0));
            right_20(&HandedIn { slip: &slip, ..*h })
        })
    }),
    ("the cut is made by the owner", |case| {
        judging(case, 20, |h| unless_made(h, |_, n| Passed { by: 0, ..n }, &[BY_AT]))
    }),
    ("the cut is made by the giver", |case| {
        judging(case, 20, |h| unless_made(h, |_, n| Passed { by: n.giver, ..n }, &[BY_AT]))
    }),
    ("the cut is made by the caller", |case| {
        judging(case, 20, |h| unless_made(h, |h, n| Passed { by: h.by, ..n }, &[BY_AT]))
    }),
    ("the caller is the by on the slip", |case| {
        judging(case, 20, |h| right_20(h) || can_be_judged(h) && h.by != h.slip[BY_AT] as u32)
    }),
    ("judged by our table", |case| {
        judging(case, 20, |h| can_be_judged(h) && right_20(&HandedIn { text: b"", ..*h }))
    }),
    ("every other first byte is a revoke", |case| {
        judging(case, 20, |h| {
            let mut slip = h.slip.to_vec();
            slip.iter_mut().skip(CALL_AT).take(1).filter(|byte| **byte != 3).for_each(|byte| *byte = 2);
            right_20(&HandedIn { slip: &slip, ..*h })
        })
    }),
    ("every other first byte is a downgrade", |case| {
        judging(case, 20, |h| {
            let mut slip = h.slip.to_vec();
            slip.iter_mut().skip(CALL_AT).take(1).filter(|byte| **byte != 2).for_each(|byte| *byte = 3);
            right_20(&HandedIn { slip: &slip, ..*h })
        })
    }),
    ("only supported befores", |case| judging(case, 20, |h| right_20(h) || can_be_judged(h) && !is_settled(h))),
    ("any before that is not well formed", |case| {
        judging(case, 20, |h| right_20(h) && (well_formed(&h.slip[..BLOCK_LEN]) || !equals(h)))
    }),
    ("only revokes", |case| judging(case, 20, |h| right_20(h) || can_be_judged(h) && h.slip[CALL_AT] != 2)),
    ("only downgrades", |case| judging(case, 20, |h| right_20(h) || can_be_judged(h) && h.slip[CALL_AT] != 3)),
    ("only cuts after which less stands", |case| {
        judging(case, 20, |h| right_20(h) || can_be_judged(h) && h.slip[2] == h.slip[AFTER_AT + 2])
    }),
    ("subjects above 63 on the slip are cut off", |case| {
        judging(case, 20, |h| {
            let mut slip = h.slip.to_vec();
            slip.iter_mut().skip(BY_AT).take(3).for_each(|byte| *byte &= 63);
            right_20(&HandedIn { slip: &slip, ..*h })
        })
    }),
];

/// The rounds change nothing in the slip's before.
fn is_settled(h: &HandedIn) -> bool {
    let Some(mut register) = decode(&h.slip[..BLOCK_LEN]) else { return false };
    settle(&FAST, &Table::read(h.text).unwrap_or(OURS), &mut register).rounds == 1
}

/// The right program, but that a byte of the slip counts as named for a number.
fn naming(case: &LentCase, number: u32, at: usize) -> (Outcome, Bytes) {
    let Asked::TakeBack(by) = case.asked else { return case.made(&FAST) };
    let on = &case.on;
    let also = on.lent.get(at).map_or(0, |&byte| byte as u32);
    let handed = |by: u32| HandedIn { engine: &FAST, block: &on.block, by, text: &on.table, slip: &on.lent };
    let applies = |(other, test): &&Test| test(&handed(by)) || *other == number && test(&handed(also));
    match TESTS.iter().find(applies) {
        Some((number, _)) => (refused(*number), on.clone()),
        None => case.made(&FAST),
    }
}

/// Programs that look at the caller otherwise.
const WRONG_CALLERS: [(&str, Program); 19] = [
    ("14 not at all", |case| judging(case, 14, |_| false)),
    ("14 by the by on the slip", |case| {
        judging(case, 14, |h| h.slip.len() == SLIP_LEN && h.by != 0 && h.by != h.slip[BY_AT] as u32)
    }),
    ("14 by the receiver on the slip", |case| {
        judging(case, 14, |h| h.slip.len() == SLIP_LEN && h.by != 0 && h.by != h.slip[RECEIVER_AT] as u32)
    }),
    ("the by on the slip may too", |case| {
        judging(case, 14, |h| TESTS[7].1(h) && h.by != h.slip[BY_AT] as u32)
    }),
    ("only the owner", |case| judging(case, 14, |h| h.slip.len() == SLIP_LEN && h.by != 0)),
    ("only the giver", |case| judging(case, 14, |h| h.slip.len() == SLIP_LEN && h.by != h.slip[GIVER_AT] as u32)),
    ("only the by on the slip", |case| {
        judging(case, 14, |h| h.slip.len() == SLIP_LEN && h.by != h.slip[BY_AT] as u32)
    }),
    ("14 where the by on the slip may not", |case| {
        judging(case, 14, |h| {
            let on_it = |at: usize| h.slip[at];
            TESTS[7].1(h) || h.slip.len() == SLIP_LEN && on_it(BY_AT) != 0 && on_it(BY_AT) != on_it(GIVER_AT)
        })
    }),
    ("2 for the giver on the slip", |case| naming(case, 2, GIVER_AT)),
    ("2 for the receiver on the slip", |case| naming(case, 2, RECEIVER_AT)),
    ("2 for the by on the slip", |case| naming(case, 2, BY_AT)),
    ("9 for the giver on the slip", |case| naming(case, 9, GIVER_AT)),
    ("9 for the receiver on the slip", |case| naming(case, 9, RECEIVER_AT)),
    ("9 for the by on the slip", |case| naming(case, 9, BY_AT)),
    ("19 for the giver on the slip", |case| naming(case, 19, GIVER_AT)),
    ("19 for the receiver on the slip", |case| naming(case, 19, RECEIVER_AT)),
    ("19 for the by on the slip", |case| naming(case, 19, BY_AT)),
    ("9 not at all", |case| judging(case, 9, |_| false)),
    ("19 not at all", |case| judging(case, 19, |_| false)),
];

/// Programs that restore something else, or answer otherwise.
const WRONG_RESTORES: [(&str, Program); 10] = [
    ("nothing is restored", |case| by_tests(case, &TESTS, |h| h.block.to_vec())),
    ("the restored register is settled", |case| {
        by_tests(case, &TESTS, |h| {
            let mut register = decode(&h.slip[..BLOCK_LEN]).expect("a well-formed block");
            settle(&FAST, &Table::read(h.text).expect("a table"), &mut register);
            encode(&register)
        })
    }),
    ("the named delegation alone is restored", |case| {
        by_tests(case, &TESTS, |h| {
            let n = cut_on(h.slip).expect("a cut");
            let before = decode(&h.slip[..BLOCK_LEN]).expect("a well-formed block");
            let mut register = decode(h.block).expect("a well-formed block");
            let named = *before.standing(n.giver, n.receiver).expect("a standing pair");
            match register.place(n.giver, n.receiver) {
                Ok(at) => register.delegations[at] = named,
                Err(at) => register.delegations.insert(at, named),
            }
            encode(&register)
        })
    }),
    ("all but the last byte", |case| {
        by_tests(case, &TESTS, |h| [&h.slip[..BLOCK_LEN - 1], &h.block[BLOCK_LEN - 1..]].concat())
    }),
    ("the records alone", |case| {
        by_tests(case, &TESTS, |h| [&h.block[..RECORDS_AT], &h.slip[RECORDS_AT..BLOCK_LEN]].concat())
    }),
    ("the slip is cleared", |case| {
        let (outcome, mut left) = case.made(&FAST);
        if outcome.refusal == 0 && matches!(case.asked, Asked::TakeBack(_)) {
            left.lent.fill(0);
        }
        (outcome, left)
    }),
    ("the five bytes are cleared", |case| {
        let (outcome, mut left) = case.made(&FAST);
        if outcome.refusal == 0 && matches!(case.asked, Asked::TakeBack(_)) {
            left.lent[CALL_AT..AFTER_AT].fill(0);
        }
        (outcome, left)
    }),
    ("before and after are exchanged on the slip", |case| {
        let (outcome, mut left) = case.made(&FAST);
        if outcome.refusal == 0 && matches!(case.asked, Asked::TakeBack(_)) {
            left.lent = [&left.lent[AFTER_AT..], &left.lent[CALL_AT..AFTER_AT], &left.lent[..CALL_AT]].concat();
        }
        (outcome, left)
    }),
    ("the cut's answers", |case| {
        let (outcome, left) = case.made(&FAST);
        let (0, Asked::TakeBack(_)) = (outcome.refusal, case.asked) else { return (outcome, left) };
        let n = cut_on(&case.on.lent).expect("a cut");
        (run_table(&FAST, &n, &case.on.table, &mut left.block.clone()), left)
    }),
    ("what stands is answered", |case| {
        let (outcome, left) = case.made(&FAST);
        let (0, Asked::TakeBack(_)) = (outcome.refusal, case.asked) else { return (outcome, left) };
        (accepted([left.block[2] as i32, 0, 0]), left)
    }),
];

#[test]
fn wrong_take_backs_are_noticed() {
    for (shows, program) in [&WRONG_20[..], &WRONG_CALLERS, &WRONG_RESTORES].concat() {
        let count = noticed(program);
        assert!(count > 0, "{shows}: {count}");
    }
    assert_eq!(noticed(|case| by_tests(case, &TESTS, before_of)), 0);
}

/// The sentence on taking back directly alone tells these.
#[test]
fn the_sentence_tells_wrong_programs() {
    let broken = ["always 20", "only supported befores", "only revokes", "only downgrades"];
    for (shows, program) in WRONG_20.iter().filter(|(shows, _)| broken.contains(shows)) {
        assert!(taken_back_directly(*program, ours).is_err(), "{shows}");
    }
    let by_ours = WRONG_20.iter().find(|(shows, _)| *shows == "judged by our table").expect("a program").1;
    assert!(taken_back_directly(by_ours, ours).is_ok() && taken_back_directly(by_ours, random_table).is_err());
    for (shows, program) in &WRONG_RESTORES {
        assert!(taken_back_directly(*program, ours).is_err() || *shows == "all but the last byte", "{shows}");
    }
}

/// Two refusals of taking back that never apply at once.
const NEVER: [(u32, u32); 7] = [(7, 17), (7, 20), (17, 20), (8, 9), (8, 19), (2, 19), (9, 19)];

/// A program that looks at one refusal before another that comes before it, which is noticed
/// where both apply and the other is returned.
#[test]
fn wrong_orders_are_noticed() {
    let mut both = BTreeSet::new();
    for (case, line) in lines() {
        let Asked::TakeBack(by) = case.asked else { continue };
        let numbers = applying_to_take_back(by, &case.on);
        let first = numbers.first().copied().unwrap_or(0);
        assert!(line.starts_with(&format!("{first} ")));
        both.extend(numbers.into_iter().skip(1).map(|other| (first, other)));
    }
    let places = (0..9).flat_map(|first| (first + 1..9).map(move |second| (first, second)));
    let pairs: BTreeSet<(u32, u32)> = places.map(|(first, second)| (TESTS[first].0, TESTS[second].0)).collect();
    assert_eq!(both, pairs.into_iter().filter(|pair| !NEVER.contains(pair)).collect());
}

/// The last of the refusals of taking back comes first, the one before it, and so on.
#[test]
fn refusals_that_come_first_are_noticed() {
    for at in 1..TESTS.len() {
        let mut tests = TESTS.to_vec();
        let first = tests.remove(at);
        tests.insert(0, first);
        let count = noticed(|case| by_tests(case, &tests, before_of));
        assert!(count > 0, "{}: {count}", first.0);
    }
    let mut tests = TESTS;
    tests.swap(7, 8);
    assert!(noticed(|case| by_tests(case, &tests, before_of)) > 20);
}
