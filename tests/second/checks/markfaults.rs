//! Wrong programs for marks that change, which the generated cases of the kind `marks` notice.

use crate::faults::{ONE_ROUND, VISITED_ONCE};
use crate::generated::{block_of, recorded};
use crate::markcases::{asked, cases};
use crate::marks::{rounds_by, since, with_marks, Change};
use generate::set_marks;
use second::block::{decode, encode, Delegation, Register};
use second::call::Outcome;
use second::casefile::{left_line, Case};
use second::chain::{meets, NONE};
use second::cut::{round, settle};
use second::engine::{Engine, FAST};
use second::refusal::{admit, applying, Call, Passed};
use second::search::reach_table;
use second::table::{Table, OURS};
use std::sync::OnceLock;

/// What a program answers: the register left and three numbers, or a refusal.
pub type Answer = Result<(Register, [i32; 3]), u32>;

/// The register with these marks for a subject, if it is enrolled.
fn with_other(register: &Register, subject: u32, marks: u16) -> Register {
    let mut changed = register.clone();
    changed.marks.iter_mut().skip(subject as usize).take(1).for_each(|place| *place = marks);
    changed
}

/// The rounds by an engine's reaches.
pub fn settled_by(engine: &Engine, table: &Table, mut left: Register) -> (Register, [i32; 3]) {
    let counts = settle(engine, table, &mut left);
    (left, [counts.dropped as i32, counts.lowered as i32, counts.rounds as i32])
}

pub fn settled(table: &Table, left: Register) -> (Register, [i32; 3]) {
    settled_by(&FAST, table, left)
}

const RIGHT: Change = |t, r, n| settled(t, with_marks(r, n));

fn changed(n: &Passed, text: &[u8], block: &[u8], change: Change) -> Answer {
    let (table, register) = admit(&FAST, n, text, block, 0)?;
    Ok(change(&table, &register, n))
}

/// The right program, with other numbers or another text than it was passed.
fn right(n: &Passed, text: &[u8], block: &[u8]) -> Answer {
    changed(n, text, block, RIGHT)
}

/// The line of a program.
pub fn shown(case: &Case, answer: Answer) -> String {
    let before = block_of(case);
    match answer {
        Ok((left, answers)) => left_line(&Outcome { refusal: 0, answers }, before, &encode(&left)),
        Err(refusal) => left_line(&Outcome { refusal, answers: [0, 0, 0] }, before, before),
    }
}

/// The calls on blocks of at most 100 delegations, which take little time, and their lines.
fn lines() -> &'static [(&'static Case, String)] {
    static LINES: OnceLock<Vec<(&'static Case, String)>> = OnceLock::new();
    let few = |case: &&Case| decode(block_of(case)).is_none_or(|register| register.delegations.len() <= 100);
    LINES.get_or_init(|| asked().filter(few).map(|case| (case, recorded(&FAST, case))).collect())
}

/// How many calls have another line than the recorded one.
fn noticed(program: impl Fn(&Case) -> String) -> usize {
    lines().iter().filter(|(case, line)| program(case) != *line).count()
}

fn noticed_change(change: Change) -> usize {
    noticed(|case| shown(case, changed(&case.passed, case.lent(), block_of(case), change)))
}

#[test]
fn the_right_program_is_not_noticed() {
    assert_eq!(noticed_change(RIGHT), 0);
    assert!(lines().len() > 900);
}

/// Nothing is named, so that the register before has the delegations that counts compare with.
#[test]
fn the_register_before_has_the_same_delegations() {
    let count = noticed_change(|t, r, n| {
        let (left, [_, _, rounds]) = RIGHT(t, r, n);
        let counts = since(r, &left, rounds);
        (left, counts)
    });
    assert_eq!(count, 0);
}

pub fn reach_of(table: &Table, register: &Register, d: &Delegation) -> i16 {
    reach_table(table, register, d.giver as u32, d.receiver as u32)
}

/// The rounds where only some delegations are judged.
fn judging(t: &Table, r: &Register, n: &Passed, some: fn(&Delegation, u8) -> bool) -> (Register, [i32; 3]) {
    let subject = n.receiver as u8;
    rounds_by(with_marks(r, n), false, |now, d| if some(d, subject) { reach_of(t, now, d) } else { d.weight as i16 })
}

/// Those not kept are dropped before the rounds.
fn keeping(t: &Table, r: &Register, n: &Passed, keep: fn(&Delegation, u8) -> bool) -> (Register, [i32; 3]) {
    let begun = with_marks(r, n);
    let mut kept = begun.clone();
    kept.delegations.retain(|d| keep(d, n.receiver as u8));
    let (left, [_, _, rounds]) = settled(t, kept);
    let counts = since(&begun, &left, rounds);
    (left, counts)
}

/// The rounds on a register that was changed, whose marks and conditions are then the right
/// ones again.
fn as_if(t: &Table, r: &Register, n: &Passed, change: impl Fn(&mut Register)) -> (Register, [i32; 3]) {
    let begun = with_marks(r, n);
    let mut other = begun.clone();
    change(&mut other);
    let (mut left, answers) = settled(t, other);
    left.marks = begun.marks.clone();
    for d in &mut left.delegations {
        if let Some(before) = begun.standing(d.giver as u32, d.receiver as u32) {
            (d.need, d.bar) = (before.need, before.bar);
        }
    }
    (left, answers)
}

fn conditional(d: &Delegation) -> bool {
    d.need != 0 || d.bar != 0
}

/// The chains of some delegations are judged by the subject's marks.
fn by_its_marks(t: &Table, r: &Register, n: &Passed, whose: fn(&Delegation, u8) -> bool) -> (Register, [i32; 3]) {
    let marks = n.need as u16;
    rounds_by(with_marks(r, n), false, |now, d| {
        let other = if whose(d, n.receiver as u8) { with_other(now, d.receiver as u32, marks) } else { now.clone() };
        reach_of(t, &other, d)
    })
}

/// Every link's own receiver meets its condition too.
fn met_on_the_way(t: &Table, r: &Register, n: &Passed) -> (Register, [i32; 3]) {
    rounds_by(with_marks(r, n), false, |now, d| {
        let mut links = now.clone();
        links.delegations.retain(|link| meets(now.marks_of(link.receiver as u32), link));
        reach_of(t, &links, d)
    })
}

/// The weights of some delegations left become the reach of their pair.
fn lifted(t: &Table, r: &Register, n: &Passed, whose: fn(&Delegation, u8) -> bool) -> (Register, [i32; 3]) {
    let (mut left, answers) = RIGHT(t, r, n);
    let reaches = (FAST.reaches)(t, &left);
    for (d, reach) in left.delegations.iter_mut().zip(reaches).filter(|(d, _)| whose(d, n.receiver as u8)) {
        d.weight = reach as u8;
    }
    (left, answers)
}

/// Programs that set other marks.
pub const WRONG_MARKS: [(&str, Change); 14] = [
    ("no marks are set", |t, r, _| settled(t, r.clone())),
    ("marks are added", |t, r, n| settled(t, with_other(r, n.receiver, n.need as u16 | r.marks_of(n.receiver)))),
    ("only marks that stood are set", |t, r, n| {
        settled(t, with_other(r, n.receiver, n.need as u16 & r.marks_of(n.receiver)))
    }),
    ("marks are taken away", |t, r, n| settled(t, with_other(r, n.receiver, r.marks_of(n.receiver) & !n.need as u16))),
    ("marks are exchanged", |t, r, n| settled(t, with_other(r, n.receiver, r.marks_of(n.receiver) ^ n.need as u16))),
    ("all marks are cleared", |t, r, n| settled(t, with_other(r, n.receiver, 0))),
    ("the next subject's marks are set", |t, r, n| settled(t, with_other(r, n.receiver + 1, n.need as u16))),
    ("the marks of the subject before it are set", |t, r, n| {
        settled(t, with_other(r, (n.receiver - 1).max(1), n.need as u16))
    }),
    ("every subject's marks are set", |t, r, n| {
        let mut all = with_marks(r, n);
        all.marks[1..].fill(n.need as u16);
        settled(t, all)
    }),
    ("the low byte alone is set", |t, r, n| {
        settled(t, with_other(r, n.receiver, n.need as u16 & 0x00FF | r.marks_of(n.receiver) & 0xFF00))
    }),
    ("the high byte alone is set", |t, r, n| {
        settled(t, with_other(r, n.receiver, n.need as u16 & 0xFF00 | r.marks_of(n.receiver) & 0x00FF))
    }),
    ("the high byte first", |t, r, n| settled(t, with_other(r, n.receiver, (n.need as u16).swap_bytes()))),
    ("the highest mark is left out", |t, r, n| settled(t, with_other(r, n.receiver, n.need as u16 & 0x7FFF))),
    ("the marks are set back after the rounds", |t, r, n| {
        let (left, answers) = RIGHT(t, r, n);
        (with_other(&left, n.receiver, r.marks_of(n.receiver)), answers)
    }),
];

/// Programs that run other rounds.
pub const WRONG_ROUNDS: [(&str, Change); 27] = [
    ("no rounds", |_, r, n| (with_marks(r, n), [0, 0, 0])),
    ("no rounds, and one is counted", |_, r, n| (with_marks(r, n), [0, 0, 1])),
    ("rounds before the marks are set", |t, r, n| {
        let (left, answers) = settled(t, r.clone());
        (with_marks(&left, n), answers)
    }),
    ("one round only", |t, r, n| settled_by(&ONE_ROUND, t, with_marks(r, n))),
    ("at most two rounds", |t, r, n| {
        let begun = with_marks(r, n);
        let mut left = begun.clone();
        let rounds = 1 + round(&FAST, t, &mut left) as i32;
        round(&FAST, t, &mut left);
        let counts = since(&begun, &left, rounds);
        (left, counts)
    }),
    ("each subject is visited once", |t, r, n| settled_by(&VISITED_ONCE, t, with_marks(r, n))),
    ("all to the subject is dropped", |t, r, n| keeping(t, r, n, |d, s| d.receiver != s)),
    ("all from the subject is dropped", |t, r, n| keeping(t, r, n, |d, s| d.giver != s)),
    ("all to or from the subject is dropped", |t, r, n| keeping(t, r, n, |d, s| d.giver != s && d.receiver != s)),
    ("all that is conditional is dropped", |t, r, n| keeping(t, r, n, |d, _| !conditional(d))),
    ("all that is conditional to the subject", |t, r, n| keeping(t, r, n, |d, s| d.receiver != s || !conditional(d))),
    ("all that the owner did not give", |t, r, n| keeping(t, r, n, |d, _| d.giver == 0)),
    ("only what is given to the subject is judged", |t, r, n| judging(t, r, n, |d, s| d.receiver == s)),
    ("only what is given to or by the subject", |t, r, n| judging(t, r, n, |d, s| d.receiver == s || d.giver == s)),
    ("what the subject gave is not judged", |t, r, n| judging(t, r, n, |d, s| d.giver != s)),
    ("weights are replaced in turn", |t, r, n| rounds_by(with_marks(r, n), true, |now, d| reach_of(t, now, d))),
    ("ours in the place of the lent table", |_, r, n| settled(&OURS, with_marks(r, n))),
    ("need is not looked at", |t, r, n| as_if(t, r, n, |r| r.delegations.iter_mut().for_each(|d| d.need = 0))),
    ("bar is not looked at", |t, r, n| as_if(t, r, n, |r| r.delegations.iter_mut().for_each(|d| d.bar = 0))),
    ("all are judged by the subject's marks", |t, r, n| as_if(t, r, n, |r| r.marks.fill(n.need as u16))),
    ("what it gave is judged by its marks", |t, r, n| by_its_marks(t, r, n, |d, s| d.giver == s)),
    ("marks on the way count", met_on_the_way),
    ("a condition binds its own receiver", |t, r, n| {
        let met = |now: &Register, d: &Delegation| meets(now.marks_of(d.receiver as u32), d);
        rounds_by(with_marks(r, n), false, |now, d| if met(now, d) { reach_of(t, now, d) } else { NONE })
    }),
    ("what is given to the subject is lifted", |t, r, n| lifted(t, r, n, |d, s| d.receiver == s)),
    ("everything is lifted", |t, r, n| lifted(t, r, n, |_, _| true)),
    ("no round where the marks are the same", |t, r, n| {
        let same = r.marks_of(n.receiver) == n.need as u16;
        if same { (r.clone(), [0, 0, 0]) } else { RIGHT(t, r, n) }
    }),
    ("one round where the marks are the same, and it changes nothing", |t, r, n| {
        let same = r.marks_of(n.receiver) == n.need as u16;
        if same { (r.clone(), [0, 0, 1]) } else { RIGHT(t, r, n) }
    }),
];

/// The same register with other answers.
fn answering(t: &Table, r: &Register, n: &Passed, other: impl Fn([i32; 3]) -> [i32; 3]) -> (Register, [i32; 3]) {
    let (left, answers) = RIGHT(t, r, n);
    (left, other(answers))
}

/// The answers of every round, from the register that it began with.
fn each_round(t: &Table, r: &Register, n: &Passed) -> Vec<[i32; 3]> {
    let mut left = with_marks(r, n);
    let mut all = Vec::new();
    loop {
        let begun = left.clone();
        let changed = round(&FAST, t, &mut left);
        all.push(since(&begun, &left, 1));
        if !changed {
            return all;
        }
    }
}

/// Programs that count otherwise.
const WRONG_COUNTS: [(&str, Change); 11] = [
    ("the last round is not counted", |t, r, n| answering(t, r, n, |[d, l, rounds]| [d, l, rounds - 1])),
    ("a round too many", |t, r, n| answering(t, r, n, |[d, l, rounds]| [d, l, rounds + 1])),
    ("rounds in a byte", |t, r, n| answering(t, r, n, |[d, l, rounds]| [d, l, rounds & 255])),
    ("at most 255 rounds", |t, r, n| answering(t, r, n, |[d, l, rounds]| [d, l, rounds.min(255)])),
    ("dropped and lowered exchanged", |t, r, n| answering(t, r, n, |[d, l, rounds]| [l, d, rounds])),
    ("the dropped are lowered too", |t, r, n| answering(t, r, n, |[d, l, rounds]| [d, l + d, rounds])),
    ("the answers of an enrolment", |t, r, n| answering(t, r, n, |_| [n.receiver as i32, 0, 0])),
    ("lowered counts in every round", |t, r, n| {
        let lowered = each_round(t, r, n).iter().map(|answers| answers[1]).sum();
        answering(t, r, n, |[d, _, rounds]| [d, lowered, rounds])
    }),
    ("the first round's counts", |t, r, n| {
        let first = each_round(t, r, n)[0];
        answering(t, r, n, |[_, _, rounds]| [first[0], first[1], rounds])
    }),
    ("the last round's counts", |t, r, n| answering(t, r, n, |[_, _, rounds]| [0, 0, rounds])),
    ("counts since what the old marks leave", |t, r, n| {
        let (before, _) = settled(t, r.clone());
        let (left, [_, _, rounds]) = RIGHT(t, r, n);
        let counts = since(&before, &left, rounds);
        (left, counts)
    }),
];

#[test]
fn wrong_changes_are_noticed() {
    for (shows, change) in WRONG_MARKS.iter().chain(&WRONG_ROUNDS).chain(&WRONG_COUNTS) {
        let count = noticed_change(*change);
        assert!(count > 1, "{shows}: {count}");
    }
}

/// The block before is kept, and handed out again when the marks are set back.
#[test]
fn what_is_given_back_is_noticed() {
    let mut count = 0;
    for two in cases().windows(2).filter(|two| two.iter().all(|case| case.passed.call == Call::SetMarks)) {
        let [first, second] = [&two[0], &two[1]];
        let Some(before) = decode(block_of(first)) else { continue };
        let left = right(&first.passed, first.lent(), block_of(first)).map(|(left, _)| encode(&left));
        let back = set_marks(0, first.passed.receiver, before.marks_of(first.passed.receiver) as u32);
        if left.as_deref() == Ok(block_of(second)) && second.passed == back {
            count += (shown(second, Ok((before, [0, 0, 1]))) != recorded(&FAST, second)) as u32;
        }
    }
    assert!(count > 40, "{count}");
}

/// The refusals in their order.
const ORDER: [u32; 9] = [1, 2, 4, 6, 7, 17, 8, 9, 14];

/// Two that cannot apply at once.
const APART: [(u32, u32); 4] = [(1, 8), (1, 9), (7, 17), (8, 9)];

/// The first that applies in another order.
fn refused_in(order: &[u32], case: &Case) -> Answer {
    let all = applying(&FAST, &case.passed, case.lent(), block_of(case), 0);
    match order.iter().find(|number| all.contains(number)) {
        Some(&number) => Err(number),
        None => right(&case.passed, case.lent(), block_of(case)),
    }
}

/// Each refusal straight before each that comes before it.
#[test]
fn another_order_of_refusals_is_noticed() {
    assert_eq!(noticed(|case| shown(case, refused_in(&ORDER, case))), 0);
    for (at, later) in ORDER.into_iter().enumerate() {
        for (place, earlier) in ORDER[..at].iter().enumerate() {
            let mut order = ORDER.to_vec();
            order[place..=at].rotate_right(1);
            let count = noticed(|case| shown(case, refused_in(&order, case)));
            let next_apart = at == place + 1 && APART.contains(&(*earlier, later));
            assert_eq!(count > 0, !next_apart, "{later} before {earlier}");
        }
    }
}

/// The right program for other numbers than were passed.
fn with_numbers(case: &Case, numbers: impl Fn(Passed) -> Passed) -> Answer {
    right(&numbers(case.passed), case.lent(), block_of(case))
}

/// Another answer in the place of a refusal.
fn instead(case: &Case, number: u32, other: fn(&Case) -> Answer) -> Answer {
    let answer = right(&case.passed, case.lent(), block_of(case));
    if answer == Err(number) { other(case) } else { answer }
}

/// By the owner where the one who calls is let pass.
fn letting(case: &Case, pass: fn(&Passed, &Register) -> bool) -> Answer {
    let n = case.passed;
    let passes = decode(block_of(case)).is_some_and(|register| register.enrolled(n.by) && pass(&n, &register));
    with_numbers(case, |n| if passes { Passed { by: 0, ..n } } else { n })
}

/// The register as it was, with no answers.
fn untouched(case: &Case) -> Answer {
    Ok((decode(block_of(case)).unwrap_or(Register::fresh()), [0, 0, 0]))
}

type Program = fn(&Case) -> Answer;

/// Programs that refuse otherwise.
const WRONG_REFUSALS: [(&str, Program); 26] = [
    ("the subject may set its own marks", |case| letting(case, |n, _| n.by == n.receiver)),
    ("anyone may", |case| letting(case, |_, _| true)),
    ("those who gave to the subject may", |case| letting(case, |n, r| r.standing(n.by, n.receiver).is_some())),
    ("those to whom the owner gave may", |case| letting(case, |n, r| r.standing(0, n.by).is_some())),
    ("nobody may", |case| with_numbers(case, |n| Passed { by: if n.by == 0 { 1 } else { n.by }, ..n })),
    ("by is not looked at", |case| with_numbers(case, |n| Passed { by: 0, ..n })),
    ("by keeps 6 bits", |case| with_numbers(case, |n| Passed { by: n.by & 63, ..n })),
    ("by keeps 8 bits", |case| with_numbers(case, |n| Passed { by: n.by & 255, ..n })),
    ("by keeps 16 bits", |case| with_numbers(case, |n| Passed { by: n.by & 65_535, ..n })),
    ("subjects keep 6 bits", |case| with_numbers(case, |n| Passed { receiver: n.receiver & 63, ..n })),
    ("subjects keep 8 bits", |case| with_numbers(case, |n| Passed { receiver: n.receiver & 255, ..n })),
    ("subjects keep 16 bits", |case| with_numbers(case, |n| Passed { receiver: n.receiver & 65_535, ..n })),
    ("marks keep 16 bits", |case| with_numbers(case, |n| Passed { need: n.need & 65_535, ..n })),
    ("marks of 65,536 are all marks", |case| with_numbers(case, |n| Passed { need: n.need.min(65_535), ..n })),
    ("by and subject exchanged", |case| with_numbers(case, |n| Passed { by: n.receiver, receiver: n.by, ..n })),
    ("the owner's marks are let pass", |case| instead(case, 6, untouched)),
    ("14 in the place of 6", |case| instead(case, 6, |_| Err(14))),
    ("6 in the place of 14", |case| instead(case, 14, |_| Err(6))),
    ("9 in the place of 2", |case| instead(case, 2, |_| Err(9))),
    ("a subject that isn't enrolled is let pass", |case| instead(case, 9, untouched)),
    ("by need not be enrolled", |case| instead(case, 9, |case| with_numbers(case, |n| Passed { by: 0, ..n }))),
    ("a text of another form is ours", |case| instead(case, 7, |case| right(&case.passed, b"", block_of(case)))),
    ("a table that breaks a rule is ours", |case| instead(case, 17, |case| right(&case.passed, b"", block_of(case)))),
    ("17 in the place of 7", |case| instead(case, 7, |_| Err(17))),
    ("a block that is not well formed is let pass", |case| instead(case, 8, |_| Ok((Register::fresh(), [0, 0, 1])))),
    ("a register that is not supported is refused", |case| {
        let settles = |register: &Register| settled(&OURS, register.clone()).1 == [0, 0, 1];
        let answer = right(&case.passed, case.lent(), block_of(case));
        if decode(block_of(case)).is_some_and(|register| !settles(&register)) { Err(18) } else { answer }
    }),
];

#[test]
fn wrong_refusals_are_noticed() {
    for (shows, program) in WRONG_REFUSALS {
        let count = noticed(|case| shown(case, program(case)));
        assert!(count > 2, "{shows}: {count}");
    }
}

/// A refused call that sets the marks, and one that runs the rounds.
#[test]
fn refused_calls_that_change_are_noticed() {
    let set: Change = |_, r, n| (with_other(r, n.receiver, n.need as u16), [0, 0, 0]);
    let changes: [Change; 2] = [set, |t, r, _| settled(t, r.clone())];
    for change in changes {
        let program = |case: &Case| {
            let refusal = right(&case.passed, case.lent(), block_of(case)).err().unwrap_or(0);
            let before = block_of(case);
            match decode(before).filter(|_| refusal != 0) {
                Some(register) => {
                    let (left, _) = change(&OURS, &register, &case.passed);
                    left_line(&Outcome { refusal, answers: [0, 0, 0] }, before, &encode(&left))
                }
                None => recorded(&FAST, case),
            }
        };
        assert!(noticed(program) > 10);
    }
}
