//! Marks that change, document 02's C-15: every remainder under the new marks, a literal
//! reading of the call, the examples, and that nothing is lifted.

use super::{lent, ours, same, Draw};
use crate::cuts::tiny_registers;
use crate::faults::{ONE_ROUND, TEXT_LEFT_OUT, VISITED_ONCE};
use crate::markfaults::{WRONG_MARKS, WRONG_ROUNDS};
use crate::relaxed::RELAXED;
use generate::markregisters::{example, examples, falling_pair, full_under_marks, round_by_round};
use generate::{broken, deep, full, marks, refusals, register, rounds, set_marks, slow, texts, unsupported};
use second::block::{decode, encode, Delegation, Register, BLOCK_LEN, MARKS_AT, ZERO_AT};
use second::call::{self, run, run_table};
use second::chain::{literal_reach, NONE};
use second::cut::settle;
use second::engine::{Engine, FAST, LITERAL};
use second::random::{random_register, random_table, Random, Shape};
use second::refusal::Passed;
use second::remainder::{check_best, is_supported};
use second::table::{Table, OURS};

/// What the call leaves and answers; here it is accepted.
fn set(engine: &Engine, table: &Table, register: &Register, n: &Passed) -> (Register, [i32; 3]) {
    let mut block = encode(register);
    let outcome = run_table(engine, n, &lent(table), &mut block);
    assert_eq!(outcome.refusal, 0, "{n:?}");
    (decode(&block).expect("a well-formed block"), outcome.answers)
}

/// The register after the marks are set and before the rounds.
pub fn with_marks(register: &Register, n: &Passed) -> Register {
    let mut changed = register.clone();
    changed.marks[n.receiver as usize] = n.need as u16;
    changed
}

/// Marks of the lowest three for some subject.
fn drawn(random: &mut Random, register: &Register) -> Passed {
    set_marks(0, random.range(1, register.marks.len() as u32 - 1), random.below(8))
}

/// What a program makes of a table, a register and a call that it accepts.
pub type Change = fn(&Table, &Register, &Passed) -> (Register, [i32; 3]);

const CALL: Change = |table, register, n| set(&FAST, table, register, n);

/// Tiny registers, and what the rounds leave of some under the marks before; the example and
/// one of more rounds, for many marks.
fn tiny() -> Vec<Register> {
    let mut registers = tiny_registers();
    for at in (0..registers.len()).step_by(3) {
        settle(&FAST, &OURS, &mut registers[at]);
    }
    [registers, vec![example(); 60], vec![round_by_round(); 60]].concat()
}

/// A program leaves the best of all remainders under the new marks. Answers how many were
/// compared.
fn best_remainder(program: Change, draw: Draw, registers: &[Register]) -> Result<u64, String> {
    let mut random = Random::new(0x3A4C0);
    let mut compared = 0;
    for register in registers {
        let (table, n) = (draw(&mut random), drawn(&mut random, register));
        compared += check_best(&table, &with_marks(register, &n), &program(&table, register, &n).0)?;
    }
    Ok(compared)
}

#[test]
fn the_best_remainder_is_left() {
    assert!(best_remainder(CALL, ours, &tiny()).unwrap() > 300_000);
    assert!(best_remainder(CALL, random_table, &tiny()).unwrap() > 150_000);
}

/// Every subject with every set of the two marks that conditions name and of one more.
#[test]
fn the_best_remainder_is_left_whatever_the_marks() {
    let mut compared = 0;
    for register in tiny().iter().take(400) {
        let subjects = 1..register.marks.len() as u32;
        for n in subjects.flat_map(|subject| (0..8).map(move |marks| set_marks(0, subject, marks))) {
            let (left, _) = CALL(&OURS, register, &n);
            compared += check_best(&OURS, &with_marks(register, &n), &left).unwrap();
        }
    }
    assert!(compared > 100_000, "{compared}");
}

/// Programs that leave the same of tiny registers: they differ in how many rounds there are,
/// under other tables, or in high marks.
const AS_LEFT: [&str; 4] = [
    "weights are replaced in turn", "ours in the place of the lent table", "the low byte alone is set",
    "the highest mark is left out",
];

#[test]
fn faults_leave_another_remainder() {
    let some: Vec<Register> = tiny().into_iter().step_by(5).collect();
    for (shows, change) in WRONG_MARKS.iter().chain(&WRONG_ROUNDS) {
        assert_eq!(best_remainder(*change, ours, &some).is_ok(), AS_LEFT.contains(shows), "{shows}");
    }
    assert!(best_remainder(|_, register, n| CALL(&OURS, register, n), random_table, &some).is_err());
}

/// Dropped and lowered from one register to another.
pub fn since(begun: &Register, left: &Register, rounds: i32) -> [i32; 3] {
    let now = |d: &Delegation| left.standing(d.giver as u32, d.receiver as u32).map(|d| d.weight);
    let dropped = begun.delegations.iter().filter(|d| now(d).is_none()).count();
    let lowered = begun.delegations.iter().filter(|d| now(d).is_some_and(|weight| weight < d.weight)).count();
    [dropped as i32, lowered as i32, rounds]
}

/// Rounds in which each weight becomes the smaller of itself and what is judged; by the
/// register as the round began, or in turn, by what those before became. The first round
/// that changes nothing is the last and counts.
pub fn rounds_by(
    begun: Register,
    in_turn: bool,
    judged: impl Fn(&Register, &Delegation) -> i16,
) -> (Register, [i32; 3]) {
    let (mut left, mut rounds) = (begun.clone(), 0);
    loop {
        rounds += 1;
        let mut after = left.clone();
        for d in &left.delegations {
            let allowed = judged(if in_turn { &after } else { &left }, d);
            let at = after.place(d.giver as u32, d.receiver as u32).expect("the pair stands");
            match allowed {
                NONE => drop(after.delegations.remove(at)),
                allowed => after.delegations[at].weight = d.weight.min(allowed as u8),
            }
        }
        if after == left {
            let answers = since(&begun, &left, rounds);
            return (left, answers);
        }
        left = after;
    }
}

/// The call, sentence by sentence: the marks are set, then rounds follow, and reach is that
/// of all chains.
fn literally(table: &Table, register: &Register, n: &Passed) -> (Register, [i32; 3]) {
    let reach = |now: &Register, d: &Delegation| literal_reach(table, now, d.giver as u32, d.receiver as u32);
    rounds_by(with_marks(register, n), false, reach)
}

/// Small registers, a third of them supported under the marks before.
fn small(random: &mut Random, table: &Table) -> Register {
    let shape = Shape {
        subjects: random.range(3, 7),
        delegations: random.range(3, 16),
        weights: random.pick(&[&[1, 2, 3, 9, 255, 255][..], &[255][..], &[9, 8, 7, 6]]),
        marks: 7,
        conditions: random.pick(&[20, 60]),
    };
    let mut register = random_register(random, &shape);
    if random.chance(33) {
        settle(&FAST, table, &mut register);
    }
    register
}

/// What is left and answered, by an engine and by the literal reading. Answers the most
/// rounds.
fn same_as_literally(engine: &Engine, draw: Draw) -> Result<i32, String> {
    let mut random = Random::new(0x3A4C1);
    let mut most = 0;
    for _ in 0..3000 {
        let table = draw(&mut random);
        let register = small(&mut random, &table);
        let n = drawn(&mut random, &register);
        let due = literally(&table, &register, &n);
        most = most.max(due.1[2]);
        same("left and answered", set(engine, &table, &register, &n), due)?;
    }
    Ok(most)
}

#[test]
fn the_call_is_literal() {
    for draw in [ours, random_table as Draw] {
        assert!(same_as_literally(&FAST, draw).unwrap() >= 4);
        assert!(same_as_literally(&LITERAL, draw).is_ok());
        assert!(same_as_literally(&ONE_ROUND, draw).is_err());
        assert!(same_as_literally(&VISITED_ONCE, draw).is_err());
    }
    assert!(same_as_literally(&TEXT_LEFT_OUT, random_table).is_err());
}

/// Giver, receiver and weight of every delegation left.
fn weights(register: &Register) -> Vec<(u8, u8, u8)> {
    register.delegations.iter().map(|d| (d.giver, d.receiver, d.weight)).collect()
}

/// The line of each call of an example after its grants, and what is left at the end.
fn lines(engine: &Engine, name: &str) -> (Vec<(u32, [i32; 3])>, Vec<(u8, u8, u8)>) {
    let example = examples().into_iter().find(|example| example.name == name).expect("an example");
    let mut block = encode(&Register::fresh());
    let mut lines = Vec::new();
    for n in example.calls() {
        let outcome = run(engine, &n, &mut block);
        lines.push((outcome.refusal, outcome.answers));
    }
    let then = lines.split_off(example.marks.len() + example.grants.len());
    assert!(lines.iter().all(|(refusal, _)| *refusal == 0), "{name}");
    (then, weights(&decode(&block).expect("a well-formed block")))
}

#[test]
fn the_examples_hold() {
    let answered = |answers: [i32; 3]| (0, answers);
    let lost = [[1, 1, 3], [0, 0, 1], [0, 0, 1], [1, 0, 0], [4, 0, 0], [4, 0, 0], [4, 0, 0], [0, 1, 2], [0, 0, 1]];
    let twice = [[2, 0, 3], [1, 0, 2], [-1, 0, 0]];
    for engine in [&FAST, &LITERAL] {
        let of = |name: &str| lines(engine, name);
        let left = vec![(0, 1, 6), (0, 2, 2), (1, 2, 5), (2, 3, 1)];
        assert_eq!(of("a needed mark is lost and gained"), (lost.map(answered).to_vec(), left));
        let one_way = [[2, 0, 3], [0, 0, 1], [5, 0, 0], [-1, 0, 0]];
        assert_eq!(of("the only way is lost"), (one_way.map(answered).to_vec(), vec![(0, 1, 6)]));
        let whole = vec![(0, 1, 6), (0, 2, 2), (1, 2, 5), (2, 3, 4)];
        assert_eq!(of("a giver's marks"), ([[0, 0, 1]; 4].map(answered).to_vec(), whole));
        let barred = [[0, 1, 2], [0, 0, 1], [1, 0, 2], [0, 0, 1], [5, 0, 0], [1, 0, 0]];
        let left = vec![(0, 1, 6), (0, 2, 2), (2, 3, 1)];
        assert_eq!(of("a barred mark is gained and lost"), (barred.map(answered).to_vec(), left));
        let left = vec![(0, 3, 9), (0, 4, 9), (4, 1, 8)];
        assert_eq!(of("lost, and lost again"), (twice.map(answered).to_vec(), left));
    }
}

/// Grants, cuts and refused calls between.
#[test]
fn the_mixed_example_holds() {
    let first = [(0, [0, 1, 2]), (0, [1, 0, 2]), (14, [0; 3]), (14, [0; 3]), (0, [3, 0, 0]), (6, [0; 3])];
    let second = [(0, [0, 0, 1]), (0, [4, 0, 0]), (0, [0, 1, 2]), (9, [0; 3]), (4, [0; 3]), (0, [2, 0, 3])];
    let due = [&first[..], &second, &[(2, [0; 3]), (0, [-1, 0, 0])]].concat();
    assert_eq!(lines(&FAST, "grants, cuts and marks"), (due, vec![(0, 1, 6), (0, 3, 3)]));
}

/// After the first call, between and after the second: the registers of the example.
#[test]
fn the_example_is_left_as_given() {
    let (left, answers) = set(&FAST, &OURS, &example(), &set_marks(0, 2, 0));
    assert_eq!((weights(&left), answers), (vec![(0, 1, 6), (0, 2, 2), (2, 3, 1)], [1, 1, 3]));
    assert_eq!(left.marks, [0, 0, 0, 1]);
    let (again, answers) = set(&FAST, &OURS, &left, &set_marks(0, 2, 1));
    assert_eq!((weights(&again), answers), (weights(&left), [0, 0, 1]));
    assert_eq!(again.marks, [0, 0, 1, 1]);
}

/// Only the two bytes of the subject's marks change, whatever they become: 0-1 needs a mark
/// that 1 need not have.
#[test]
fn a_giver_may_have_any_marks() {
    let before = encode(&example());
    let place = MARKS_AT + 2;
    for marks in 0..=65_535u32 {
        let mut block = before.clone();
        let outcome = call::set_marks(&mut block, 0, 1, marks);
        assert_eq!((outcome.refusal, outcome.answers), (0, [0, 0, 1]));
        assert_eq!(block[place..place + 2], marks.to_le_bytes()[..2]);
        assert!(block[..place] == before[..place] && block[place + 2..] == before[place + 2..]);
    }
}

/// The marks that stand: no byte changes where all is supported, and else the rounds count.
#[test]
fn the_same_marks_run_their_round() {
    let same_marks = |register: &Register, subject: u32| set_marks(0, subject, register.marks_of(subject) as u32);
    for register in [example(), falling_pair(), full_under_marks(), rounds::built(), full::all_enrolled()] {
        for subject in 1..register.marks.len() as u32 {
            let n = same_marks(&register, subject);
            assert_eq!(set(&FAST, &OURS, &register, &n), (register.clone(), [0, 0, 1]));
        }
    }
    let (left, answers) = set(&FAST, &OURS, &refusals::unsupported(), &set_marks(0, 4, 3));
    assert_eq!((weights(&left), answers), (vec![(0, 1, 2), (1, 2, 1), (2, 3, 0)], [1, 2, 2]));
    let mut random = Random::new(0x3A4C2);
    for _ in 0..300 {
        let register = unsupported::random_unsupported(&mut random);
        let mut due = register.clone();
        let counts = settle(&LITERAL, &OURS, &mut due);
        let (left, answers) = set(&FAST, &OURS, &register, &same_marks(&register, 1));
        assert_eq!(left, due);
        assert_eq!(answers, [counts.dropped, counts.lowered, counts.rounds].map(|count| count as i32));
        assert!(answers[0] + answers[1] > 0);
    }
}

/// Every delegation left stood before, no lighter, under the same condition, and is
/// supported; no other subject's marks change. Answers how many were dropped or lowered.
fn nothing_lifted(register: &Register, n: &Passed, table: &Table) -> i32 {
    let (left, [dropped, lowered, _]) = set(&FAST, table, register, n);
    assert_eq!(left.marks, with_marks(register, n).marks);
    for d in &left.delegations {
        let before = register.standing(d.giver as u32, d.receiver as u32).expect("no new delegation");
        assert!((before.need, before.bar) == (d.need, d.bar) && before.weight >= d.weight);
    }
    let reaches = (RELAXED.reaches)(table, &left);
    assert!(left.delegations.iter().zip(reaches).all(|(d, reach)| d.weight as i16 <= reach));
    assert_eq!(register.delegations.len() - left.delegations.len(), dropped as usize);
    dropped + lowered
}

#[test]
fn nothing_is_lifted() {
    let mut random = Random::new(0x3A4C3);
    let mut lost = 0;
    for at in 0..400 {
        let table = if at % 2 == 0 { OURS } else { random_table(&mut random) };
        let large = full::large(&mut random);
        for register in [deep::random_start(&mut random), large] {
            lost += nothing_lifted(&register, &drawn(&mut random, &register), &table);
        }
    }
    assert!(lost > 10_000, "{lost}");
}

/// Marks of subjects on the way play no part: 1 and 2 may have any, and 0-1's condition is
/// met by 3 alone.
#[test]
fn only_the_receivers_marks_count() {
    let register = register(&[0, 0, 0, 1], &[(0, 1, 9, 1, 0), (0, 2, 8, 0, 1), (1, 3, 8, 0, 0), (3, 2, 5, 0, 0)]);
    assert!(!is_supported(&OURS, &register));
    let (left, answers) = set(&FAST, &OURS, &register, &set_marks(0, 2, 1));
    assert_eq!((weights(&left), answers), (weights(&register), [0, 0, 1]));
    for marks in [0, 2, 65_534] {
        let (left, answers) = set(&FAST, &OURS, &register, &set_marks(0, 2, marks));
        assert_eq!((weights(&left), answers), (vec![(0, 1, 9), (0, 2, 8), (1, 3, 8)], [1, 0, 2]));
    }
    for marks in [0, 1, 65_535] {
        let left = set(&FAST, &OURS, &left, &set_marks(0, 1, marks));
        assert_eq!((weights(&left.0), left.1), (weights(&register), [0, 0, 1]));
    }
}

/// Hundreds of rounds, by two searches.
#[test]
fn rounds_can_be_many() {
    for engine in [&FAST, &RELAXED] {
        assert_eq!(set(engine, &OURS, &round_by_round(), &set_marks(0, 2, 0)).1, [3, 0, 4]);
        assert_eq!(set(engine, &OURS, &rounds::built(), &rounds::FIRST_MARKS).1, [233, 0, 486]);
        assert_eq!(set(engine, &OURS, &falling_pair(), &set_marks(0, 2, 0)).1, [3, 0, 255]);
        for (slow, (subject, marks, rounds)) in slow::SLOW.iter().zip(marks::SLOW) {
            let register = decode(&slow.block()).expect("a well-formed block");
            assert_eq!(set(engine, &OURS, &register, &set_marks(0, subject, marks)).1[2], rounds);
        }
    }
}

/// The first that applies of 1, 2, 4, 6, 7, 17, 8, 9 and 14.
#[test]
fn refusals_come_in_their_order() {
    let [malformed, bad] = texts::refused_at_the_end();
    let good = encode(&broken::valid());
    let mut spoilt = good.clone();
    spoilt[ZERO_AT] = 1;
    let due: [(u32, (u32, u32, u32), &[u8], &[u8]); 14] = [
        (1, (64, 0, 65_536), &malformed, &spoilt[..BLOCK_LEN - 1]),
        (2, (64, 0, 65_536), &malformed, &spoilt),
        (2, (0, 64, 65_536), &malformed, &spoilt),
        (4, (5, 0, 65_536), &malformed, &spoilt),
        (6, (5, 0, 65_535), &malformed, &spoilt),
        (6, (1, 0, 0), b"", &good),
        (7, (5, 1, 0), &malformed, &spoilt),
        (17, (5, 1, 0), &bad, &spoilt),
        (8, (5, 1, 0), b"", &spoilt),
        (9, (5, 1, 0), b"", &good),
        (9, (1, 5, 0), b"", &good),
        (14, (1, 2, 0), b"", &good),
        (14, (2, 2, 9), b"", &good),
        (0, (0, 2, 9), b"", &good),
    ];
    for (number, (by, subject, marks), text, block) in due {
        let mut left = block.to_vec();
        let outcome = run_table(&FAST, &set_marks(by, subject, marks), text, &mut left);
        assert_eq!((outcome.refusal, &left[..]), (number, block), "{by} {subject} {marks}");
    }
}
