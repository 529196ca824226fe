//! Cuts against all remainders, enumerated, under our step table and under drawn
//! ones, and the counting case.

use super::{ours, same, Draw};
use crate::faults::{ONE_ROUND, TEXT_LEFT_OUT, VISITED_ONCE};
use crate::relaxed::RELAXED;
use generate::{examples, register, rounds, slow};
use second::block::{decode, encode, Register};
use second::call::run;
use second::cut::{settle, Counts};
use second::engine::{Engine, FAST, LITERAL};
use second::random::{random_register, random_table, Random, Shape};
use second::remainder::{candidates, check_best};
use second::table::OURS;

/// Registers after a named change with at most so many candidates.
fn tiny(random: &mut Random, weights: &[u8], most: u64) -> Register {
    loop {
        let shape = Shape {
            subjects: random.range(3, 5),
            delegations: random.range(2, 9),
            weights,
            marks: 3,
            conditions: random.pick(&[0, 40, 80]),
        };
        let register = random_register(random, &shape);
        if candidates(&register) <= most {
            return register;
        }
    }
}

pub fn tiny_registers() -> Vec<Register> {
    let mut random = Random::new(0x4E3A);
    let mut registers = Vec::new();
    registers.extend((0..1500).map(|_| tiny(&mut random, &[0, 1, 2, 3], 3000)));
    registers.extend((0..200).map(|_| tiny(&mut random, &[0, 1, 2, 3, 255], 70_000)));
    registers.extend((0..60).map(|_| tiny(&mut random, &[255, 255, 1], 300_000)));
    registers.push(waiting_pair());
    registers.push(three_rounds());
    registers.push(unlimited());
    registers
}

/// Two unlimited delegations, each supported through a finite one whose
/// condition only its own receiver meets.
fn waiting_pair() -> Register {
    register(&[0, 1, 2], &[(0, 1, 1, 1, 0), (0, 2, 2, 2, 0), (1, 2, 255, 0, 0), (2, 1, 255, 0, 0)])
}

/// Two unlimited delegations, of which only one has a chain from the owner.
fn unlimited() -> Register {
    register(&[0, 1, 2], &[(0, 1, 255, 2, 0), (1, 2, 255, 0, 0), (2, 1, 255, 0, 0)])
}

/// P5 after its named change, with smaller weights.
fn three_rounds() -> Register {
    let grants = [(0, 1, 3, 1, 0), (1, 3, 2, 0, 0), (0, 2, 1, 0, 0), (2, 3, 4, 0, 0), (3, 5, 3, 0, 0), (5, 4, 2, 0, 0)];
    register(&[0, 0, 0, 1, 1, 0], &grants)
}

/// The rounds leave the best remainder of every register. Answers how many
/// remainders were compared.
fn best_remainder(engine: &Engine, draw: Draw, registers: Vec<Register>) -> Result<u64, String> {
    let mut random = Random::new(0x7AB1E);
    let mut compared = 0;
    for start in registers {
        let table = draw(&mut random);
        let mut left = start.clone();
        settle(engine, &table, &mut left);
        compared += check_best(&table, &start, &left)?;
    }
    Ok(compared)
}

#[test]
fn rounds_leave_the_best_remainder() {
    assert!(best_remainder(&FAST, ours, tiny_registers()).unwrap() > 500_000);
}

#[test]
fn rounds_leave_the_best_remainder_under_drawn_tables() {
    assert!(best_remainder(&FAST, random_table, tiny_registers()).unwrap() > 200_000);
    assert!(best_remainder(&FAST, random_table, vec![three_rounds(); 300]).unwrap() > 5000);
}

#[test]
fn fault_one_round_leaves_no_remainder() {
    assert!(best_remainder(&ONE_ROUND, ours, tiny_registers()).is_err());
    assert!(best_remainder(&ONE_ROUND, random_table, vec![three_rounds(); 300]).is_err());
}

#[test]
fn fault_visited_once_leaves_another_remainder() {
    assert!(best_remainder(&VISITED_ONCE, ours, tiny_registers()).is_err());
    assert!(best_remainder(&VISITED_ONCE, random_table, tiny_registers()).is_err());
}

#[test]
fn fault_text_left_out_leaves_another_remainder() {
    assert!(best_remainder(&TEXT_LEFT_OUT, random_table, tiny_registers()).is_err());
}

/// Random registers cut with an engine and with the definition.
fn same_cuts(engine: &Engine, draw: Draw) -> Result<u32, String> {
    let mut random = Random::new(0xC07C07);
    let mut most = 0;
    for _ in 0..3000 {
        let shape = Shape {
            subjects: random.range(3, 7),
            delegations: random.range(3, 16),
            weights: random.pick(&[&[1, 2, 3, 9, 255, 255][..], &[255][..]]),
            marks: 3,
            conditions: random.pick(&[20, 60]),
        };
        let start = random_register(&mut random, &shape);
        let table = draw(&mut random);
        let (mut found, mut due) = (start.clone(), start);
        let counts = settle(&LITERAL, &table, &mut due);
        same("counts", settle(engine, &table, &mut found), counts)?;
        same("left", found, due)?;
        most = most.max(counts.rounds);
    }
    Ok(most)
}

#[test]
fn cuts_are_literal() {
    for draw in [ours, random_table as Draw] {
        assert!(same_cuts(&FAST, draw).unwrap() >= 4);
        assert!(same_cuts(&ONE_ROUND, draw).is_err());
        assert!(same_cuts(&VISITED_ONCE, draw).is_err());
    }
    assert!(same_cuts(&TEXT_LEFT_OUT, random_table).is_err());
}

/// The numbers that are given for the counting case.
fn counting_case(engine: &Engine) -> Result<(), String> {
    for (weight, rounds) in [(0, 3), (5, 6), (254, 172)] {
        let mut block = encode(&Register::fresh());
        let mut answers = Vec::new();
        for n in examples::counting(weight).calls() {
            let outcome = run(engine, &n, &mut block);
            same("refusal", outcome.refusal, 0)?;
            answers.push(outcome.answers);
        }
        same("the two cuts", &answers[answers.len() - 2..], &[[0, 0, 1], [3, 0, rounds]][..])?;
        let left = decode(&block).ok_or("not well formed")?;
        let pairs: Vec<(u8, u8)> = left.delegations.iter().map(|d| d.pair()).collect();
        same("left", pairs, vec![(0, 1), (0, 4), (4, 2)])?;
    }
    Ok(())
}

#[test]
fn counting_case_is_counted() {
    assert_eq!(counting_case(&FAST), Ok(()));
    assert_eq!(counting_case(&LITERAL), Ok(()));
    assert!(counting_case(&ONE_ROUND).is_err());
}

/// From accepted enrolments and grants alone.
#[test]
fn a_cut_of_485_rounds() {
    let mut block = encode(&Register::fresh());
    for n in rounds::calls() {
        assert_eq!(run(&FAST, &n, &mut block).refusal, 0, "{n:?}");
    }
    assert_eq!(decode(&block), Some(rounds::built()));
    let mut left = rounds::built();
    assert_eq!(settle(&FAST, &OURS, &mut left), Counts { dropped: 0, lowered: 0, rounds: 1 });
    for engine in [&FAST, &RELAXED] {
        let mut block = block.clone();
        assert_eq!(run(engine, &rounds::FIRST_CUT, &mut block).answers, [232, 0, 485]);
    }
}

/// Each slow cut is accepted, takes its rounds, and leaves what another search leaves.
#[test]
fn slow_cuts_take_their_rounds() {
    for slow in &slow::SLOW {
        let (mut fast, mut relaxed) = (slow.block().to_vec(), slow.block().to_vec());
        let outcome = run(&FAST, &slow.cut(), &mut fast);
        assert_eq!((outcome.refusal, outcome.answers[2]), (0, slow.rounds as i32));
        assert_eq!(run(&RELAXED, &slow.cut(), &mut relaxed).answers, outcome.answers);
        assert_eq!(fast, relaxed);
    }
}

/// The downgraded delegation is compared with its new weight.
#[test]
fn downgraded_below_its_new_weight_counts() {
    let mut block = encode(&register(&[0, 0, 0], &[(0, 1, 3, 0, 0), (1, 2, 9, 0, 0)]));
    let outcome = second::call::downgrade(&mut block, 1, 1, 2, 5);
    assert_eq!((outcome.refusal, outcome.answers), (0, [0, 1, 2]));
    let outcome = second::call::downgrade(&mut block, 1, 1, 2, 1);
    assert_eq!((outcome.refusal, outcome.answers), (0, [0, 0, 1]));
    let mut block = encode(&register(&[0, 0, 0], &[(1, 2, 9, 0, 0), (2, 1, 9, 0, 0)]));
    let outcome = second::call::downgrade(&mut block, 0, 1, 2, 5);
    assert_eq!((outcome.refusal, outcome.answers), (0, [2, 0, 2]));
}
