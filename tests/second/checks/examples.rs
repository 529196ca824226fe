//! P1 to P8 with every number that document 01 prints.

use super::same;
use crate::faults::{ONE_ROUND, VISITED_ONCE};
use generate::examples::{proved, Example};
use second::block::{decode, encode, Register};
use second::call::run;
use second::engine::{Engine, FAST, LITERAL};

type Line = (u32, [i32; 3]);

/// Giver, receiver and weight of every delegation left.
type Left = Vec<(u8, u8, u8)>;

/// Runs an example. Its enrolments and grants must be accepted.
fn outcome(engine: &Engine, example: &Example) -> Result<(Vec<Line>, Left), String> {
    let mut block = encode(&Register::fresh());
    let mut lines = Vec::new();
    let built = example.marks.len() + example.grants.len();
    for (at, n) in example.calls().iter().enumerate() {
        let outcome = run(engine, n, &mut block);
        match at < built {
            true => same(example.name, outcome.refusal, 0)?,
            false => lines.push((outcome.refusal, outcome.answers)),
        }
    }
    let register = decode(&block).ok_or("not well formed")?;
    let left = register.delegations.iter().map(|d| (d.giver, d.receiver, d.weight)).collect();
    Ok((lines, left))
}

fn due(name: &str) -> (Vec<Line>, Option<Left>) {
    let one = |first: i32| (0, [first, 0, 0]);
    match name {
        "P1" => (vec![(0, [2, 0, 2]), one(0)], Some(vec![])),
        "P2" => (vec![(0, [1, 1, 2])], Some(vec![(0, 2, 3), (2, 3, 2), (3, 4, 1)])),
        "P3 with mark 1" => (vec![one(4)], None),
        "P3 without mark 1" => (vec![one(1)], None),
        "P4" => (vec![one(0)], None),
        "P5" => {
            let left = vec![(0, 1, 6), (0, 2, 2), (1, 3, 5), (2, 3, 1), (3, 5, 0)];
            (vec![(0, [1, 2, 3])], Some(left))
        }
        "P6" => (vec![one(255)], Some(vec![])),
        "P7" => (vec![one(-1)], None),
        _ => (vec![one(253), (16, [0, 0, 0]), one(2)], Some(vec![(0, 1, 254), (1, 2, 253)])),
    }
}

fn examples(engine: &Engine) -> Result<(), String> {
    for example in proved() {
        let (lines, left) = outcome(engine, &example)?;
        let (lines_due, left_due) = due(example.name);
        same(example.name, lines, lines_due)?;
        if let Some(left_due) = left_due {
            same(example.name, left, left_due)?;
        }
    }
    Ok(())
}

#[test]
fn examples_hold() {
    assert_eq!(proved().len(), 9);
    assert_eq!(examples(&FAST), Ok(()));
    assert_eq!(examples(&LITERAL), Ok(()));
}

/// P5 keeps 5-4 at 3.
#[test]
fn fault_one_round_fails_the_examples() {
    assert!(examples(&ONE_ROUND).unwrap_err().starts_with("P5"));
}

#[test]
fn fault_visited_once_fails_the_examples() {
    assert!(examples(&VISITED_ONCE).is_err());
}
