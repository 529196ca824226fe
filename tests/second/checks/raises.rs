//! Grants for standing pairs: document 02, C-12.

use super::{lent, ours, same, Draw};
use crate::faults::{TEXT_LEFT_OUT, VISITED_ONCE};
use generate::raises::{above_reach, around, examples, full_with_room, otherwise, with_room};
use generate::{full, grant, register, texts};
use second::block::{decode, encode, Delegation, Register, RECORDS_AT, RECORD_LEN, WEIGHT};
use second::call::{self, run, run_table, Outcome};
use second::chain::literal_reach;
use second::cut::settle;
use second::engine::{Engine, FAST, LITERAL};
use second::host::host_call;
use second::random::{random_register, random_table, Random, Shape};
use second::refusal::Passed;
use second::remainder::is_supported;
use second::table::{Table, OURS};

type Line = (u32, [i32; 3]);

/// The line of each call of an example after its grants.
fn lines(engine: &Engine, at: usize) -> Vec<Line> {
    let example = &examples()[at];
    let mut block = encode(&Register::fresh());
    let mut lines = Vec::new();
    for n in example.calls() {
        let outcome = run(engine, &n, &mut block);
        lines.push((outcome.refusal, outcome.answers));
    }
    lines.split_off(example.marks.len() + example.grants.len())
}

fn refused(number: u32) -> Line {
    (number, [0, 0, 0])
}

fn answered(first: i32) -> Line {
    (0, [first, 0, 0])
}

/// Both engines answer an example with these lines.
fn answers(at: usize, due: &[Line]) {
    for engine in [&FAST, &LITERAL] {
        assert_eq!(lines(engine, at), due);
    }
}

/// 0-1:5, 1-2:4, 2-3:2. 2-3 is raised to 3, 1-2 is not raised to 5, and the same
/// weight, a smaller one and another need get 11. 0-1 is raised to 9, and 1-2 to 8.
#[test]
fn raises_within_the_reach_and_above_it() {
    let due = [
        answered(3), refused(16), refused(11), refused(11), refused(11), answered(3), answered(3), answered(3),
        answered(7),
    ];
    answers(0, &due);
}

/// 2-3 can be raised once 1-2 was, and that once 0-1 was.
#[test]
fn a_customers_raise_waits_for_the_dealers() {
    let due = [
        refused(16), refused(16), answered(3), refused(16), answered(3), answered(3), answered(3), refused(11),
        answered(255),
    ];
    answers(1, &due);
}

/// All three are raised, and 0-1 downgraded lowers the other two. 1-2 is lowered and
/// raised again, and 2-3 with it; 0-1 revoked drops both.
#[test]
fn cuts_take_raises_back() {
    let due = [
        answered(3), answered(3), answered(3), (0, [0, 2, 2]), refused(16), refused(11), (0, [0, 1, 2]), answered(3),
        answered(3), (0, [2, 0, 2]), answered(0), answered(1), answered(2),
    ];
    answers(2, &due);
}

/// What is due for a grant for a standing pair whose numbers are within their limits.
fn due(table: &Table, register: &Register, n: &Passed) -> Option<u32> {
    let d = register.standing(n.giver, n.receiver)?;
    let same = [n.need, n.bar, n.kind] == [d.need as u32, d.bar as u32, d.kind as u32];
    let raise = same && n.weight > d.weight as u32;
    let allowed = literal_reach(table, register, n.giver, n.receiver) >= n.weight as i16;
    Some(match (raise, allowed) {
        (false, _) => 11,
        (true, false) => 16,
        (true, true) => 0,
    })
}

/// The block in which one byte is another: the weight of the pair.
fn with_weight(register: &Register, n: &Passed) -> Option<Vec<u8>> {
    let place = register.place(n.giver, n.receiver).ok()?;
    let mut block = encode(register);
    block[RECORDS_AT + RECORD_LEN * place + WEIGHT] = n.weight as u8;
    Some(block)
}

/// Makes a grant for a standing pair, and compares the refusal, the answers and
/// every byte with what is due. Answers the refusal.
fn granted(engine: &Engine, table: &Table, register: &Register, n: &Passed) -> Result<u32, String> {
    let mut block = encode(register);
    let outcome = run_table(engine, n, &lent(table), &mut block);
    same("refusal", Some(outcome.refusal), due(table, register, n))?;
    let accepted = outcome.refusal == 0;
    let first = if accepted { register.delegations.len() as i32 } else { 0 };
    same("answers", outcome.answers, [first, 0, 0])?;
    let left = if accepted { with_weight(register, n) } else { Some(encode(register)) };
    same("block", Some(block), left)?;
    Ok(outcome.refusal)
}

/// A small register, supported under the table or not.
fn small(random: &mut Random, table: &Table) -> Register {
    let shape = Shape {
        subjects: random.range(3, 7),
        delegations: random.range(2, 16),
        weights: random.pick(&[&[0, 1, 2, 3, 4, 5][..], &[0, 9, 100, 253, 254, 255][..]]),
        marks: 0x4003,
        conditions: random.pick(&[0, 40, 80]),
    };
    let mut register = random_register(random, &shape);
    if random.chance(60) {
        settle(&FAST, table, &mut register);
    }
    register
}

/// Every standing delegation of random registers, granted again with weights around
/// its own and the reach, under its own and other conditions. Answers how many
/// grants were accepted, and refused with 11 and with 16.
fn all_granted(engine: &Engine, draw: Draw) -> Result<[u32; 3], String> {
    let mut random = Random::new(0x4A15);
    let mut found = [0; 3];
    for _ in 0..1200 {
        let table = draw(&mut random);
        let register = small(&mut random, &table);
        for n in register.delegations.iter().flat_map(|d| around(&table, &register, d)) {
            let within = |n: &Passed| n.weight <= 255 && n.need & n.bar == 0;
            for n in [n].into_iter().chain(otherwise(&n)).filter(within) {
                let refusal = granted(engine, &table, &register, &n)?;
                found[[0, 11, 16].iter().position(|&number| number == refusal).ok_or("another refusal")?] += 1;
            }
        }
    }
    Ok(found)
}

/// A raise changes the one byte of its weight, on supported blocks and others.
#[test]
fn grants_for_standing_pairs_are_answered() {
    for draw in [ours, random_table as Draw] {
        let found = all_granted(&FAST, draw).unwrap();
        assert!(found.iter().all(|&count| count > 1000), "{found:?}");
        assert!(all_granted(&VISITED_ONCE, draw).is_err());
    }
    assert!(all_granted(&TEXT_LEFT_OUT, random_table).is_err());
}

/// The refusal of a grant on a register.
fn refusal(register: &Register, n: Passed) -> u32 {
    run(&FAST, &n, &mut encode(register)).refusal
}

/// Every weight for 1-3, which stands at 5 with a reach of 8.
#[test]
fn smaller_equal_and_larger_weights() {
    let found: Vec<u32> = (0..=256).map(|weight| refusal(&with_room(), grant(1, 3, weight, 2, 4))).collect();
    assert!(found[..=5].iter().all(|&number| number == 11));
    assert!(found[6..=8].iter().all(|&number| number == 0));
    assert!(found[9..=255].iter().all(|&number| number == 16));
    assert_eq!(found[256], 3);
}

/// 1-3 needs mark 2 and bars mark 4. Another need, another bar, both, none, and the
/// two exchanged, with weights up to and above the reach.
#[test]
fn other_conditions_get_11() {
    for (need, bar) in [(0, 4), (3, 4), (1, 4), (2, 0), (2, 5), (2, 1), (1, 8), (0, 0), (4, 2)] {
        assert!((0..=255).all(|weight| refusal(&with_room(), grant(1, 3, weight, need, bar)) == 11), "{need} {bar}");
    }
    assert_eq!(refusal(&with_room(), grant(1, 3, 7, 6, 4)), 4);
    assert_eq!(refusal(&with_room(), grant(1, 3, 7, 65_538, 4)), 4);
}

/// 1-2 stands at 9 and its reach is 3: weights are compared with the 9.
#[test]
fn weights_that_stand_unsupported_are_compared() {
    for (weight, number) in [(2, 11), (3, 11), (4, 11), (5, 11), (9, 11), (10, 16), (255, 16)] {
        assert_eq!(refusal(&above_reach(), grant(1, 2, weight, 0, 0)), number, "{weight}");
    }
    let no_chain = register(&[0; 3], &[(1, 2, 9, 0, 0), (2, 1, 255, 0, 0)]);
    assert_eq!([9, 10, 255].map(|weight| refusal(&no_chain, grant(1, 2, weight, 0, 0))), [11, 16, 16]);
}

#[test]
fn the_owner_raises_to_any_weight() {
    let of = |standing: u8| register(&[0, 0], &[(0, 1, standing, 1, 2)]);
    for standing in 0..=255 {
        let accepted = |&weight: &u32| refusal(&of(standing), grant(0, 1, weight, 1, 2)) == 0;
        let all: Vec<u32> = (0..=255).filter(accepted).collect();
        assert_eq!(all, (standing as u32 + 1..=255).collect::<Vec<u32>>());
    }
}

/// Every one of 256 delegations is raised in turn; the first 19 are the owner's.
#[test]
fn a_full_register_is_raised() {
    let register = full_with_room();
    assert!(is_full(&register) && register.delegations[18].giver == 0);
    let mut block = encode(&register);
    for d in &register.delegations {
        let n = |weight, bar| grant(d.giver as u32, d.receiver as u32, weight, 0, bar);
        let refused = [n(d.weight as u32, 0), n(0, 0), n(255, 8), grant(15, 1, 0, 0, 0), grant(15, 1, 255, 0, 0)];
        assert_eq!(refused.map(|n| run(&FAST, &n, &mut block).refusal), [11, 11, 11, 12, 12]);
        assert_eq!(run(&FAST, &n(255, 0), &mut block), Outcome { refusal: 0, answers: [256, 0, 0] });
    }
    let raised = decode(&block).unwrap();
    let unlimited = register.delegations.iter().map(|d| Delegation { weight: 255, ..*d }).collect();
    assert_eq!(raised, Register { delegations: unlimited, ..register });
}

fn is_full(register: &Register) -> bool {
    register.delegations.len() == 256
}

/// In full registers as in others: 16 above the reach, and never 12.
#[test]
fn a_full_register_does_not_matter() {
    let mut found = [0; 3];
    for register in [full_with_room(), full::all_enrolled(), full::some_enrolled()] {
        let mut one_less = register.clone();
        one_less.delegations.pop();
        assert!(is_full(&register));
        for n in one_less.delegations.iter().step_by(4).flat_map(|d| around(&OURS, &register, d)) {
            let number = refusal(&register, n);
            assert_eq!(number, refusal(&one_less, n));
            found[0] += (number == 0) as u32;
            found[1] += (number == 11) as u32;
            found[2] += (number == 16) as u32;
        }
    }
    assert!(found.iter().all(|&count| count > 100), "{found:?}");
}

/// 0-1:9 gives 1-2 a reach of 8 under ours and of 7 where each falls by two.
#[test]
fn a_raise_is_judged_by_the_table_given_to_it() {
    let start = register(&[0; 3], &[(0, 1, 9, 0, 0), (1, 2, 5, 0, 0)]);
    let by = |text: &[u8], weight| run_table(&FAST, &grant(1, 2, weight, 0, 0), text, &mut encode(&start)).refusal;
    let two = texts::by_two().text();
    assert_eq!([5, 6, 7, 8, 9].map(|weight| by(b"", weight)), [11, 0, 0, 0, 16]);
    assert_eq!([5, 6, 7, 8, 9].map(|weight| by(&two, weight)), [11, 0, 0, 16, 16]);
    for (text, number) in texts::refused_at_the_end().iter().zip([7, 17]) {
        assert_eq!([5, 6, 9].map(|weight| by(text, weight)), [number; 3]);
    }
}

/// Accepted raises of random registers that the table supports.
fn supported_raises(draw: Draw, each: fn(&Table, &Register, &Register, &Passed)) -> u32 {
    let mut random = Random::new(0x5A15E);
    let mut raises = 0;
    for _ in 0..1500 {
        let table = draw(&mut random);
        let mut before = small(&mut random, &table);
        settle(&FAST, &table, &mut before);
        for n in before.delegations.iter().flat_map(|d| around(&table, &before, d)) {
            let mut block = encode(&before);
            if run_table(&FAST, &n, &lent(&table), &mut block).refusal == 0 {
                each(&table, &before, &decode(&block).unwrap(), &n);
                raises += 1;
            }
        }
    }
    raises
}

#[test]
fn a_raised_register_stays_supported() {
    for draw in [ours, random_table as Draw] {
        let raises = supported_raises(draw, |table, _, raised, _| assert!(is_supported(table, raised)));
        assert!(raises > 1000, "{raises}");
    }
}

/// A downgrade to the weight before leaves the register as it was before the raise.
#[test]
fn a_downgrade_takes_a_raise_back() {
    for draw in [ours, random_table as Draw] {
        let raises = supported_raises(draw, |table, before, raised, n| {
            let weight = before.standing(n.giver, n.receiver).map_or(0, |d| d.weight as u32);
            let back = generate::downgrade(n.giver, n.giver, n.receiver, weight);
            let mut block = encode(raised);
            let outcome = run_table(&FAST, &back, &lent(table), &mut block);
            assert_eq!((outcome.refusal, outcome.answers), (0, [0, 0, 1]));
            assert_eq!(decode(&block).as_ref(), Some(before));
        });
        assert!(raises > 1000, "{raises}");
    }
}

#[test]
fn hosts_raise() {
    let mut answers = [9; 12];
    let mut block = encode(&full_with_room());
    assert_eq!(host_call(&FAST, &grant(0, 1, 127, 0, 0), &mut block, &mut answers), 11);
    assert_eq!(host_call(&FAST, &grant(1, 2, 127, 0, 0), &mut block, &mut answers), 16);
    assert_eq!((answers, &block), ([9; 12], &encode(&full_with_room())));
    assert_eq!(host_call(&FAST, &grant(0, 1, 128, 0, 0), &mut block, &mut answers), 0);
    assert_eq!(answers, [0, 1, 0, 0, 0, 0, 0, 0, 0, 0, 0, 0]);
    assert_eq!(call::reach(&block, 1, 2).answers, [127, 0, 0]);
}
