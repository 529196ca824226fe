//! Subjects that retire, document 02's C-16: every remainder after the named change, a literal
//! reading of the call, the examples, and that nobody is brought back.

use super::{lent, ours, same, Draw};
use crate::cuts::tiny_registers;
use crate::faults::{ONE_ROUND, TEXT_LEFT_OUT, VISITED_ONCE};
use crate::marks::{rounds_by, since, Change};
use crate::relaxed::RELAXED;
use crate::retirefaults::{WRONG_BITS, WRONG_CHANGES, WRONG_ROUNDS};
use generate::retireregisters::{example, examples, ninth, round_by_round, wide, without};
use generate::{deep, drawnmarks, full, lists, markregisters, named, retire, retirelists, retires, rounds, slow, texts};
use second::block::{decode, encode, Delegation, Register, BLOCK_LEN, MARKS_AT, RETIRED_AT, ZERO_AT};
use second::call::{run, run_table};
use second::casefile::answer;
use second::chain::literal_reach;
use second::cut::settle;
use second::engine::{Engine, FAST, LITERAL};
use second::random::{random_register, random_table, Random, Shape};
use second::refusal::{Call, Passed};
use second::remainder::{candidates, check_best};
use second::table::{Table, OURS};

/// What the call leaves and answers; here it is accepted.
fn retired(engine: &Engine, table: &Table, register: &Register, n: &Passed) -> (Register, [i32; 3]) {
    let mut block = encode(register);
    let outcome = run_table(engine, n, &lent(table), &mut block);
    assert_eq!(outcome.refusal, 0, "{n:?}");
    (decode(&block).expect("a well-formed block"), outcome.answers)
}

/// The named change: no delegation to or from the subject, its marks 0, its bit set.
pub fn named_change(register: &Register, n: &Passed) -> Register {
    let subject = n.receiver;
    let apart = |d: &&Delegation| ![d.giver as u32, d.receiver as u32].contains(&subject);
    let marks = register.marks.iter().zip(0..).map(|(&marks, number)| if number == subject { 0 } else { marks });
    Register {
        marks: marks.collect(),
        retired: register.retired | 1 << subject,
        delegations: register.delegations.iter().filter(apart).copied().collect(),
    }
}

/// The subjects that have not retired, but for the owner.
fn staying(register: &Register) -> impl Iterator<Item = u32> + '_ {
    (1..register.marks.len() as u32).filter(|&subject| !register.is_retired(subject))
}

/// Some subject that has not retired, by the owner; nothing if all have.
fn drawn(random: &mut Random, register: &Register) -> Option<Passed> {
    let left: Vec<u32> = staying(register).collect();
    (!left.is_empty()).then(|| retire(0, random.pick(&left)))
}

const CALL: Change = |table, register, n| retired(&FAST, table, register, n);

/// Registers that are tiny also with a subject more.
fn larger() -> Vec<Register> {
    let mut random = Random::new(0x9E86);
    let mut registers = Vec::new();
    while registers.len() < 800 {
        let shape = Shape {
            subjects: random.range(4, 7),
            delegations: random.range(6, 16),
            weights: random.pick(&[&[0, 1, 2, 3][..], &[1, 2, 3, 3, 4], &[1, 2, 2, 255]]),
            marks: 3,
            conditions: random.pick(&[0, 30, 60]),
        };
        let register = random_register(&mut random, &shape);
        if candidates(&named_change(&register, &retire(0, 1))) <= 3000 {
            registers.push(register);
        }
    }
    registers
}

/// Tiny registers, what the rounds leave of some, and some in which a subject has gone before;
/// the examples, for many subjects.
fn tiny() -> Vec<Register> {
    let mut registers = [tiny_registers(), larger()].concat();
    for at in (0..registers.len()).step_by(3) {
        settle(&FAST, &OURS, &mut registers[at]);
    }
    for at in (1..registers.len()).step_by(4) {
        registers[at] = without(registers[at].clone(), &[2]);
    }
    let own = [vec![example(); 20], vec![round_by_round(); 40], vec![markregisters::example(); 20]];
    [registers, own.concat()].concat()
}

/// A program leaves the best of all remainders of the retirement. Answers how many were
/// compared.
fn best_remainder(program: Change, draw: Draw, registers: &[Register]) -> Result<u64, String> {
    let mut random = Random::new(0x9E80);
    let mut compared = 0;
    for register in registers {
        let table = draw(&mut random);
        let Some(n) = drawn(&mut random, register) else { continue };
        let begun = named_change(register, &n);
        if candidates(&begun) <= 70_000 {
            compared += check_best(&table, &begun, &program(&table, register, &n).0)?;
        }
    }
    Ok(compared)
}

#[test]
fn the_best_remainder_is_left() {
    assert!(best_remainder(CALL, ours, &tiny()).unwrap() > 70_000);
    assert!(best_remainder(CALL, random_table, &tiny()).unwrap() > 30_000);
}

/// Every subject, and every two one after the other.
#[test]
fn the_best_remainder_is_left_whoever_retires() {
    let mut compared = 0;
    for register in tiny().iter().take(600).chain(&[example(), round_by_round()]) {
        for n in staying(register).map(|subject| retire(0, subject)) {
            let (left, _) = CALL(&OURS, register, &n);
            compared += check_best(&OURS, &named_change(register, &n), &left).unwrap();
            for n in staying(&left).map(|subject| retire(0, subject)) {
                compared += check_best(&OURS, &named_change(&left, &n), &CALL(&OURS, &left, &n).0).unwrap();
            }
        }
    }
    assert!(compared > 10_000, "{compared}");
}

/// Programs that leave the same of tiny registers: they count otherwise, differ in how many
/// rounds there are, under other tables, in high marks, or for subjects in other bytes.
const AS_LEFT: [&str; 10] = [
    "its high marks stay",
    "its delegations count as dropped", "what it gave counts as dropped", "what it was given counts as dropped",
    "what it gave is left to the rounds", "rounds before it and after it", "weights are replaced in turn",
    "ours in the place of the lent table", "the bit is set in 32 bits", "bits of later bytes go to the first",
];

#[test]
fn faults_leave_another_remainder() {
    let some: Vec<Register> = tiny().into_iter().step_by(5).collect();
    for (shows, change) in WRONG_CHANGES.iter().chain(&WRONG_BITS).chain(&WRONG_ROUNDS) {
        assert_eq!(best_remainder(*change, ours, &some).is_ok(), AS_LEFT.contains(shows), "{shows}");
    }
    assert!(best_remainder(|_, register, n| CALL(&OURS, register, n), random_table, &some).is_err());
}

/// Plausible calls in which no weight is above 3.
fn light(random: &mut Random, call: Call, table: &Table, register: &Register) -> Passed {
    let n = drawnmarks::likely(random, call, table, register);
    Passed { weight: n.weight.min(3), ..n }
}

/// In drawn lists from open on, followed by what each call is passed, every retirement leaves the
/// best of its remainders.
#[test]
fn lists_with_retirements_leave_the_best_remainder() {
    let mut random = Random::new(0x9E87);
    let (mut retirements, mut compared) = (0, 0);
    for _ in 0..200 {
        let mut block = encode(&Register::fresh());
        for n in lists::list(light, &mut random, &retirelists::DRAWN, 50) {
            let before = decode(&block).expect("a well-formed block");
            let refusal = run(&FAST, &n, &mut block).refusal;
            if n.call != Call::Retire || refusal != 0 || candidates(&named_change(&before, &n)) > 20_000 {
                continue;
            }
            let left = decode(&block).expect("a well-formed block");
            compared += check_best(&OURS, &named_change(&before, &n), &left).unwrap();
            retirements += 1;
        }
    }
    assert!(retirements > 300 && compared > 3000, "{retirements} {compared}");
}

/// The call, sentence by sentence: the named change, then rounds, and reach is that of all
/// chains.
fn literally(table: &Table, register: &Register, n: &Passed) -> (Register, [i32; 3]) {
    let reach = |now: &Register, d: &Delegation| literal_reach(table, now, d.giver as u32, d.receiver as u32);
    rounds_by(named_change(register, n), false, reach)
}

/// Small registers, a third of them supported; in some a subject has gone before, and some
/// lose something round by round.
fn small(random: &mut Random, table: &Table) -> Register {
    let shape = Shape {
        subjects: random.range(3, 9),
        delegations: random.range(3, 19),
        weights: random.pick(&[&[1, 2, 3, 9, 255, 255][..], &[255][..], &[9, 8, 7, 6]]),
        marks: 7,
        conditions: random.pick(&[20, 60]),
    };
    let any = random_register(random, &shape);
    let mut register = if random.chance(3) { round_by_round() } else { any };
    if random.chance(33) {
        settle(&FAST, table, &mut register);
    }
    if random.chance(20) { without(register, &[1]) } else { register }
}

/// What is left and answered, by an engine and by the literal reading. Answers the most
/// rounds.
fn same_as_literally(engine: &Engine, draw: Draw) -> Result<i32, String> {
    let mut random = Random::new(0x9E81);
    let mut most = 0;
    for _ in 0..3000 {
        let table = draw(&mut random);
        let register = small(&mut random, &table);
        let Some(n) = drawn(&mut random, &register) else { continue };
        let due = literally(&table, &register, &n);
        most = most.max(due.1[2]);
        same("left and answered", retired(engine, &table, &register, &n), due)?;
    }
    Ok(most)
}

#[test]
fn the_call_is_literal() {
    for draw in [ours, random_table as Draw] {
        assert!(same_as_literally(&FAST, draw).unwrap() >= 4);
        assert!(same_as_literally(&LITERAL, draw).is_ok());
        assert!(same_as_literally(&ONE_ROUND, draw).is_err());
        assert!(same_as_literally(&VISITED_ONCE, draw).is_err());
    }
    assert!(same_as_literally(&TEXT_LEFT_OUT, random_table).is_err());
}

/// Giver, receiver and weight of every delegation left.
fn weights(register: &Register) -> Vec<(u8, u8, u8)> {
    register.delegations.iter().map(|d| (d.giver, d.receiver, d.weight)).collect()
}

/// The refusal and the answers of a call.
type Line = (u32, [i32; 3]);

/// The line of each call of an example after its grants, and what is left at the end.
fn lines(engine: &Engine, name: &str) -> (Vec<Line>, Vec<(u8, u8, u8)>, u64) {
    let example = examples().into_iter().find(|example| example.name == name).expect("an example");
    let mut block = encode(&Register::fresh());
    let mut lines = Vec::new();
    for n in example.calls() {
        let outcome = run(engine, &n, &mut block);
        lines.push((outcome.refusal, outcome.answers));
    }
    let then = lines.split_off(example.marks.len() + example.grants.len());
    assert!(lines.iter().all(|(refusal, _)| *refusal == 0), "{name}");
    let left = decode(&block).expect("a well-formed block");
    (then, weights(&left), left.retired)
}

const fn answered(first: i32, second: i32, third: i32) -> Line {
    (0, [first, second, third])
}

const fn refused(number: u32) -> Line {
    (number, [0, 0, 0])
}

/// Retired, used and named again; 4 may use what is left at 0.
#[test]
fn the_examples_hold() {
    let after = |enrolled: i32| {
        let first = [answered(0, 1, 2), refused(19), refused(19), refused(19), refused(9), answered(1, 0, 0)];
        let second = [refused(19), refused(19), answered(0, 0, 0), refused(19), answered(enrolled, 0, 0)];
        [&first[..], &second, &[refused(9), refused(19), answered(1, 0, 0)]].concat()
    };
    let left = vec![(0, 3, 2), (2, 4, 0), (3, 2, 1)];
    for engine in [&FAST, &LITERAL] {
        assert_eq!(lines(engine, "one of two ways"), (after(5), left.clone(), 2));
        assert_eq!(lines(engine, "the ninth"), (after(10), left.clone(), 512));
        let cycle = vec![answered(2, 0, 2), answered(-1, 0, 0), refused(19), answered(0, 0, 0), answered(1, 0, 0)];
        assert_eq!(lines(engine, "a cycle through it"), (cycle, vec![(0, 1, 255)], 4));
    }
}

#[test]
fn all_but_the_owner_may_retire() {
    let gone = answered(0, 0, 1);
    let first = [answered(1, 0, 2), answered(-1, 0, 0), answered(0, 0, 0), gone, gone, gone, refused(19)];
    let second = [answered(1, 0, 0), answered(5, 0, 0), answered(1, 0, 0), refused(19), answered(6, 0, 0)];
    let third = [answered(2, 0, 0), answered(1, 0, 0), gone, answered(0, 0, 0), answered(255, 0, 0)];
    let due = [&first[..], &second, &third, &[refused(6), refused(6)]].concat();
    assert_eq!(lines(&FAST, "the only way, and all retire"), (due, vec![], 0b11_1110));
}

#[test]
fn the_mixed_examples_hold() {
    let (same, first) = (answered(0, 0, 1), [answered(0, 0, 1), answered(0, 1, 2)]);
    let second = [refused(19), refused(19), refused(19), same, same, same, same, refused(6), answered(1, 0, 0)];
    let due = [&first[..], &second, &[refused(9), refused(4)]].concat();
    assert_eq!(lines(&FAST, "marks and retirements"), (due, vec![(0, 3, 2), (3, 2, 1)], 18));
    let numbers = [6, 6, 14, 14, 9, 9, 2, 2].map(refused);
    let first = [answered(0, 2, 2), same, refused(19), refused(19), refused(6), refused(19)];
    let second = [answered(4, 0, 0), answered(5, 0, 0), answered(5, 0, 0), same, refused(19), answered(8, 0, 0)];
    let due = [&numbers[..], &first, &second, &[answered(1, 0, 0), same, refused(19), answered(1, 0, 0)]].concat();
    assert_eq!(lines(&FAST, "grants, cuts and retirements"), (due, vec![(0, 2, 9)], 26));
}

/// Bytes 132 to 139 of the examples, and of each subject alone.
#[test]
fn the_bit_is_the_subjects() {
    let left = |register: &Register, subject: u32| encode(&CALL(&OURS, register, &retire(0, subject)).0);
    assert_eq!(left(&example(), 1)[RETIRED_AT..RETIRED_AT + 8], [2, 0, 0, 0, 0, 0, 0, 0]);
    assert_eq!(left(&ninth(), 9)[RETIRED_AT..RETIRED_AT + 8], [0, 2, 0, 0, 0, 0, 0, 0]);
    assert_eq!(RETIRED_AT, 132);
    let marked = Register { delegations: vec![], ..wide() };
    for subject in 1..64 {
        let mut due = encode(&marked);
        due[MARKS_AT + 2 * subject..][..2].fill(0);
        due[132 + subject / 8] = 1 << (subject % 8);
        assert_eq!(left(&marked, subject as u32), due);
    }
}

/// Hundreds of rounds, by two searches.
#[test]
fn rounds_can_be_many() {
    for engine in [&FAST, &RELAXED] {
        let rounds = |register: &Register, subject: u32| retired(engine, &OURS, register, &retire(0, subject)).1;
        assert_eq!(rounds(&round_by_round(), 1), [3, 0, 4]);
        assert_eq!(rounds(&markregisters::falling_pair(), 3), [2, 0, 255]);
        assert_eq!(rounds(&rounds::built(), 1), [212, 0, 265]);
        for (slow, (subject, due)) in slow::SLOW.iter().zip(retires::SLOW) {
            let register = decode(&slow.block()).expect("a well-formed block");
            assert_eq!(rounds(&register, subject)[2], due);
        }
    }
}

/// Every delegation left stood before, no heavier and under the same condition, and neither
/// gives nor receives the subject. Answers how many were dropped or lowered.
fn nothing_else(register: &Register, n: &Passed, table: &Table) -> i32 {
    let (left, answers) = retired(&FAST, table, register, n);
    let begun = named_change(register, n);
    assert_eq!((&left.marks, left.retired), (&begun.marks, begun.retired));
    for d in &left.delegations {
        let before = begun.standing(d.giver as u32, d.receiver as u32).expect("no new delegation");
        assert!((before.need, before.bar) == (d.need, d.bar) && before.weight >= d.weight);
    }
    let reaches = (RELAXED.reaches)(table, &left);
    assert!(left.delegations.iter().zip(reaches).all(|(d, reach)| d.weight as i16 <= reach));
    assert_eq!(since(&begun, &left, answers[2]), answers);
    answers[0] + answers[1]
}

#[test]
fn nothing_else_is_left() {
    let mut random = Random::new(0x9E82);
    let mut lost = 0;
    for at in 0..400 {
        let table = if at % 2 == 0 { OURS } else { random_table(&mut random) };
        let large = full::large(&mut random);
        for register in [deep::random_start(&mut random), large] {
            let n = drawn(&mut random, &register).expect("a subject");
            lost += nothing_else(&register, &n, &table);
        }
    }
    assert!(lost > 10_000, "{lost}");
}

/// Revoking all delegations to and from the subject, in any order, leaves the same.
#[test]
fn cuts_alone_leave_the_same() {
    let mut random = Random::new(0x9E83);
    for _ in 0..400 {
        let register = small(&mut random, &OURS);
        let Some(n) = drawn(&mut random, &register) else { continue };
        let of_it = |d: &&Delegation| [d.giver as u32, d.receiver as u32].contains(&n.receiver);
        let mut pairs: Vec<(u8, u8)> = register.delegations.iter().filter(of_it).map(|d| d.pair()).collect();
        if random.chance(50) {
            pairs.reverse();
        }
        let mut block = encode(&register);
        for (giver, receiver) in pairs {
            let cut = generate::revoke(0, giver as u32, receiver as u32);
            assert!([0, 13].contains(&run(&FAST, &cut, &mut block).refusal));
        }
        settle_block(&mut block);
        let left = decode(&block).expect("a well-formed block");
        assert_eq!(weights(&left), weights(&CALL(&OURS, &register, &n).0));
    }
}

/// The rounds, also where nothing was cut.
fn settle_block(block: &mut Vec<u8>) {
    let mut register = decode(block).expect("a well-formed block");
    settle(&FAST, &OURS, &mut register);
    *block = encode(&register);
}

/// The subjects that a call names.
fn names(n: &Passed) -> Vec<u32> {
    match n.call {
        Call::Open | Call::Enrol | Call::BringOver => vec![],
        Call::Use | Call::Order => vec![n.receiver],
        Call::Grant | Call::GrantKind | Call::Reach | Call::Chain => vec![n.giver, n.receiver],
        Call::SetMarks | Call::Retire => vec![n.by, n.receiver],
        Call::Revoke | Call::Downgrade => vec![n.by, n.giver, n.receiver],
    }
}

/// In drawn lists no bit is ever cleared, and calls that name a retired subject are refused:
/// with 19, unless a number before it applies.
#[test]
fn nobody_is_brought_back() {
    let mut random = Random::new(0x9E84);
    let (mut found, mut others) = (0, 0);
    for _ in 0..150 {
        let mut block = encode(&Register::fresh());
        for n in lists::list(drawnmarks::likely, &mut random, &retirelists::DRAWN, 60) {
            let before = decode(&block).expect("a well-formed block");
            let refusal = answer(&FAST, &n, &mut block).refusal;
            let after = decode(&block).expect("a well-formed block");
            assert_eq!(before.retired & after.retired, before.retired);
            let names_retired = names(&n).iter().any(|&subject| before.is_retired(subject));
            let all_enrolled = names(&n).iter().all(|&subject| before.enrolled(subject));
            assert!(!names_retired || [2, 3, 4, 5, 6, 9, 19].contains(&refusal), "{n:?} {refusal}");
            assert_eq!(refusal == 19, names_retired && all_enrolled && ![2, 3, 4, 5, 6].contains(&refusal));
            found += (refusal == 19) as u32;
            others += (refusal == 0 && before.retired != 0) as u32;
        }
    }
    assert!(found > 500 && others > 1000, "{found} {others}");
}

/// A call that names no retired subject answers as where these have no bit.
#[test]
fn the_retired_play_no_part() {
    let mut random = Random::new(0x9E85);
    let mut accepted = 0;
    for _ in 0..3000 {
        let register = without(small(&mut random, &OURS), &[1, 2]);
        let call = random.pick(&retirelists::DRAWN);
        let n = lists::likely(&mut random, call, &OURS, &register);
        if names(&n).iter().any(|&subject| register.is_retired(subject)) {
            continue;
        }
        let staying = Register { retired: 0, ..register.clone() };
        let (mut block, mut other) = (encode(&register), encode(&staying));
        assert_eq!(run(&FAST, &n, &mut block), run(&FAST, &n, &mut other));
        let (left, other) = (decode(&block).expect("well formed"), decode(&other).expect("well formed"));
        assert_eq!((&left.marks, &left.delegations), (&other.marks, &other.delegations));
        assert_eq!(left.retired, register.retired | other.retired);
        accepted += (left != register) as u32;
    }
    assert!(accepted > 300, "{accepted}");
}

/// The first that applies of 1, 2, 6, 7, 17, 8, 9, 19 and 14; 3 has retired.
#[test]
fn refusals_come_in_their_order() {
    let [malformed, bad] = texts::refused_at_the_end();
    let good = encode(&named::few());
    let mut spoilt = good.clone();
    spoilt[ZERO_AT] = 1;
    let due: [(u32, (u32, u32), &[u8], &[u8]); 16] = [
        (1, (64, 0), &malformed, &spoilt[..BLOCK_LEN - 1]),
        (2, (64, 0), &malformed, &spoilt),
        (2, (0, 64), &malformed, &spoilt),
        (6, (5, 0), &malformed, &spoilt),
        (6, (3, 0), b"", &good),
        (7, (5, 3), &malformed, &spoilt),
        (17, (5, 3), &bad, &spoilt),
        (8, (5, 3), b"", &spoilt),
        (9, (5, 3), b"", &good),
        (9, (3, 5), b"", &good),
        (19, (3, 1), b"", &good),
        (19, (1, 3), b"", &good),
        (19, (3, 3), b"", &good),
        (19, (0, 3), b"", &good),
        (14, (1, 1), b"", &good),
        (14, (1, 2), b"", &good),
    ];
    for (number, (by, subject), text, block) in due {
        let mut left = block.to_vec();
        let outcome = run_table(&FAST, &retire(by, subject), text, &mut left);
        assert_eq!((outcome.refusal, &left[..]), (number, block), "{by} {subject}");
    }
    assert_eq!(run(&FAST, &retire(0, 1), &mut good.clone()).refusal, 0);
}

/// Every call that names subjects, with 3 as each of them, which has retired: 19 comes after 9
/// and before all else that the register holds.
#[test]
fn every_call_refuses_a_retired_subject() {
    let block = encode(&named::few());
    let calls = |s: u32, other: u32| {
        use generate::*;
        let first = [grant(s, other, 255, 0, 0), grant(other, s, 255, 0, 0), reach(s, other), reach(other, s)];
        let second = [use_right(s), order(s, 128), chain(s, other, 126), chain(other, s, 126)];
        let third = [revoke(s, 0, 1), revoke(other, s, 1), revoke(other, 2, s), downgrade(s, 0, 1, 255)];
        let fourth = [downgrade(other, s, 1, 9), downgrade(other, 2, s, 9), set_marks(s, other, 0)];
        let last = [set_marks(other, s, 0), retire(s, other), retire(other, s)];
        [&first[..], &second, &third, &fourth, &last].concat()
    };
    for n in calls(3, 4) {
        assert_eq!(answer(&FAST, &n, &mut block.clone()).refusal, 19, "{n:?}");
    }
    for n in calls(3, 5).into_iter().filter(|n| names(n).contains(&5)) {
        assert_eq!(answer(&FAST, &n, &mut block.clone()).refusal, 9, "{n:?}");
    }
}
