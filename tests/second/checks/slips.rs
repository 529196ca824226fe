//! Cuts that write slips and are taken back, document 02's C-17: the example, what a slip holds,
//! the sentence on taking back directly, a literal reading, and what slips can do.

use super::{lent, ours, same, Draw};
use crate::faults::{ONE_ROUND, TEXT_LEFT_OUT, VISITED_ONCE};
use crate::generated::is_small;
use generate::drawnslips::{changed_place, drawn_cut};
use generate::slipregisters::{example, unwritten, with, EXAMPLE_CUT};
use generate::{deep, downgrade, drawnmarks, full, lists, retirelists, revoke, set_marks, slips, unsupported};
use second::block::{decode, encode, Register, BLOCK_LEN};
use second::call::{run, run_table, Outcome};
use second::casefile::answer;
use second::cut::settle;
use second::engine::{Engine, FAST, LITERAL};
use second::host::{host_cut_slip, host_take_back};
use second::lentcase::{Asked, Bytes, LentCase};
use second::random::{random_table, Random};
use second::refusal::{Call, Passed};
use second::remainder::is_supported;
use second::slip::*;
use second::table::{Table, OURS};

/// What a program answers to a call and the bytes that it leaves.
pub type Program = fn(&LentCase) -> (Outcome, Bytes);

pub const RIGHT: Program = |case| case.made(&FAST);

const RESTORED: Outcome = Outcome { refusal: 0, answers: [0, 0, 0] };

/// The register after a cut, and its slip; here it is accepted.
fn after_cut(register: &Register, n: &Passed, text: &[u8]) -> (Vec<u8>, Vec<u8>) {
    let (mut block, mut slip) = (encode(register), vec![0xA5; SLIP_LEN]);
    assert_eq!(cut_slip(&FAST, n, text, &mut block, &mut slip).refusal, 0, "{n:?}");
    (block, slip)
}

/// The refusal of a slip that is handed in, and the block afterwards.
fn handed_in(engine: &Engine, block: &[u8], by: u32, text: &[u8], slip: &[u8]) -> (u32, Vec<u8>) {
    let mut left = block.to_vec();
    let outcome = take_back_table(engine, &mut left, by, text, slip);
    assert_eq!(outcome.answers, [0, 0, 0]);
    (outcome.refusal, left)
}

fn refusal(block: &[u8], by: u32, slip: &[u8]) -> u32 {
    handed_in(&FAST, block, by, b"", slip).0
}

fn with_byte(slip: &[u8], at: usize, byte: u8) -> Vec<u8> {
    let mut changed = slip.to_vec();
    changed[at] = byte;
    changed
}

#[test]
fn the_example_holds() {
    let before = encode(&example());
    for engine in [&FAST, &LITERAL] {
        let (mut block, mut slip) = (before.clone(), vec![0xA5; 4381]);
        let outcome = cut_slip(engine, &EXAMPLE_CUT, b"", &mut block, &mut slip);
        assert_eq!(outcome, Outcome { refusal: 0, answers: [0, 1, 2] });
        assert_eq!(slip[2188..2193], [3, 1, 1, 3, 1]);
        assert_eq!((&slip[..2188], &slip[2193..]), (&before[..], &block[..]));
        let left = with(&with(&example(), (1, 3, 1, 0, 0)), (3, 4, 1, 0, 0));
        assert_eq!(block, encode(&left));
        let due = [(0, &before), (0, &before), (14, &block), (14, &block), (14, &block)];
        for (by, (refusal, left)) in due.into_iter().enumerate() {
            assert_eq!(handed_in(engine, &block, by as u32, b"", &slip), (refusal, left.clone()), "{by}");
        }
        assert_eq!(handed_in(engine, &before, 0, b"", &slip), (20, before.clone()));
        let others = [(2189, 0, [0, 0, 14, 14, 14]), (2189, 2, [20, 20, 14, 14, 14]), (2190, 4, [20, 14, 14, 14, 20])];
        for (at, byte, due) in others {
            let changed = with_byte(&slip, at, byte);
            assert_eq!([0, 1, 2, 3, 4].map(|by| handed_in(engine, &block, by, b"", &changed).0), due);
        }
    }
}

#[test]
fn the_functions_are_those_of_the_calls() {
    let (mut block, mut slip) = (encode(&example()), vec![0; SLIP_LEN]);
    assert_eq!(downgrade_slip(&mut block, 1, 1, 3, 1, b"", &mut slip).answers, [0, 1, 2]);
    assert_eq!((block.clone(), slip.clone()), after_cut(&example(), &EXAMPLE_CUT, b""));
    assert_eq!((take_back(&mut block, 1, b"", &slip), &block), (RESTORED, &encode(&example())));
    assert_eq!(revoke_slip(&mut block, 0, 0, 1, b"", &mut slip).answers, [1, 1, 2]);
    assert_eq!((block.clone(), slip.clone()), after_cut(&example(), &revoke(0, 0, 1), b""));
    assert_eq!(slip[2188..2193], [2, 0, 0, 1, 0]);
    assert_eq!((take_back(&mut block, 0, b"", &slip), &block), (RESTORED, &encode(&example())));
}

/// Registers of every kind, supported under the table or not, some with retired subjects.
fn drawn_register(random: &mut Random, table: &Table) -> Register {
    let mut register = match random.below(8) {
        0 => deep::random_start(random),
        1 => full::large(random),
        _ => unsupported::random_unsupported(random),
    };
    if random.chance(30) {
        settle(&FAST, table, &mut register);
    }
    let subject = random.range(1, register.marks.len() as u32 - 1);
    let gone = generate::retireregisters::without(register.clone(), &[subject]);
    if random.chance(20) && !gone.delegations.is_empty() { gone } else { register }
}

/// A cut of a drawn register that has a delegation, and a step table's text.
fn drawn(random: &mut Random, draw: Draw) -> (Register, Passed, Vec<u8>) {
    loop {
        let table = draw(random);
        let register = drawn_register(random, &table);
        if !register.delegations.is_empty() {
            let n = drawn_cut(random, &register);
            return (register, n, lent(&table));
        }
    }
}

/// A cut with a slip answers and leaves what one without does. Accepted, it writes the block
/// before, the five bytes and the block after, whatever the buffer held; refused, it keeps the
/// buffer.
pub fn slips_hold_the_cut(program: Program, draw: Draw) -> Result<[u32; 2], String> {
    let mut random = Random::new(0x511);
    let mut found = [0, 0];
    for _ in 0..1500 {
        let (register, n, table) = drawn(&mut random, draw);
        let odd = lists::likely(&mut random, n.call, &OURS, &register);
        let n = random.pick(&[n, odd]);
        let fill = random.next() as u8;
        let on = Bytes { lent: vec![fill; SLIP_LEN], table, block: encode(&register) };
        let mut block = on.block.clone();
        let outcome = run_table(&FAST, &n, &on.table, &mut block);
        let (found_outcome, left) = program(&LentCase { asked: Asked::Cut(n), on: on.clone() });
        same("outcome", found_outcome, outcome)?;
        same("block", &left.block, &block)?;
        let is_revoke = n.call == Call::Revoke;
        let first = if is_revoke { 2 } else { 3 };
        let weight = if is_revoke { 0 } else { n.weight };
        let five = [first, n.by, n.giver, n.receiver, weight].map(|number| number as u8);
        let written = [&on.block[..], &five, &block].concat();
        same("slip", &left.lent, if outcome.refusal == 0 { &written } else { &on.lent })?;
        found[(outcome.refusal != 0) as usize] += 1;
    }
    Ok(found)
}

#[test]
fn a_slip_holds_its_cut() {
    for draw in [ours, random_table as Draw] {
        let [accepted, refused] = slips_hold_the_cut(RIGHT, draw).unwrap();
        assert!(accepted > 800 && refused > 100, "{accepted} {refused}");
    }
}

/// For every accepted cut from any well-formed register, taking it back directly, by the same
/// caller and under the same step table, is accepted, and gives the same bytes. Answers how many
/// registers were not supported.
pub fn taken_back_directly(program: Program, draw: Draw) -> Result<u32, String> {
    let mut random = Random::new(0x512);
    let mut not_supported = 0;
    for _ in 0..1500 {
        let (register, n, table) = drawn(&mut random, draw);
        let supported = (FAST.reaches)(&Table::read(&table).unwrap_or(OURS), &register);
        let is_supported = register.delegations.iter().zip(supported).all(|(d, reach)| d.weight as i16 <= reach);
        not_supported += !is_supported as u32;
        let before = Bytes { lent: vec![0; SLIP_LEN], table, block: encode(&register) };
        let (outcome, cut) = program(&LentCase { asked: Asked::Cut(n), on: before.clone() });
        same("cut", outcome.refusal, 0)?;
        let (outcome, left) = program(&LentCase { asked: Asked::TakeBack(n.by), on: cut.clone() });
        same("taken back", outcome, RESTORED)?;
        same("block", &left.block, &before.block)?;
        same("slip", &left.lent, &cut.lent)?;
    }
    Ok(not_supported)
}

#[test]
fn a_cut_is_taken_back_directly() {
    for draw in [ours, random_table as Draw] {
        let not_supported = taken_back_directly(RIGHT, draw).unwrap();
        assert!((500..1400).contains(&not_supported), "{not_supported}");
    }
}

/// Every standing delegation of small registers, revoked and downgraded to each lower weight
/// of a few, by the owner and by its giver, by the definition's reach too.
#[test]
fn every_cut_of_small_registers_is_taken_back() {
    let mut random = Random::new(0x513);
    for at in 0..60 {
        let register = unsupported::random_unsupported(&mut random);
        let engine = if at % 3 == 0 && is_small(&encode(&register)) { &LITERAL } else { &FAST };
        for d in &register.delegations {
            let (giver, receiver) = (d.giver as u32, d.receiver as u32);
            let lower = (0..d.weight as u32).step_by(1 + d.weight as usize / 3);
            let cuts: Vec<Passed> = lower.map(|weight| downgrade(giver, giver, receiver, weight)).collect();
            for n in cuts.into_iter().chain([revoke(0, giver, receiver), revoke(giver, giver, receiver)]) {
                let (block, slip) = after_cut(&register, &n, b"");
                assert_eq!(handed_in(engine, &block, n.by, b"", &slip), (0, encode(&register)));
            }
        }
    }
}

/// C-17's sentences, where the lengths are right, the table passes, the register is well formed
/// and the caller can be named: the five bytes are read by what they mean, and the cut is made
/// without a slip.
fn literally(engine: &Engine, on: &Bytes, by: u32) -> u32 {
    let (before, after) = (&on.lent[..2188], &on.lent[2193..]);
    let [call, by_on_it, giver, receiver, weight] = [0, 1, 2, 3, 4].map(|at| on.lent[2188 + at] as u32);
    if by != 0 && by != giver {
        return 14;
    }
    let n = match (call, weight) {
        (2, 0) => revoke(by_on_it, giver, receiver),
        (3, _) => downgrade(by_on_it, giver, receiver, weight),
        _ => return 20,
    };
    let mut made = before.to_vec();
    let accepted = run_table(engine, &n, &on.table, &mut made).refusal == 0;
    if accepted && made == after && on.block == after { 0 } else { 20 }
}

/// A slip of a drawn cut with a few bytes changed, on the register after it, which may have one
/// changed too; the caller.
fn spoilt(random: &mut Random, draw: Draw) -> (Bytes, u32) {
    let (register, n, table) = drawn(random, draw);
    let (block, slip) = after_cut(&register, &n, &table);
    let mut on = Bytes { lent: slip, table, block };
    for _ in 0..random.pick(&[0, 1, 1, 1, 2]) {
        let place = changed_place(random, &register);
        let byte = random.pick(&[0, 1, 2, 3, 9, 255]);
        on.lent[place] = byte;
        if place >= AFTER_AT && random.chance(60) {
            on.block[place - AFTER_AT] = byte;
        }
    }
    let (giver, any) = (on.lent[GIVER_AT] as u32, random.below(5));
    (on, random.pick(&[0, giver, n.by, any]))
}

/// Taking back answers what the literal reading does. Answers how often 0, 14 and 20 came.
fn same_as_literally(engine: &Engine, draw: Draw) -> Result<[u32; 3], String> {
    let mut random = Random::new(0x514);
    let mut found = [0; 3];
    for _ in 0..2500 {
        let (on, by) = spoilt(&mut random, draw);
        let can_be_named = decode(&on.block).is_some_and(|r| r.enrolled(by) && !r.is_retired(by));
        if !can_be_named || !is_small(&on.lent[..BLOCK_LEN]) {
            continue;
        }
        let due = literally(&LITERAL, &on, by);
        let left = if due == 0 { on.lent[..BLOCK_LEN].to_vec() } else { on.block.clone() };
        same("taken back", handed_in(engine, &on.block, by, &on.table, &on.lent), (due, left))?;
        found[[0, 14, 20].iter().position(|&number| number == due).unwrap_or(2)] += 1;
    }
    Ok(found)
}

#[test]
fn taking_back_is_literal() {
    for draw in [ours, random_table as Draw] {
        for engine in [&FAST, &LITERAL] {
            let found = same_as_literally(engine, draw).unwrap();
            assert!(found.iter().all(|&count| count > 100), "{found:?}");
        }
        assert!(same_as_literally(&ONE_ROUND, draw).is_err());
        assert!(same_as_literally(&VISITED_ONCE, draw).is_err());
    }
    assert!(same_as_literally(&TEXT_LEFT_OUT, random_table).is_err());
}

/// Each of the five bytes with each of 256 values, by each caller: right are only the values
/// with which the same register comes out. Of a revoke of 3-4 in P2's register by its giver
/// that is the by of the owner too.
#[test]
fn every_value_of_the_five_bytes() {
    let accepted = |n: Passed| {
        let (block, slip) = after_cut(&example(), &n, b"");
        let mut found = Vec::new();
        for (at, byte) in (CALL_AT..AFTER_AT).flat_map(|at| (0..=255).map(move |byte| (at, byte))) {
            let changed = with_byte(&slip, at, byte);
            let giver = changed[GIVER_AT] as u32;
            let numbers: Vec<u32> = (0..5).map(|by| refusal(&block, by, &changed)).collect();
            let due = |by: u32, number: u32| if by == 0 || by == giver { number } else { 14 };
            assert!((0..5).all(|by| numbers[by as usize] == due(by, numbers[0])), "{at} {byte}");
            assert!([0, 20].contains(&numbers[0]));
            found.extend((numbers[0] == 0).then_some((at - CALL_AT, byte)));
        }
        found
    };
    assert_eq!(accepted(revoke(3, 3, 4)), [(0, 2), (1, 0), (1, 3), (2, 3), (3, 4), (4, 0)]);
    assert_eq!(accepted(EXAMPLE_CUT), [(0, 3), (1, 0), (1, 1), (2, 1), (3, 3), (4, 1)]);
}

/// Every byte of the slip and of the register is another: what comes out is what the literal
/// reading says, and where the register is not well formed 8.
#[test]
fn every_byte_counts() {
    let (block, slip) = after_cut(&example(), &EXAMPLE_CUT, b"");
    let mut found = [0; 4];
    for (at, more) in (0..SLIP_LEN + BLOCK_LEN).flat_map(|at| [1, 128].map(|more| (at, more))) {
        let mut on = Bytes { lent: slip.clone(), table: Vec::new(), block: block.clone() };
        let place = if at < SLIP_LEN { &mut on.lent[at] } else { &mut on.block[at - SLIP_LEN] };
        *place ^= more;
        let due = if decode(&on.block).is_some() { literally(&FAST, &on, 1) } else { 8 };
        assert_eq!(refusal(&on.block, 1, &on.lent), due, "{at} {more}");
        found[[0, 8, 14, 20].iter().position(|&number| number == due).unwrap_or(3)] += 1;
    }
    // Accepted are the owner's by, and two other weights of each of 1-3, 2-3 and 3-4 in the
    // before: the cut and its rounds leave the same of these.
    assert_eq!((found[0], found[2]), (7, 2));
    assert!(found[1] > 4000 && found[3] > 8000, "{found:?}");
}

/// The first that applies of 1, 2, 7, 17, 8, 9, 19, 14 and 20; 3 has retired, and 5 is not
/// enrolled.
#[test]
fn refusals_come_in_their_order() {
    let [malformed, bad] = generate::texts::refused_at_the_end();
    let (good, slip) = after_cut(&generate::named::few(), &revoke(1, 1, 2), b"");
    let (other, short) = (with_byte(&slip, CALL_AT, 4), &slip[..SLIP_LEN - 1]);
    let spoilt = with_byte(&good, 1, 1);
    let due: [(u32, u32, &[u8], &[u8], &[u8]); 17] = [
        (1, 64, &malformed, &spoilt[1..], &other),
        (1, 64, &malformed, &spoilt, short),
        (2, 64, &malformed, &spoilt, &other),
        (2, 4_294_967_295, b"", &good, &slip),
        (7, 5, &malformed, &spoilt, &other),
        (7, 0, &malformed, &good, &slip),
        (17, 5, &bad, &spoilt, &other),
        (17, 1, &bad, &good, &slip),
        (8, 5, b"", &spoilt, &other),
        (8, 1, b"", &spoilt, &slip),
        (9, 5, b"", &good, &other),
        (19, 3, b"", &good, &other),
        (19, 3, b"", &good, &with_byte(&slip, GIVER_AT, 3)),
        (14, 2, b"", &good, &other),
        (14, 4, b"", &good, &slip),
        (20, 1, b"", &good, &other),
        (20, 0, b"", &encode(&generate::named::few()), &slip),
    ];
    for (number, by, text, block, slip) in due {
        assert_eq!(handed_in(&FAST, block, by, text, slip), (number, block.to_vec()), "{number} {by}");
    }
    assert_eq!(refusal(&good, 0, &slip), 0);
}

/// Lengths other than 4,381 get 1 before anything else, and nothing changes.
#[test]
fn other_lengths_are_refused() {
    let (block, slip) = after_cut(&example(), &EXAMPLE_CUT, b"");
    for length in (0..=9000).step_by(17).chain([2188, 4380, 4382, 8762]).filter(|&length| length != SLIP_LEN) {
        let mut other = slip.clone();
        other.resize(length, 0);
        for (by, text) in [(1, &b""[..]), (64, b"\n")] {
            assert_eq!(handed_in(&FAST, &block, by, text, &other), (1, block.clone()));
            for n in [revoke(by, 1, 3), downgrade(by, 1, 3, 0)] {
                let (mut left, mut written) = (block.clone(), other.clone());
                assert_eq!(cut_slip(&FAST, &n, text, &mut left, &mut written).refusal, 1);
                assert_eq!((&left, &written), (&block, &other));
            }
        }
    }
    for length in [0, 1, 2180, 2187, 2189, 4381] {
        assert_eq!(refusal(&vec![0; length], 64, &slip), 1);
    }
}

/// Whatever slip is accepted: subjects, marks and retired bits stay, and every delegation that
/// stands stays under the same condition, at least as heavy.
fn nothing_is_lost(now: &[u8], restored: &[u8]) {
    let (now, restored) = (decode(now).expect("well formed"), decode(restored).expect("well formed"));
    assert_eq!((&now.marks, now.retired), (&restored.marks, restored.retired));
    for d in &now.delegations {
        let kept = restored.standing(d.giver as u32, d.receiver as u32).expect("a delegation that stays");
        assert!((kept.need, kept.bar) == (d.need, d.bar) && kept.weight >= d.weight);
    }
}

#[test]
fn accepted_slips_keep_what_stands() {
    let mut random = Random::new(0x515);
    let mut accepted = 0;
    for _ in 0..4000 {
        let (on, by) = spoilt(&mut random, ours);
        let (refusal, left) = handed_in(&FAST, &on.block, by, &on.table, &on.lent);
        if refusal == 0 {
            nothing_is_lost(&on.block, &left);
            accepted += 1;
        }
    }
    assert!(accepted > 800, "{accepted}");
}

/// Consistent slips that nobody wrote are accepted, from a caller without any right too. They
/// add delegations that are not supported, and the next call that runs rounds takes these away.
#[test]
fn slips_that_nobody_wrote_are_accepted() {
    for (by, register, slip) in slips::consistent() {
        let block = encode(&register);
        let (refusal, mut left) = handed_in(&FAST, &block, by, b"", &slip);
        assert_eq!(refusal, 0, "{:?}", cut_on(&slip));
        assert!(left == slip[..BLOCK_LEN]);
        nothing_is_lost(&block, &left);
        assert!(is_supported(&OURS, &register) && left != block);
        let marks = register.marks_of(1) as u32;
        assert_eq!(run(&FAST, &set_marks(0, 1, marks), &mut left).refusal, 0);
        assert!(is_supported(&OURS, &decode(&left).expect("well formed")));
    }
    let adds = |&(by, ref register, ref slip): &(u32, Register, Vec<u8>)| {
        let restored = decode(&slip[..BLOCK_LEN]).expect("well formed");
        let has_right = register.delegations.iter().any(|d| d.receiver as u32 == by);
        !has_right && by != 0 && !is_supported(&OURS, &restored)
    };
    assert!(slips::consistent().iter().filter(|made| adds(made)).count() > 3);
}

/// Nobody can add a subject, set a mark or clear a bit, nor bring back a delegation that the
/// cut on the slip would keep.
#[test]
fn slips_of_other_registers_are_refused() {
    let now = example();
    let before = with(&now, (4, 1, 9, 0, 0));
    let slip = |before: &Register| unwritten(&revoke(4, 4, 1), before, &now);
    let of = |slip: &[u8]| refusal(&encode(&now), 4, slip);
    assert_eq!(of(&slip(&before)), 0);
    for marks in [vec![0; 6], vec![0, 1, 0, 0, 0], vec![0, 0, 0, 0, 1 << 15]] {
        assert_eq!(of(&slip(&Register { marks, ..before.clone() })), 20);
    }
    let first = [(0, 4, 255, 0, 0), (0, 1, 6, 0, 0), (0, 1, 4, 0, 0)];
    let second = [(1, 3, 4, 1, 0), (1, 2, 4, 0, 0), (3, 2, 0, 0, 8)];
    for kept in first.into_iter().chain(second) {
        assert_eq!(of(&slip(&with(&before, kept))), 20, "{kept:?}");
    }
    let gone = generate::retireregisters::without(before.clone(), &[2]);
    assert_eq!(of(&slip(&gone)), 20);
}

/// The owner may take back the giver's cut, and the giver the owner's; nobody else may.
#[test]
fn the_owner_and_the_giver_take_back() {
    let mut random = Random::new(0x516);
    let mut others = 0;
    for _ in 0..400 {
        let (register, n, table) = drawn(&mut random, ours);
        let (block, slip) = after_cut(&register, &n, &table);
        for by in (0..register.marks.len() as u32).filter(|&by| !register.is_retired(by)) {
            let due = if by == 0 || by == n.giver { 0 } else { 14 };
            assert_eq!(refusal(&block, by, &slip), due);
            others += (due == 0 && by != n.by) as u32;
        }
    }
    assert!(others > 200, "{others}");
}

/// A call that changes the register in between, and another cut: 20. One that changes nothing
/// doesn't matter.
#[test]
fn a_changed_register_is_refused() {
    let mut random = Random::new(0x517);
    let mut found = [0, 0];
    for _ in 0..1500 {
        let (register, n, table) = drawn(&mut random, ours);
        let (mut block, slip) = after_cut(&register, &n, &table);
        let after = block.clone();
        let call = random.pick(&retirelists::DRAWN);
        let between = drawnmarks::likely(&mut random, call, &OURS, &decode(&block).expect("well formed"));
        answer(&FAST, &between, &mut block);
        let due = if block == after { 0 } else { 20 };
        let by = if decode(&block).is_some_and(|r| r.is_retired(n.by)) { 0 } else { n.by };
        assert_eq!(refusal(&block, by, &slip), due, "{between:?}");
        found[(due == 0) as usize] += 1;
    }
    assert!(found.iter().all(|&count| count > 200), "{found:?}");
}

/// Cuts one after the other are taken back in the reverse order. In the order in which they
/// were made the first gets 20.
#[test]
fn cuts_are_taken_back_in_reverse_order() {
    let mut random = Random::new(0x518);
    let mut most = 0;
    for _ in 0..300 {
        let (register, _, table) = drawn(&mut random, ours);
        let (mut blocks, mut slips) = (vec![encode(&register)], Vec::new());
        while let Some(now) = blocks.last().and_then(|block| decode(block)).filter(|r| !r.delegations.is_empty()) {
            let n = drawn_cut(&mut random, &now);
            let (block, slip) = after_cut(&now, &n, &table);
            blocks.push(block);
            slips.push((n.by, slip));
            if slips.len() == 4 {
                break;
            }
        }
        if slips.len() > 1 && blocks[1] != blocks[slips.len()] {
            assert_eq!(refusal(&blocks[slips.len()], 0, &slips[0].1), 20);
        }
        for (at, (by, slip)) in slips.iter().enumerate().rev() {
            assert_eq!(handed_in(&FAST, &blocks[at + 1], *by, &table, slip), (0, blocks[at].clone()));
        }
        most = most.max(slips.len());
    }
    assert_eq!(most, 4);
}

/// After a restore a list of calls goes on as if the cut had not been made; a cut is taken back
/// again.
#[test]
fn lists_go_on_from_the_restored_block() {
    let mut random = Random::new(0x519);
    let mut made = 0;
    for _ in 0..100 {
        let calls = lists::list(drawnmarks::likely, &mut random, &retirelists::DRAWN, 40);
        let (mut plain, mut with_cuts) = (encode(&Register::fresh()), encode(&Register::fresh()));
        for n in calls {
            let now = decode(&with_cuts).expect("well formed");
            if !now.delegations.is_empty() {
                let cut = drawn_cut(&mut random, &now);
                let (mut block, slip) = after_cut(&now, &cut, b"");
                assert_eq!(take_back(&mut block, cut.by, b"", &slip), RESTORED);
                (with_cuts, made) = (block, made + 1);
            }
            assert_eq!(answer(&FAST, &n, &mut with_cuts), answer(&FAST, &n, &mut plain));
            assert_eq!(with_cuts, plain);
        }
    }
    assert!(made > 1000, "{made}");
}

/// Ours is lent as an empty text or written out. Under another table a slip is good only if the
/// same comes out.
#[test]
fn the_table_counts_and_not_its_text() {
    let mut random = Random::new(0x51A);
    let (mut same, mut other) = (0, 0);
    for _ in 0..600 {
        let (register, n, _) = drawn(&mut random, ours);
        let (block, slip) = after_cut(&register, &n, b"");
        assert_eq!(handed_in(&FAST, &block, n.by, &OURS.text(), &slip), (0, encode(&register)));
        let table = random_table(&mut random);
        let alike = after_cut(&register, &n, &table.text()).0 == block;
        assert_eq!(handed_in(&FAST, &block, n.by, &table.text(), &slip).0, if alike { 0 } else { 20 });
        (same, other) = (same + alike as u32, other + !alike as u32);
    }
    assert!(same > 20 && other > 200, "{same} {other}");
}

/// An answers buffer of another length than 12 gets 1 before anything else, and nothing changes;
/// the answers are written only when accepted.
#[test]
fn hosts_take_back() {
    let before = encode(&example());
    let (after, slip) = after_cut(&example(), &EXAMPLE_CUT, b"");
    for length in (0..30).filter(|&length| length != 12) {
        let (mut block, mut written, mut answers) = (before.clone(), vec![0xA5; SLIP_LEN], vec![0xA5; length]);
        let number = host_cut_slip(&FAST, &EXAMPLE_CUT, b"", &mut block, &mut written, &mut answers);
        assert_eq!((number, &block), (1, &before));
        assert!(written.iter().chain(&answers).all(|&byte| byte == 0xA5));
        let mut block = after.clone();
        assert_eq!(host_take_back(&FAST, &mut block, 1, b"", &slip, &mut answers), 1);
        assert!(block == after && answers.iter().all(|&byte| byte == 0xA5));
    }
    let (mut block, mut written, mut answers) = (before.clone(), vec![0xA5; SLIP_LEN], [0xA5; 12]);
    assert_eq!(host_take_back(&FAST, &mut block, 1, b"", &slip, &mut answers), 20);
    assert_eq!(host_cut_slip(&FAST, &revoke(4, 1, 3), b"", &mut block, &mut written, &mut answers), 14);
    assert_eq!((answers, &block), ([0xA5; 12], &before));
    assert_eq!(host_cut_slip(&FAST, &EXAMPLE_CUT, b"", &mut block, &mut written, &mut answers), 0);
    assert_eq!((answers, &block, &written), ([0, 0, 0, 0, 1, 0, 0, 0, 2, 0, 0, 0], &after, &slip));
    assert_eq!(host_take_back(&FAST, &mut block, 0, b"", &written, &mut answers), 0);
    assert_eq!((answers, &block), ([0; 12], &before));
}
