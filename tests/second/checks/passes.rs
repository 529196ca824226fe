//! Passing on without using, document 02's C-18: the example, the kinds of a block, use, grants
//! with a kind, that chains take no notice of it, and that remainders keep it.

use super::{lent, ours, same, Draw};
use crate::cuts::tiny_registers;
use crate::generated::{block_of, with_blocks};
use crate::retires::named_change;
use crate::{filecases, slipcases};
use generate::drawnpasses::with_drawn_kinds;
use generate::passregisters::{all_passing, example, full, row, several, small, with_kinds};
use generate::{
    downgrade, drawnpasses, grant, grant_kind, grant_of, marks, on, order, orders, passes, reach, register,
    registerfiles, retire, retires, revoke, set_marks, use_right, KINDS,
};
use second::block::{
    decode, encode, well_formed, Delegation, Register, BLOCK_LEN, KIND, PASS_ONLY, RECORDS_AT, RECORD_LEN,
};
use second::call::{blank, run, run_table, Outcome};
use second::casefile::{expected_line, Case};
use second::chain::literal_reach;
use second::engine::{FAST, LITERAL};
use second::lentcase::{Bytes, LentCase};
use second::random::{random_table, Random};
use second::refusal::{Call, Passed};
use second::regfile::Rows;
use second::remainder::{candidates, check_best};
use second::slip::{revoke_slip, take_back, AFTER_AT, SLIP_LEN};
use second::table::{Table, OURS};

fn passing(giver: u32, receiver: u32, weight: u32) -> Passed {
    grant_kind(grant(giver, receiver, weight, 0, 0), 1)
}

fn ordinary(giver: u32, receiver: u32, weight: u32) -> Passed {
    grant_kind(grant(giver, receiver, weight, 0, 0), 0)
}

/// The refusal and the answers of a call on a register.
fn answer(register: &Register, n: Passed) -> (u32, [i32; 3]) {
    let Outcome { refusal, answers } = run(&FAST, &n, &mut encode(register));
    (refusal, answers)
}

fn refusal(register: &Register, n: Passed) -> u32 {
    answer(register, n).0
}

/// 0-1:3 pass-only and 1-2:2: 1 has no use and 2 has. 0-1 is raised by the same kind alone, and
/// downgraded to 0 it stays and drops 1-2.
#[test]
fn the_example() {
    let mut block = encode(&register(&[0; 4], &[]));
    let due = [
        (passing(0, 1, 3), 0, [1, 0, 0]), (ordinary(1, 2, 2), 0, [2, 0, 0]), (use_right(1), 0, [0, 0, 0]),
        (use_right(2), 0, [1, 0, 0]), (reach(1, 2), 0, [2, 0, 0]), (ordinary(0, 1, 9), 11, [0; 3]),
        (grant(0, 1, 9, 0, 0), 11, [0; 3]), (passing(0, 1, 9), 0, [2, 0, 0]), (reach(1, 2), 0, [8, 0, 0]),
        (downgrade(0, 0, 1, 0), 0, [1, 0, 2]), (use_right(1), 0, [0, 0, 0]), (use_right(2), 0, [0, 0, 0]),
        (ordinary(0, 1, 0), 11, [0; 3]), (grant(0, 1, 0, 0, 0), 11, [0; 3]), (passing(0, 1, 0), 21, [0; 3]),
        (passing(0, 1, 2), 0, [1, 0, 0]), (reach(1, 2), 0, [1, 0, 0]), (revoke(0, 0, 1), 0, [0, 0, 1]),
        (ordinary(0, 1, 0), 0, [1, 0, 0]), (use_right(1), 0, [1, 0, 0]),
    ];
    for (at, (n, refusal, answers)) in due.into_iter().enumerate() {
        assert_eq!(run(&FAST, &n, &mut block), Outcome { refusal, answers }, "{at}");
    }
}

/// The fourth byte of a record is its kind, 0 or 1.
#[test]
fn kinds_are_the_fourth_byte() {
    let block = encode(&example());
    assert_eq!(block[RECORDS_AT..RECORDS_AT + 16], [0, 1, 3, 1, 0, 0, 0, 0, 1, 2, 2, 0, 0, 0, 0, 0]);
    for at in [0, 1] {
        let place = RECORDS_AT + RECORD_LEN * at + KIND;
        for byte in 0..=255 {
            let other = [&block[..place], &[byte], &block[place + 1..]].concat();
            assert_eq!(well_formed(&other), byte < 2);
            assert_eq!(decode(&other).map(|register| encode(&register)), (byte < 2).then_some(other));
        }
    }
    let mut unused = block;
    unused[RECORDS_AT + RECORD_LEN * 2 + KIND] = 1;
    assert!(!well_formed(&unused));
}

/// The owner, and whoever has some ordinary delegation, of any weight and under any condition.
#[test]
fn use_is_by_ordinary_delegations() {
    let staying = (0..15).filter(|&subject| subject != 13);
    let found: Vec<i32> = staying.map(|subject| answer(&several(), use_right(subject)).1[0]).collect();
    assert_eq!(found, [1, 0, 1, 0, 0, 1, 1, 0, 1, 1, 1, 1, 0, 0]);
    assert_eq!([13, 15, 64].map(|subject| refusal(&several(), use_right(subject))), [19, 9, 2]);
    let mut random = Random::new(0x05E);
    let mut counts = [0; 3];
    for _ in 0..2000 {
        let drawn = registerfiles::small(&mut random);
        let register = with_drawn_kinds(&mut random, &drawn);
        for subject in 0..register.marks.len() as u32 {
            let to_it = register.delegations.iter().filter(|d| d.receiver as u32 == subject);
            let to_it: Vec<u8> = to_it.map(|d| d.kind).collect();
            let due = subject == 0 || to_it.contains(&0);
            assert_eq!(answer(&register, use_right(subject)), (0, [due as i32, 0, 0]));
            counts[if to_it.is_empty() { 0 } else { 1 + due as usize }] += 1;
        }
    }
    assert!(counts.iter().all(|&count| count > 1000), "{counts:?}");
}

/// 21 comes after 6 and before 7, whatever else applies, and for no other reason.
#[test]
fn no_kind_comes_after_6() {
    let mut bad_block = encode(&example());
    bad_block[1] = 1;
    for kind in [2, 3, 255, 256, 257, 65_536, 4_294_967_295] {
        let with = |of: Passed| grant_kind(of, kind);
        let before = [
            (grant(0, 64, 1, 0, 0), 2), (grant(0, 3, 256, 0, 0), 3), (grant(0, 3, 1, 1, 1), 4),
            (grant(3, 3, 1, 0, 0), 5), (grant(1, 0, 1, 0, 0), 6), (grant(0, 3, 1, 0, 0), 21),
            (grant(0, 3, 0, 0, 0), 21), (grant(0, 63, 1, 0, 0), 21), (grant(0, 1, 0, 0, 0), 21),
            (grant(2, 3, 255, 0, 0), 21),
        ];
        assert!(before.iter().all(|&(of, number)| refusal(&example(), with(of)) == number));
        assert_eq!(run(&FAST, &with(grant(0, 3, 1, 0, 0)), &mut [0; 9]).refusal, 1);
        assert_eq!(run_table(&FAST, &with(grant(0, 3, 1, 0, 0)), b"\n", &mut bad_block.clone()).refusal, 21);
        assert_eq!(refusal(&full(), with(grant(15, 1, 1, 0, 0))), 21);
    }
    for (giver, receiver) in [(0, 3), (0, 1), (1, 2)] {
        assert_eq!(refusal(&example(), passing(giver, receiver, 0)), 21);
        assert_eq!(refusal(&example(), passing(giver, receiver, 256)), 3);
    }
    assert_eq!([0, 1, 255].map(|weight| refusal(&example(), passing(0, 3, weight))), [21, 0, 0]);
    assert_eq!([0, 1, 255].map(|weight| refusal(&example(), ordinary(0, 3, weight))), [0, 0, 0]);
}

/// What is due for a grant on a register whose numbers are within their limits.
fn due(table: &Table, register: &Register, n: &Passed) -> (u32, Option<Register>) {
    if n.kind > 1 || n.kind == 1 && n.weight == 0 {
        return (21, None);
    }
    let standing = register.standing(n.giver, n.receiver);
    let raises = |d: &Delegation| (d.need as u32, d.bar as u32, d.kind as u32) == (n.need, n.bar, n.kind);
    match standing {
        Some(d) if !raises(d) || n.weight <= d.weight as u32 => return (11, None),
        None if register.delegations.len() == 256 => return (12, None),
        _ => {}
    }
    if (literal_reach(table, register, n.giver, n.receiver) as i32) < n.weight as i32 {
        return (16, None);
    }
    let mut after = register.clone();
    after.delegations.retain(|d| (d.giver as u32, d.receiver as u32) != (n.giver, n.receiver));
    let [giver, receiver, weight, kind] = [n.giver, n.receiver, n.weight, n.kind].map(|number| number as u8);
    after.delegations.push(Delegation { giver, receiver, weight, kind, need: n.need as u16, bar: n.bar as u16 });
    after.delegations.sort_by_key(Delegation::pair);
    (0, Some(after))
}

/// Drawn grants, for pairs that stand and others, with either kind, without one and with one
/// that is none, are answered as the sentences say; every byte of the block is compared.
fn grants_are_answered(draw: Draw) -> [u32; 5] {
    let mut random = Random::new(0x6A17);
    let mut found = [0; 5];
    for _ in 0..1500 {
        let (table, drawn) = (draw(&mut random), registerfiles::small(&mut random));
        let register = with_drawn_kinds(&mut random, &drawn);
        let likely = [(); 4].map(|_| drawnpasses::likely(&mut random, Call::GrantKind, &table, &register));
        let within = |n: &&Passed| n.weight <= 255 && n.need.max(n.bar) <= 65_535 && n.need & n.bar == 0;
        let enrolled = |n: &&Passed| register.enrolled(n.giver) && register.enrolled(n.receiver);
        for n in likely.iter().filter(|n| within(n) && enrolled(n) && n.giver != n.receiver && n.receiver != 0) {
            for n in [*n, Passed { call: Call::Grant, kind: 0, ..*n }] {
                let (number, after) = due(&table, &register, &n);
                let mut block = encode(&register);
                assert_eq!(run_table(&FAST, &n, &lent(&table), &mut block).refusal, number);
                assert_eq!(decode(&block).as_ref(), Some(after.as_ref().unwrap_or(&register)));
                found[[0, 11, 12, 16, 21].iter().position(|&other| other == number).expect("a refusal")] += 1;
            }
        }
    }
    found
}

#[test]
fn drawn_grants_are_answered() {
    for draw in [ours, random_table as Draw] {
        let found = grants_are_answered(draw);
        assert!([0, 1, 3, 4].iter().all(|&at| found[at] > 200), "{found:?}");
    }
    let of = |n: Passed| (refusal(&full(), n), due(&OURS, &full(), &n).0);
    assert_eq!(of(passing(15, 1, 1)), (12, 12));
}

/// In a full register either kind is raised by a grant of its own, and by no other.
#[test]
fn a_full_register_does_not_matter() {
    for d in [0, 1, 254, 255].map(|place| full().delegations[place]) {
        let again = grant_of(&(d.giver, d.receiver, d.weight + 1, d.need, d.bar));
        let kinds = [0, 1].map(|kind| refusal(&full(), grant_kind(again, kind)));
        assert_eq!(kinds, if d.kind == PASS_ONLY { [11, 0] } else { [0, 11] });
        assert_eq!(refusal(&full(), again), kinds[0]);
    }
}

/// The calls that leave remainders, made on a register by the owner, each with its named change.
fn changes(random: &mut Random, register: &Register) -> Vec<(Passed, Register)> {
    let d = random.pick(&register.delegations);
    let (giver, receiver) = (d.giver as u32, d.receiver as u32);
    let subject = random.range(1, register.marks.len() as u32 - 1);
    let without = |pair: (u8, u8)| {
        let left = register.delegations.iter().filter(|d| d.pair() != pair).copied().collect();
        Register { delegations: left, ..register.clone() }
    };
    let mut marked = register.clone();
    marked.marks[subject as usize] ^= 1;
    let marks = marked.marks[subject as usize] as u32;
    let mut all = vec![(revoke(0, giver, receiver), without(d.pair())), (set_marks(0, subject, marks), marked)];
    all.push((retire(0, subject), named_change(register, &retire(0, subject))));
    if d.weight > 0 {
        let mut lower = register.clone();
        lower.delegations.iter_mut().filter(|other| other.pair() == d.pair()).for_each(|d| d.weight = 0);
        all.push((downgrade(giver, giver, receiver, 0), lower));
    }
    all
}

/// A program that changes what the right one leaves of a register.
type Leaves = fn(&Register, Register) -> Register;

/// Tiny registers with drawn kinds: what is left is the best of all remainders, which keep each
/// delegation's kind. Answers how many were compared and how many pass-only ones came to 0.
fn best_remainder(draw: Draw, leaves: Leaves) -> Result<[u64; 2], String> {
    let mut random = Random::new(0x7E3A);
    let mut found = [0; 2];
    for drawn in tiny_registers().iter().filter(|register| candidates(register) <= 3000).step_by(2) {
        let (table, register) = (draw(&mut random), with_drawn_kinds(&mut random, drawn));
        if register.delegations.is_empty() {
            continue;
        }
        for (n, begun) in changes(&mut random, &register) {
            let mut block = encode(&register);
            same("refusal", run_table(&FAST, &n, &lent(&table), &mut block).refusal, 0)?;
            let left = leaves(&register, decode(&block).ok_or("not well formed")?);
            found[0] += check_best(&table, &begun, &left)?;
            let at_0 = |of: &Register| of.delegations.iter().filter(|d| d.kind == PASS_ONLY && d.weight == 0).count();
            found[1] += (at_0(&left) > at_0(&register)) as u64;
        }
    }
    Ok(found)
}

/// Remainders keep each delegation's kind, and a pass-only one that comes to 0 stays: programs
/// that leave another kind, or drop such a one, leave no best remainder.
#[test]
fn the_best_remainder_keeps_kinds() {
    for draw in [ours, random_table as Draw] {
        let [compared, at_0] = best_remainder(draw, |_, left| left).unwrap();
        assert!(compared > 20_000 && at_0 > 50, "{compared} {at_0}");
        let wrong: [Leaves; 5] = [
            |_, left| with_kinds(&left, |_| 0),
            |_, left| all_passing(&left),
            |_, left| with_kinds(&left, |at| 1 - left.delegations[at].kind),
            |_, left| with_kinds(&left, |at| left.delegations[at].kind * (left.delegations[at].weight > 0) as u8),
            |_, mut left| {
                left.delegations.retain(|d| d.kind == 0 || d.weight > 0);
                left
            },
        ];
        assert!(wrong.iter().all(|leaves| best_remainder(draw, *leaves).is_err()));
    }
}

/// A kind for each pair.
struct Kinds(Vec<u8>);

impl Kinds {
    fn drawn(random: &mut Random) -> Kinds {
        let percent = random.pick(&[20, 50, 80]);
        Kinds((0..64 * 64).map(|_| random.chance(percent) as u8).collect())
    }

    fn of(&self, giver: u32, receiver: u32) -> u8 {
        self.0[(64 * giver + receiver) as usize]
    }

    /// A block with them; one that is not well formed stays.
    fn on_block(&self, block: &[u8]) -> Vec<u8> {
        let with = |register: Register| {
            let of = |d: &Delegation| self.of(d.giver as u32, d.receiver as u32);
            encode(&with_kinds(&register, |at| of(&register.delegations[at])))
        };
        decode(block).map_or(block.to_vec(), with)
    }

    /// A slip, or a register's file, with them; other bytes stay.
    fn on_lent(&self, lent: &[u8]) -> Vec<u8> {
        if lent.len() == SLIP_LEN {
            let cut = &lent[BLOCK_LEN..AFTER_AT];
            return [&self.on_block(&lent[..BLOCK_LEN]), cut, &self.on_block(&lent[AFTER_AT..])].concat();
        }
        let Some(mut rows) = Rows::read(lent) else { return lent.to_vec() };
        for row in rows.delegations.iter_mut().filter(|row| row[0] < 64 && row[1] < 64 && row[5] == 0) {
            row[5] = self.of(row[0], row[1]) as u32;
        }
        rows.text()
    }

    fn on(&self, bytes: &Bytes) -> Bytes {
        Bytes { lent: self.on_lent(&bytes.lent), block: self.on_block(&bytes.block), ..bytes.clone() }
    }
}

/// What is due of a case that was made so, with kinds: the same, with them. But use is that of
/// ordinary delegations, a new delegation is ordinary, and a grant for a pair that stands and is
/// pass-only gets 11, if nothing comes before.
fn due_with(kinds: &Kinds, case: &LentCase, outcome: &Outcome, left: &Bytes) -> (Outcome, Bytes) {
    let (mut outcome, mut left) = (*outcome, kinds.on(left));
    let register = decode(&case.on.block).unwrap_or(Register::fresh());
    let n = case.passed().unwrap_or(blank(Call::Open));
    let stands = register.standing(n.giver, n.receiver).is_some();
    match n.call {
        Call::Use if outcome.refusal == 0 => {
            let mut to_it = register.delegations.iter().filter(|d| d.receiver as u32 == n.receiver);
            let may = n.receiver == 0 || to_it.any(|d| kinds.of(d.giver as u32, n.receiver) == 0);
            outcome.answers[0] = may as i32;
        }
        Call::Grant if stands && [0, 16].contains(&outcome.refusal) => {
            if kinds.of(n.giver, n.receiver) == PASS_ONLY {
                return (Outcome { refusal: 11, answers: [0; 3] }, kinds.on(&case.on));
            }
        }
        Call::Grant if outcome.refusal == 0 && !stands => {
            let mut after = decode(&left.block).expect("a well-formed block");
            let at = after.place(n.giver, n.receiver).expect("a standing pair");
            after.delegations[at].kind = 0;
            left.block = encode(&after);
        }
        _ => {}
    }
    (outcome, left)
}

/// The recorded cases of all kinds but `pass` in which nothing is pass-only, each lent a text;
/// not those that bring a block over, which may hold anything.
fn of_other_kinds() -> Vec<LentCase> {
    let kinds = KINDS.iter().chain([&orders::KIND, &marks::KIND, &retires::KIND]);
    let plain = |case: &Case| passes::each_on(block_of(case), case.lent(), [case.passed]);
    let mut all: Vec<LentCase> = kinds.flat_map(with_blocks).collect::<Vec<Case>>().iter().flat_map(plain).collect();
    all.extend(filecases::cases().iter().chain(slipcases::cases()).cloned());
    let ordinary = |block: &[u8]| decode(block).is_none_or(|register| register.delegations.iter().all(|d| d.kind == 0));
    let slip = |lent: &[u8]| lent.len() != SLIP_LEN || ordinary(&lent[..BLOCK_LEN]) && ordinary(&lent[AFTER_AT..]);
    let brings = |case: &LentCase| case.passed().is_some_and(|n| n.call == Call::BringOver);
    all.retain(|case| !brings(case) && ordinary(&case.on.block) && slip(&case.on.lent));
    all
}

/// Every answer and every byte of these with drawn kinds is what is due: the blocks, the texts
/// and the slips.
#[test]
fn other_answers_take_no_notice_of_kinds() {
    let mut random = Random::new(0x0717);
    let (all, mut others) = (of_other_kinds(), 0);
    for case in &all {
        let kinds = Kinds::drawn(&mut random);
        let (outcome, left) = case.made(&FAST);
        let with = LentCase { on: kinds.on(&case.on), ..case.clone() };
        let made = with.made(&FAST);
        assert_eq!(made, due_with(&kinds, case, &outcome, &left), "{:?}", case.asked);
        others += (made.0 != outcome) as u32;
    }
    assert!(all.len() > 18_000 && others > 200, "{} {others}", all.len());
}

/// A row is cut at 1-2, and all after it falls. In the slip's before another kind of what stays
/// gets 20; of what was revoked, or dropped by the rounds, it leaves the slip that the cut writes,
/// and is restored. In the after it gets 20.
#[test]
fn slips_with_another_kind() {
    let (mut after, mut slip) = (encode(&row()), vec![0; SLIP_LEN]);
    assert_eq!(revoke_slip(&mut after, 0, 1, 2, b"", &mut slip).answers, [3, 0, 2]);
    let handed = |block: &[u8], slip: &[u8]| {
        let mut block = block.to_vec();
        (take_back(&mut block, 1, b"", slip).refusal, block)
    };
    assert_eq!(handed(&after, &slip), (0, encode(&row())));
    for at in 0..row().delegations.len() {
        let place = RECORDS_AT + RECORD_LEN * at + KIND;
        let with = |place: usize, byte: u8| [&slip[..place], &[byte], &slip[place + 1..]].concat();
        let other = with(place, 1 - slip[place]);
        let due = if at == 0 { (20, after.clone()) } else { (0, other[..BLOCK_LEN].to_vec()) };
        assert_eq!(handed(&after, &other), due, "{at}");
        assert_eq!(handed(&after, &with(place, 2)), (20, after.clone()));
        assert_eq!(handed(&after, &with(AFTER_AT + place, 1 - slip[AFTER_AT + place])), (20, after.clone()));
    }
}

/// Chains and orders of registers of either kind, written byte for byte.
#[test]
fn chains_take_no_notice_of_kinds() {
    for register in small() {
        let ordinary = with_kinds(&register, |_| 0);
        let shown = |register: &Register, n: Passed| expected_line(&FAST, &on(&encode(register), n), &mut Vec::new());
        for d in &register.delegations {
            let written = |of: &Register| {
                let mut buffer = [9; 126];
                (second::call::chain(&encode(of), d.giver as u32, d.receiver as u32, &mut buffer), buffer)
            };
            assert_eq!(written(&register), written(&ordinary));
        }
        for subject in 1..register.marks.len() as u32 {
            assert_eq!(shown(&register, order(subject, 128)), shown(&ordinary, order(subject, 128)));
            let reach = |of: &Register, engine| run(engine, &reach(0, subject), &mut encode(of));
            assert_eq!(reach(&register, &FAST), reach(&ordinary, &LITERAL));
        }
    }
}

/// Calls of call files and lists grant ordinary delegations, and never get 21.
#[test]
fn grants_without_a_kind_are_ordinary() {
    for weight in 0..=255 {
        let mut block = encode(&example());
        let outcome = run(&FAST, &grant(0, 3, weight, 0, 0), &mut block);
        let granted = decode(&block).and_then(|register| register.standing(0, 3).copied());
        assert_eq!((outcome.refusal, granted.map(|d| (d.weight as u32, d.kind))), (0, Some((weight, 0))));
    }
    assert!(!second::refusal::tests(Call::Grant).passed.iter().any(|(number, _)| *number == 21));
}
