//! Wrong programs for subjects that retire, which the generated cases of the kind `retire` notice:
//! other changes, other bits, other rounds, other counts.

use crate::faults::{ONE_ROUND, VISITED_ONCE};
use crate::generated::{block_of, recorded};
use crate::markfaults::{reach_of, settled, settled_by, shown, Answer};
use crate::marks::{rounds_by, since, Change};
use crate::retirecases::asked;
use crate::retires::named_change;
use second::block::{decode, Delegation, Register};
use second::casefile::Case;
use second::cut::round;
use second::engine::FAST;
use second::refusal::{admit, Passed};
use second::table::{Table, OURS};
use std::sync::OnceLock;

const RIGHT: Change = |t, r, n| settled(t, named_change(r, n));

fn changed(n: &Passed, text: &[u8], block: &[u8], change: Change) -> Answer {
    let (table, register) = admit(&FAST, n, text, block, 0)?;
    Ok(change(&table, &register, n))
}

/// The right program, with other numbers or another text than it was passed.
pub fn right(n: &Passed, text: &[u8], block: &[u8]) -> Answer {
    changed(n, text, block, RIGHT)
}

/// The calls on blocks of at most 100 delegations, which take little time, and their lines.
fn lines() -> &'static [(&'static Case, String)] {
    static LINES: OnceLock<Vec<(&'static Case, String)>> = OnceLock::new();
    let few = |case: &&Case| decode(block_of(case)).is_none_or(|register| register.delegations.len() <= 100);
    LINES.get_or_init(|| asked().filter(few).map(|case| (case, recorded(&FAST, case))).collect())
}

/// How many calls have another line than the recorded one.
pub fn noticed(program: impl Fn(&Case) -> String) -> usize {
    lines().iter().filter(|(case, line)| program(case) != *line).count()
}

fn noticed_change(change: Change) -> usize {
    noticed(|case| shown(case, changed(&case.passed, case.lent(), block_of(case), change)))
}

#[test]
fn the_right_program_is_not_noticed() {
    assert_eq!(noticed_change(RIGHT), 0);
    assert!(lines().len() > 900, "{}", lines().len());
}

fn gives(d: &Delegation, n: &Passed) -> bool {
    d.giver as u32 == n.receiver
}

fn receives(d: &Delegation, n: &Passed) -> bool {
    d.receiver as u32 == n.receiver
}

/// The named change, but that these delegations of the subject stay.
fn leaving(r: &Register, n: &Passed, stays: fn(&Delegation, &Passed) -> bool) -> Register {
    let mut begun = named_change(r, n);
    let of_others = |d: &&Delegation| !gives(d, n) && !receives(d, n);
    begun.delegations = r.delegations.iter().filter(|d| of_others(d) || stays(d, n)).copied().collect();
    begun
}

/// The named change, but with these marks for each subject.
fn marked(r: &Register, n: &Passed, marks: impl Fn(u32, u16) -> u16) -> Register {
    let mut begun = named_change(r, n);
    begun.marks = r.marks.iter().zip(0..).map(|(&present, subject)| marks(subject, present)).collect();
    begun.marks[0] = 0;
    begun
}

/// The right register with what these delegations add to the dropped.
fn counting(t: &Table, r: &Register, n: &Passed, counts: fn(&Delegation, &Passed) -> bool) -> (Register, [i32; 3]) {
    let more = r.delegations.iter().filter(|d| counts(d, n)).count() as i32;
    let (left, [dropped, lowered, rounds]) = RIGHT(t, r, n);
    (left, [dropped + more, lowered, rounds])
}

/// The subject is taken out, and those after it have a number less.
fn moved_down(t: &Table, r: &Register, n: &Passed) -> (Register, [i32; 3]) {
    let (mut left, answers) = RIGHT(t, r, n);
    left.marks.remove(n.receiver as usize);
    left.retired = r.retired;
    let lower = |number: u8| number - (number as u32 > n.receiver) as u8;
    left.delegations.iter_mut().for_each(|d| (d.giver, d.receiver) = (lower(d.giver), lower(d.receiver)));
    (left, answers)
}

/// Programs that make another change.
pub const WRONG_CHANGES: [(&str, Change); 19] = [
    ("nothing is removed", |t, r, n| settled(t, leaving(r, n, |_, _| true))),
    ("what it gave is left to the rounds", |t, r, n| settled(t, leaving(r, n, gives))),
    ("what it was given stays", |t, r, n| settled(t, leaving(r, n, receives))),
    ("what the owner gave it stays", |t, r, n| settled(t, leaving(r, n, |d, n| receives(d, n) && d.giver == 0))),
    ("what has a condition stays", |t, r, n| settled(t, leaving(r, n, |d, _| d.need | d.bar != 0))),
    ("its weights become 0", |t, r, n| {
        let mut begun = leaving(r, n, |_, _| true);
        begun.delegations.iter_mut().filter(|d| gives(d, n) || receives(d, n)).for_each(|d| d.weight = 0);
        settled(t, begun)
    }),
    ("all is removed", |t, r, n| settled(t, Register { delegations: vec![], ..named_change(r, n) })),
    ("all that those have to whom it gave goes too", |t, r, n| {
        let mut begun = named_change(r, n);
        begun.delegations.retain(|d| r.standing(n.receiver, d.giver as u32).is_none());
        settled(t, begun)
    }),
    ("its marks stay", |t, r, n| settled(t, marked(r, n, |_, marks| marks))),
    ("its low marks stay", |t, r, n| settled(t, marked(r, n, |s, m| if s == n.receiver { m & 255 } else { m }))),
    ("its high marks stay", |t, r, n| settled(t, marked(r, n, |s, m| if s == n.receiver { m & !255 } else { m }))),
    ("all marks are cleared", |t, r, n| settled(t, marked(r, n, |_, _| 0))),
    ("the marks after it are cleared too", |t, r, n| {
        settled(t, marked(r, n, |s, m| if s == n.receiver || s == n.receiver + 1 { 0 } else { m }))
    }),
    ("it gets all marks", |t, r, n| settled(t, marked(r, n, |s, m| if s == n.receiver { 65_535 } else { m }))),
    ("it is taken out", moved_down),
    ("the last is no longer enrolled", |t, r, n| {
        let (mut left, answers) = RIGHT(t, r, n);
        left.marks.truncate((left.marks.len() - (n.receiver as usize + 1 == left.marks.len()) as usize).max(1));
        (left, answers)
    }),
    ("its delegations count as dropped", |t, r, n| counting(t, r, n, |d, n| gives(d, n) || receives(d, n))),
    ("what it gave counts as dropped", |t, r, n| counting(t, r, n, gives)),
    ("what it was given counts as dropped", |t, r, n| counting(t, r, n, receives)),
];

/// The right register with other bits.
fn with_bits(t: &Table, r: &Register, n: &Passed, bits: impl Fn(u64, u32) -> u64) -> (Register, [i32; 3]) {
    let (left, answers) = RIGHT(t, r, n);
    (Register { retired: bits(r.retired, n.receiver), ..left }, answers)
}

/// The bit at a place in one of the eight bytes.
fn bit(byte: u32, place: u32) -> u64 {
    1 << (8 * (byte % 8) + place % 8)
}

/// Programs that set another bit.
pub const WRONG_BITS: [(&str, Change); 15] = [
    ("no bit is set", |t, r, n| with_bits(t, r, n, |bits, _| bits)),
    ("the bit of the mirrored place", |t, r, n| with_bits(t, r, n, |bits, s| bits | bit(s / 8, 7 - s % 8))),
    ("the byte of the mirrored place", |t, r, n| with_bits(t, r, n, |bits, s| bits | bit(7 - s / 8, s))),
    ("both mirrored", |t, r, n| with_bits(t, r, n, |bits, s| bits | bit(7 - s / 8, 7 - s % 8))),
    ("bytes and bits exchanged", |t, r, n| with_bits(t, r, n, |bits, s| bits | bit(s, s / 8))),
    ("the bit of the next subject", |t, r, n| with_bits(t, r, n, |bits, s| bits | 1 << ((s + 1) % 64))),
    ("the bit of the subject before", |t, r, n| with_bits(t, r, n, |bits, s| bits | 1 << (s - 1))),
    ("the byte after", |t, r, n| with_bits(t, r, n, |bits, s| bits | bit(s / 8 + 1, s))),
    ("the bit is set in 32 bits", |t, r, n| with_bits(t, r, n, |bits, s| bits | (1u32 << (s % 32)) as u64)),
    ("bits of later bytes go to the first", |t, r, n| with_bits(t, r, n, |bits, s| bits | bit(0, s))),
    ("only its own bit is kept", |t, r, n| with_bits(t, r, n, |_, s| 1 << s)),
    ("the bits of its byte are lost", |t, r, n| with_bits(t, r, n, |b, s| b & !(255 << (s / 8 * 8)) | 1 << s)),
    ("the owner's bit too", |t, r, n| with_bits(t, r, n, |bits, s| bits | 1 << s | 1)),
    ("all bits up to it", |t, r, n| with_bits(t, r, n, |bits, s| bits | (1 << s) - 1 << 1)),
    ("a whole byte", |t, r, n| with_bits(t, r, n, |bits, s| bits | 255 << (s / 8 * 8))),
];

/// The rounds on a register without conditions of some kind, which are then the right ones again.
fn as_if(t: &Table, r: &Register, n: &Passed, change: fn(&mut Delegation)) -> (Register, [i32; 3]) {
    let begun = named_change(r, n);
    let mut other = begun.clone();
    other.delegations.iter_mut().for_each(change);
    let (mut left, answers) = settled(t, other);
    for d in &mut left.delegations {
        if let Some(before) = begun.standing(d.giver as u32, d.receiver as u32) {
            (d.need, d.bar) = (before.need, before.bar);
        }
    }
    (left, answers)
}

/// Those to whom a chain of delegations leads from the subject.
fn led_to(r: &Register, subject: u32) -> Vec<u8> {
    let mut found = vec![subject as u8];
    let mut at = 0;
    while at < found.len() {
        let new = r.delegations.iter().filter(|d| d.giver == found[at]).map(|d| d.receiver);
        let new: Vec<u8> = new.filter(|receiver| !found.contains(receiver)).collect();
        found.extend(new);
        at += 1;
    }
    found
}

/// Those not kept are dropped before the rounds.
fn keeping(t: &Table, r: &Register, n: &Passed, keep: impl Fn(&Delegation) -> bool) -> (Register, [i32; 3]) {
    let begun = named_change(r, n);
    let mut kept = begun.clone();
    kept.delegations.retain(keep);
    let (left, [_, _, rounds]) = settled(t, kept);
    let counts = since(&begun, &left, rounds);
    (left, counts)
}

/// Programs that run other rounds.
pub const WRONG_ROUNDS: [(&str, Change); 17] = [
    ("no rounds", |_, r, n| (named_change(r, n), [0, 0, 0])),
    ("no rounds, and one is counted", |_, r, n| (named_change(r, n), [0, 0, 1])),
    ("rounds before the change", |t, r, n| {
        let (left, answers) = settled(t, r.clone());
        (named_change(&left, n), answers)
    }),
    ("rounds before it and after it", |t, r, n| settled(t, named_change(&settled(t, r.clone()).0, n))),
    ("one round only", |t, r, n| settled_by(&ONE_ROUND, t, named_change(r, n))),
    ("at most two rounds", |t, r, n| {
        let begun = named_change(r, n);
        let mut left = begun.clone();
        let rounds = 1 + round(&FAST, t, &mut left) as i32;
        round(&FAST, t, &mut left);
        let counts = since(&begun, &left, rounds);
        (left, counts)
    }),
    ("each subject is visited once", |t, r, n| settled_by(&VISITED_ONCE, t, named_change(r, n))),
    ("all that the owner did not give is dropped", |t, r, n| keeping(t, r, n, |d| d.giver == 0)),
    ("all that it leads to is dropped", |t, r, n| {
        let led_to = led_to(r, n.receiver);
        keeping(t, r, n, |d| !led_to.contains(&d.giver))
    }),
    ("all that those gave to whom it gave is dropped", |t, r, n| {
        keeping(t, r, n, |d| r.standing(n.receiver, d.giver as u32).is_none())
    }),
    ("only what those gave to whom it gave is judged", |t, r, n| {
        let judged = |d: &Delegation| r.standing(n.receiver, d.giver as u32).is_some();
        rounds_by(named_change(r, n), false, |now, d| if judged(d) { reach_of(t, now, d) } else { d.weight as i16 })
    }),
    ("weights are replaced in turn", |t, r, n| rounds_by(named_change(r, n), true, |now, d| reach_of(t, now, d))),
    ("ours in the place of the lent table", |_, r, n| settled(&OURS, named_change(r, n))),
    ("need is not looked at", |t, r, n| as_if(t, r, n, |d| d.need = 0)),
    ("bar is not looked at", |t, r, n| as_if(t, r, n, |d| d.bar = 0)),
    ("everything is lifted", |t, r, n| {
        let (mut left, answers) = RIGHT(t, r, n);
        let reaches = (FAST.reaches)(t, &left);
        left.delegations.iter_mut().zip(reaches).for_each(|(d, reach)| d.weight = reach as u8);
        (left, answers)
    }),
    ("no round where it has no delegation", |t, r, n| {
        let named = r.delegations.iter().any(|d| gives(d, n) || receives(d, n));
        if named { RIGHT(t, r, n) } else { (named_change(r, n), [0, 0, 0]) }
    }),
];

/// The same register with other answers.
fn answering(t: &Table, r: &Register, n: &Passed, other: impl Fn([i32; 3]) -> [i32; 3]) -> (Register, [i32; 3]) {
    let (left, answers) = RIGHT(t, r, n);
    (left, other(answers))
}

/// The answers of every round, from the register that it began with.
fn each_round(t: &Table, r: &Register, n: &Passed) -> Vec<[i32; 3]> {
    let mut left = named_change(r, n);
    let mut all = Vec::new();
    loop {
        let begun = left.clone();
        let changed = round(&FAST, t, &mut left);
        all.push(since(&begun, &left, 1));
        if !changed {
            return all;
        }
    }
}

/// Programs that count otherwise.
const WRONG_COUNTS: [(&str, Change); 11] = [
    ("the last round is not counted", |t, r, n| answering(t, r, n, |[d, l, rounds]| [d, l, rounds - 1])),
    ("a round too many", |t, r, n| answering(t, r, n, |[d, l, rounds]| [d, l, rounds + 1])),
    ("at most 254 rounds", |t, r, n| answering(t, r, n, |[d, l, rounds]| [d, l, rounds.min(254)])),
    ("dropped and lowered exchanged", |t, r, n| answering(t, r, n, |[d, l, rounds]| [l, d, rounds])),
    ("the dropped are lowered too", |t, r, n| answering(t, r, n, |[d, l, rounds]| [d, l + d, rounds])),
    ("the subject is answered", |t, r, n| answering(t, r, n, |_| [n.receiver as i32, 0, 0])),
    ("what stands is answered", |t, r, n| {
        let (left, _) = RIGHT(t, r, n);
        let standing = left.delegations.len() as i32;
        (left, [standing, 0, 0])
    }),
    ("what was removed is answered too", |t, r, n| {
        let removed = r.delegations.len() - named_change(r, n).delegations.len();
        answering(t, r, n, |[d, l, rounds]| [d, l, rounds + removed as i32])
    }),
    ("lowered counts in every round", |t, r, n| {
        let lowered = each_round(t, r, n).iter().map(|answers| answers[1]).sum();
        answering(t, r, n, |[d, _, rounds]| [d, lowered, rounds])
    }),
    ("the first round's counts", |t, r, n| {
        let first = each_round(t, r, n)[0];
        answering(t, r, n, |[_, _, rounds]| [first[0], first[1], rounds])
    }),
    ("the last round's counts", |t, r, n| answering(t, r, n, |[_, _, rounds]| [0, 0, rounds])),
];

#[test]
fn wrong_changes_are_noticed() {
    for (shows, change) in [&WRONG_CHANGES[..], &WRONG_BITS, &WRONG_ROUNDS, &WRONG_COUNTS].concat() {
        let count = noticed_change(change);
        assert!(count > 1, "{shows}: {count}");
    }
}

/// Retirements of more than 255 rounds are on large registers.
#[test]
fn rounds_in_a_byte_are_noticed() {
    let in_a_byte: Change = |t, r, n| answering(t, r, n, |[d, l, rounds]| [d, l, rounds & 255]);
    let large = asked().filter(|case| decode(block_of(case)).is_some_and(|r| r.delegations.len() > 100));
    let other = |case: &&Case| {
        let line = shown(case, changed(&case.passed, case.lent(), block_of(case), in_a_byte));
        line != recorded(&FAST, case)
    };
    assert_eq!(large.filter(other).count(), 5);
}
