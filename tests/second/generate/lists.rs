//! Random lists of calls, most of them plausible.

use super::*;
use second::block::{decode, encode};
use second::callfile::{from_values, used_columns, values_of};
use second::casefile::answer_table;
use second::cut::settle;
use second::engine::FAST;
use second::random::{random_masks, Random};
use second::search::reach_table;
use second::table::{Table, OURS};

const BASE: [Call; 4] = [Call::Enrol, Call::Use, Call::Enrol, Call::Enrol];
const REACH: [Call; 10] = [
    Call::Enrol, Call::Grant, Call::Grant, Call::Grant, Call::Grant, Call::Grant, Call::Reach, Call::Reach,
    Call::Chain, Call::Use,
];
pub const CUT: [Call; 16] = [
    Call::Enrol, Call::Grant, Call::Grant, Call::Grant, Call::Grant, Call::Grant, Call::Grant, Call::Grant,
    Call::Grant, Call::Grant, Call::Revoke, Call::Revoke, Call::Downgrade, Call::Downgrade, Call::Reach, Call::Chain,
];
/// The calls of call files.
pub const FILE: [Call; 14] = [
    Call::Enrol, Call::Grant, Call::Grant, Call::Grant, Call::Grant, Call::Grant, Call::Grant, Call::Grant,
    Call::Revoke, Call::Revoke, Call::Downgrade, Call::Downgrade, Call::Reach, Call::Use,
];

pub fn cases(kind: &Kind) -> Vec<Case> {
    let (seed, lists, length, calls) = match kind.name {
        "base" => (0xBA5E, 8, 40, &BASE[..]),
        "reach" => (0x4EAC, 16, 45, &REACH[..]),
        _ => (0xC07, 24, 50, &CUT[..]),
    };
    let mut random = Random::new(seed);
    let mut cases = Vec::new();
    for _ in 0..lists {
        let block = any_bytes(&mut random);
        cases.push(on(&block, open()));
        cases.extend(list(likely, &mut random, calls, length).into_iter().map(next));
    }
    cases
}

/// Some bytes for open to overwrite.
fn any_bytes(random: &mut Random) -> Vec<u8> {
    let mut block = encode(&Register::fresh());
    for _ in 0..4 {
        let place = random.below(200) as usize;
        block[place] = random.next() as u8;
    }
    block
}

/// A block of a few subjects with some marks, and no delegation.
pub fn without_delegations(random: &mut Random) -> Vec<u8> {
    let marks: Vec<u16> = (1..random.range(5, 8)).map(|_| random.below(8) as u16).collect();
    encode(&register(&[&[0], &marks[..]].concat(), &[]))
}

/// Draws a call on a register under a table.
pub type Draw = fn(&mut Random, Call, &Table, &Register) -> Passed;

/// A list of calls from a fresh register.
pub fn list(draw: Draw, random: &mut Random, calls: &[Call], length: usize) -> Vec<Passed> {
    let mut block = encode(&Register::fresh());
    let mut list = Vec::new();
    let subjects = random.range(2, 7);
    while list.len() < length {
        let call = if list.len() < subjects as usize { Call::Enrol } else { random.pick(calls) };
        list.push(drawn(draw, random, call, b"", &mut block));
    }
    list
}

/// A call drawn under the table of a text, or ours; the block is left as the call
/// leaves it.
pub fn drawn(draw: Draw, random: &mut Random, call: Call, text: &[u8], block: &mut [u8]) -> Passed {
    let table = Table::read(text).unwrap_or(OURS);
    let register = decode(block).unwrap_or(Register::fresh());
    let n = draw(random, call, &table, &register);
    answer_table(&FAST, &n, text, block);
    n
}

/// A plausible call; of a few, one number may be any.
pub fn likely(random: &mut Random, call: Call, table: &Table, register: &Register) -> Passed {
    let n = plausible(random, call, table, register);
    if random.chance(7) { with_odd_number(random, &n) } else { n }
}

/// A call that is likely to be accepted.
fn plausible(random: &mut Random, call: Call, table: &Table, register: &Register) -> Passed {
    let count = register.marks.len() as u32;
    let (giver, receiver) = match call {
        Call::Grant | Call::GrantKind => open_pair(random, table, register),
        _ => pair(random, register, call == Call::Reach),
    };
    let by = random.pick(&[0, giver, giver, another_subject(count, giver)]);
    match call {
        Call::Open => open(),
        Call::Enrol => enrol(random.pick(&[0, 1, 2, 3, 4, 5, 6, 7, 65_535])),
        Call::Grant => plausible_grant(random, table, register, giver, receiver),
        Call::GrantKind => {
            let of = plausible_grant(random, table, register, giver, receiver);
            grant_kind(of, random.pick(&[0, 0, 0, 1, 1, 1, 1, 1, 1, 2]))
        }
        Call::Revoke => revoke(by, giver, receiver),
        Call::Downgrade => {
            let present = register.standing(giver, receiver).map_or(3, |d| d.weight as u32);
            downgrade(by, giver, receiver, random.pick(&[0, present / 2, present.max(1) - 1, present, 254]))
        }
        Call::Reach => reach(giver, receiver),
        Call::Use => use_right(receiver),
        Call::Chain => chain(giver, receiver, random.pick(&[126, 126, 126, 127, 512, 125])),
        Call::Order => order(receiver, random.pick(&[128, 128, 128, 128, 128, 128, 127, 129])),
        Call::SetMarks => plausible_marks(random, table, register, set_marks(by, receiver, 0)),
        Call::Retire => retire(random.pick(&[0, 0, 0, 0, 0, by]), receiver),
        Call::BringOver => blank(Call::BringOver),
    }
}

/// Another subject than the one named, if there is one.
fn another_subject(count: u32, other: u32) -> u32 {
    (other + 1) % count.max(1)
}

/// Any pair, or for most other calls a standing one.
fn pair(random: &mut Random, register: &Register, any: bool) -> (u32, u32) {
    let count = register.marks.len() as u32;
    if any || register.delegations.is_empty() || random.chance(12) {
        return (random.below(count), random.range(1, count.max(2) - 1));
    }
    let d = random.pick(&register.delegations);
    (d.giver as u32, d.receiver as u32)
}

/// A pair that doesn't stand and has a reach, if one is found in a few tries.
fn open_pair(random: &mut Random, table: &Table, register: &Register) -> (u32, u32) {
    for _ in 0..8 {
        let (giver, receiver) = pair(random, register, true);
        let stands = register.standing(giver, receiver).is_some();
        if giver != receiver && !stands && reach_table(table, register, giver, receiver) >= 0 {
            return (giver, receiver);
        }
    }
    pair(random, register, true)
}

/// Most grants are within the reach, some exactly, some just above it.
fn plausible_grant(random: &mut Random, table: &Table, register: &Register, giver: u32, receiver: u32) -> Passed {
    let reach = reach_table(table, register, giver, receiver).max(0) as u32;
    let weight = match random.below(8) {
        0 => random.below(256),
        1 => reach + 1,
        2 => random.below(reach + 1),
        3 => reach / 2,
        _ => reach,
    };
    let (need, bar) = if random.chance(50) { random_masks(random, 7) } else { (0, 0) };
    grant(giver, receiver, weight, need as u32, bar as u32)
}

/// One of the lowest three marks gained or lost, or other marks; most by the owner, and
/// with a change in the rounds if one is found in a few tries.
fn plausible_marks(random: &mut Random, table: &Table, register: &Register, mut n: Passed) -> Passed {
    n.by = random.pick(&[0, 0, 0, 0, 0, 0, n.by]);
    for _ in 0..random.pick(&[1, 8]) {
        let (changed, any) = (register.marks_of(n.receiver) as u32 ^ 1 << random.below(3), random.below(8));
        n.need = random.pick(&[changed, changed, changed, any, 65_535]);
        if rounds_after(table, register, &n) > 1 {
            break;
        }
        n.receiver = random.range(1, register.marks.len().max(2) as u32 - 1);
    }
    n
}

/// How many rounds there are after the marks of a subject are set.
pub fn rounds_after(table: &Table, register: &Register, n: &Passed) -> u32 {
    let mut changed = register.clone();
    changed.marks.iter_mut().skip(n.receiver as usize).take(1).for_each(|marks| *marks = n.need as u16);
    settle(&FAST, table, &mut changed).rounds
}

/// The call with some number in one of the columns that it uses.
fn with_odd_number(random: &mut Random, n: &Passed) -> Passed {
    let column = random.below(6) as usize;
    let is_buffer = matches!(n.call, Call::Chain | Call::Order) && column == 3;
    if !used_columns(n.call)[column] || is_buffer {
        return *n;
    }
    let mut values = values_of(n);
    values[column + 1] = random.pick(&[0, 1, 63, 64, 255, 256, 65_535, 65_536, 4_294_967_295]);
    from_values(values).unwrap_or(*n)
}
