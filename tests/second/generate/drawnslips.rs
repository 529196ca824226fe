//! Cuts that are taken back in drawn registers, and in drawn lists of calls.

use super::slipregisters::Sequence;
use super::*;
use second::block::{decode, encode};
use second::cut::settle;
use second::engine::FAST;
use second::lentcase::LentCase;
use second::random::{random_table, Random};
use second::slip::{AFTER_AT, BY_AT, CALL_AT, SLIP_LEN};
use second::table::{Table, OURS};

pub fn cases() -> Vec<LentCase> {
    let mut random = Random::new(0x511B);
    let mut cases = on_small(&mut random);
    cases.extend((0..4).flat_map(|_| list(&mut random, b"", 44)).collect::<Vec<_>>());
    let text = random_table(&mut random).text();
    cases.extend(list(&mut random, &text, 36));
    cases
}

/// A cut of a standing delegation by its giver or by the owner; a downgrade is below its
/// weight, if that is not 0.
pub fn drawn_cut(random: &mut Random, register: &Register) -> Passed {
    let d = random.pick(&register.delegations);
    let (giver, receiver) = (d.giver as u32, d.receiver as u32);
    let by = random.pick(&[0, giver]);
    if d.weight == 0 || random.chance(50) {
        return revoke(by, giver, receiver);
    }
    downgrade(by, giver, receiver, random.below(d.weight as u32))
}

/// Registers that are not supported, and what the rounds leave of some: a cut, and its being
/// taken back, some with a byte of the slip changed before.
fn on_small(random: &mut Random) -> Vec<LentCase> {
    let mut sequence = Sequence::new(&Register::fresh());
    for at in 0..40 {
        let mut register = unsupported::random_unsupported(random);
        if at % 3 == 0 {
            settle(&FAST, &OURS, &mut register);
        }
        if register.delegations.is_empty() {
            continue;
        }
        sequence.now.block = encode(&register);
        let n = drawn_cut(random, &register);
        sequence.cut(n);
        let (place, more) = (changed_place(random, &register), random.pick(&[1, 2, 255]));
        let byte = sequence.now.lent[place] ^ more;
        sequence.back_with(n.by, &[(place, byte)]);
        sequence.back(n.by);
    }
    sequence.cases
}

/// A place of a slip: in its before, in the five bytes, or in its after, where a register of
/// this size has bytes.
pub fn changed_place(random: &mut Random, register: &Register) -> usize {
    let used = (140 + 8 * register.delegations.len()).min(AFTER_AT - 5) as u32;
    let within = random.below(used) as usize;
    let five = CALL_AT + random.below(5) as usize;
    random.pick(&[within, five, AFTER_AT + within])
}

const DRAWN: [Call; 8] = [
    Call::Grant, Call::Grant, Call::Revoke, Call::Downgrade, Call::SetMarks, Call::Retire, Call::Enrol, Call::Reach,
];

/// A list under one table: grants, then cuts that write slips, slips that are handed in, and
/// other calls.
fn list(random: &mut Random, text: &[u8], calls: usize) -> Vec<LentCase> {
    let mut sequence = Sequence::new(&Register::fresh());
    sequence.now.block = lists::without_delegations(random);
    sequence.now.table = text.to_vec();
    let table = Table::read(text).unwrap_or(OURS);
    let mut slips = vec![vec![0; SLIP_LEN]];
    for at in 0..calls {
        let register = decode(&sequence.now.block).unwrap_or(Register::fresh());
        let what = if at < 9 { 9 } else { random.below(10) };
        match what {
            0..=2 if !register.delegations.is_empty() => {
                let n = drawn_cut(random, &register);
                sequence.cut(n);
                slips.push(sequence.now.lent.clone());
            }
            3..=5 => hand_in(random, &mut sequence, &mut slips),
            _ => {
                let call = if at < 9 { Call::Grant } else { random.pick(&DRAWN) };
                sequence.call(drawnmarks::likely(random, call, &table, &register));
            }
        }
    }
    sequence.cases
}

/// Hands in the latest slip or another one, by the by on it, by the owner or by anybody.
fn hand_in(random: &mut Random, sequence: &mut Sequence, slips: &mut Vec<Vec<u8>>) {
    let latest = slips.len() - 1;
    let (any, anybody) = (random.below(latest as u32 + 1) as usize, random.below(6));
    let at = random.pick(&[latest, latest, latest, any]);
    let slip = slips[at].clone();
    let by = random.pick(&[slip[BY_AT] as u32, 0, anybody]);
    let before = sequence.now.block.clone();
    sequence.back_by_slip(by, &slip);
    if sequence.now.block != before {
        slips.remove(at);
    }
}
