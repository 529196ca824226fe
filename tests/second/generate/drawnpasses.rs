//! Drawn registers with pass-only delegations, and drawn lists of calls that grant some.

use super::passes::each_on;
use super::passregisters::with_kinds;
use super::registerfiles::BUFFER;
use super::slipregisters::Sequence;
use super::*;
use second::block::{decode, encode};
use second::cut::settle;
use second::engine::FAST;
use second::lentcase::{Asked, LentCase};
use second::random::{random_table, Random};
use second::refusal::takes_table;
use second::table::{Table, OURS};

pub fn cases() -> Vec<LentCase> {
    let mut random = Random::new(0xBA55);
    let mut cases = on_small(&mut random);
    let tables = [random_table(&mut random).text(), texts::by_two().text()];
    for text in [b"", b"", b"", b"", b"", &tables[0][..], &tables[1]] {
        cases.extend(list(&mut random, text, 40));
    }
    cases
}

/// The same register with drawn kinds.
pub fn with_drawn_kinds(random: &mut Random, register: &Register) -> Register {
    let percent = random.pick(&[20, 50, 50, 80]);
    with_kinds(register, |_| random.chance(percent) as u8)
}

/// A drawn call that a list can hold, or order.
pub const DRAWN: [Call; 20] = [
    Call::GrantKind, Call::GrantKind, Call::GrantKind, Call::GrantKind, Call::GrantKind, Call::GrantKind, Call::Grant,
    Call::Grant, Call::Revoke, Call::Downgrade, Call::Downgrade, Call::Chain, Call::Order, Call::Reach, Call::Use,
    Call::Use, Call::Use, Call::SetMarks, Call::Retire, Call::Enrol,
];

/// Registers that are not supported, and what the rounds leave of some, with a few calls each.
fn on_small(random: &mut Random) -> Vec<LentCase> {
    let mut cases = Vec::new();
    for at in 0..40 {
        let drawn = unsupported::random_unsupported(random);
        let mut register = with_drawn_kinds(random, &drawn);
        if at % 2 == 0 {
            settle(&FAST, &OURS, &mut register);
        }
        let calls = [(); 5].map(|_| {
            let call = random.pick(&DRAWN);
            likely(random, call, &OURS, &register)
        });
        cases.extend(each_on(&encode(&register), b"", calls));
    }
    cases
}

/// A plausible call, as of other lists; but of grants with a kind many are for a pair that
/// stands, most with its own kind.
pub fn likely(random: &mut Random, call: Call, table: &Table, register: &Register) -> Passed {
    if call != Call::GrantKind || register.delegations.is_empty() || random.chance(60) {
        return drawnmarks::likely(random, call, table, register);
    }
    let d = random.pick(&register.delegations);
    let of = random.pick(&raises::around(table, register, &d));
    grant_kind(of, random.pick(&[d.kind, d.kind, d.kind, 1 - d.kind]) as u32)
}

/// A list under one table: grants with kinds, then any calls, files that are written and read
/// back, and cuts that are taken back.
fn list(random: &mut Random, text: &[u8], length: usize) -> Vec<LentCase> {
    let mut sequence = Sequence::new(&Register::fresh());
    sequence.now.block = lists::without_delegations(random);
    for at in 0..length {
        let register = decode(&sequence.now.block).unwrap_or(Register::fresh());
        let what = if at < 9 { 9 } else { random.below(10) };
        match what {
            0 => [Asked::Write(BUFFER), Asked::Read].iter().for_each(|&asked| sequence.ask(asked)),
            1 if !register.delegations.is_empty() => taken_back(random, &mut sequence, &register),
            _ => {
                let call = if at < 9 { Call::GrantKind } else { random.pick(&DRAWN) };
                sequence.now.table = if takes_table(call) { text.to_vec() } else { Vec::new() };
                let n = likely(random, call, &Table::read(text).unwrap_or(OURS), &register);
                sequence.call(n);
            }
        }
    }
    sequence.cases
}

/// A cut and, of two, one that is taken back.
fn taken_back(random: &mut Random, sequence: &mut Sequence, register: &Register) {
    let n = drawnslips::drawn_cut(random, register);
    sequence.now.lent = vec![0; second::slip::SLIP_LEN];
    sequence.cut(n);
    if random.chance(50) {
        sequence.back(n.by);
    }
}
