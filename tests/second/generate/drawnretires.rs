//! Subjects that retire in drawn registers, and in drawn lists of calls.

use super::retireregisters::without;
use super::tables::lent;
use super::*;
use second::block::encode;
use second::call::run;
use second::cut::settle;
use second::engine::FAST;
use second::random::{random_table, Random};
use second::table::OURS;

pub fn cases() -> Vec<Case> {
    let mut cases = lent(b"", on_small());
    cases.extend(lent(b"", of_rounds()));
    cases.extend(lent(b"", of_large()));
    cases.extend(under_tables());
    cases.extend(lists_of_calls());
    cases
}

/// Some subject that is not the owner.
pub fn drawn_retire(random: &mut Random, register: &Register) -> Passed {
    retire(0, random.range(1, register.marks.len() as u32 - 1))
}

/// A retirement that takes at least so many rounds, if one of a few does.
fn with_loss(random: &mut Random, register: &Register, least: i32) -> Option<Case> {
    let drawn: Vec<Passed> = (0..6).map(|_| drawn_retire(random, register)).collect();
    let found = drawn.into_iter().find(|n| run(&FAST, n, &mut encode(register)).answers[2] >= least);
    found.map(|n| on(&encode(register), n))
}

/// Registers that are not supported, one of their subjects gone before in some; and what the
/// rounds leave of them, with a retirement that takes more.
fn on_small() -> Vec<Case> {
    let mut random = Random::new(0x9E71);
    let mut cases = Vec::new();
    for at in 0..36 {
        let drawn = unsupported::random_unsupported(&mut random);
        let gone = random.range(1, drawn.marks.len() as u32 - 1);
        let mut register = if at % 3 == 0 { without(drawn, &[gone]) } else { drawn };
        let n = drawn_retire(&mut random, &register);
        cases.push(on(&encode(&register), n));
        cases.push(next(drawn_retire(&mut random, &register)));
        settle(&FAST, &OURS, &mut register);
        cases.extend(with_loss(&mut random, &register, 2));
    }
    cases
}

/// Retirements of at least four rounds on drawn registers, and of at least six.
fn of_rounds() -> Vec<Case> {
    let mut random = Random::new(0x9E72);
    let mut cases = Vec::new();
    while cases.len() < 40 {
        let start = deep::random_start(&mut random);
        let least = if cases.len() < 20 { 4 } else { 6 };
        cases.extend(with_loss(&mut random, &start, least));
    }
    cases
}

/// Large registers, supported, in which something is lost.
fn of_large() -> Vec<Case> {
    let mut random = Random::new(0x9E73);
    let mut cases = Vec::new();
    while cases.len() < 5 {
        let mut register = full::large(&mut random);
        settle(&FAST, &OURS, &mut register);
        cases.extend(with_loss(&mut random, &register, 3));
    }
    cases
}

/// Drawn tables, on drawn registers that need not be supported under them, and ours after
/// each.
fn under_tables() -> Vec<Case> {
    let mut random = Random::new(0x9E74);
    let mut cases = Vec::new();
    for _ in 0..5 {
        let text = random_table(&mut random).text();
        let register = unsupported::random_unsupported(&mut random);
        let calls = [(); 4].map(|_| on(&encode(&register), drawn_retire(&mut random, &register)));
        cases.extend(lent(&text, calls));
        cases.extend(lent(b"", [next(drawn_retire(&mut random, &register))]));
    }
    cases
}

/// The calls of drawn lists; those that take no table are among them.
const DRAWN: [Call; 18] = [
    Call::Enrol, Call::Enrol, Call::Grant, Call::Grant, Call::Grant, Call::Grant, Call::Grant, Call::Grant,
    Call::Revoke, Call::Downgrade, Call::Chain, Call::Order, Call::Reach, Call::Use, Call::SetMarks, Call::Retire,
    Call::Retire, Call::Retire,
];

/// Lists of calls from a register without delegations, some under a drawn table.
fn lists_of_calls() -> Vec<Case> {
    let mut random = Random::new(0x9E75);
    let tables = [random_table(&mut random).text(), texts::by_two().text()];
    let texts = [b"", b"", b"", b"", &tables[0][..], &tables[1][..]];
    texts.iter().flat_map(|text| list(&mut random, text, 30)).collect()
}

/// A list under one table: grants, then any calls; one that takes no table is lent none.
fn list(random: &mut Random, text: &[u8], calls: usize) -> Vec<Case> {
    let mut block = lists::without_delegations(random);
    let mut cases = lent(text, [on(&block, reach(0, 1))]);
    for at in 0..calls {
        let call = if at < 9 { Call::Grant } else { random.pick(&DRAWN) };
        let lent_to_it = if second::refusal::takes_table(call) { text } else { b"" };
        let n = lists::drawn(drawnmarks::likely, random, call, lent_to_it, &mut block);
        cases.extend(lent(lent_to_it, [next(n)]));
    }
    cases
}
