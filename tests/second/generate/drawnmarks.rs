//! Marks that are set in drawn registers, and in drawn lists of calls.

use super::marks::and_back;
use super::tables::lent;
use super::*;
use second::block::encode;
use second::call::run;
use second::cut::settle;
use second::engine::FAST;
use second::random::{random_table, Random};
use second::table::{Table, OURS};

/// A drawn call that sets marks by the owner.
fn drawn_marks(random: &mut Random, register: &Register) -> Passed {
    Passed { by: 0, ..lists::likely(random, Call::SetMarks, &OURS, register) }
}

/// Registers that are not supported, also with the marks that stand; and what the rounds
/// leave of them, with marks that take more.
pub fn on_small() -> Vec<Case> {
    let mut random = Random::new(0x3A4B5);
    let mut cases = Vec::new();
    for _ in 0..24 {
        let mut register = unsupported::random_unsupported(&mut random);
        let n = drawn_marks(&mut random, &register);
        let same = set_marks(0, n.receiver, register.marks_of(n.receiver) as u32);
        cases.extend([n, random.pick(&[n, same])].map(|n| on(&encode(&register), n)));
        settle(&FAST, &OURS, &mut register);
        cases.extend(with_loss(&mut random, &register, 2));
    }
    cases
}

/// Marks that take at least so many rounds, and their being set back.
fn with_loss(random: &mut Random, register: &Register, least: i32) -> Vec<Case> {
    let drawn: Vec<Passed> = (0..8).map(|_| drawn_marks(random, register)).collect();
    let found = drawn.into_iter().find(|n| run(&FAST, n, &mut encode(register)).answers[2] >= least);
    found.into_iter().flat_map(|n| and_back(register, n)).collect()
}

/// Marks of at least four rounds on drawn registers, and of at least six.
pub fn of_rounds() -> Vec<Case> {
    let mut random = Random::new(0x3A4B6);
    let mut cases = Vec::new();
    while cases.len() < 32 {
        let start = deep::random_start(&mut random);
        let least = if cases.len() < 16 { 4 } else { 6 };
        cases.extend(with_loss(&mut random, &start, least));
    }
    cases
}

/// Drawn tables, on drawn registers that need not be supported under them, and ours after
/// each.
pub fn under_tables() -> Vec<Case> {
    let mut random = Random::new(0x3A4B7);
    let mut cases = Vec::new();
    for _ in 0..4 {
        let text = random_table(&mut random).text();
        let register = unsupported::random_unsupported(&mut random);
        let calls = [(); 4].map(|_| on(&encode(&register), drawn_marks(&mut random, &register)));
        cases.extend(lent(&text, calls));
        cases.extend(lent(b"", [next(drawn_marks(&mut random, &register))]));
    }
    cases
}

const DRAWN: [Call; 11] = [
    Call::Grant, Call::Grant, Call::Grant, Call::Revoke, Call::Downgrade, Call::Chain, Call::Reach, Call::Reach,
    Call::SetMarks, Call::SetMarks, Call::SetMarks,
];

/// Lists of calls from a register without delegations, some under a drawn table.
pub fn lists_of_calls() -> Vec<Case> {
    let mut random = Random::new(0x3A4B8);
    let tables = [random_table(&mut random).text(), texts::by_two().text()];
    let texts = [b"", b"", b"", &tables[0][..], &tables[1][..]];
    texts.iter().flat_map(|text| list(&mut random, text, 24)).collect()
}

/// A plausible call, as of other lists; but most delegations of the owner need or bar one
/// mark, so that what others give depends on the receivers' marks.
pub fn likely(random: &mut Random, call: Call, table: &Table, register: &Register) -> Passed {
    let n = lists::likely(random, call, table, register);
    if call != Call::Grant || n.giver != 0 || random.chance(15) {
        return n;
    }
    let mark = 1 << random.below(3);
    let (need, bar) = random.pick(&[(mark, 0), (mark, 0), (0, mark)]);
    Passed { need, bar, ..n }
}

/// A list under one table: grants, then any calls.
fn list(random: &mut Random, text: &[u8], calls: usize) -> Vec<Case> {
    let mut block = lists::without_delegations(random);
    let mut cases = vec![on(&block, reach(0, 1))];
    for at in 0..calls {
        let call = if at < 8 { Call::Grant } else { random.pick(&DRAWN) };
        cases.push(next(lists::drawn(likely, random, call, text, &mut block)));
    }
    lent(text, cases)
}
