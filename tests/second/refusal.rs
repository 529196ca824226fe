//! Refusals: for each call two ordered lists after document 01's two headings.
//! The refusal is the first that applies of: 1, passed in order, 7 and 17 for a
//! lent table's text, 8, held in order. It is never a numeric minimum.

use crate::block::{
    brought, decode, Delegation, Register, BLOCK_LEN, MOST_DELEGATIONS, MOST_SUBJECTS, OLD_BLOCK_LEN, PASS_ONLY,
};
use crate::engine::Engine;
use crate::table::{Table, OURS};

pub const WRONG_LENGTH: u32 = 1;
/// A line of a call file, or of a register file, or a table's text, has another form.
pub const MALFORMED: u32 = 7;
/// The block, or the block that the lines of a register file would make.
pub const NOT_WELL_FORMED: u32 = 8;
/// The entries of a table's text break a rule.
pub const BAD_TABLE: u32 = 17;
/// Some delegation of a register file is unsupported.
pub const UNSUPPORTED: u32 = 18;
/// A named subject is retired.
pub const RETIRED: u32 = 19;
/// A slip that takes no cut back.
pub const OTHER_SLIP: u32 = 20;
/// A pass-only grant of weight 0, or a kind above 1.
pub const NO_KIND: u32 = 21;
pub const LEAST_BUFFER: usize = 126;
/// The buffer of an order has just so many bytes.
pub const ORDER_BUFFER: usize = 128;

/// The calls, with their numbers in the case files.
#[derive(Clone, Copy, Debug, PartialEq, Eq, PartialOrd, Ord)]
pub enum Call {
    Enrol,
    Grant,
    Revoke,
    Downgrade,
    Reach,
    Use,
    Open,
    Chain,
    /// Document 02, C-14. Numbers 8 and 9 are the write and the read of the kind `file`.
    Order = 10,
    /// Document 02, C-15. The subject is the receiver.
    SetMarks,
    /// Document 02, C-16. The subject is the receiver.
    Retire,
    /// A block of 2,180 bytes, lent in the place of a table's text, into one of 2,188.
    BringOver,
    /// Document 02, C-18: a grant with a kind. Numbers 14 to 16 are those of the kind `slip`.
    GrantKind = 17,
}

/// Document 01's calls, in the order of their numbers.
pub const CALLS: [Call; 8] = [
    Call::Enrol, Call::Grant, Call::Revoke, Call::Downgrade, Call::Reach, Call::Use, Call::Open, Call::Chain,
];

/// Those and document 02's.
pub const ALL_CALLS: [Call; 13] = [
    Call::Enrol, Call::Grant, Call::Revoke, Call::Downgrade, Call::Reach, Call::Use, Call::Open, Call::Chain,
    Call::Order, Call::SetMarks, Call::Retire, Call::BringOver, Call::GrantKind,
];

/// A call and the numbers passed. Numbers that the call does not use are 0,
/// so that as subjects they name the owner, who is always enrolled.
#[derive(Clone, Copy, Debug, PartialEq, Eq)]
pub struct Passed {
    pub call: Call,
    pub by: u32,
    pub giver: u32,
    pub receiver: u32,
    pub weight: u32,
    /// The marks of enrol and set_marks are here.
    pub need: u32,
    pub bar: u32,
    /// Of a delegation that is granted with one; every other is ordinary.
    pub kind: u32,
}

type PassedTest = fn(&Passed) -> bool;

/// A test of what the register holds; some look at the numbers only, some at
/// the pair's reach too.
#[derive(Clone, Copy)]
pub enum HeldTest {
    Numbers(PassedTest),
    Register(fn(&Passed, &Register) -> bool),
    Reach(fn(&Passed, &Register, i16) -> bool),
}

/// The tests of a call. 1 and 8 are not listed: 1 is every call's first, and
/// 8 stands before the held ones for every call but open.
pub struct Tests {
    pub passed: &'static [(u32, PassedTest)],
    /// The refusals of a lent table's text; none for a call that takes no table.
    pub table: &'static [u32],
    pub held: &'static [(u32, HeldTest)],
}

use HeldTest::{Numbers as N, Reach, Register as R};

/// What every call that names subjects looks at first in the register.
const NAMED: [(u32, HeldTest); 2] = [(9, R(not_enrolled)), (RETIRED, R(retired))];

/// The same of a call that is the owner's alone.
const BY_THE_OWNER: [(u32, HeldTest); 3] = [NAMED[0], NAMED[1], (14, N(not_owner))];

/// What a grant looks at in the numbers passed.
const GRANTED: [(u32, PassedTest); 5] = [(2, subjects), (3, weight), (4, masks), (5, equal), (6, to_owner)];

/// The same with a kind.
const GRANTED_KIND: [(u32, PassedTest); 6] =
    [GRANTED[0], GRANTED[1], GRANTED[2], GRANTED[3], GRANTED[4], (NO_KIND, no_kind)];

/// What either looks at in the register.
const GRANTS: [(u32, HeldTest); 5] =
    [NAMED[0], NAMED[1], (11, R(stands)), (12, R(full)), (16, Reach(above_reach))];

/// The calls that reckon reach take a table: all but these.
pub fn takes_table(call: Call) -> bool {
    !matches!(call, Call::Open | Call::Enrol | Call::Use | Call::BringOver)
}

pub fn tests(call: Call) -> Tests {
    let table: &[u32] = if takes_table(call) { &[MALFORMED, BAD_TABLE] } else { &[] };
    let (passed, held): (&'static [(u32, PassedTest)], &'static [(u32, HeldTest)]) = match call {
        Call::Open | Call::BringOver => (&[], &[]),
        Call::Enrol => (&[(4, masks)], &[(10, R(all_enrolled))]),
        Call::Grant => (&GRANTED, &GRANTS),
        Call::GrantKind => (&GRANTED_KIND, &GRANTS),
        Call::Reach => (&[(2, subjects), (5, equal), (6, to_owner)], &NAMED),
        Call::Use => (&[(2, subjects)], &NAMED),
        Call::Revoke => (
            &[(2, subjects), (5, equal), (6, to_owner)],
            &[NAMED[0], NAMED[1], (13, R(stands_not)), (14, N(not_entitled))],
        ),
        Call::Downgrade => (
            &[(2, subjects), (3, weight), (5, equal), (6, to_owner)],
            &[NAMED[0], NAMED[1], (13, R(stands_not)), (14, N(not_entitled)), (15, R(not_below))],
        ),
        Call::Chain => (
            &[(2, subjects), (5, equal), (6, to_owner)],
            &[NAMED[0], NAMED[1], (13, R(stands_not)), (16, Reach(unsupported))],
        ),
        Call::Order => (&[(2, subjects), (6, to_owner)], &NAMED),
        Call::SetMarks => (&[(2, subjects), (4, masks), (6, to_owner)], &BY_THE_OWNER),
        Call::Retire => (&[(2, subjects), (6, to_owner)], &BY_THE_OWNER),
    };
    Tests { passed, table, held }
}

/// The table to reckon by and the decoded register, or the refusal. Not for open, nor
/// for a block that is brought over.
pub fn admit(engine: &Engine, n: &Passed, text: &[u8], block: &[u8], buffer: usize) -> Result<(Table, Register), u32> {
    if wrong_length(n, block, buffer) {
        return Err(WRONG_LENGTH);
    }
    let tests = tests(n.call);
    if let Some((number, _)) = tests.passed.iter().find(|(_, test)| test(n)) {
        return Err(*number);
    }
    let table = lent_table(n.call, text)?;
    let Some(register) = decode(block) else {
        return Err(NOT_WELL_FORMED);
    };
    let reach = || Some((engine.reach)(&table, &register, n.giver, n.receiver));
    match tests.held.iter().find(|(_, test)| applies(*test, n, Some(&register), reach)) {
        Some((number, _)) => Err(*number),
        None => Ok((table, register)),
    }
}

/// Every refusal that applies, each judged on its own. Tests of the register
/// are judged on well-formed blocks only, 8 on 2,188 bytes only, the reach under
/// tables that pass only, and 17 on texts of the form only.
pub fn applying(engine: &Engine, n: &Passed, text: &[u8], block: &[u8], buffer: usize) -> Vec<u32> {
    if n.call == Call::BringOver {
        return applying_to_bring_over(text, block);
    }
    let tests = tests(n.call);
    let mut numbers = Vec::new();
    if wrong_length(n, block, buffer) {
        numbers.push(WRONG_LENGTH);
    }
    numbers.extend(tests.passed.iter().filter(|(_, test)| test(n)).map(|(number, _)| *number));
    let table = lent_table(n.call, text);
    numbers.extend(table.err());
    let register = decode(block);
    if n.call != Call::Open && block.len() == BLOCK_LEN && register.is_none() {
        numbers.push(NOT_WELL_FORMED);
    }
    let reach = || Some((engine.reach)(&table.ok()?, register.as_ref()?, n.giver, n.receiver));
    let held = tests.held.iter().filter(|(_, test)| applies(*test, n, register.as_ref(), reach));
    numbers.extend(held.map(|(number, _)| *number));
    numbers
}

/// The same of a block that is brought over; 8 on 2,180 bytes only.
fn applying_to_bring_over(old: &[u8], block: &[u8]) -> Vec<u32> {
    let sized = old.len() == OLD_BLOCK_LEN;
    let mut numbers = Vec::new();
    numbers.extend((!sized || block.len() != BLOCK_LEN).then_some(WRONG_LENGTH));
    numbers.extend((sized && brought(old).is_none()).then_some(NOT_WELL_FORMED));
    numbers
}

/// Ours for a call that takes no table.
fn lent_table(call: Call, text: &[u8]) -> Result<Table, u32> {
    if takes_table(call) { Table::read(text) } else { Ok(OURS) }
}

/// Whether a test applies, on a register and a reach if there are such.
fn applies(test: HeldTest, n: &Passed, register: Option<&Register>, reach: impl Fn() -> Option<i16>) -> bool {
    match test {
        N(test) => test(n),
        R(test) => register.is_some_and(|register| test(n, register)),
        Reach(test) => register.zip(reach()).is_some_and(|(register, reach)| test(n, register, reach)),
    }
}

/// 1: the buffer counts for chain and order only.
pub fn wrong_length(n: &Passed, block: &[u8], buffer: usize) -> bool {
    let wrong_buffer = match n.call {
        Call::Chain => buffer < LEAST_BUFFER,
        Call::Order => buffer != ORDER_BUFFER,
        _ => false,
    };
    block.len() != BLOCK_LEN || wrong_buffer
}

/// 2: subject number above 63.
fn subjects(n: &Passed) -> bool {
    n.by > 63 || n.giver > 63 || n.receiver > 63
}

/// 3: weight above 255.
fn weight(n: &Passed) -> bool {
    n.weight > 255
}

/// 4: marks, need or bar above 65,535, or need and bar share a mark.
fn masks(n: &Passed) -> bool {
    n.need > 65_535 || n.bar > 65_535 || n.need & n.bar != 0
}

/// 5: giver and receiver equal.
fn equal(n: &Passed) -> bool {
    n.giver == n.receiver
}

/// 6: receiver is the owner, or the subject whose marks are set or that retires.
fn to_owner(n: &Passed) -> bool {
    n.receiver == 0
}

/// 21: a pass-only grant of weight 0, or a kind above 1.
fn no_kind(n: &Passed) -> bool {
    n.kind > PASS_ONLY as u32 || n.kind == PASS_ONLY as u32 && n.weight == 0
}

/// 9: a named subject, by included, is not enrolled.
fn not_enrolled(n: &Passed, register: &Register) -> bool {
    [n.by, n.giver, n.receiver].iter().any(|&subject| !register.enrolled(subject))
}

/// 19: a named subject, by included, is retired.
fn retired(n: &Passed, register: &Register) -> bool {
    [n.by, n.giver, n.receiver].iter().any(|&subject| register.is_retired(subject))
}

/// 10: 64 subjects enrolled.
fn all_enrolled(_: &Passed, register: &Register) -> bool {
    register.marks.len() == MOST_SUBJECTS
}

/// 11: the pair stands, and the grant is no raise of it.
fn stands(n: &Passed, register: &Register) -> bool {
    register.standing(n.giver, n.receiver).is_some_and(|d| !raises(n, d))
}

/// Document 02, C-12 and C-18: a grant with the same need, bar and kind and a larger weight.
fn raises(n: &Passed, standing: &Delegation) -> bool {
    let same = [standing.need as u32, standing.bar as u32, standing.kind as u32];
    [n.need, n.bar, n.kind] == same && n.weight > standing.weight as u32
}

/// 12: 256 delegations stand, and the pair is not among them.
fn full(n: &Passed, register: &Register) -> bool {
    register.delegations.len() == MOST_DELEGATIONS && stands_not(n, register)
}

/// 13: the pair doesn't stand.
fn stands_not(n: &Passed, register: &Register) -> bool {
    register.standing(n.giver, n.receiver).is_none()
}

/// 14 for a cut: by is neither giver nor owner.
fn not_entitled(n: &Passed) -> bool {
    n.by != n.giver && not_owner(n)
}

/// 14 for set_marks and retire: by is not the owner.
fn not_owner(n: &Passed) -> bool {
    n.by != 0
}

/// 15: new weight not below the present; a pair that doesn't stand has none.
fn not_below(n: &Passed, register: &Register) -> bool {
    register.standing(n.giver, n.receiver).is_some_and(|d| n.weight >= d.weight as u32)
}

/// 16 for grant: the pair's reach is below the weight passed.
fn above_reach(n: &Passed, _: &Register, reach: i16) -> bool {
    (reach as i64) < n.weight as i64
}

/// 16 for chain: the pair's reach is below the weight that stands.
fn unsupported(n: &Passed, register: &Register, reach: i16) -> bool {
    register.standing(n.giver, n.receiver).is_some_and(|d| reach < d.weight as i16)
}
