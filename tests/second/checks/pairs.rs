//! The generated cases realise every refusal of every call, and every two
//! that can apply at once.

use crate::passcases;
use generate::{cases, marks, orders, retires, KINDS};
use second::casefile::answer_table;
use second::engine::FAST;
use second::lentcase::{Asked, LentCase};
use second::refusal::{applying, tests, Call, ALL_CALLS};
use std::collections::{BTreeMap, BTreeSet};

pub type Pair = (u32, u32);

/// The refusals that can apply to a call, in order.
pub fn refusals(call: Call) -> &'static [u32] {
    match call {
        Call::Open => &[1],
        Call::Enrol => &[1, 4, 8, 10],
        Call::Grant => &[1, 2, 3, 4, 5, 6, 7, 17, 8, 9, 19, 11, 12, 16],
        Call::GrantKind => &[1, 2, 3, 4, 5, 6, 21, 7, 17, 8, 9, 19, 11, 12, 16],
        Call::Reach => &[1, 2, 5, 6, 7, 17, 8, 9, 19],
        Call::Use => &[1, 2, 8, 9, 19],
        Call::Revoke => &[1, 2, 5, 6, 7, 17, 8, 9, 19, 13, 14],
        Call::Downgrade => &[1, 2, 3, 5, 6, 7, 17, 8, 9, 19, 13, 14, 15],
        Call::Chain => &[1, 2, 5, 6, 7, 17, 8, 9, 19, 13, 16],
        Call::Order => &[1, 2, 6, 7, 17, 8, 9, 19],
        Call::SetMarks => &[1, 2, 4, 6, 7, 17, 8, 9, 19, 14],
        Call::Retire => &[1, 2, 6, 7, 17, 8, 9, 19, 14],
        Call::BringOver => &[1, 8],
    }
}

/// The pairs of a call that cannot apply at once.
pub fn impossible(call: Call) -> Vec<Pair> {
    // The entries of a text are judged if it has the form, and the reach is
    // reckoned by a table that passes.
    let mut pairs = vec![(7, 17), (7, 16), (17, 16)];
    let of_register = refusals(call).iter().copied().filter(|number| ![14, 17, 21].contains(number) && *number > 8);
    for held in of_register {
        // What a register holds is not judged on a block that is not well
        // formed. 14 and 21 look at the numbers only.
        pairs.push((8, held));
        // Nor on a block of another length; chain and order can have 1 from their buffer.
        if !matches!(call, Call::Chain | Call::Order) {
            pairs.push((1, held));
        }
    }
    // 8 is judged on 2,188 bytes only; chain and order can have 1 from their buffer, and a
    // block that is brought over from the other block.
    if !matches!(call, Call::Chain | Call::Order | Call::Open | Call::BringOver) {
        pairs.push((1, 8));
    }
    pairs.extend(match call {
        // A standing pair names two enrolled subjects that differ, the
        // receiver not the owner, and neither retired. 12 is for a pair that
        // doesn't stand.
        Call::Grant | Call::GrantKind => vec![(2, 11), (5, 11), (6, 11), (9, 11), (19, 11), (11, 12)],
        // One subject is named.
        Call::Use => vec![(2, 19), (9, 19)],
        // 15 compares with a standing pair. The subject above 63 or not
        // enrolled can still be by.
        Call::Downgrade => vec![(5, 15), (6, 15), (13, 15)],
        // 16 compares with a standing pair, and there is no by.
        Call::Chain => vec![(2, 16), (5, 16), (6, 16), (9, 16), (19, 16), (13, 16)],
        // Only the receiver is named, and the owner is enrolled and not retired.
        Call::Order => vec![(2, 6), (6, 9), (2, 19), (6, 19), (9, 19)],
        _ => vec![],
    });
    pairs
}

/// Refusals that never apply alone, with what applies too.
fn never_alone(call: Call) -> &'static [u32] {
    match call {
        Call::Open | Call::Enrol | Call::BringOver => &[],
        // 2 with 9: a subject above 63 is never enrolled; or with 1 or 8.
        // 3 with 16: no reach is above 255.
        Call::Grant | Call::GrantKind => &[2, 3],
        Call::Reach | Call::Use | Call::Order | Call::SetMarks | Call::Retire => &[2],
        // 5, 6 with 13: such a pair never stands. 9 with 13, or with 14 if it
        // is by that isn't enrolled; and so 19.
        Call::Revoke => &[2, 5, 6, 9, 19],
        // 3 with 13 or 15: no weight that stands is above 255.
        Call::Downgrade => &[2, 3, 5, 6, 9, 19],
        Call::Chain => &[2, 5, 6, 9, 19],
    }
}

/// What cases realise of the refusals of a call.
#[derive(Default)]
pub struct Realised {
    pub pairs: BTreeSet<Pair>,
    pub alone: BTreeSet<u32>,
    pub returned: BTreeSet<u32>,
}

impl Realised {
    /// A case to which these apply at once, and the number that it returns.
    pub fn add(&mut self, numbers: &[u32], returned: u32) {
        if let [number] = numbers {
            self.alone.insert(*number);
        }
        for (at, &first) in numbers.iter().enumerate() {
            self.pairs.extend(numbers[at + 1..].iter().map(|&second| (first, second)));
        }
        self.returned.insert(returned);
    }
}

fn realised() -> BTreeMap<Call, Realised> {
    let mut all: BTreeMap<Call, Realised> = BTreeMap::new();
    for LentCase { asked, on } in passcases::cases() {
        let Asked::Call(n) = asked else { continue };
        let numbers = applying(&FAST, n, &on.table, &on.block, n.weight as usize);
        let returned = answer_table(&FAST, n, &on.table, &mut on.block.clone()).refusal;
        all.entry(n.call).or_default().add(&numbers, returned);
    }
    for kind in KINDS.iter().chain([&orders::KIND, &marks::KIND, &retires::KIND]) {
        let mut block = Vec::new();
        for case in cases(kind) {
            block = case.block.clone().unwrap_or(block);
            let numbers = applying(&FAST, &case.passed, case.lent(), &block, case.passed.weight as usize);
            let returned = answer_table(&FAST, &case.passed, case.lent(), &mut block).refusal;
            all.entry(case.passed.call).or_default().add(&numbers, returned);
        }
    }
    all
}

#[test]
fn every_pair_that_can_apply_is_realised() {
    let realised = realised();
    for call in ALL_CALLS {
        let numbers = refusals(call);
        let all = numbers.iter().enumerate().flat_map(|(at, &a)| numbers[at + 1..].iter().map(move |&b| (a, b)));
        let impossible: BTreeSet<Pair> = impossible(call).into_iter().collect();
        let due: BTreeSet<Pair> = all.filter(|pair| !impossible.contains(pair)).collect();
        assert_eq!(realised[&call].pairs, due, "{call:?}");
    }
}

#[test]
fn every_refusal_is_realised() {
    let realised = realised();
    for call in ALL_CALLS {
        let alone: BTreeSet<u32> =
            refusals(call).iter().copied().filter(|number| !never_alone(call).contains(number)).collect();
        assert_eq!(realised[&call].alone, alone, "{call:?}");
        let mut returned: BTreeSet<u32> = refusals(call).iter().copied().collect();
        returned.insert(0);
        assert_eq!(realised[&call].returned, returned, "{call:?}");
    }
}

/// The lists in the code are those above.
#[test]
fn lists_are_the_refusals() {
    for call in ALL_CALLS {
        let lists = tests(call);
        let mut order = vec![1];
        order.extend(lists.passed.iter().map(|(number, _)| *number));
        order.extend(lists.table);
        order.extend((call != Call::Open).then_some(8));
        order.extend(lists.held.iter().map(|(number, _)| *number));
        assert_eq!(order, refusals(call), "{call:?}");
    }
}
