//! What the generated cases, lists and call files hold of grants for standing pairs.

use crate::generated::with_blocks;
use crate::pairs::Realised;
use generate::{callfiles, listfiles, KINDS};
use second::block::{decode, encode, Register, MOST_DELEGATIONS};
use second::call::run_table;
use second::callfile::{lines, read_call, NAMES_IN};
use second::casefile::Case;
use second::engine::FAST;
use second::listfile::{passed, List, NUMBERS};
use second::refusal::{applying, Call, Passed};
use second::search::reach_table;
use second::table::Table;
use std::collections::BTreeSet;

/// A grant for a pair that stands, the text lent to it and its block.
struct Again {
    n: Passed,
    text: Vec<u8>,
    block: Vec<u8>,
}

impl Again {
    fn of(case: Case) -> Again {
        Again { n: case.passed, text: case.lent().to_vec(), block: case.block.unwrap_or_default() }
    }

    fn refusal(&self) -> u32 {
        run_table(&FAST, &self.n, &self.text, &mut self.block.clone()).refusal
    }
}

fn pair_stands(n: &Passed, block: &[u8]) -> bool {
    let standing = |register: Register| register.standing(n.giver, n.receiver).is_some();
    n.call == Call::Grant && decode(block).is_some_and(standing)
}

/// Those of a kind of cases.
fn of_kind(name: &str) -> Vec<Again> {
    let cases = KINDS.iter().filter(|kind| kind.name == name).flat_map(with_blocks);
    cases.map(Again::of).filter(|again| pair_stands(&again.n, &again.block)).collect()
}

/// Those of calls that are made one after another from a fresh register.
fn among(calls: impl Iterator<Item = (Passed, Vec<u8>)>) -> Vec<Again> {
    let mut block = encode(&Register::fresh());
    let mut found = Vec::new();
    for (n, text) in calls {
        let before = block.clone();
        run_table(&FAST, &n, &text, &mut block);
        if pair_stands(&n, &before) {
            found.push(Again { n, text, block: before });
        }
    }
    found
}

fn of_list(list: &List) -> Vec<Again> {
    let calls = list.numbers.chunks_exact(NUMBERS);
    among(calls.filter_map(|call| Some((passed(call)?, list.text(call)?.to_vec()))))
}

fn of_lists(with_texts: bool) -> Vec<Again> {
    let lists = listfiles::all().into_iter().filter(|list| list.refusal() == 0);
    lists.filter(|list| list.texts.is_empty() != with_texts).flat_map(|list| of_list(&list)).collect()
}

fn of_call_files() -> Vec<Again> {
    let files = callfiles::all();
    let texts = files.iter().filter_map(|file| file.input.strip_prefix(NAMES_IN));
    texts.flat_map(|text| among(lines(text).map_while(read_call).map(|n| (n, Vec::new())))).collect()
}

/// Each of 0, 11 and 16, in every form in which calls are recorded.
#[test]
fn every_form_holds_raises() {
    let forms = [of_kind("raise"), of_kind("table"), of_lists(false), of_lists(true), of_call_files()];
    for (form, least) in forms.iter().zip([40, 40, 8, 5, 10]) {
        let refusals: Vec<u32> = form.iter().map(Again::refusal).collect();
        let counts = [0, 11, 16].map(|number| refusals.iter().filter(|&&found| found == number).count());
        assert!(counts.iter().all(|&count| count >= least), "{counts:?}");
    }
}

/// The refusals that can apply to a grant for a standing pair: each that can alone,
/// and every two. 3 applies with 11 or 16, 4 with 11, and 12 never.
#[test]
fn refusals_of_standing_pairs_apply_at_once() {
    let mut realised = Realised::default();
    for again in of_kind("raise").iter().chain(&of_kind("table")) {
        let numbers = applying(&FAST, &again.n, &again.text, &again.block, 0);
        assert_eq!(again.refusal(), numbers.first().copied().unwrap_or(0));
        realised.add(&numbers, again.refusal());
    }
    let of_numbers = [(3, 4), (3, 11), (3, 16), (4, 11), (4, 16), (11, 16)];
    let of_texts = [(3, 7), (4, 7), (7, 11), (3, 17), (4, 17), (17, 11)];
    assert_eq!(realised.pairs, of_numbers.into_iter().chain(of_texts).collect());
    assert_eq!(realised.alone, BTreeSet::from([7, 11, 16, 17]));
    assert_eq!(realised.returned, BTreeSet::from([0, 3, 4, 7, 11, 16, 17]));
}

/// What a grant for a standing pair is judged by.
struct Asked {
    larger: bool,
    equal: bool,
    same_need: bool,
    same_bar: bool,
    below_reach: bool,
    at_reach: bool,
    full: bool,
}

/// Nothing where the numbers or the text are refused.
fn asked(again: &Again) -> Option<Asked> {
    let n = again.n;
    let table = Table::read(&again.text).ok()?;
    let register = decode(&again.block).filter(|_| n.weight <= 255 && n.need & n.bar == 0)?;
    let d = register.standing(n.giver, n.receiver)?;
    let reach = reach_table(&table, &register, n.giver, n.receiver) as i64;
    Some(Asked {
        larger: n.weight > d.weight as u32,
        equal: n.weight == d.weight as u32,
        same_need: n.need == d.need as u32,
        same_bar: n.bar == d.bar as u32,
        below_reach: (n.weight as i64) < reach,
        at_reach: n.weight as i64 == reach,
        full: register.delegations.len() == MOST_DELEGATIONS,
    })
}

type Reading = fn(&Asked) -> u32;

fn reading(is_raise: bool, is_allowed: bool) -> u32 {
    match (is_raise, is_allowed) {
        (false, _) => 11,
        (true, false) => 16,
        (true, true) => 0,
    }
}

fn is_raise(a: &Asked) -> bool {
    a.larger && a.same_need && a.same_bar
}

fn is_allowed(a: &Asked) -> bool {
    a.below_reach || a.at_reach
}

const RIGHT: Reading = |a| reading(is_raise(a), is_allowed(a));

const WRONG: [(&str, Reading); 12] = [
    ("every grant for a standing pair gets 11", |_| 11),
    ("an equal weight is a raise", |a| reading((a.larger || a.equal) && a.same_need && a.same_bar, is_allowed(a))),
    ("a smaller weight is set too", |a| reading(a.same_need && a.same_bar, is_allowed(a))),
    ("another need is no matter", |a| reading(a.larger && a.same_bar, is_allowed(a))),
    ("another bar is no matter", |a| reading(a.larger && a.same_need, is_allowed(a))),
    ("one of need and bar is enough", |a| reading(a.larger && (a.same_need || a.same_bar), is_allowed(a))),
    ("the reach is not asked", |a| reading(is_raise(a), true)),
    ("a weight at the reach gets 16", |a| reading(is_raise(a), a.below_reach)),
    ("16 comes before 11", |a| if is_allowed(a) { RIGHT(a) } else { 16 }),
    ("a raise in a full register gets 12", |a| if a.full && is_raise(a) { 12 } else { RIGHT(a) }),
    ("a raise above the reach gets 11", |a| if is_allowed(a) { RIGHT(a) } else { 11 }),
    ("12 comes before 11", |a| if a.full && !is_raise(a) { 12 } else { RIGHT(a) }),
];

/// How many of these grants a reading answers otherwise.
fn differing(of: &[Again], reading: Reading) -> usize {
    let other = |again: &&Again| asked(again).is_some_and(|a| reading(&a) != again.refusal());
    of.iter().filter(other).count()
}

#[test]
fn other_readings_are_noticed_by_the_cases() {
    let cases = of_kind("raise");
    assert_eq!(differing(&cases, RIGHT), 0);
    assert_eq!(differing(&of_kind("table"), RIGHT), 0);
    for (shows, reading) in WRONG {
        assert!(differing(&cases, reading) > 2, "{shows}");
    }
}
