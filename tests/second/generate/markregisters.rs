//! Registers in which marks are set.

use super::examples::{Example, COUNTING, COUNTING_MARKS};
use super::*;

/// The example of C-15's call: 2 and 3 have the mark that 0-1 needs.
pub const EXAMPLE: [Grant; 4] = [(0, 1, 6, 1, 0), (0, 2, 2, 0, 0), (1, 2, 5, 0, 0), (2, 3, 4, 0, 0)];
pub const EXAMPLE_MARKS: [u16; 3] = [0, 1, 1];

pub fn example() -> Register {
    register(&[&[0], &EXAMPLE_MARKS[..]].concat(), &EXAMPLE)
}

/// When 2 loses mark 1, 3-2 and 2-1 go, and 1-2 stands by 4-1. When 2 gains it again, 1-2
/// goes too, since 4-1 bars it.
const LOST_TWICE: [Grant; 6] =
    [(0, 3, 9, 1, 0), (3, 2, 8, 0, 0), (2, 1, 7, 0, 0), (0, 4, 9, 0, 0), (4, 1, 8, 0, 1), (1, 2, 5, 0, 0)];

/// Calls from a fresh register on.
pub fn examples() -> Vec<Example> {
    let of = |name, grants: &[Grant], then| Example { name, marks: &EXAMPLE_MARKS, grants: grants.to_vec(), then };
    let one_way = [EXAMPLE[0], EXAMPLE[2], EXAMPLE[3]];
    let lost = vec![
        set_marks(0, 2, 0), set_marks(0, 2, 1), set_marks(0, 2, 1), reach(2, 3), grant(1, 2, 5, 0, 0), reach(2, 3),
        grant(2, 3, 4, 0, 0), set_marks(0, 3, 0), set_marks(0, 3, 1),
    ];
    let lost_way = vec![set_marks(0, 2, 0), set_marks(0, 2, 1), reach(1, 2), reach(2, 3)];
    let own = vec![set_marks(0, 1, 1), set_marks(0, 1, 65_535), set_marks(0, 1, 0), set_marks(0, 3, 65_535)];
    let barred = vec![
        set_marks(0, 3, 1), set_marks(0, 3, 0), set_marks(0, 2, 3), set_marks(0, 2, 2), reach(1, 2), reach(2, 3),
    ];
    let mixed = vec![
        set_marks(0, 3, 0), revoke(0, 0, 2), set_marks(1, 2, 0), set_marks(2, 2, 0), grant(0, 3, 3, 0, 1),
        set_marks(0, 0, 1), set_marks(0, 3, 9), grant(2, 3, 3, 0, 0), downgrade(0, 1, 2, 2), set_marks(0, 4, 1),
        set_marks(0, 2, 65_536), set_marks(0, 2, 2), set_marks(64, 2, 2), reach(1, 2),
    ];
    vec![
        of("a needed mark is lost and gained", &EXAMPLE, lost),
        of("the only way is lost", &one_way, lost_way),
        of("a giver's marks", &EXAMPLE, own),
        Example {
            name: "a barred mark is gained and lost",
            marks: &[0, 2, 2],
            grants: vec![(0, 1, 6, 2, 1), (0, 2, 2, 0, 0), (1, 2, 5, 0, 0), (2, 3, 4, 0, 0)],
            then: barred,
        },
        Example {
            name: "lost, and lost again",
            marks: &[1, 1, 0, 0],
            grants: LOST_TWICE.to_vec(),
            then: vec![set_marks(0, 2, 0), set_marks(0, 2, 1), reach(1, 2)],
        },
        of("grants, cuts and marks", &EXAMPLE, mixed),
    ]
}

/// Rows of four: the first delegation needs a mark, bars one, both; and the second too.
pub fn rows() -> Vec<Register> {
    let row = |first: (u16, u16), second: (u16, u16)| {
        [(0, 1, 9, first.0, first.1), (1, 2, 8, second.0, second.1), (2, 3, 7, 0, 0), (3, 4, 6, 0, 0)]
    };
    vec![
        register(&[0, 0, 1, 1, 1], &row((1, 0), (0, 0))),
        register(&[0, 1, 0, 2, 0], &row((0, 1), (0, 0))),
        register(&[0, 2, 1, 5, 13], &row((1, 2), (4, 16))),
    ]
}

/// When 2 loses mark 1, round 1 drops 1-2, round 2 drops 2-3, whose chain had 1-2, and round
/// 3 drops 3-4, whose chain had 2-3 and not 1-2.
pub fn round_by_round() -> Register {
    let grants = [(0, 1, 3, 1, 0), (0, 2, 3, 2, 0), (1, 2, 2, 0, 0), (2, 3, 1, 0, 0), (3, 4, 0, 0, 0)];
    register(&[0, 0, 1, 1, 2], &grants)
}

/// Two ways, the heavier under a mark; a way with the mark and a way without it; two
/// ways of one weight.
pub fn ways() -> Vec<Register> {
    let heavier =
        [(0, 1, 9, 1, 0), (0, 2, 5, 0, 0), (1, 3, 8, 0, 0), (2, 3, 4, 0, 0), (3, 4, 7, 0, 0), (4, 5, 6, 0, 0)];
    let either =
        [(0, 1, 9, 0, 0), (0, 2, 5, 0, 0), (1, 3, 8, 1, 0), (2, 3, 4, 0, 1), (3, 4, 7, 0, 0), (4, 5, 2, 0, 0)];
    let equal = [(0, 1, 9, 1, 0), (0, 2, 9, 0, 0), (1, 3, 8, 0, 0), (2, 3, 8, 0, 0), (3, 4, 7, 0, 0)];
    vec![
        register(&[0, 0, 0, 1, 1, 1], &heavier),
        register(&[0, 0, 0, 0, 1, 0], &either),
        register(&[0, 0, 0, 1, 1], &equal),
    ]
}

/// The counting case's cycle, and a pair of unlimited ones. When 2 loses mark 4, the pair
/// falls by 1 with each round.
pub fn cycles() -> Vec<Register> {
    vec![register(&[&[0], &COUNTING_MARKS[..]].concat(), &COUNTING[1..]), falling_pair()]
}

/// Each of 1-2 and 2-1 is on every chain of the other. Only 1 meets the condition of 0-1;
/// 2 starts at 3 with mark 4, and else at 4.
pub fn falling_pair() -> Register {
    let starts = [(0, 1, 255, 1, 0), (0, 3, 255, 4, 0), (0, 4, 254, 0, 1), (3, 2, 255, 0, 0), (4, 2, 253, 0, 0)];
    register(&[0, 1, 4, 0, 0], &[&starts[..], &[(1, 2, 255, 0, 0), (2, 1, 255, 0, 0)]].concat())
}

/// Nobody gave to 3, which gives, and nobody to 5 or 6, which don't.
pub fn givers() -> Register {
    let grants = [(0, 1, 9, 1, 0), (1, 2, 8, 0, 0), (2, 4, 1, 0, 2), (3, 2, 5, 0, 0), (3, 4, 5, 1, 0)];
    register(&[0, 0, 1, 1, 1, 0, 7], &grants)
}

/// Registers of other kinds.
pub fn known() -> Vec<Register> {
    let proved = examples::proved().into_iter().filter(|example| example.name == "P5");
    let others = [raises::with_room(), refusals::unsupported()];
    proved.map(|example| example.built()).chain(others).collect()
}

/// Each delegation to 17 stands by one of the 16 marks, which the owner's needs or bars.
pub fn every_mark(barred: bool) -> Register {
    let owner = orderregisters::every_mark(barred);
    let mut grants = Vec::new();
    for d in &owner.delegations {
        grants.extend([(0, d.receiver, d.weight, d.need, d.bar), (d.receiver, 17, 100 + d.receiver, 0, 0)]);
    }
    let mut marks = [0; 18];
    marks[17] = if barred { 0 } else { 65_535 };
    register(&marks, &grants)
}

/// Two ways to 4 as under other tables, the heavier with a mark that 2, 4 and 5 have.
pub fn by_table() -> Register {
    let mut ways = tables::two_ways(252);
    ways.marks = vec![0, 0, 1, 0, 1, 1, 0];
    ways.delegations[0].need = 1;
    ways
}

/// A path through all subjects whose first delegation needs a mark that all have.
pub fn path(weight: fn(u8) -> u8) -> Register {
    let mut path = deep::path(weight);
    path.marks[1..].fill(1);
    path.delegations[0].need = 1;
    path
}

/// 64 subjects and 256 delegations. The owner's need mark 1 or bar mark 32, by turns,
/// and all subjects meet all conditions.
pub fn full_under_marks() -> Register {
    let mut full = full::all_enrolled();
    full.marks[1..].fill(31);
    for d in full.delegations.iter_mut().filter(|d| d.giver == 0) {
        (d.need, d.bar) = if d.receiver % 2 == 0 { (1, 0) } else { (0, 32) };
    }
    full
}
