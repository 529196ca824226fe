//! Registers in which subjects retire.

use super::examples::Example;
use super::*;
use second::call::retire_subject;

/// The example of C-16's call. 2-4 stands on 1-2, and at 0 on 3-2 too.
pub const EXAMPLE: [Grant; 5] = [(0, 1, 5, 0, 0), (0, 3, 2, 0, 0), (1, 2, 4, 0, 0), (2, 4, 3, 0, 0), (3, 2, 1, 0, 0)];
pub const EXAMPLE_MARKS: [u16; 4] = [7, 0, 0, 0];

/// The same with 9 in the place of 1, whose bit is in the second byte.
pub const NINTH: [Grant; 5] = [(0, 9, 5, 0, 0), (0, 3, 2, 0, 0), (9, 2, 4, 0, 0), (2, 4, 3, 0, 0), (3, 2, 1, 0, 0)];
pub const NINTH_MARKS: [u16; 9] = [0, 0, 0, 0, 0, 0, 0, 0, 7];

pub fn example() -> Register {
    register(&[&[0], &EXAMPLE_MARKS[..]].concat(), &EXAMPLE)
}

pub fn ninth() -> Register {
    register(&[&[0], &NINTH_MARKS[..]].concat(), &NINTH)
}

/// The register after these subjects have retired, before any round.
pub fn without(mut register: Register, subjects: &[u32]) -> Register {
    subjects.iter().for_each(|&subject| retire_subject(&mut register, subject));
    register
}

/// Calls from a fresh register on.
pub fn examples() -> Vec<Example> {
    let of = |name, grants: &[Grant], then| Example { name, marks: &EXAMPLE_MARKS, grants: grants.to_vec(), then };
    let one_way = [(0, 1, 9, 0, 0), (1, 2, 8, 0, 0), (2, 3, 7, 0, 0)];
    let cycle = [(0, 1, 255, 0, 0), (1, 2, 255, 0, 0), (2, 3, 255, 0, 0), (3, 1, 255, 0, 0), (3, 4, 9, 0, 0)];
    vec![
        of("one of two ways", &EXAMPLE, after_example(1)),
        Example { name: "the ninth", marks: &NINTH_MARKS, grants: NINTH.to_vec(), then: after_example(9) },
        of("the only way, and all retire", &one_way, all_retire()),
        of("a cycle through it", &cycle, vec![retire(0, 2), reach(3, 4), reach(1, 2), use_right(3), use_right(1)]),
        of("marks and retirements", &EXAMPLE, marks_and_retirements()),
        of("grants, cuts and retirements", &EXAMPLE, mixed()),
    ]
}

/// The subject of the example retires, and is named again; 9 comes before 19.
fn after_example(subject: u32) -> Vec<Passed> {
    vec![
        retire(0, subject), use_right(subject), grant(0, subject, 3, 0, 0), retire(0, subject), reach(subject, 10),
        use_right(4), set_marks(0, subject, 7), retire(subject, 2), reach(2, 4), revoke(subject, 0, 3), enrol(7),
        retire(subject, 63), reach(subject, 4), use_right(2),
    ]
}

/// All but the owner retire, and others are enrolled after them.
fn all_retire() -> Vec<Passed> {
    vec![
        retire(0, 1), reach(2, 3), use_right(3), retire(0, 4), retire(0, 3), retire(0, 2), retire(0, 2), use_right(0),
        enrol(3), grant(0, 5, 255, 0, 0), grant(5, 4, 1, 0, 0), enrol(0), grant(5, 6, 255, 0, 0), use_right(5),
        retire(0, 5), use_right(6), reach(0, 6), retire(0, 0), retire(6, 0),
    ]
}

/// Marks that are set before and after, the subject's own and others'.
fn marks_and_retirements() -> Vec<Passed> {
    vec![
        set_marks(0, 1, 65_535), retire(0, 1), set_marks(0, 1, 65_535), set_marks(0, 1, 0), set_marks(1, 2, 0),
        set_marks(0, 2, 5), set_marks(0, 4, 9), retire(0, 4), set_marks(0, 3, 1), set_marks(4, 0, 1), use_right(2),
        set_marks(1, 5, 0), set_marks(0, 1, 65_536),
    ]
}

fn mixed() -> Vec<Passed> {
    vec![
        retire(0, 0), retire(1, 0), retire(1, 1), retire(1, 2), retire(9, 1), retire(1, 9), retire(64, 1),
        retire(0, 64), downgrade(0, 0, 1, 3), retire(0, 3), revoke(3, 3, 2), downgrade(0, 3, 2, 0), retire(3, 0),
        retire(3, 1), grant(2, 1, 1, 0, 0), grant(0, 2, 4, 0, 0), grant(0, 2, 9, 0, 0), retire(0, 1), revoke(0, 1, 2),
        reach(2, 4), use_right(4), retire(0, 4), revoke(2, 2, 4), use_right(2),
    ]
}

/// Each way that a subject can be named by records: 1 gives and receives, 2 receives, 3 gives
/// and nobody gave to it, 4 neither; 5 has two ways, one of them by 1.
pub fn each_way() -> Register {
    let grants = [(0, 1, 9, 0, 0), (1, 2, 8, 0, 0), (1, 5, 7, 0, 0), (3, 2, 5, 0, 0), (0, 5, 3, 0, 0), (5, 6, 6, 0, 0)];
    register(&[0, 3, 1, 2, 65_535, 0, 7], &grants)
}

/// When 1 retires, round 1 drops 2-3, whose chain had 0-1, round 2 drops 3-4, whose chain had
/// 2-3 and not 0-1, and round 3 drops 4-5, whose chain had 3-4 and neither of the two.
pub fn round_by_round() -> Register {
    let starts = [(0, 1, 5, 1, 0), (0, 2, 5, 2, 0), (0, 3, 5, 4, 0)];
    let row = [(1, 2, 4, 0, 0), (2, 3, 3, 0, 0), (3, 4, 2, 0, 0), (4, 5, 1, 0, 0)];
    register(&[0, 0, 1, 1, 2, 4], &[&starts[..], &row].concat())
}

/// The registers in which every subject retires.
pub fn small() -> Vec<Register> {
    let own = vec![example(), ninth(), each_way(), round_by_round()];
    let others = vec![markregisters::example(), markregisters::round_by_round(), markregisters::givers()];
    let of_marks = [markregisters::rows(), markregisters::ways(), markregisters::cycles(), markregisters::known()];
    [own, others, of_marks.concat()].concat()
}

/// 64 subjects with marks of their own; a row from 1 to 8, and each last of a byte gives to the
/// first of the next.
pub fn wide() -> Register {
    let marks: Vec<u16> = (0..64).map(|subject| subject * 1001).collect();
    let row = (0..8).map(|giver| (giver, giver + 1, 255, 0, 0));
    let ends = (1..8).flat_map(|byte| [(0, 8 * byte - 1, 9, 0, 0), (8 * byte - 1, 8 * byte, 8, 0, 0)]);
    let grants: Vec<Grant> = row.chain(ends).chain([(0, 63, 7, 0, 0), (63, 62, 6, 0, 0)]).collect();
    register(&marks, &grants)
}

/// 64 subjects and 256 delegations, none to or from 3 and 63, which have retired.
pub fn full_without_two() -> Register {
    full_without(64, &[3, 63])
}

/// 20 subjects and 256 delegations, none to or from 3.
pub fn some_without_one() -> Register {
    full_without(20, &[3])
}

/// 256 unlimited delegations, the owner's first, among those who have not retired.
fn full_without(subjects: u8, retired: &[u8]) -> Register {
    let others = |&subject: &u8| !retired.contains(&subject);
    let pairs = (0..subjects).filter(others).flat_map(|g| (1..subjects).filter(others).map(move |r| (g, r)));
    let used = pairs.filter(|(giver, receiver)| giver != receiver).take(256);
    let grants: Vec<Grant> = used.map(|(giver, receiver)| (giver, receiver, 255, 0, 0)).collect();
    let all: Vec<u32> = retired.iter().map(|&subject| subject as u32).collect();
    without(register(&vec![0; subjects as usize], &grants), &all)
}
