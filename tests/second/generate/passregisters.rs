//! Registers with pass-only delegations: document 02's C-18.

use super::*;
use second::block::PASS_ONLY;

/// The same register, each delegation with the kind of its place.
pub fn with_kinds(register: &Register, mut kind: impl FnMut(usize) -> u8) -> Register {
    let of = |(place, d): (usize, &Delegation)| Delegation { kind: kind(place), ..*d };
    Register { delegations: register.delegations.iter().enumerate().map(of).collect(), ..register.clone() }
}

/// The same register, all of its delegations pass-only.
pub fn all_passing(register: &Register) -> Register {
    with_kinds(register, |_| PASS_ONLY)
}

/// All pass-only, and every other one from the first and from the second on.
pub fn versions(register: &Register) -> [Register; 3] {
    let every_other = |first: usize| with_kinds(register, |place| ((place + first) % 2 == 0) as u8);
    [all_passing(register), every_other(0), every_other(1)]
}

/// These pass-only, and these ordinary.
fn of_both(marks: &[u16], passing: &[Grant], ordinary: &[Grant]) -> Register {
    let both = register(marks, &[passing, ordinary].concat());
    let pairs: Vec<(u8, u8)> = passing.iter().map(|grant| (grant.0, grant.1)).collect();
    with_kinds(&both, |place| pairs.contains(&both.delegations[place].pair()) as u8)
}

/// 1 passes on to 2 and has no use of the right.
pub fn example() -> Register {
    of_both(&[0; 4], &[(0, 1, 3, 0, 0)], &[(1, 2, 2, 0, 0)])
}

/// One of each three at weight 0.
pub fn three_of_each() -> Register {
    let passing = [(0, 1, 9, 0, 0), (0, 2, 0, 0, 0), (1, 2, 8, 0, 0)];
    of_both(&[0, 1, 2, 3], &passing, &[(0, 3, 5, 1, 4), (1, 3, 0, 0, 0), (3, 1, 2, 0, 0)])
}

/// To 1 nothing, to 2 ordinary ones, to 3 and 4 pass-only ones, to all others several: the
/// ordinary one is first, last or between, at weight 0 or unlimited. 11 and 12 don't meet the
/// condition of theirs, and 13 has retired.
pub fn several() -> Register {
    let passing = [
        (0, 3, 0, 0, 0), (0, 4, 255, 0, 0), (4, 5, 9, 0, 0), (0, 6, 255, 0, 0), (0, 7, 0, 0, 0), (4, 7, 3, 0, 0),
        (10, 7, 255, 0, 0), (0, 8, 7, 0, 0), (4, 8, 0, 0, 0), (4, 9, 1, 0, 0), (10, 9, 255, 0, 0), (0, 10, 255, 0, 0),
        (5, 10, 0, 0, 0), (0, 12, 6, 1, 0),
    ];
    let ordinary = [
        (0, 2, 0, 0, 0), (4, 2, 254, 0, 0), (0, 5, 5, 0, 0), (4, 6, 0, 0, 0), (10, 8, 0, 0, 0), (0, 9, 0, 0, 0),
        (4, 10, 255, 0, 0), (0, 11, 6, 1, 0),
    ];
    retireregisters::without(of_both(&[0; 15], &passing, &ordinary), &[13])
}

/// A row in which each stands at its reach: a cut lowers all after it, the last pass-only one to
/// 0, and drops what stands on that one.
pub fn row() -> Register {
    let passing = [(0, 1, 4, 0, 0), (1, 2, 3, 0, 0), (2, 3, 2, 0, 0), (3, 4, 1, 0, 0)];
    of_both(&[0; 6], &passing, &[(4, 5, 0, 0, 0)])
}

/// 3 has two ways, one of them pass-only, the other ordinary and under a mark.
pub fn two_ways() -> Register {
    of_both(&[0, 0, 0, 1, 1], &[(0, 1, 6, 0, 0), (1, 3, 5, 0, 0)], &[(0, 2, 9, 1, 0), (2, 3, 8, 0, 0), (3, 4, 7, 0, 0)])
}

/// 3-4 and 4-5 are pass-only. When 4 loses its mark, or 1 retires, 3-4 comes to 0 and stays, and
/// 4-5 goes.
pub fn lighter_way() -> Register {
    let passing = [(0, 1, 6, 1, 0), (1, 3, 5, 0, 0), (3, 4, 4, 0, 0), (4, 5, 3, 0, 0)];
    of_both(&[0, 0, 0, 1, 1, 1], &passing, &[(0, 2, 2, 0, 0), (2, 3, 1, 0, 0)])
}

/// 256 delegations with room between the weight and the reach, every third pass-only, the first
/// and the last among them.
pub fn full() -> Register {
    with_kinds(&raises::full_with_room(), |place| (place % 3 == 0) as u8)
}

/// Registers of other kinds of cases whose links are asked for and cut: one chain, several, under
/// conditions, in cycles, unsupported, and with one who has retired.
fn others() -> Vec<Register> {
    let proved = examples::proved().into_iter().filter(|example| ["P1", "P2", "P5"].contains(&example.name));
    let own = [markregisters::example(), markregisters::round_by_round(), raises::above_reach(), named::few()];
    proved.map(|example| example.built()).chain(own).collect()
}

/// Small registers with pass-only delegations.
pub fn small() -> Vec<Register> {
    let own = vec![example(), three_of_each(), row(), two_ways(), lighter_way()];
    let others: Vec<Register> = others().iter().flat_map(versions).collect();
    [own, others].concat()
}
