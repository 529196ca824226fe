//! Cuts that write slips, and cuts that are taken back: document 02's C-17.

use super::slipregisters::*;
use super::*;
use second::block::{encode, BLOCK_LEN, MARKS_AT, RECORDS_AT, RECORD_LEN, RETIRED_AT};
use second::casefile::UNWRITTEN;
use second::lentcase::{Asked, LentCase};
use second::slip::{slip_of, AFTER_AT, BY_AT, CALL_AT, GIVER_AT, RECEIVER_AT, SLIP_LEN, WEIGHT_AT};
use second::table::OURS;

/// Other lengths of a slip.
pub const SLIP_LENGTHS: [usize; 9] = [0, 1, 5, 2188, 2193, 4376, 4380, 4382, 8762];

/// What each of the five bytes is set to.
pub const BYTES: [u8; 14] = [0, 1, 2, 3, 4, 5, 7, 9, 63, 64, 65, 128, 254, 255];

pub fn cases() -> Vec<LentCase> {
    let mut cases = example_cases();
    cases.extend(any_content());
    cases.extend(five_bytes(&example(), EXAMPLE_CUT));
    cases.extend(five_bytes(&example(), revoke(0, 1, 3)));
    cases.extend(small().iter().enumerate().flat_map(every_cut));
    cases.extend(one_byte());
    cases.extend(lengths());
    cases.extend(in_between());
    cases.extend(two_cuts());
    cases.extend(cut_again());
    cases.extend(unwritten_slips());
    cases.extend(inconsistent_slips());
    cases.extend(other_callers());
    cases.extend(unformed());
    cases.extend(under_tables());
    cases.extend(large());
    cases.extend(sliprefusals::cases());
    cases.extend(drawnslips::cases());
    cases
}

/// The example, and its slip with another by and another giver.
fn example_cases() -> Vec<LentCase> {
    let mut sequence = Sequence::new(&example());
    sequence.cut(EXAMPLE_CUT);
    (0..6).for_each(|by| sequence.back_with(by, &[]));
    for (at, byte) in [(BY_AT, 0), (BY_AT, 2), (GIVER_AT, 4)] {
        (0..5).for_each(|by| sequence.back_with(by, &[(at, byte)]));
    }
    [1, 1, 0].iter().for_each(|&by| sequence.back(by));
    sequence.cut(revoke(0, 0, 1));
    [1, 0].iter().for_each(|&by| sequence.back(by));
    sequence.cases
}

/// Whatever the slip's buffer held: all 4,381 bytes are written, and by a refused cut none.
fn any_content() -> Vec<LentCase> {
    let mut sequence = Sequence::new(&example());
    sequence.now.lent = vec![UNWRITTEN; SLIP_LEN];
    let refused = [revoke(64, 1, 3), revoke(0, 1, 1), revoke(0, 3, 1), revoke(2, 1, 3), downgrade(1, 1, 3, 4)];
    refused.iter().for_each(|&n| sequence.cut(n));
    sequence.cut(EXAMPLE_CUT);
    refused.iter().for_each(|&n| sequence.cut(n));
    sequence.cut(revoke(0, 0, 2));
    sequence.back(0);
    sequence.now.lent = vec![255; SLIP_LEN];
    sequence.back(0);
    sequence.cut(revoke(3, 3, 4));
    sequence.back(3);
    sequence.cases
}

/// Every delegation is revoked and downgraded, and the cut is taken back by the same caller;
/// once by another one before.
pub fn every_cut((place, register): (usize, &Register)) -> Vec<LentCase> {
    let mut sequence = Sequence::new(register);
    for (at, d) in register.delegations.iter().enumerate() {
        let (giver, receiver) = (d.giver as u32, d.receiver as u32);
        let (first, second) = if (at + place) % 2 == 0 { (0, giver) } else { (giver, 0) };
        let weight = if at % 2 == 0 { 0 } else { d.weight.max(1) as u32 - 1 };
        sequence.cut(revoke(first, giver, receiver));
        sequence.back(first);
        sequence.cut(downgrade(second, giver, receiver, weight));
        sequence.back(receiver);
        sequence.back(second);
    }
    sequence.cases
}

/// Each of the five bytes with many values, by the owner and by the giver.
fn five_bytes(register: &Register, n: Passed) -> Vec<LentCase> {
    let mut sequence = Sequence::new(register);
    sequence.cut(n);
    for (at, byte) in (CALL_AT..AFTER_AT).flat_map(|at| BYTES.map(|byte| (at, byte))) {
        [0, n.giver].iter().for_each(|&by| sequence.back_with(by, &[(at, byte)]));
    }
    let both = [[(CALL_AT, 2), (WEIGHT_AT, 0)], [(CALL_AT, 3), (WEIGHT_AT, 1)], [(GIVER_AT, 3), (RECEIVER_AT, 1)]];
    both.iter().for_each(|bytes| sequence.back_with(0, bytes));
    sequence.cases
}

/// Places of a block: each kind of number, every field of its records, and unused bytes.
fn places(register: &Register) -> Vec<usize> {
    let used = RECORDS_AT + RECORD_LEN * register.delegations.len();
    let marks = [0, 1, 3, 4, 5, 63].map(|subject| MARKS_AT + 2 * subject);
    let ends = [0, 1, 2, 3, MARKS_AT + 3, RETIRED_AT, RETIRED_AT + 1, RECORDS_AT - 1, BLOCK_LEN - 1];
    let records = RECORDS_AT..used + RECORD_LEN;
    marks.into_iter().chain(ends).chain(records).collect()
}

/// One byte is another in the slip's before, in its after, in the register, or in the last two.
fn one_byte() -> Vec<LentCase> {
    let mut sequence = Sequence::new(&example());
    sequence.cut(EXAMPLE_CUT);
    let made = sequence.now.clone();
    for (place, at) in places(&example()).into_iter().enumerate() {
        let (by, more) = (place as u32 % 2, [1, 2, 4][place % 3]);
        let byte = |of: &[u8]| of[at] ^ more;
        sequence.back_with(by, &[(at, byte(&made.lent))]);
        sequence.back_with(by, &[(AFTER_AT + at, byte(&made.block))]);
        sequence.now.block[at] = byte(&made.block);
        sequence.back_with(by, &[]);
        sequence.back_with(by, &[(AFTER_AT + at, byte(&made.block))]);
        sequence.now = made.clone();
    }
    sequence.back(1);
    sequence.cases
}

/// A slip, and a block, of another length, with each of the three calls.
fn lengths() -> Vec<LentCase> {
    let mut sequence = Sequence::new(&example());
    sequence.cut(EXAMPLE_CUT);
    let made = sequence.now.clone();
    let asked = [Asked::Cut(revoke(0, 0, 1)), Asked::Cut(downgrade(0, 0, 1, 4)), Asked::TakeBack(1)];
    for (length, asked) in SLIP_LENGTHS.iter().flat_map(|&length| asked.map(|asked| (length, asked))) {
        sequence.now = made.clone();
        sequence.now.lent.resize(length, 0);
        sequence.ask(asked);
    }
    for (length, asked) in limits::LENGTHS.iter().flat_map(|&length| asked.map(|asked| (length, asked))) {
        sequence.now = made.clone();
        sequence.now.block.resize(length, 0);
        sequence.ask(asked);
    }
    sequence.cases
}

/// Calls that change the register between the cut and its being taken back, and calls that
/// change nothing.
fn in_between() -> Vec<LentCase> {
    let changing = [
        enrol(0), grant(0, 4, 1, 0, 0), grant(2, 4, 1, 4, 2), grant(0, 1, 6, 0, 0), revoke(0, 0, 2), revoke(3, 3, 4),
        downgrade(0, 0, 1, 4), downgrade(0, 1, 3, 0), set_marks(0, 3, 1), retire(0, 4), retire(0, 1), open(),
    ];
    let leaving = [
        reach(3, 4), use_right(4), chain(3, 4, 126), grant(1, 3, 1, 0, 0), revoke(2, 1, 3), set_marks(0, 2, 0),
        downgrade(1, 1, 3, 1), retire(1, 2), enrol(65_536),
    ];
    let mut sequence = Sequence::new(&example());
    for n in changing {
        sequence.now.block = encode(&example());
        sequence.cut(EXAMPLE_CUT);
        sequence.call(n);
        sequence.back(0);
        sequence.back(1);
    }
    sequence.now.block = encode(&example());
    sequence.cut(EXAMPLE_CUT);
    leaving.iter().for_each(|&n| sequence.call(n));
    // Changed, and changed back.
    [set_marks(0, 4, 5), set_marks(0, 4, 0)].iter().for_each(|&n| sequence.call(n));
    sequence.back(1);
    sequence.cases
}

/// Two cuts, taken back in reverse order and in the same order.
fn two_cuts() -> Vec<LentCase> {
    let pairs = [
        [EXAMPLE_CUT, revoke(0, 0, 2)], [revoke(0, 0, 2), EXAMPLE_CUT], [EXAMPLE_CUT, revoke(1, 1, 3)],
        [revoke(3, 3, 4), revoke(0, 0, 1)], [downgrade(0, 0, 1, 3), downgrade(0, 0, 1, 2)],
        [revoke(0, 2, 3), downgrade(0, 0, 2, 0)],
    ];
    let mut sequence = Sequence::new(&example());
    for [first, second] in pairs {
        sequence.cut(first);
        let slip = sequence.now.lent.clone();
        sequence.cut(second);
        let other = sequence.now.lent.clone();
        sequence.back_by_slip(first.by, &slip);
        sequence.back_by_slip(second.by, &other);
        sequence.back_by_slip(first.by, &slip);
        sequence.back_by_slip(second.by, &other);
    }
    sequence.cases
}

/// A cut after a restore, the same or another one, is taken back again; and calls go on from
/// the restored block.
fn cut_again() -> Vec<LentCase> {
    let mut sequence = Sequence::new(&example());
    for n in [EXAMPLE_CUT, EXAMPLE_CUT, revoke(0, 1, 3), downgrade(0, 1, 3, 3), EXAMPLE_CUT] {
        sequence.cut(n);
        sequence.back(n.by);
        sequence.call(reach(3, 4));
    }
    let then =
        [grant(3, 1, 3, 0, 0), revoke(0, 0, 1), set_marks(0, 3, 1), enrol(9), grant(0, 5, 9, 1, 0), retire(0, 2)];
    then.iter().for_each(|&n| sequence.call(n));
    for n in [revoke(0, 0, 5), downgrade(0, 0, 5, 8)] {
        sequence.cut(n);
        sequence.back(0);
    }
    sequence.cases
}

/// Slips that no cut of these registers wrote and that are accepted, each with its register and
/// a caller: the before has delegations that the cut removes and others that its rounds drop or
/// lower. 5 and 6 have no right.
pub fn consistent() -> Vec<(u32, Register, Vec<u8>)> {
    let now = Register { marks: vec![0, 0, 0, 0, 0, 1, 2], ..example() };
    let own = with(&now, (5, 6, 9, 0, 0));
    let more = with(&with(&own, (6, 5, 255, 0, 0)), (5, 4, 200, 3, 4));
    let heavier = with(&own, (3, 4, 255, 0, 0));
    let lowered = with(&now, (3, 4, 200, 0, 0));
    let given = with(&now, (0, 4, 255, 0, 0));
    let none = register(&[0, 1, 2], &[]);
    let loop_of_two = register(&[0, 1, 2], &[(1, 2, 255, 0, 0), (2, 1, 255, 0, 0)]);
    let ones = register(&[0, 1, 2], &[(1, 2, 9, 0, 0)]);
    [
        (5, revoke(5, 5, 6), &own, &now),
        (5, revoke(0, 5, 6), &own, &now),
        (5, downgrade(5, 5, 6, 0), &own, &now),
        (5, revoke(5, 5, 4), &more, &now),
        (6, revoke(6, 6, 5), &more, &now),
        (0, revoke(6, 6, 5), &more, &now),
        (5, revoke(5, 5, 6), &heavier, &now),
        (3, downgrade(3, 3, 4, 199), &lowered, &now),
        (3, downgrade(0, 3, 4, 4), &lowered, &now),
        (0, revoke(0, 0, 4), &given, &now),
        (1, revoke(1, 1, 2), &loop_of_two, &none),
        (2, revoke(2, 2, 1), &loop_of_two, &none),
        (1, downgrade(1, 1, 2, 0), &ones, &none),
        (1, downgrade(0, 1, 2, 8), &ones, &none),
    ]
    .map(|(by, n, before, after)| (by, after.clone(), unwritten(&n, before, after)))
    .to_vec()
}

/// They are accepted, and the next call that runs rounds settles what they brought.
fn unwritten_slips() -> Vec<LentCase> {
    let mut sequence = Sequence::new(&example());
    for (by, register, slip) in consistent() {
        sequence.now.block = encode(&register);
        sequence.back_by_slip((by + 1) % 3, &slip);
        sequence.now.block = encode(&register);
        sequence.back_by_slip(by, &slip);
        sequence.back(by);
        sequence.call(set_marks(0, 1, register.marks_of(1) as u32));
    }
    sequence.cases
}

/// Slips that are nearly so: the before has other subjects, marks or retired bits, a heavier
/// delegation that nothing lowers, one that stays, or too few; or the cut is refused.
fn inconsistent_slips() -> Vec<LentCase> {
    let now = Register { marks: vec![0, 1, 2, 0, 0, 1], ..example() };
    let own = with(&now, (5, 1, 9, 0, 0));
    let marked = |marks: [u16; 6]| Register { marks: marks.to_vec(), ..own.clone() };
    let more = Register { marks: vec![0, 1, 2, 0, 0, 1, 0], ..own.clone() };
    let fewer = Register { delegations: own.delegations[1..].to_vec(), ..own.clone() };
    let befores = [
        own.clone(), more, marked([0, 1, 2, 0, 0, 0]), marked([0, 0, 2, 0, 0, 1]), marked([0, 2, 1, 0, 0, 1]),
        marked([0, 257, 2, 0, 0, 1]), with(&own, (0, 4, 1, 0, 0)), with(&own, (0, 2, 4, 0, 0)),
        with(&own, (0, 1, 4, 0, 0)), with(&own, (1, 3, 4, 0, 8)), fewer, now.clone(),
    ];
    let mut slips: Vec<Vec<u8>> = befores.iter().map(|before| unwritten(&revoke(5, 5, 1), before, &now)).collect();
    let cuts = [revoke(3, 5, 1), revoke(5, 1, 5), revoke(6, 5, 1), downgrade(5, 5, 1, 9), downgrade(5, 5, 1, 255)];
    slips.extend(cuts.map(|n| unwritten(&n, &own, &now)));
    let mut sequence = Sequence::new(&now);
    for (slip, by) in slips.iter().flat_map(|slip| [(slip, 5), (slip, 0)]) {
        sequence.now.block = encode(&now);
        sequence.back_by_slip(by, slip);
    }
    sequence.cases.extend(with_other_bits());
    sequence.cases
}

/// The before has other retired bits than the after.
fn with_other_bits() -> Vec<LentCase> {
    let without = |subjects: &[u32]| retireregisters::without(register(&[0, 1, 2, 0, 0, 0], &[]), subjects);
    let now = without(&[5]);
    let mut sequence = Sequence::new(&now);
    for before in [without(&[]), without(&[4]), without(&[4, 5]), without(&[5])] {
        let before = with(&before, (3, 1, 9, 0, 0));
        sequence.back_by_slip(3, &unwritten(&revoke(3, 3, 1), &before, &now));
    }
    sequence.cases
}

/// Retired callers and callers who are not enrolled; the owner takes the giver's cut back and
/// the giver the owner's; by, giver and receiver on the slip who have retired or are not
/// enrolled.
fn other_callers() -> Vec<LentCase> {
    let mut sequence = Sequence::new(&named::few());
    for (by, giver, receiver) in [(0, 1, 2), (1, 1, 2), (0, 0, 4), (4, 4, 1)] {
        sequence.cut(revoke(by, giver, receiver));
        for other in [3, 5, 63, 64, 4_294_967_295].into_iter().filter(|&other| other != giver) {
            sequence.back_with(other, &[]);
        }
        let named = [BY_AT, GIVER_AT, RECEIVER_AT].into_iter();
        for (at, subject) in named.flat_map(|at| [3, 5, 64, 255].map(|subject| (at, subject))) {
            sequence.back_with(0, &[(at, subject)]);
            sequence.back_with(subject as u32, &[(at, subject)]);
        }
        sequence.back(if by == 0 { giver } else { 0 });
    }
    sequence.cases
}

/// Each rule of a block broken in the slip's before, and in the register and the slip's after.
fn unformed() -> Vec<LentCase> {
    let valid = broken::valid();
    let mut sequence = Sequence::new(&valid);
    let n = revoke(0, 0, 1);
    sequence.cut(n);
    let made = sequence.now.clone();
    let mut seen = std::collections::BTreeSet::new();
    for broken in broken::all().into_iter().filter(|broken| seen.insert(broken.rules.clone())) {
        sequence.back_by_slip(0, &slip_of(&n, &broken.block, &made.block));
        sequence.now.block = broken.block.clone();
        sequence.back_by_slip(0, &slip_of(&n, &encode(&valid), &broken.block));
        sequence.now.block = made.block.clone();
    }
    sequence.back_by_slip(0, &made.lent);
    sequence.cases
}

/// Cuts under other tables, taken back under ours, under another one and under the same. Ours
/// is lent as an empty text and written out.
fn under_tables() -> Vec<LentCase> {
    let texts = [OURS.text(), texts::by_two().text(), texts::half().text(), texts::level().text()];
    let registers = [tables::two_ways(4), tables::ends(), example(), markregisters::by_table()];
    let mut sequence = Sequence::new(&example());
    for (at, text) in texts.iter().enumerate() {
        let others = [Vec::new(), texts[(at + 1) % texts.len()].clone(), text.clone()];
        for (place, register) in registers.iter().enumerate() {
            let d = register.delegations[place % 2];
            let (giver, receiver) = (d.giver as u32, d.receiver as u32);
            sequence.now.block = encode(register);
            sequence.now.table = text.clone();
            let lowered = downgrade(giver, giver, receiver, 1);
            sequence.cut(if place % 2 == 0 { revoke(0, giver, receiver) } else { lowered });
            for other in others.iter().skip(if place == at { 0 } else { 2 }) {
                sequence.now.table = other.clone();
                let kept = sequence.now.clone();
                sequence.back(giver);
                sequence.now.block = kept.block;
            }
        }
    }
    sequence.cases.extend(ours_as_a_text());
    sequence.cases
}

/// A cut without a text is taken back with ours written out, and the other way round.
fn ours_as_a_text() -> Vec<LentCase> {
    let mut sequence = Sequence::new(&example());
    for texts in [[Vec::new(), OURS.text()], [OURS.text(), Vec::new()]] {
        sequence.now.table = texts[0].clone();
        sequence.cut(EXAMPLE_CUT);
        sequence.now.table = texts[1].clone();
        sequence.back(1);
    }
    sequence.cases
}

/// Full registers, and cuts of hundreds of rounds.
fn large() -> Vec<LentCase> {
    let cuts = [
        (full::all_enrolled(), revoke(0, 0, 1)), (full::all_enrolled(), downgrade(0, 0, 63, 0)),
        (full::some_enrolled(), revoke(0, 0, 19)), (rounds::built(), rounds::FIRST_CUT),
        (retireregisters::full_without_two(), revoke(1, 1, 2)), (retireregisters::wide(), downgrade(63, 63, 62, 5)),
        (full_to_the_last_byte(), revoke(0, 0, 1)),
    ];
    let mut sequence = Sequence::new(&example());
    for (register, n) in cuts {
        sequence.now.block = encode(&register);
        sequence.cut(n);
        [BLOCK_LEN - 1, SLIP_LEN - 1].iter().for_each(|&at| sequence.back_with(0, &[(at, 1)]));
        sequence.back(n.by);
    }
    let slow = &slow::SLOW[0];
    sequence.now.block = slow.block();
    sequence.cut(slow.cut());
    sequence.back(slow.cut().by);
    sequence.cases
}

/// 256 delegations, and no byte of the last one's bar is 0.
fn full_to_the_last_byte() -> Register {
    let mut register = full::some_enrolled();
    register.delegations.iter_mut().skip(255).for_each(|d| d.bar = 0x8080);
    register
}
