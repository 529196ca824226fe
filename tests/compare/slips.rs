//! Wrong cuts with a slip and wrong ways to take a cut back, to see that the
//! comparison finds them.

use crate::contents::{Asked, Contents};
use crate::draw::List;
use crate::fault::{Fault, Wrong, NONE};
use crate::kinds::{make_ordinary, make_slip_ordinary};
use crate::report::Part;
use crate::returned::is_supported;
use crate::settling::{Left, ACCEPTED, ANSWERS, BLOCK, MAY_NOT, NOT_ENROLLED, NUMBER};
use second::block::{decode, encode, word, Register, BLOCK_LEN, DELEGATIONS_AT, RECORDS_AT, RECORD_LEN, RETIRED_AT};
use second::call::run_table;
use second::cut::settle;
use second::engine::FAST;
use second::refusal::{Call, Passed, BAD_TABLE, MALFORMED, NOT_WELL_FORMED, OTHER_SLIP, RETIRED, WRONG_LENGTH};
use second::search::reach_table;
use second::slip::{
    cut_on, cut_slip, slip_of, AFTER_AT, BY_AT, CALL_AT, DOWNGRADE, GIVER_AT, RECEIVER_AT, REVOKE, SLIP_LEN, WEIGHT_AT,
};
use second::table::Table;

/// What differs where one side accepts a cut and the other refuses it.
const CUT: &[Part] = &[Part::Number, Part::Block, Part::Answers, Part::File];
const SLIP: &[Part] = &[Part::File];
const NO_SUBJECT: u32 = 2;

pub const CUT_SLIPS: [Fault; 35] = [
    cut("the slip's last byte changed", SLIP, |lent, n| written(lent, n, |left| left.file[SLIP_LEN - 1] ^= 1)),
    cut("the slip's first byte left as it was", SLIP, |lent, n| written(lent, n, |left| left.file[0] = lent.file[0])),
    cut("before taken after the named change", SLIP, |lent, n| written(lent, n, |left| {
        left.file[..BLOCK_LEN].copy_from_slice(&encode(&named(lent, n)));
    })),
    cut("before taken after the cut", SLIP, |lent, n| written(lent, n, |left| {
        left.file.copy_within(AFTER_AT.., 0);
    })),
    cut("after taken before the rounds", SLIP, |lent, n| written(lent, n, |left| {
        left.file[AFTER_AT..].copy_from_slice(&encode(&named(lent, n)));
    })),
    cut("after taken before the cut", SLIP, |lent, n| written(lent, n, |left| {
        left.file.copy_within(..BLOCK_LEN, AFTER_AT);
    })),
    cut("before and after exchanged", SLIP, |lent, n| written(lent, n, |left| {
        left.file = [&left.file[AFTER_AT..], &left.file[CALL_AT..AFTER_AT], &left.file[..BLOCK_LEN]].concat();
    })),
    cut("the five bytes first", SLIP, |lent, n| written(lent, n, |left| left.file[..AFTER_AT].rotate_right(5))),
    cut("the five bytes last", SLIP, |lent, n| written(lent, n, |left| left.file[CALL_AT..].rotate_left(5))),
    cut("by after giver and receiver on the slip", SLIP, |lent, n| written(lent, n, |left| {
        left.file[BY_AT..=RECEIVER_AT].rotate_left(1);
    })),
    cut("giver and receiver exchanged on the slip", SLIP, |lent, n| written(lent, n, |left| {
        left.file.swap(GIVER_AT, RECEIVER_AT);
    })),
    cut("the giver as by on the slip", SLIP, |lent, n| written(lent, n, |left| left.file[BY_AT] = n.giver as u8)),
    cut("the owner as by on the slip", SLIP, |lent, n| written(lent, n, |left| left.file[BY_AT] = 0)),
    cut("by left out on the slip", SLIP, |lent, n| written(lent, n, |left| left.file[BY_AT] = lent.file[BY_AT])),
    cut("the old weight on the slip of a revocation", SLIP, |lent, n| written(lent, n, |left| {
        if n.call == Call::Revoke {
            left.file[WEIGHT_AT] = old_weight(lent, n);
        }
    })),
    cut("the old weight on the slip of a downgrade", SLIP, |lent, n| written(lent, n, |left| {
        if n.call == Call::Downgrade {
            left.file[WEIGHT_AT] = old_weight(lent, n);
        }
    })),
    cut("0 as the weight on every slip", SLIP, |lent, n| written(lent, n, |left| left.file[WEIGHT_AT] = 0)),
    cut("the weight byte of a revocation left as it was", SLIP, |lent, n| written(lent, n, |left| {
        if n.call == Call::Revoke {
            left.file[WEIGHT_AT] = lent.file[WEIGHT_AT];
        }
    })),
    cut("2 and 3 exchanged on the slip", SLIP, |lent, n| written(lent, n, |left| left.file[CALL_AT] ^= 1)),
    cut("2 on every slip", SLIP, |lent, n| written(lent, n, |left| left.file[CALL_AT] = REVOKE)),
    cut("nobody retired on the slip", SLIP, |lent, n| written(lent, n, |left| {
        left.file[RETIRED_AT..RECORDS_AT].fill(0);
        left.file[AFTER_AT + RETIRED_AT..AFTER_AT + RECORDS_AT].fill(0);
    })),
    cut("all made ordinary on the slip", SLIP, |lent, n| written(lent, n, |left| make_slip_ordinary(&mut left.file))),
    cut("what the register after doesn't use left as it was on the slip", SLIP, |lent, n| written(lent, n, |left| {
        let used = AFTER_AT + RECORDS_AT + RECORD_LEN * word(&left.block, DELEGATIONS_AT) as usize;
        left.file[used..].copy_from_slice(&lent.file[used..]);
    })),
    cut("the slip written, the register left as it was", BLOCK, |lent, n| written(lent, n, |left| {
        left.block = lent.block.clone();
    })),
    cut("the slip written where the cut is refused", SLIP, |lent, n| {
        let (number, mut left) = right_cut(lent, n);
        if number != 0 && left.block.len() == BLOCK_LEN && left.file.len() == SLIP_LEN {
            left.file = slip_of(n, &lent.block, &lent.block);
        }
        (number, left)
    }),
    cut("the slip cleared where the cut is refused", SLIP, |lent, n| {
        let (number, mut left) = right_cut(lent, n);
        if number != 0 {
            left.file.fill(0);
        }
        (number, left)
    }),
    cut("no rounds before a slip", &[Part::Block, Part::Answers, Part::File], |lent, n| written(lent, n, |left| {
        left.block = encode(&named(lent, n));
        left.file[AFTER_AT..].copy_from_slice(&left.block);
        left.set_answers([0, 0, 1]);
    })),
    cut("a slip's length of 4,380 accepted", CUT, |lent, n| as_sized(lent, SLIP_LEN - 1, |lent| right_cut(lent, n))),
    cut("a slip's length of 4,382 accepted", CUT, |lent, n| as_sized(lent, SLIP_LEN + 1, |lent| right_cut(lent, n))),
    cut("a slip's length of 4,381 refused", CUT, |lent, n| {
        if lent.file.len() == SLIP_LEN { (WRONG_LENGTH, lent.clone()) } else { right_cut(lent, n) }
    }),
    cut("the slip's length looked at last", NUMBER, |lent, n| {
        let sized = Contents { file: vec![0; SLIP_LEN], ..lent.clone() };
        match right_cut(&sized, n).0 {
            0 => right_cut(lent, n),
            number => (number, lent.clone()),
        }
    }),
    cut("our table in place of the lent one for a slip", CUT, |lent, n| by_ours(lent, |lent| right_cut(lent, n))),
    cut("by cut down to 8 bits for a slip", CUT, |lent, n| right_cut(lent, &Passed { by: n.by & 0xFF, ..*n })),
    cut("anyone may write a slip", CUT, |lent, n| match right_cut(lent, n) {
        (MAY_NOT, _) => right_cut(lent, &Passed { by: 0, ..*n }),
        right => right,
    }),
    cut("the answers of a cut with a slip left as they were", ANSWERS, |lent, n| written(lent, n, |left| {
        left.answers = lent.answers.clone();
    })),
];

pub const TAKE_BACKS: [Fault; 53] = [
    back("always 20", ACCEPTED, |lent, by| judged(lent, by, |_| Some(OTHER_SLIP))),
    back("the cut not made again", ACCEPTED, |lent, by| forgiven(lent, by, |h| h.is_after())),
    back("the register not compared", ACCEPTED, |lent, by| forgiven(lent, by, |h| h.is_written())),
    back("only the delegations of the register compared", ACCEPTED, |lent, by| forgiven(lent, by, |h| {
        h.is_written() && h.slip[AFTER_AT + RECORDS_AT..] == h.lent.block[RECORDS_AT..]
    })),
    back("only the register's count of delegations compared", ACCEPTED, |lent, by| forgiven(lent, by, |h| {
        let counts = |block: &[u8]| word(block, DELEGATIONS_AT);
        h.is_written() && counts(&h.slip[AFTER_AT..]) == counts(&h.lent.block)
    })),
    back("the register's kinds not compared", ACCEPTED, |lent, by| forgiven(lent, by, |h| {
        let [mut after, mut register] = [h.slip[AFTER_AT..].to_vec(), h.lent.block.clone()];
        make_ordinary(&mut after);
        make_ordinary(&mut register);
        h.is_written() && after == register
    })),
    back("the kinds on the slip not compared", ACCEPTED, |lent, by| forgiven(lent, by, |h| {
        h.is_after() && h.with(make_slip_ordinary).is_written()
    })),
    back("all made ordinary by a taking back", BLOCK, |lent, by| restored(lent, by, |_, left| make_ordinary(&mut left.block))),
    back("a slip handed in again accepted", &[Part::Number, Part::Answers], |lent, by| forgiven(lent, by, |h| {
        h.is_written() && h.slip[..BLOCK_LEN] == h.lent.block
    })),
    back("a revocation with a weight taken back", ACCEPTED, |lent, by| forgiven_with(lent, by, |slip| {
        if slip[CALL_AT] == REVOKE {
            slip[WEIGHT_AT] = 0;
        }
    })),
    back("the by on the slip not looked at", ACCEPTED, |lent, by| forgiven_with(lent, by, |slip| slip[BY_AT] = 0)),
    back("any enrolled by on the slip let through", ACCEPTED, |lent, by| forgiven(lent, by, |h| {
        let enrolled = decode(&h.lent.block).is_some_and(|register| register.enrolled(h.slip[BY_AT] as u32));
        enrolled && h.with(|slip| slip[BY_AT] = 0).restores()
    })),
    back("a first byte above 3 taken for a downgrade", ACCEPTED, |lent, by| forgiven_with(lent, by, |slip| {
        slip[CALL_AT] = slip[CALL_AT].clamp(REVOKE, DOWNGRADE);
    })),
    back("the first of the five bytes not looked at", ACCEPTED, |lent, by| forgiven(lent, by, |h| {
        [REVOKE, DOWNGRADE].iter().any(|&call| h.with(|slip| slip[CALL_AT] = call).restores())
    })),
    back("the new weight not looked at", ACCEPTED, |lent, by| forgiven(lent, by, |h| {
        (0..=255).any(|weight| h.with(|slip| slip[WEIGHT_AT] = weight).restores())
    })),
    back("a weight that isn't below taken back", ACCEPTED, |lent, by| forgiven(lent, by, |h| {
        h.is_after() && h.cut().is_some_and(|cut| cut.call == Call::Downgrade && h.refusal(&cut) == Some(15))
    })),
    back("what the register before doesn't use not looked at", ACCEPTED, |lent, by| forgiven_with(lent, by, |slip| {
        let used = RECORDS_AT + RECORD_LEN * word(slip, DELEGATIONS_AT).min(256) as usize;
        slip[used..BLOCK_LEN].fill(0);
    })),
    back("the slip's cut judged by our table", ACCEPTED, |lent, by| by_ours(lent, |lent| right_back(lent, by))),
    back("14 by the by on the slip", ACCEPTED, |lent, by| allowed(lent, by, |h, by| by == h.slip[BY_AT] as u32)),
    back("no 14 of a slip", ACCEPTED, |lent, by| allowed(lent, by, |_, _| true)),
    back("14 for all but the owner", ACCEPTED, |lent, by| allowed(lent, by, |_, _| false)),
    back("14 for all but the giver", ACCEPTED, |lent, by| match right_back(lent, by) {
        (0 | OTHER_SLIP, _) if by != lent.file[GIVER_AT] as u32 => (MAY_NOT, lent.clone()),
        right => right,
    }),
    back("14 for all but the owner and who made the cut", ACCEPTED, |lent, by| match right_back(lent, by) {
        (0 | OTHER_SLIP, _) if by != 0 && by != lent.file[BY_AT] as u32 => (MAY_NOT, lent.clone()),
        right => right,
    }),
    back("the receiver may take back too", ACCEPTED, |lent, by| match right_back(lent, by) {
        (MAY_NOT, _) if by == lent.file[RECEIVER_AT] as u32 => right_back(lent, 0),
        right => right,
    }),
    back("20 before 14", NUMBER, |lent, by| match right_back(lent, by) {
        (MAY_NOT, _) if !HandedIn::of(lent).restores() => (OTHER_SLIP, lent.clone()),
        right => right,
    }),
    back("14 of a slip before 9", NUMBER, |lent, by| instead(lent, by, NOT_ENROLLED, MAY_NOT, |h, by| h.may_not(by))),
    back("14 of a slip before 19", NUMBER, |lent, by| instead(lent, by, RETIRED, MAY_NOT, |h, by| h.may_not(by))),
    back("14 of a slip before 8", NUMBER, |lent, by| instead(lent, by, NOT_WELL_FORMED, MAY_NOT, |h, by| h.may_not(by))),
    back("14 of a slip before 7", NUMBER, |lent, by| instead(lent, by, MALFORMED, MAY_NOT, |h, by| h.may_not(by))),
    back("20 before 8", NUMBER, |lent, by| instead(lent, by, NOT_WELL_FORMED, OTHER_SLIP, |_, _| true)),
    back("8 before the table's 17", NUMBER, |lent, by| instead(lent, by, BAD_TABLE, NOT_WELL_FORMED, |h, _| {
        decode(&h.lent.block).is_none()
    })),
    back("8 for a block in the slip", NUMBER, |lent, by| instead(lent, by, OTHER_SLIP, NOT_WELL_FORMED, |h, _| {
        decode(&h.slip[..BLOCK_LEN]).is_none() || decode(&h.slip[AFTER_AT..]).is_none()
    })),
    back("giver and receiver on the slip named for 2", NUMBER, |lent, by| judged(lent, by, |h| {
        (h.slip[GIVER_AT] > 63 || h.slip[RECEIVER_AT] > 63).then_some(NO_SUBJECT)
    })),
    back("giver and receiver on the slip named for 9", NUMBER, |lent, by| names(lent, by, NOT_ENROLLED, |register, subject| {
        !register.enrolled(subject)
    })),
    back("giver and receiver on the slip named for 19", NUMBER, |lent, by| names(lent, by, RETIRED, |register, subject| {
        register.is_retired(subject)
    })),
    back("the by on the slip named for 9", NUMBER, |lent, by| judged(lent, by, |h| {
        let register = decode(&h.lent.block)?;
        (!register.enrolled(h.slip[BY_AT] as u32)).then_some(NOT_ENROLLED)
    })),
    back("what the slip's cut is refused with in place of 20", NUMBER, |lent, by| match right_back(lent, by) {
        (OTHER_SLIP, left) => {
            let handed = HandedIn::of(lent);
            (handed.cut().and_then(|cut| handed.refusal(&cut)).unwrap_or(OTHER_SLIP), left)
        }
        right => right,
    }),
    back("the caller in place of the by on the slip", ACCEPTED, |lent, by| match right_back(lent, by) {
        (0, _) if by != lent.file[BY_AT] as u32 => (OTHER_SLIP, lent.clone()),
        right => right,
    }),
    back("a restore that settles", BLOCK, |lent, by| restored(lent, by, |h, left| {
        let (Ok(table), Some(mut register)) = (Table::read(&h.lent.table), decode(&left.block)) else { return };
        settle(&FAST, &table, &mut register);
        left.block = encode(&register);
    })),
    back("the named delegation alone restored", BLOCK, |lent, by| restored(lent, by, |h, left| {
        let (Some(cut), Some(before), Some(mut register)) = (h.cut(), decode(&left.block), decode(&h.lent.block)) else { return };
        let Some(&old) = before.standing(cut.giver, cut.receiver) else { return };
        match register.place(cut.giver, cut.receiver) {
            Ok(at) => register.delegations[at] = old,
            Err(at) => register.delegations.insert(at, old),
        }
        left.block = encode(&register);
    })),
    back("the register left as it was", BLOCK, |lent, by| restored(lent, by, |h, left| left.block = h.lent.block.clone())),
    back("the delegations answered", ANSWERS, |lent, by| restored(lent, by, |_, left| {
        left.set_answers([word(&left.block, DELEGATIONS_AT) as i32, 0, 0]);
    })),
    back("the counts of the slip's cut answered", ANSWERS, |lent, by| restored(lent, by, |h, left| {
        let Some(cut) = h.cut() else { return };
        left.set_answers(run_table(&FAST, &cut, &h.lent.table, &mut h.slip[..BLOCK_LEN].to_vec()).answers);
    })),
    back("the answers written where a slip is refused", ANSWERS, |lent, by| {
        let (number, mut left) = right_back(lent, by);
        if number != 0 {
            left.answers.fill(0);
        }
        (number, left)
    }),
    back("20 for a register before that is unsupported", ACCEPTED, |lent, by| judged(lent, by, |h| {
        let (table, before) = (Table::read(&h.lent.table).ok()?, decode(&h.slip[..BLOCK_LEN])?);
        (!is_supported(&table, &before)).then_some(OTHER_SLIP)
    })),
    back("20 where the giver on the slip had no chain", ACCEPTED, |lent, by| judged(lent, by, |h| {
        let (table, before, cut) = (Table::read(&h.lent.table).ok()?, decode(&h.slip[..BLOCK_LEN])?, h.cut()?);
        (reach_table(&table, &before, cut.giver, cut.receiver) < 0).then_some(OTHER_SLIP)
    })),
    back("the slip's last byte changed by a taking back", SLIP, |lent, by| {
        let (number, mut left) = right_back(lent, by);
        left.file.last_mut().into_iter().for_each(|byte| *byte ^= 1);
        (number, left)
    }),
    back("the slip cleared once it is taken back", SLIP, |lent, by| restored(lent, by, |_, left| left.file.fill(0))),
    back("the block before written before 20 is judged", BLOCK, |lent, by| {
        let (number, mut left) = right_back(lent, by);
        if number == OTHER_SLIP {
            left.block.copy_from_slice(&lent.file[..BLOCK_LEN]);
        }
        (number, left)
    }),
    back("a slip of 4,380 bytes taken", ACCEPTED, |lent, by| as_sized(lent, SLIP_LEN - 1, |lent| right_back(lent, by))),
    back("a slip of 4,382 bytes taken", ACCEPTED, |lent, by| as_sized(lent, SLIP_LEN + 1, |lent| right_back(lent, by))),
    back("the length of a slip handed in looked at last", NUMBER, |lent, by| {
        let sized = Contents { file: vec![0; SLIP_LEN], ..lent.clone() };
        match right_back(&sized, by).0 {
            number if number != OTHER_SLIP && lent.file.len() != SLIP_LEN => (number, lent.clone()),
            _ => right_back(lent, by),
        }
    }),
    back("who takes back cut down to 8 bits", ACCEPTED, |lent, by| right_back(lent, by & 0xFF)),
];

const fn cut(name: &'static str, parts: &'static [Part], cut_slip: Wrong) -> Fault {
    Fault { name, lists: List::on_slips, parts, cut_slip: Some(cut_slip), ..NONE }
}

const fn back(name: &'static str, parts: &'static [Part], take_back: fn(&Contents, u32) -> Left) -> Fault {
    Fault { name, lists: List::on_slips, parts, take_back: Some(take_back), ..NONE }
}

/// What the second implementation returns and leaves of a cut.
fn right_cut(lent: &Contents, n: &Passed) -> Left {
    lent.right(&Asked::CutSlip(*n))
}

/// The same, changed where it is accepted.
fn written(lent: &Contents, n: &Passed, change: impl Fn(&mut Contents)) -> Left {
    lent.accepted(&Asked::CutSlip(*n), change)
}

/// The register after the named change of a cut that is accepted.
fn named(lent: &Contents, n: &Passed) -> Register {
    let mut register = decode(&lent.block).expect("a cut that is accepted has a well-formed block");
    let at = register.place(n.giver, n.receiver).expect("and its pair stands");
    match n.call {
        Call::Revoke => drop(register.delegations.remove(at)),
        _ => register.delegations[at].weight = n.weight as u8,
    }
    register
}

fn old_weight(lent: &Contents, n: &Passed) -> u8 {
    decode(&lent.block).and_then(|register| register.standing(n.giver, n.receiver).map(|d| d.weight)).unwrap_or(0)
}

/// What the second implementation returns and leaves of a slip that is handed in.
fn right_back(lent: &Contents, by: u32) -> Left {
    lent.right(&Asked::TakeBack(by))
}

/// By our table, whichever is lent.
fn by_ours(lent: &Contents, call: impl Fn(&Contents) -> Left) -> Left {
    let (number, left) = call(&Contents { table: Vec::new(), ..lent.clone() });
    (number, Contents { table: lent.table.clone(), ..left })
}

/// As if the slip had the right length, where it has this one.
fn as_sized(lent: &Contents, length: usize, call: impl Fn(&Contents) -> Left) -> Left {
    if lent.file.len() != length {
        return call(lent);
    }
    let mut file = lent.file.clone();
    file.resize(SLIP_LEN, 0);
    let (number, mut left) = call(&Contents { file, ..lent.clone() });
    left.file.resize(length, 0);
    (number, left)
}

/// Another number where 0, 14 or 20 is due and this gives one.
fn judged(lent: &Contents, by: u32, judge: impl Fn(&HandedIn) -> Option<u32>) -> Left {
    let (number, left) = right_back(lent, by);
    if ![0, MAY_NOT, OTHER_SLIP].contains(&number) {
        return (number, left);
    }
    match judge(&HandedIn::of(lent)) {
        Some(OTHER_SLIP) if number == MAY_NOT => (number, left),
        Some(other) => (other, lent.clone()),
        None => (number, left),
    }
}

/// The same of the giver and the receiver on the slip.
fn names(lent: &Contents, by: u32, number: u32, is: fn(&Register, u32) -> bool) -> Left {
    judged(lent, by, |h| {
        let register = decode(&h.lent.block)?;
        [GIVER_AT, RECEIVER_AT].iter().any(|&at| is(&register, h.slip[at] as u32)).then_some(number)
    })
}

/// Another number where this one is due, the slip has the right length and this is so.
fn instead(lent: &Contents, by: u32, due: u32, number: u32, is: fn(&HandedIn, u32) -> bool) -> Left {
    match right_back(lent, by) {
        (returned, left) if returned == due && is(&HandedIn::of(lent), by) => (number, left),
        right => right,
    }
}

/// Accepted where 20 is due and this is so.
fn forgiven(lent: &Contents, by: u32, is: impl Fn(&HandedIn) -> bool) -> Left {
    match right_back(lent, by) {
        (OTHER_SLIP, _) if is(&HandedIn::of(lent)) => put_back(lent),
        right => right,
    }
}

/// Accepted where 20 is due and would not be with a change of the slip.
fn forgiven_with(lent: &Contents, by: u32, change: impl Fn(&mut [u8])) -> Left {
    forgiven(lent, by, |h| h.with(&change).restores())
}

/// 14 for all but the owner and those of whom this is so, in place of the giver.
fn allowed(lent: &Contents, by: u32, may: fn(&HandedIn, u32) -> bool) -> Left {
    match right_back(lent, by) {
        (MAY_NOT, _) if may(&HandedIn::of(lent), by) => right_back(lent, 0),
        (0 | OTHER_SLIP, _) if by != 0 && !may(&HandedIn::of(lent), by) => (MAY_NOT, lent.clone()),
        right => right,
    }
}

/// What is right, changed where it is accepted.
fn restored(lent: &Contents, by: u32, change: impl Fn(&HandedIn, &mut Contents)) -> Left {
    lent.accepted(&Asked::TakeBack(by), |left| change(&HandedIn::of(lent), left))
}

/// Accepted, with the slip's block before in the block.
fn put_back(lent: &Contents) -> Left {
    let mut left = Contents { block: lent.file[..BLOCK_LEN].to_vec(), ..lent.clone() };
    left.set_answers([0, 0, 0]);
    (0, left)
}

/// A slip of the right length, and what it is handed in with.
struct HandedIn<'a> {
    lent: &'a Contents,
    slip: Vec<u8>,
}

impl HandedIn<'_> {
    fn of(lent: &Contents) -> HandedIn<'_> {
        HandedIn { lent, slip: lent.file.clone() }
    }

    /// The same with another slip.
    fn with(&self, change: impl Fn(&mut [u8])) -> HandedIn<'_> {
        let mut slip = self.slip.clone();
        change(&mut slip);
        HandedIn { lent: self.lent, slip }
    }

    fn may_not(&self, by: u32) -> bool {
        by != 0 && by != self.slip[GIVER_AT] as u32
    }

    fn cut(&self) -> Option<Passed> {
        cut_on(&self.slip)
    }

    /// What the cut is refused with on the block before.
    fn refusal(&self, cut: &Passed) -> Option<u32> {
        let outcome = run_table(&FAST, cut, &self.lent.table, &mut self.slip[..BLOCK_LEN].to_vec());
        (outcome.refusal != 0).then_some(outcome.refusal)
    }

    /// The register is the block after.
    fn is_after(&self) -> bool {
        self.lent.block == self.slip[AFTER_AT..]
    }

    /// The cut, accepted on the block before, writes this slip.
    fn is_written(&self) -> bool {
        let (mut block, mut again) = (self.slip[..BLOCK_LEN].to_vec(), vec![0; SLIP_LEN]);
        let Some(n) = self.cut() else { return false };
        cut_slip(&FAST, &n, &self.lent.table, &mut block, &mut again).refusal == 0 && again == self.slip
    }

    fn restores(&self) -> bool {
        self.is_after() && self.is_written()
    }
}
