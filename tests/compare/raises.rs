//! Wrong grants for a pair that stands, to see that the comparison finds them.

use crate::draw::List;
use crate::fault::{Fault, NONE};
use crate::report::Part;
use crate::standing::{Left, Standing, ALL_STAND, OVERWEIGHT, PAIR_STANDS};
use second::cut::settle;
use second::engine::FAST;
use second::search::reach_table;
use second::table::OURS;

/// What differs where one side accepts and the other refuses.
const ACCEPTED: &[Part] = &[Part::Number, Part::Block, Part::Answers];
const NUMBER: &[Part] = &[Part::Number];
const BLOCK: &[Part] = &[Part::Block];

pub const RAISES: [Fault; 18] = [
    wrong("11 for a raise", ACCEPTED, Standing::is_raise, |s| s.refused(PAIR_STANDS)),
    wrong("12 for a raise in a full register", ACCEPTED, |s| s.is_raise() && s.is_full(), |s| s.refused(ALL_STAND)),
    wrong("12 before 11", NUMBER, |s| !s.is_raise() && s.is_full(), |s| s.refused(ALL_STAND)),
    wrong("16 before 11", NUMBER, |s| !s.is_raise() && !s.is_allowed(), |s| s.refused(OVERWEIGHT)),
    wrong("11 for a raise above the reach", NUMBER, |s| s.is_raise() && !s.is_allowed(), |s| s.refused(PAIR_STANDS)),
    wrong("16 for a raise to the reach itself", ACCEPTED, is_to_reach, |s| s.refused(OVERWEIGHT)),
    wrong("a raise without asking the reach", ACCEPTED, Standing::is_raise, Standing::raised),
    wrong("a raise judged by our table", ACCEPTED, Standing::is_raise, judged_by_ours),
    wrong("an equal weight accepted", &[Part::Number, Part::Answers], is_the_same, Standing::raised),
    wrong("a smaller weight accepted", ACCEPTED, is_lighter, Standing::raised),
    wrong("another condition taken over", ACCEPTED, is_heavier, with_condition),
    wrong("another need not looked at", ACCEPTED, |s| is_heavier(s) && s.same_bar(), Standing::raised),
    wrong("another bar not looked at", ACCEPTED, |s| is_heavier(s) && s.same_need(), Standing::raised),
    wrong("a raise to the reach, whatever the weight", BLOCK, Standing::is_accepted, to_reach),
    wrong("a raise that lifts what the receiver gave", BLOCK, Standing::is_accepted, with_given),
    wrong("a raise with rounds", &[Part::Block, Part::Answers], Standing::is_accepted, with_rounds),
    wrong("a raise that leaves two records", &[Part::Block, Part::Answers, Part::Listed], has_room, with_second),
    wrong("a raise that counts one more", &[Part::Answers], Standing::is_accepted, with_one_more),
];

const fn wrong(
    name: &'static str, parts: &'static [Part], when: fn(&Standing) -> bool, does: fn(&Standing) -> Left,
) -> Fault {
    Fault { name, lists: List::on_raises, parts, when, does, ..NONE }
}

fn is_to_reach(s: &Standing) -> bool {
    s.is_raise() && s.reach(&s.table) == s.passed.weight as i64
}

/// As what stands, and within the reach.
fn is_the_same(s: &Standing) -> bool {
    s.same_condition() && s.same_kind() && s.gain() == 0 && s.is_allowed()
}

/// As what stands but lighter, and within the reach.
fn is_lighter(s: &Standing) -> bool {
    s.same_condition() && s.same_kind() && s.gain() < 0 && s.is_allowed()
}

/// Accepted, and there is room for one more record.
fn has_room(s: &Standing) -> bool {
    s.is_accepted() && !s.is_full()
}

/// Heavier than what stands, of its kind and within the reach.
fn is_heavier(s: &Standing) -> bool {
    s.same_kind() && s.gain() > 0 && s.is_allowed()
}

fn judged_by_ours(s: &Standing) -> Left {
    if s.reach(&OURS) < s.passed.weight as i64 {
        return s.refused(OVERWEIGHT);
    }
    s.raised()
}

fn with_condition(s: &Standing) -> Left {
    let mut left = s.raised();
    let record = &mut left.register.delegations[s.place];
    (record.need, record.bar) = (s.passed.need as u16, s.passed.bar as u16);
    left
}

fn to_reach(s: &Standing) -> Left {
    let mut left = s.raised();
    left.register.delegations[s.place].weight = s.reach(&s.table) as u8;
    left
}

/// Each delegation that the receiver gave gets what it can have after the raise.
fn with_given(s: &Standing) -> Left {
    let mut left = s.raised();
    let after = left.register.clone();
    for d in left.register.delegations.iter_mut().filter(|d| d.giver as u32 == s.passed.receiver) {
        let reach = reach_table(&s.table, &after, d.giver as u32, d.receiver as u32);
        d.weight = reach.max(d.weight as i16) as u8;
    }
    left
}

fn with_rounds(s: &Standing) -> Left {
    let mut left = s.raised();
    settle(&FAST, &s.table, &mut left.register);
    Left { answer: left.register.delegations.len() as i32, ..left }
}

fn with_second(s: &Standing) -> Left {
    let mut left = s.raised();
    let record = left.register.delegations[s.place];
    left.register.delegations.insert(s.place, record);
    Left { answer: left.answer + 1, ..left }
}

fn with_one_more(s: &Standing) -> Left {
    let left = s.raised();
    Left { answer: left.answer + 1, ..left }
}
