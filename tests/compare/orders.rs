//! Wrong orders for a receiver, to see that the comparison finds them.

use crate::contents::{Asked, Contents};
use crate::draw::List;
use crate::fault::{Fault, NONE};
use crate::report::Part;
use crate::settling::next_subject;
use second::block::{decode, encode, Delegation, Register, BLOCK_LEN, ORDINARY, RECORDS_AT, RETIRED_AT};
use second::chain::meets;
use second::refusal::{MALFORMED, NOT_WELL_FORMED, ORDER_BUFFER, RETIRED, WRONG_LENGTH};
use second::table::Table;
use std::cmp::Reverse;

type Left = (u32, Contents);
/// A subject and its limit.
type Item = (u8, u8);

/// What differs where one side accepts and the other refuses.
const ACCEPTED: &[Part] = &[Part::Number, Part::Answers, Part::File];
/// What differs where one side writes more than the other.
const WRITTEN: &[Part] = &[Part::Answers, Part::File];
const FILE: &[Part] = &[Part::File];
const ANSWERS: &[Part] = &[Part::Answers];
const NUMBER: &[Part] = &[Part::Number];

const TO_OWNER: u32 = 6;
const NOT_ENROLLED: u32 = 9;

pub const ORDERS: [Fault; 28] = [
    wrong("two subjects exchanged", FILE, |lent, to| rewritten(lent, to, |_, items| {
        let last = items.len() - 1;
        items.swap(last, last.max(1) - 1);
    })),
    wrong("sorted by limit, then number", FILE, |lent, to| rewritten(lent, to, |_, items| {
        items.sort_by_key(|&(subject, limit)| (Reverse(limit), subject));
    })),
    wrong("sorted by number", FILE, |lent, to| rewritten(lent, to, |_, items| items.sort())),
    wrong("ties by higher number", FILE, |lent, to| rewritten(lent, to, |order, items| {
        *items = order.chosen(items, |(subject, limit)| (limit, subject));
    })),
    wrong("lightest first", FILE, |lent, to| rewritten(lent, to, |order, items| {
        *items = order.chosen(items, |(subject, limit)| (!limit, !subject));
    })),
    wrong("breadth first", FILE, |lent, to| rewritten(lent, to, |order, items| *items = order.breadth_first(items))),
    wrong("the receiver left out", WRITTEN, |lent, to| rewritten(lent, to, |_, items| {
        items.retain(|&(subject, _)| subject as u32 != to);
    })),
    wrong("the owner left out", WRITTEN, |lent, to| rewritten(lent, to, |_, items| { items.remove(0); })),
    wrong("a subject of no reach written", WRITTEN, |lent, to| rewritten(lent, to, |order, items| {
        let mut others = 0..order.register.marks.len() as u8;
        items.extend(others.find(|other| !items.iter().any(|item| item.0 == *other)).map(|other| (other, 0)));
    })),
    wrong("the weight of a link in place of the limit", FILE, |lent, to| rewritten(lent, to, |order, items| {
        *items = items.iter().map(|&item| order.with_weight(items, item)).collect();
    })),
    wrong("a limit one less", FILE, |lent, to| rewritten(lent, to, |_, items| {
        items.last_mut().into_iter().for_each(|item| item.1 = item.1.wrapping_sub(1));
    })),
    wrong("subject and limit exchanged", FILE, |lent, to| rewritten(lent, to, |_, items| {
        items.iter_mut().for_each(|item| *item = (item.1, item.0));
    })),
    wrong("the rest of the order's buffer zeroed", FILE, |lent, to| accepted(lent, to, |left| {
        let length = left.answer();
        left.file[length..].fill(0);
    })),
    wrong("a 0 byte put after the order", FILE, |lent, to| accepted(lent, to, |left| {
        let length = left.answer();
        left.file[length..].iter_mut().take(1).for_each(|byte| *byte = 0);
    })),
    wrong("subjects answered in place of bytes", ANSWERS, |lent, to| accepted(lent, to, |left| {
        left.set_answers([left.answer() as i32 / 2, 0, 0]);
    })),
    wrong("a buffer of 127 bytes accepted", ACCEPTED, |lent, to| {
        if lent.file.len() == ORDER_BUFFER - 1 { as_right_length(lent, to) } else { right(lent, to) }
    }),
    wrong("a buffer of 128 bytes refused", ACCEPTED, |lent, to| {
        if lent.file.len() == ORDER_BUFFER { (WRONG_LENGTH, lent.clone()) } else { right(lent, to) }
    }),
    wrong("a buffer of 129 bytes accepted", ACCEPTED, |lent, to| {
        if lent.file.len() == ORDER_BUFFER + 1 { as_right_length(lent, to) } else { right(lent, to) }
    }),
    wrong("our table in place of the lent one", ACCEPTED, |lent, to| {
        let (number, left) = right(&Contents { table: Vec::new(), ..lent.clone() }, to);
        (number, Contents { table: lent.table.clone(), ..left })
    }),
    wrong("another receiver's marks", WRITTEN, |lent, to| match right(lent, to) {
        (0, left) => right(lent, next_subject(&register(&left), to)),
        refused => refused,
    }),
    wrong("the receiver cut down to 8 bits", ACCEPTED, |lent, to| right(lent, to & 0xFF)),
    wrong("the receiver cut down to 16 bits", ACCEPTED, |lent, to| right(lent, to & 0xFFFF)),
    wrong("the table's 7 before 6", NUMBER, |lent, to| match right(lent, to) {
        (TO_OWNER, left) if Table::read(&lent.table) == Err(MALFORMED) => (MALFORMED, left),
        right => right,
    }),
    wrong("an order by ordinary delegations alone", WRITTEN, |lent, to| match right(lent, to) {
        (0, left) => {
            let mut register = register(&left);
            register.delegations.retain(|d| d.kind == ORDINARY);
            let (number, left) = right(&Contents { block: encode(&register), ..lent.clone() }, to);
            (number, Contents { block: lent.block.clone(), ..left })
        }
        refused => refused,
    }),
    wrong("an order for a retired receiver", ACCEPTED, |lent, to| match right(lent, to) {
        (RETIRED, _) => {
            let mut block = lent.block.clone();
            block[RETIRED_AT..RECORDS_AT].fill(0);
            let (number, left) = right(&Contents { block, ..lent.clone() }, to);
            (number, Contents { block: lent.block.clone(), ..left })
        }
        right => right,
    }),
    wrong("the block's last byte changed by an order", &[Part::Block, Part::Listed], |lent, to| accepted(lent, to, |left| {
        left.block[BLOCK_LEN - 1] ^= 1;
    })),
    wrong("the answers written where an order is refused", ANSWERS, |lent, to| {
        let (number, mut left) = right(lent, to);
        if number != 0 {
            left.answers.fill(0);
        }
        (number, left)
    }),
    wrong("the owner written before 8 and 9 are judged", FILE, |lent, to| {
        let (number, mut left) = right(lent, to);
        if [NOT_WELL_FORMED, NOT_ENROLLED].contains(&number) {
            left.file[..2].copy_from_slice(&[0, 255]);
        }
        (number, left)
    }),
];

const fn wrong(name: &'static str, parts: &'static [Part], order: fn(&Contents, u32) -> Left) -> Fault {
    Fault { name, lists: List::on_orders, parts, order: Some(order), ..NONE }
}

/// What the second implementation returns and leaves.
fn right(lent: &Contents, receiver: u32) -> Left {
    lent.right(&Asked::Order(receiver))
}

/// The same, changed where it is accepted.
fn accepted(lent: &Contents, receiver: u32, change: impl Fn(&mut Contents)) -> Left {
    lent.accepted(&Asked::Order(receiver), change)
}

/// The same, with other items written.
fn rewritten(lent: &Contents, receiver: u32, change: impl Fn(&Order, &mut Vec<Item>)) -> Left {
    accepted(lent, receiver, |left| {
        let mut items: Vec<Item> = left.items().collect();
        change(&Order::of(left, receiver), &mut items);
        let bytes: Vec<u8> = items.iter().flat_map(|&(subject, limit)| [subject, limit]).collect();
        left.file.clone_from(&lent.file);
        left.file[..bytes.len()].copy_from_slice(&bytes);
        left.set_answers([bytes.len() as i32, 0, 0]);
    })
}

/// As if the buffer had the right length; what it has besides stays, and what it lacks is lost.
fn as_right_length(lent: &Contents, receiver: u32) -> Left {
    let mut file = lent.file.clone();
    file.resize(ORDER_BUFFER, 0);
    let (number, mut left) = right(&Contents { file, ..lent.clone() }, receiver);
    let kept = lent.file.len().min(ORDER_BUFFER);
    left.file.truncate(kept);
    left.file.extend(&lent.file[kept..]);
    (number, left)
}

/// The register of an accepted order.
fn register(left: &Contents) -> Register {
    decode(&left.block).expect("the block of an accepted order is well formed")
}

/// An accepted order.
struct Order {
    table: Table,
    register: Register,
    marks: u16,
}

impl Order {
    fn of(left: &Contents, receiver: u32) -> Order {
        let (table, register) = (Table::read(&left.table).expect("the table of an accepted order passes"), register(left));
        Order { table, marks: register.marks_of(receiver), register }
    }

    /// The delegation by which the one's limit gives the other's, if there is one.
    fn link(&self, from: Item, to: Item) -> Option<&Delegation> {
        let d = self.register.standing(from.0 as u32, to.0 as u32)?;
        (meets(self.marks, d) && self.table.step(from.1 as i16, d.weight) == to.1 as i16).then_some(d)
    }

    /// The items by another choice: of those that come from one already written, the one of the largest key.
    fn chosen(&self, items: &[Item], key: fn(Item) -> Item) -> Vec<Item> {
        let mut written = vec![items[0]];
        let comes = |written: &[Item], item: Item| written.iter().any(|&from| self.link(from, item).is_some());
        let next = |written: &[Item]| {
            let rest = items.iter().copied().filter(|item| !written.contains(item));
            rest.filter(|&item| comes(written, item)).max_by_key(|&item| key(item))
        };
        while let Some(item) = next(&written) {
            written.push(item);
        }
        written
    }

    /// The items by how many delegations they are from the owner.
    fn breadth_first(&self, items: &[Item]) -> Vec<Item> {
        let mut written = vec![items[0]];
        let mut at = 0;
        while at < written.len() {
            let comes = |item: &Item| !written.contains(item) && self.link(written[at], *item).is_some();
            let coming: Vec<Item> = items.iter().copied().filter(comes).collect();
            written.extend(coming);
            at += 1;
        }
        written
    }

    /// The item with the weight of a delegation by which its limit comes.
    fn with_weight(&self, items: &[Item], item: Item) -> Item {
        let link = items.iter().find_map(|&from| self.link(from, item));
        (item.0, link.map_or(item.1, |d| d.weight))
    }
}
