//! The calls of a host: what is in the 12 bytes, and when.

use generate::{enrol, grant, markregisters, open, orderregisters, reach, register, retire, retireregisters, revoke};
use generate::{rounds, set_marks, slow, texts, use_right};
use second::block::{encode, BLOCK_LEN};
use second::engine::FAST;
use second::host::{host_call, host_call_table, host_order, ANSWERS_LEN};
use second::refusal::Passed;

/// What the bytes hold before a call.
const UNWRITTEN: u8 = 0xA5;

/// The number returned and the bytes afterwards, on a block that is left as it is.
fn called(n: &Passed, block: &[u8], length: usize) -> (u32, Vec<u8>) {
    let mut answers = vec![UNWRITTEN; length];
    let number = host_call(&FAST, n, &mut block.to_vec(), &mut answers);
    (number, answers)
}

/// Document 01's P2.
fn example() -> Vec<u8> {
    let grants = [(0, 1, 5, 0, 0), (0, 2, 3, 0, 0), (1, 3, 4, 0, 0), (2, 3, 2, 0, 0), (3, 4, 3, 0, 0)];
    encode(&register(&[0, 0, 0, 0, 0], &grants))
}

#[test]
fn answers_are_signed_low_byte_first() {
    let block = example();
    assert_eq!(called(&revoke(0, 0, 1), &block, 12), (0, vec![1, 0, 0, 0, 1, 0, 0, 0, 2, 0, 0, 0]));
    assert_eq!(called(&reach(4, 1), &block, 12), (0, vec![2, 0, 0, 0, 0, 0, 0, 0, 0, 0, 0, 0]));
    assert_eq!(called(&reach(0, 1), &block, 12), (0, vec![255, 0, 0, 0, 0, 0, 0, 0, 0, 0, 0, 0]));
    let pair = encode(&register(&[0, 0, 0], &[]));
    assert_eq!(called(&reach(1, 2), &pair, 12), (0, vec![255, 255, 255, 255, 0, 0, 0, 0, 0, 0, 0, 0]));
}

/// 256 delegations need a second byte.
#[test]
fn answers_above_255_use_the_second_byte() {
    let mut full = generate::full::all_enrolled();
    let last = full.delegations.pop().map(|d| (d.giver, d.receiver, d.weight, d.need, d.bar));
    let again = last.map(|d| generate::grant_of(&d));
    let answered = again.map(|n| called(&n, &encode(&full), 12));
    assert_eq!(answered, Some((0, vec![0, 1, 0, 0, 0, 0, 0, 0, 0, 0, 0, 0])));
}

#[test]
fn refused_calls_write_nothing() {
    let block = example();
    let refused = [enrol(65_536), grant(0, 1, 0, 0, 0), grant(4, 1, 3, 0, 0), revoke(3, 0, 1)];
    for (n, number) in refused.iter().zip([4, 11, 16, 14]) {
        assert_eq!(called(n, &block, 12), (number, vec![UNWRITTEN; 12]));
    }
    assert_eq!(called(&open(), &block[1..], 12), (1, vec![UNWRITTEN; 12]));
}

/// Another length than 12 gets 1, whatever else would apply, and no byte changes.
#[test]
fn other_lengths_are_refused() {
    for length in (0..=20).filter(|&length| length != ANSWERS_LEN) {
        let of_marks = [set_marks(0, 1, 7), set_marks(64, 0, 65_536)];
        let others = [open(), enrol(65_536), reach(0, 1), revoke(0, 0, 1), retire(0, 1)];
        for n in others.into_iter().chain(of_marks) {
            let mut block = example();
            let mut answers = vec![UNWRITTEN; length];
            assert_eq!(host_call(&FAST, &n, &mut block, &mut answers), 1);
            assert_eq!((block, answers), (example(), vec![UNWRITTEN; length]));
        }
    }
    assert_eq!(example().len(), BLOCK_LEN);
}

/// The three answers are those of a cut, rounds above 255 in two bytes; a table's text may be
/// lent.
#[test]
fn marks_are_answered_as_cuts_are() {
    let block = encode(&markregisters::example());
    assert_eq!(called(&set_marks(0, 2, 0), &block, 12), (0, vec![1, 0, 0, 0, 1, 0, 0, 0, 3, 0, 0, 0]));
    let many = called(&rounds::FIRST_MARKS, &encode(&rounds::built()), 12);
    assert_eq!(many, (0, vec![233, 0, 0, 0, 0, 0, 0, 0, 230, 1, 0, 0]));
    for (n, number) in [set_marks(1, 2, 0), set_marks(1, 0, 0), set_marks(1, 4, 0)].iter().zip([14, 6, 9]) {
        assert_eq!(called(n, &block, 12), (number, vec![UNWRITTEN; 12]));
    }
    let lent = |text: &[u8]| {
        let (mut left, mut answers) = (block.clone(), vec![UNWRITTEN; 12]);
        let number = host_call_table(&FAST, &set_marks(0, 2, 0), text, &mut left, &mut answers);
        (number, left == block, answers)
    };
    assert_eq!(lent(b"\n"), (7, true, vec![UNWRITTEN; 12]));
    assert_eq!(lent(&texts::level().text()), (0, false, vec![1, 0, 0, 0, 1, 0, 0, 0, 2, 0, 0, 0]));
}

/// The three answers of a retirement; and 19 for one who has retired, which writes nothing.
#[test]
fn retirements_are_answered_as_cuts_are() {
    let mut block = encode(&retireregisters::example());
    assert_eq!(called(&retire(0, 1), &block, 12), (0, vec![0, 0, 0, 0, 1, 0, 0, 0, 2, 0, 0, 0]));
    let many = called(&retire(0, 21), &slow::SLOW[2].block(), 12);
    assert_eq!(many, (0, vec![191, 0, 0, 0, 0, 0, 0, 0, 189, 1, 0, 0]));
    for (n, number) in [retire(1, 2), retire(1, 0), retire(1, 5), retire(0, 64)].iter().zip([14, 6, 9, 2]) {
        assert_eq!(called(n, &block, 12), (number, vec![UNWRITTEN; 12]));
    }
    assert_eq!(host_call(&FAST, &retire(0, 1), &mut block, &mut [0; 12]), 0);
    for n in [retire(0, 1), use_right(1), grant(0, 1, 3, 0, 0), reach(1, 2), set_marks(0, 1, 0), revoke(1, 0, 3)] {
        assert_eq!(called(&n, &block, 12), (19, vec![UNWRITTEN; 12]));
    }
    let lent = |text: &[u8]| {
        let (mut left, mut answers) = (encode(&retireregisters::example()), vec![UNWRITTEN; 12]);
        (host_call_table(&FAST, &retire(0, 1), text, &mut left, &mut answers), answers)
    };
    assert_eq!(lent(b"\n"), (7, vec![UNWRITTEN; 12]));
    assert_eq!(lent(&texts::level().text()), (0, vec![1, 0, 0, 0, 1, 0, 0, 0, 2, 0, 0, 0]));
}

/// What an order leaves for a host: the number, the buffer and the answers.
fn ordered(receiver: u32, table: &[u8], buffer: usize, length: usize) -> (u32, Vec<u8>, Vec<u8>) {
    let (mut out, mut answers) = (vec![UNWRITTEN; buffer], vec![UNWRITTEN; length]);
    let block = encode(&orderregisters::example());
    let number = host_order(&FAST, &block, receiver, table, &mut out, &mut answers);
    (number, out, answers)
}

/// The first answer is how many bytes were written; those after them are kept.
#[test]
fn orders_are_counted() {
    let (number, out, answers) = ordered(5, b"", 128, 12);
    assert_eq!((number, answers), (0, vec![12, 0, 0, 0, 0, 0, 0, 0, 0, 0, 0, 0]));
    assert_eq!(out[..12], [0, 255, 4, 255, 1, 255, 3, 19, 2, 8, 5, 5]);
    assert_eq!(out[12..], [UNWRITTEN; 116]);
    let (number, out, answers) = ordered(5, &texts::level().text(), 128, 12);
    assert_eq!((number, answers), (0, vec![6, 0, 0, 0, 0, 0, 0, 0, 0, 0, 0, 0]));
    assert_eq!(out[..6], [0, 255, 2, 0, 4, 0]);
    assert_eq!(out[6..], [UNWRITTEN; 122]);
}

/// Answers of another length get 1 before anything else; a refused order writes nothing.
#[test]
fn refused_orders_write_nothing() {
    for length in (0..=20).filter(|&length| length != ANSWERS_LEN) {
        for (receiver, table, buffer) in [(5, &b""[..], 128), (64, b"\n", 127), (0, b"\n", 128)] {
            let due = (1, vec![UNWRITTEN; buffer], vec![UNWRITTEN; length]);
            assert_eq!(ordered(receiver, table, buffer, length), due);
        }
    }
    for (receiver, table, number) in [(64, &b"\n"[..], 2), (0, b"\n", 6), (6, b"\n", 7), (6, b"", 9)] {
        let due = (number, vec![UNWRITTEN; 128], vec![UNWRITTEN; ANSWERS_LEN]);
        assert_eq!(ordered(receiver, table, 128, ANSWERS_LEN), due);
    }
    assert_eq!(ordered(5, b"", 129, ANSWERS_LEN), (1, vec![UNWRITTEN; 129], vec![UNWRITTEN; ANSWERS_LEN]));
}
