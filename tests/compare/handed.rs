//! Random slips that are handed in: as a cut wrote them, changed, of other
//! lengths, and such as no cut wrote.

use crate::draw::{any_bytes, any_kind_place, odd_value, spoiled};
use crate::tables::{Tables, Text, TextKind};
use second::block::{encode, Delegation, Register, BLOCK_LEN, MOST_DELEGATIONS};
use second::call::blank;
use second::engine::FAST;
use second::random::{random_masks, Random};
use second::refusal::{Call, Passed};
use second::slip::{
    cut_on, cut_slip, slip_of, AFTER_AT, BY_AT, CALL_AT, GIVER_AT, RECEIVER_AT, SLIP_LEN, WEIGHT_AT,
};
use second::table::OURS;

/// How many slips a list keeps.
const MOST_KEPT: usize = 4;

const LENGTHS: [usize; 14] = [0, 0, 1, 5, 2188, 2188, 2193, 4376, 4380, 4380, 4380, 4382, 4382, 8762];

/// A slip as a cut wrote it, and the table's text that the cut was lent.
struct Kept {
    slip: Vec<u8>,
    text: Text,
}

/// The slips that a list keeps, the last one last.
pub struct Slips {
    kept: Vec<Kept>,
}

/// A slip that is handed in, by whom and with which table's text.
pub struct Handed {
    pub by: u32,
    pub text: Text,
    pub slip: Vec<u8>,
}

/// The buffer of a slip that is to be written: of any content, nearly always of the right length.
pub fn slip_buffer(random: &mut Random) -> Vec<u8> {
    let length = if random.chance(5) { random.pick(&LENGTHS) } else { SLIP_LEN };
    vec![random.next() as u8; length]
}

impl Slips {
    pub fn none() -> Slips {
        Slips { kept: Vec::new() }
    }

    pub fn keep(&mut self, slip: &[u8], text: &Text) {
        if self.kept.len() == MOST_KEPT {
            self.kept.remove(0);
        }
        self.kept.push(Kept { slip: slip.to_vec(), text: text.clone() });
    }

    pub fn is_empty(&self) -> bool {
        self.kept.is_empty()
    }

    /// The cut of a slip that is kept, to be made again by the giver or the owner, and its table's text.
    pub fn again(&self, random: &mut Random) -> Option<(Passed, Text)> {
        let kept = self.some(random)?;
        let cut = cut_on(&kept.slip)?;
        Some((Passed { by: random.pick(&[cut.by, cut.giver, 0]), ..cut }, kept.text.clone()))
    }

    /// What is handed in to this register.
    pub fn next(&self, random: &mut Random, register: &Register, tables: &Tables) -> Handed {
        let (mut slip, mut text) = self.whole(random, register, tables);
        match random.below(20) {
            0..=4 => text = tables.next(random).lent(),
            5 | 6 => text = other_text(text),
            _ => (),
        }
        if random.chance(38) {
            change(random, &mut slip, register);
        }
        let by = caller(random, &slip, register);
        if random.chance(4) {
            slip.resize(random.pick(&LENGTHS), 0);
        }
        Handed { by, text, slip }
    }

    /// A slip of the right length, and the table's text that its cut was lent.
    fn whole(&self, random: &mut Random, register: &Register, tables: &Tables) -> (Vec<u8>, Text) {
        if random.chance(2) {
            return ([any_bytes(random), vec![2; 5], any_bytes(random)].concat(), tables.usual(random).lent());
        }
        match self.some(random) {
            Some(kept) if random.chance(75) => (kept.slip.clone(), kept.text.clone()),
            _ => {
                let text = tables.usual(random).lent();
                (made(random, register, &text), text)
            }
        }
    }

    /// Most often the last one.
    fn some(&self, random: &mut Random) -> Option<&Kept> {
        let ago = if random.chance(75) { 0 } else { random.below(MOST_KEPT as u32) as usize };
        self.kept.iter().rev().nth(ago).or(self.kept.last())
    }
}

/// The same table by another text: only ours has two.
fn other_text(text: Text) -> Text {
    match text.kind {
        TextKind::Empty => Text::of(OURS.text()),
        TextKind::Ours => Text::of(Vec::new()),
        _ => text,
    }
}

/// Most often somebody who may take it back.
fn caller(random: &mut Random, slip: &[u8], register: &Register) -> u32 {
    let [by, giver, receiver] = [BY_AT, GIVER_AT, RECEIVER_AT].map(|at| slip[at] as u32);
    let count = register.marks.len() as u32;
    match random.below(20) {
        0..=5 => by,
        6..=9 => giver,
        10..=13 => 0,
        14 => receiver,
        15 | 16 => random.below(count),
        17 => odd_value(random, by),
        18 => count,
        _ => some_retired(random, register).unwrap_or(giver),
    }
}

fn some_retired(random: &mut Random, register: &Register) -> Option<u32> {
    let retired: Vec<u32> = (0..64).filter(|&subject| register.is_retired(subject)).collect();
    (!retired.is_empty()).then(|| random.pick(&retired))
}

/// Changes one thing on a slip.
fn change(random: &mut Random, slip: &mut Vec<u8>, register: &Register) {
    let (before, after) = (slip[..BLOCK_LEN].to_vec(), slip[AFTER_AT..].to_vec());
    match random.below(22) {
        0..=9 => change_cut(random, slip, register),
        10 => slip[random.below(SLIP_LEN as u32) as usize] ^= 1 << random.below(8),
        11..=13 => slip[..BLOCK_LEN].copy_from_slice(&spoiled(random, &before)),
        14 => slip[AFTER_AT..].copy_from_slice(&spoiled(random, &after)),
        15 => slip[random.pick(&[BLOCK_LEN - 1, SLIP_LEN - 1])] ^= 1,
        16..=19 => change_kind(random, slip),
        20 => *slip = [&after, &slip[CALL_AT..AFTER_AT], &before].concat(),
        _ => slip[AFTER_AT..].copy_from_slice(&before),
    }
}

/// Another kind in one record of the block before, of the block after, or of both at the same place.
fn change_kind(random: &mut Random, slip: &mut [u8]) {
    let at = any_kind_place(random, slip);
    let kind = random.pick(&[slip[at] ^ 1, slip[at] ^ 1, slip[at] ^ 1, 2, 255]);
    let places = random.pick(&[&[0][..], &[AFTER_AT], &[0, AFTER_AT]]);
    places.iter().for_each(|place| slip[place + at] = kind);
}

/// Another number in one of the five bytes.
fn change_cut(random: &mut Random, slip: &mut [u8], register: &Register) {
    let at = random.pick(&[CALL_AT, BY_AT, BY_AT, GIVER_AT, RECEIVER_AT, WEIGHT_AT]);
    let subjects = [0, slip[BY_AT], slip[GIVER_AT], slip[RECEIVER_AT], random.below(64) as u8];
    let count = register.marks.len() as u8;
    slip[at] = match random.below(8) {
        0 | 1 => random.pick(&subjects),
        2 => some_retired(random, register).map_or(count, |subject| subject as u8),
        3 => random.pick(&[count, 63, 64, 65, 255]),
        4 => slip[at] ^ random.pick(&[1, 2, 64, 128]),
        5 => random.below(5) as u8,
        6 => slip[at].wrapping_add(1),
        _ => random.next() as u8,
    };
}

/// A slip that no cut wrote, most often one whose cut leaves this register, if it is supported.
fn made(random: &mut Random, register: &Register, text: &Text) -> Vec<u8> {
    let block = encode(register);
    for _ in 0..3 {
        let mut before = register.clone();
        let cut = add_named(random, &mut before);
        (0..random.pick(&[0, 0, 1, 2])).for_each(|_| add_fallen(random, &mut before, cut.receiver));
        let (mut left, mut slip) = (encode(&before), vec![0; SLIP_LEN]);
        let table = text.bytes.as_deref().unwrap_or_default();
        let outcome = cut_slip(&FAST, &cut, table, &mut left, &mut slip);
        match outcome.refusal {
            0 if left == block || random.chance(20) => return slip,
            _ if random.chance(10) => return slip_of(&cut, &encode(&before), &block),
            _ => (),
        }
    }
    slip_of(&Passed { giver: 1, receiver: 2, ..blank(Call::Revoke) }, &block, &block)
}

/// Adds a delegation of any two subjects, or makes a standing one heavier; answers the cut that undoes it.
fn add_named(random: &mut Random, register: &mut Register) -> Passed {
    let (giver, receiver) = any_two(random, register);
    let by = random.pick(&[giver, giver, 0]);
    let n = Passed { by, giver, receiver, ..blank(Call::Revoke) };
    match register.place(giver, receiver) {
        Ok(at) => {
            let weight = register.delegations[at].weight;
            register.delegations[at].weight = random.range(weight as u32, 255) as u8;
            Passed { call: Call::Downgrade, weight: weight as u32, ..n }
        }
        Err(_) => {
            let weight = add(random, register, giver, receiver);
            match random.below(4) {
                0 => Passed { call: Call::Downgrade, weight: random.below(weight.max(1) as u32), ..n },
                _ => n,
            }
        }
    }
}

/// Adds what rounds often drop, or makes a standing delegation heavier, which rounds often lower.
fn add_fallen(random: &mut Random, register: &mut Register, receiver: u32) {
    if random.chance(30) && !register.delegations.is_empty() {
        let at = random.below(register.delegations.len() as u32) as usize;
        register.delegations[at].weight = 255;
        return;
    }
    let (any, further) = any_two(random, register);
    let giver = random.pick(&[any, receiver]);
    if giver != further && register.standing(giver, further).is_none() {
        add(random, register, giver, further);
    }
}

/// Adds a delegation where there is room; answers its weight.
fn add(random: &mut Random, register: &mut Register, giver: u32, receiver: u32) -> u8 {
    let weight = random.pick(&[0, 1, 3, 9, 254, 255]);
    let (need, bar) = if random.chance(30) { random_masks(random, 0x8007) } else { (0, 0) };
    let kind = random.chance(50) as u8;
    let new = Delegation { giver: giver as u8, receiver: receiver as u8, weight, kind, need, bar };
    if let (Err(at), true) = (register.place(giver, receiver), register.delegations.len() < MOST_DELEGATIONS) {
        register.delegations.insert(at, new);
    }
    weight
}

/// Two subjects that aren't retired, the second not the owner, if such are found in a few tries.
fn any_two(random: &mut Random, register: &Register) -> (u32, u32) {
    let count = register.marks.len() as u32;
    let mut tries = (0..8).map(|_| (random.below(count), random.range(1, count.max(2) - 1)));
    let fits = |&(giver, receiver): &(u32, u32)| {
        giver != receiver && !register.is_retired(giver) && !register.is_retired(receiver) && receiver < count
    };
    tries.find(fits).unwrap_or((0, 1))
}
