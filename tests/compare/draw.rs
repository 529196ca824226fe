//! Random lists of calls, most of them plausible, on blocks of several kinds.

use crate::contents::Asked;
use crate::entry::{is_always_lent, FileCall};
use crate::filetexts::{buffer, Files};
use crate::handed::{slip_buffer, Handed, Slips};
use crate::olds::Olds;
use crate::report::Case;
use crate::tables::{Tables, Text};
use second::block::*;
use second::call::{blank, retire_subject, run_table};
use second::callfile::{from_values, used_columns, values_of};
use second::engine::FAST;
use second::random::{random_masks, random_register, Random, Shape};
use second::refusal::{takes_table, Call, Passed, ORDER_BUFFER};
use second::search::reach_table;
use second::table::{Table, OURS};

/// What the calls of a list are made on.
#[derive(Clone, Copy, Debug, PartialEq, Eq)]
pub enum Kind {
    /// Any bytes; the first call is open, and each later one gets the block that was left.
    Fresh,
    /// A well-formed block whose delegations need not be supported, then the block that was left.
    Formed,
    /// Every call gets a well-formed block with some bytes changed, which may leave it well formed.
    Spoiled,
    /// Every call gets bytes of any value.
    Noise,
}

pub const KINDS: [Kind; 4] = [Kind::Fresh, Kind::Formed, Kind::Spoiled, Kind::Noise];

const WEIGHTS: [u8; 16] = [0, 1, 1, 2, 2, 3, 3, 4, 5, 9, 100, 200, 254, 255, 255, 255];
/// With many of these and of conditions, a cut takes many rounds.
const HEAVY: [u8; 8] = [100, 200, 254, 255, 255, 255, 255, 255];
/// With these the limits of many subjects tie, also of some that come by one another.
const UNLIMITED: [u8; 8] = [3, 9, 254, 255, 255, 255, 255, 255];
/// Marks and masks are made of these bits.
const MARKS: u16 = 0x8007;
const NEAR_LENGTHS: [usize; 14] = [0, 1, 4, 132, 139, 140, 2179, 2180, 2180, 2181, 2187, 2187, 2189, 4376];
const ORDER_LENGTHS: [usize; 12] = [0, 1, 2, 64, 126, 127, 127, 129, 129, 130, 256, 8192];
const EDGES: [u32; 12] = [0, 1, 62, 63, 64, 254, 255, 256, 65_535, 65_536, 0x8000_0000, 0xFFFF_FFFF];

/// A call, and what it is lent beside the block and the answers.
pub struct Drawn {
    pub asked: Asked,
    /// The table's text; for a write, that of the read which follows it.
    pub text: Text,
    /// The register file of a read, the buffer of a write or of an order, the slip or its buffer, the old block.
    pub file: Vec<u8>,
}

/// What is called next.
#[derive(Clone, Copy)]
enum What {
    Call(Call),
    CutSlip(Call),
    TakeBack,
    /// A cut that wrote a slip, made again with a slip or without one.
    Again,
    Order,
    File(FileCall),
    BringOver,
}

/// What most calls of a list are.
#[derive(Clone, Copy, PartialEq, Eq)]
enum Mostly {
    Any,
    /// Grants, until 256 delegations stand.
    Fills,
    Cuts,
    /// Grants for a standing pair.
    Raises,
    /// Grants of a kind, uses and cuts.
    Kinds,
    Marks,
    /// Retirements, and calls that name a retired subject.
    Retires,
    /// Cuts that write a slip, and slips handed in.
    Slips,
    Orders,
    /// Calls on a register file.
    Files,
    /// Old blocks brought over.
    Olds,
}

/// A list of calls while it is drawn.
pub struct List {
    pub kind: Kind,
    /// The block that the list begins with; of a spoiled list, the block that is spoiled.
    first: Vec<u8>,
    opens: bool,
    enrolments: u32,
    left: u32,
    mostly: Mostly,
    conditions: u32,
    tables: Tables,
    slips: Slips,
    /// The register of the last well-formed block.
    register: Register,
}

impl List {
    pub fn draw(random: &mut Random) -> List {
        let conditions = random.pick(&[0, 20, 50, 80]);
        match random.below(100) {
            0..=6 => List::fresh(random, conditions, (2, 8), (20, 90)),
            7 => List::fresh(random, conditions, (9, 30), (80, 250)),
            8..=12 => List::on_kinds(random),
            13 => List { mostly: Mostly::Fills, ..List::fresh(random, conditions, (40, 66), (380, 480)) },
            14..=18 => List { left: random.range(2, 10), ..List::on_register(random, conditions, Kind::Formed) },
            19..=29 => List::on_marks(random),
            30..=40 => List::on_retirements(random),
            41..=48 => List::on_slips(random),
            49..=57 => List::on_orders(random),
            58..=65 => List::on_files(random),
            66..=69 => List::on_olds(random),
            70..=76 => List::on_raises(random),
            77..=87 => List { left: random.range(2, 10), mostly: Mostly::Cuts, ..List::on_dense(random) },
            88..=97 => List { left: random.range(10, 40), ..List::on_register(random, conditions, Kind::Spoiled) },
            _ => List { kind: Kind::Noise, opens: false, ..List::fresh(random, conditions, (0, 0), (5, 20)) },
        }
    }

    /// Most calls are grants for a standing pair, on well-formed registers, most of them full.
    pub fn on_raises(random: &mut Random) -> List {
        let (left, conditions) = (random.range(10, 20), random.pick(&[0, 20, 50, 80]));
        let list = match random.below(10) {
            0 | 1 => List::on_register(random, conditions, Kind::Formed),
            _ => List::on_full(random, conditions),
        };
        List { left, mostly: Mostly::Raises, ..list }
    }

    /// Many calls are grants of a kind, uses and cuts, on blocks of any content, in many of which all is supported.
    pub fn on_kinds(random: &mut Random) -> List {
        let (left, conditions) = (random.range(10, 30), random.pick(&[0, 20, 50, 80]));
        let kind = any_kind(random);
        let list = match random.below(20) {
            0 | 1 => List::on_full(random, conditions),
            2 => List::on_dense(random),
            3..=9 => List::on_granted(random, kind),
            _ => List::on_register(random, conditions, kind),
        };
        List { left, mostly: Mostly::Kinds, ..list }
    }

    /// Most calls set marks, on blocks of any content, in many of which all is supported, most of it under
    /// conditions.
    pub fn on_marks(random: &mut Random) -> List {
        let (left, conditions) = (random.range(12, 30), random.pick(&[20, 50, 80]));
        let kind = any_kind(random);
        let list = match random.below(20) {
            0 | 1 => List::on_full(random, conditions),
            2..=4 => List::on_dense(random),
            5..=15 => List::on_granted(random, kind),
            _ => List::on_register(random, conditions, kind),
        };
        List { left, mostly: Mostly::Marks, ..list }
    }

    /// Many calls retire a subject or name a retired one, on blocks of any content, in many of which all is
    /// supported.
    pub fn on_retirements(random: &mut Random) -> List {
        let (left, conditions) = (random.range(8, 24), random.pick(&[0, 20, 50, 80]));
        let kind = any_kind(random);
        let list = match random.below(20) {
            0 | 1 => List::on_full(random, conditions),
            2..=4 => List::on_dense(random),
            5..=11 => List::on_granted(random, kind),
            12..=14 => List::on_unlimited(random, conditions, kind),
            _ => List::on_register(random, conditions, kind),
        };
        List { left, mostly: Mostly::Retires, ..list }
    }

    /// Most calls are cuts that write a slip, or hand one in, on blocks of any content, in many of which all is
    /// supported.
    pub fn on_slips(random: &mut Random) -> List {
        let (left, conditions) = (random.range(14, 36), random.pick(&[0, 20, 50, 80]));
        let kind = random.pick(&[Kind::Formed, Kind::Formed, Kind::Formed, Kind::Formed, Kind::Spoiled, Kind::Noise]);
        let list = match random.below(20) {
            0..=4 => List::on_full(random, conditions),
            5 | 6 => List::on_dense(random),
            7..=13 => List::on_granted(random, kind),
            _ => List::on_register(random, conditions, kind),
        };
        List { left, mostly: Mostly::Slips, ..list }
    }

    /// Most calls bring over an old block, into blocks of any content.
    pub fn on_olds(random: &mut Random) -> List {
        let (left, conditions) = (random.range(10, 30), random.pick(&[0, 20, 50, 80]));
        let kind = any_kind(random);
        List { left, mostly: Mostly::Olds, ..List::on_register(random, conditions, kind) }
    }

    /// Most calls are orders, on blocks of any content, in many of which most delegations are unlimited.
    pub fn on_orders(random: &mut Random) -> List {
        let (left, conditions) = (random.range(8, 24), random.pick(&[0, 0, 20, 50, 80]));
        let kind = any_kind(random);
        let list = match random.below(20) {
            0..=2 => List::on_full(random, conditions),
            3..=11 => List::on_unlimited(random, conditions, kind),
            _ => List::on_register(random, conditions, kind),
        };
        List { left, mostly: Mostly::Orders, ..list }
    }

    /// Most calls are writes and reads, on blocks of any content.
    pub fn on_files(random: &mut Random) -> List {
        let (left, conditions) = (random.range(30, 70), random.pick(&[0, 20, 50, 80]));
        let kind = any_kind(random);
        List { left, mostly: Mostly::Files, ..List::on_register(random, conditions, kind) }
    }

    fn fresh(random: &mut Random, conditions: u32, enrolments: (u32, u32), calls: (u32, u32)) -> List {
        List {
            kind: Kind::Fresh,
            first: any_bytes(random),
            opens: true,
            enrolments: random.range(enrolments.0, enrolments.1),
            left: random.range(calls.0, calls.1),
            mostly: Mostly::Any,
            conditions,
            tables: Tables::draw(random),
            slips: Slips::none(),
            register: Register::fresh(),
        }
    }

    fn on_register(random: &mut Random, conditions: u32, kind: Kind) -> List {
        let subjects = random.pick(&[2, 3, 5, 8, 8, 13, 24, 64]);
        let delegations = random.range(1, (subjects * 4).min(256));
        List::on_shape(random, kind, &Shape { subjects, delegations, weights: &WEIGHTS, marks: MARKS, conditions })
    }

    /// On a well-formed register in which most pairs stand.
    fn on_dense(random: &mut Random) -> List {
        let (subjects, conditions) = (random.pick(&[6, 8, 13]), random.pick(&[80, 100]));
        let shape = Shape { subjects, delegations: subjects * 6, weights: &HEAVY, marks: MARKS, conditions };
        List::on_shape(random, Kind::Formed, &shape)
    }

    /// On a register in which most delegations are unlimited; in most of them the owner's right comes to all.
    fn on_unlimited(random: &mut Random, conditions: u32, kind: Kind) -> List {
        let subjects = random.pick(&[5, 6, 8, 13, 24, 64, 64, 64]);
        let delegations = random.range(subjects / 2, subjects * 2);
        let shape = Shape { subjects, delegations, weights: &UNLIMITED, marks: MARKS, conditions };
        let mut register = any_register(random, &shape);
        if random.chance(65) {
            give_to_all(random, &mut register);
        }
        if random.chance(40) {
            register = with_retired(random, register);
        }
        List::on_drawn(random, kind, register, conditions)
    }

    /// On a register that grants have made under the list's table, most of them conditional.
    fn on_granted(random: &mut Random, kind: Kind) -> List {
        let (subjects, conditions) = (random.pick(&[5, 8, 13, 24]), random.pick(&[80, 100]));
        let shape = Shape { subjects, delegations: 0, weights: &WEIGHTS, marks: MARKS, conditions };
        let mut list = List::on_shape(random, kind, &shape);
        let Text { bytes, table, .. } = list.tables.usual(random).lent();
        for _ in 0..8 * subjects {
            let call = any_grant(random);
            let n = plausible(random, call, &list.register, conditions, &table);
            run_table(&FAST, &n, bytes.as_deref().unwrap_or_default(), &mut list.first);
            list.register = decode(&list.first).expect("a grant leaves a well-formed block");
        }
        list
    }

    /// On a well-formed register in which 256 delegations stand.
    fn on_full(random: &mut Random, conditions: u32) -> List {
        let (subjects, weights) = (random.pick(&[24, 40, 64]), random.pick(&[&WEIGHTS[..], &HEAVY]));
        let shape = Shape { subjects, delegations: 1000, weights, marks: MARKS, conditions };
        let register = any_register(random, &shape);
        let mut register = with_retired(random, register);
        while register.delegations.len() > MOST_DELEGATIONS {
            let at = random.below(register.delegations.len() as u32);
            register.delegations.remove(at as usize);
        }
        List::on_drawn(random, Kind::Formed, register, conditions)
    }

    fn on_shape(random: &mut Random, kind: Kind, shape: &Shape) -> List {
        let register = any_register(random, shape);
        let register = with_retired(random, register);
        List::on_drawn(random, kind, register, shape.conditions)
    }

    fn on_drawn(random: &mut Random, kind: Kind, register: Register, conditions: u32) -> List {
        let list = List::fresh(random, conditions, (0, 0), (1, 1));
        List { kind, first: encode(&register), opens: false, register, ..list }
    }

    /// The block that the first call gets.
    pub fn first_block(&self) -> Vec<u8> {
        self.first.clone()
    }

    /// The next call, or nothing at the end of the list. It gets `block`, which is as the call
    /// before left it.
    pub fn next(&mut self, random: &mut Random, block: &mut Vec<u8>) -> Option<Drawn> {
        if self.opens {
            self.opens = false;
            return Some(Drawn { asked: Asked::Call(blank(Call::Open)), text: Text::without(), file: Vec::new() });
        }
        if self.left == 0 {
            return None;
        }
        match self.kind {
            Kind::Fresh | Kind::Formed => self.register = decode(block).unwrap_or(Register::fresh()),
            Kind::Spoiled => *block = spoiled(random, &self.first),
            Kind::Noise => *block = any_bytes(random),
        }
        Some(match self.what(random) {
            What::Call(call) => self.call(random, call),
            What::CutSlip(call) => self.cut_slip(random, call),
            What::TakeBack => {
                let Handed { by, text, slip } = self.slips.next(random, &self.register, &self.tables);
                Drawn { asked: Asked::TakeBack(by), text, file: slip }
            }
            What::Again => self.again(random),
            What::Order => self.order(random),
            What::File(FileCall::Write) => {
                let (text, file) = (self.tables.usual(random).lent(), buffer(random));
                Drawn { asked: Asked::File(FileCall::Write), text, file }
            }
            What::File(FileCall::Read) => {
                let text = self.tables.next(random).lent();
                let files = Files { register: &self.register, weights: &WEIGHTS, marks: MARKS, conditions: self.conditions };
                let file = files.next(random, &text.table);
                Drawn { asked: Asked::File(FileCall::Read), text, file }
            }
            What::BringOver => {
                let olds = Olds { register: &self.register, weights: &WEIGHTS, marks: MARKS, conditions: self.conditions };
                Drawn { asked: Asked::BringOver, text: Text::without(), file: olds.next(random) }
            }
        })
    }

    fn call(&self, random: &mut Random, call: Call) -> Drawn {
        let text = match call {
            _ if is_always_lent(call) => self.tables.next(random).lent(),
            _ if takes_table(call) => self.tables.next(random),
            _ => Text::without(),
        };
        let n = match call {
            Call::Grant | Call::GrantKind if self.names_standing(random) => {
                standing_grant(random, call, &self.register, &text.table)
            }
            _ => plausible(random, call, &self.register, self.conditions, &text.table),
        };
        Drawn { asked: Asked::Call(self.odd(random, &n)), text, file: Vec::new() }
    }

    /// Keeps the slip that a cut wrote.
    pub fn keep(&mut self, case: &Case) {
        if matches!(case.asked, Asked::CutSlip(_)) && case.due == 0 {
            self.slips.keep(&case.left.file, &case.text);
        }
    }

    fn cut_slip(&self, random: &mut Random, call: Call) -> Drawn {
        let text = self.tables.next(random).lent();
        let n = plausible(random, call, &self.register, self.conditions, &text.table);
        Drawn { asked: Asked::CutSlip(self.odd(random, &n)), text, file: slip_buffer(random) }
    }

    /// A cut with a slip where none is kept.
    fn again(&self, random: &mut Random) -> Drawn {
        match self.slips.again(random) {
            Some((n, text)) if random.chance(50) => Drawn { asked: Asked::Call(n), text, file: Vec::new() },
            Some((n, text)) => Drawn { asked: Asked::CutSlip(n), text, file: slip_buffer(random) },
            None => self.cut_slip(random, Call::Revoke),
        }
    }

    /// For a receiver that is likely to be enrolled.
    fn order(&self, random: &mut Random) -> Drawn {
        let text = self.tables.next(random).lent();
        let n = plausible(random, Call::Order, &self.register, self.conditions, &text.table);
        Drawn { asked: Asked::Order(self.odd(random, &n).receiver), text, file: order_buffer(random) }
    }

    /// The call, rarely with an odd number, or with the number of a retired subject.
    fn odd(&self, random: &mut Random, n: &Passed) -> Passed {
        let (odd, retired) = match self.mostly {
            Mostly::Retires => (8, 30),
            Mostly::Slips => (18, 5),
            _ => (10, 5),
        };
        match random.below(100) {
            at if at < odd => with_odd_number(random, n),
            at if at < odd + retired => with_retired_number(random, n, &self.register),
            _ => *n,
        }
    }

    fn what(&mut self, random: &mut Random) -> What {
        if self.enrolments > 0 {
            self.enrolments -= 1;
            return What::Call(Call::Enrol);
        }
        self.left -= 1;
        if self.is_filling() && random.chance(98) {
            return What::Call(any_grant(random));
        }
        self.usual(random).unwrap_or_else(|| any_call(random))
    }

    /// What the list is mostly made of, more often than in other lists.
    fn usual(&self, random: &mut Random) -> Option<What> {
        let cut = random.pick(&[Call::Revoke, Call::Downgrade]);
        let grant = any_grant(random);
        let file = random.pick(&[FileCall::Write, FileCall::Read, FileCall::Read]);
        let chances = [
            (Mostly::Cuts, 70, 0, What::Call(cut)),
            (Mostly::Raises, 70, 0, What::Call(grant)),
            (Mostly::Kinds, 45, 0, What::Call(Call::GrantKind)),
            (Mostly::Kinds, 35, 0, What::Call(Call::Use)),
            (Mostly::Kinds, 50, 0, What::Call(cut)),
            (Mostly::Marks, 60, 4, What::Call(Call::SetMarks)),
            (Mostly::Retires, 45, 2, What::Call(Call::Retire)),
            (Mostly::Retires, 8, 0, What::Call(Call::Enrol)),
            (Mostly::Slips, if self.slips.is_empty() { 15 } else { 55 }, 0, What::TakeBack),
            (Mostly::Slips, 15, 0, What::Again),
            (Mostly::Slips, 80, 1, What::CutSlip(cut)),
            (Mostly::Orders, 80, 2, What::Order),
            (Mostly::Files, 80, 10, What::File(file)),
            (Mostly::Olds, 80, 1, What::BringOver),
        ];
        let of_100 = |mostly: Mostly, own: u32, other: u32| if self.mostly == mostly { own } else { other };
        let mut made = chances.into_iter().filter(|&(mostly, own, other, _)| random.chance(of_100(mostly, own, other)));
        made.next().map(|(.., what)| what)
    }

    fn is_filling(&self) -> bool {
        self.mostly == Mostly::Fills && self.register.delegations.len() < MOST_DELEGATIONS
    }

    /// Whether a grant is for a pair that stands.
    fn names_standing(&self, random: &mut Random) -> bool {
        let of_100 = match self.mostly {
            Mostly::Raises => 90,
            Mostly::Kinds => 70,
            _ if self.is_filling() => 5,
            _ => 25,
        };
        !self.register.delegations.is_empty() && random.chance(of_100)
    }
}

/// One of the calls of document 01.
fn any_call(random: &mut Random) -> What {
    What::Call(match random.below(200) {
        0..=79 => any_grant(random),
        80..=109 => Call::Reach,
        110..=125 => Call::Use,
        126..=155 => Call::Revoke,
        156..=185 => Call::Downgrade,
        186..=198 => Call::Enrol,
        _ => Call::Open,
    })
}

/// An ordinary grant, or one of a kind.
fn any_grant(random: &mut Random) -> Call {
    random.pick(&[Call::Grant, Call::Grant, Call::GrantKind])
}

/// Most often a well-formed block.
fn any_kind(random: &mut Random) -> Kind {
    random.pick(&[Kind::Formed, Kind::Formed, Kind::Formed, Kind::Spoiled, Kind::Noise])
}

/// A register with delegations of both kinds.
pub fn any_register(random: &mut Random, shape: &Shape) -> Register {
    let mut register = random_register(random, shape);
    let pass_only = random.pick(&[10, 50, 50, 90]);
    for d in &mut register.delegations {
        d.kind = random.chance(pass_only) as u8;
    }
    register
}

/// Each subject gets an unlimited delegation from one that has got one before, or from the owner.
fn give_to_all(random: &mut Random, register: &mut Register) {
    let mut without: Vec<u8> = (1..register.marks.len() as u8).collect();
    let mut with = vec![0];
    while !without.is_empty() {
        let receiver = without.swap_remove(random.below(without.len() as u32) as usize);
        let kind = random.chance(50) as u8;
        let new = Delegation { giver: random.pick(&with), receiver, weight: 255, kind, need: 0, bar: 0 };
        match register.place(new.giver as u32, receiver as u32) {
            Ok(at) => register.delegations[at] = new,
            Err(at) => register.delegations.insert(at, new),
        }
        with.push(receiver);
    }
}

/// The register, in which often some subjects are retired, rarely many.
pub fn with_retired(random: &mut Random, mut register: Register) -> Register {
    let count = random.pick(&[0, 0, 0, 1, 1, 2, 3, 20]).min(register.marks.len() as u32 / 3);
    for _ in 0..count {
        let subject = random.range(1, register.marks.len() as u32 - 1);
        retire_subject(&mut register, subject);
    }
    register
}

/// Some bytes for open to overwrite, and for other calls to refuse.
pub fn any_bytes(random: &mut Random) -> Vec<u8> {
    let fill = random.pick(&[0, 0, 255, 1]);
    if random.chance(50) {
        return vec![fill; BLOCK_LEN];
    }
    (0..BLOCK_LEN).map(|_| random.next() as u8).collect()
}

/// A block with one byte changed, or a few.
pub fn spoiled(random: &mut Random, block: &[u8]) -> Vec<u8> {
    let mut block = block.to_vec();
    let changes = random.pick(&[1, 1, 1, 1, 2, 8]);
    for _ in 0..changes {
        let place = spoiled_place(random, &block);
        let byte = block[place];
        let bit = byte ^ (1 << random.below(8));
        let near = [byte ^ 1, byte ^ 128, bit, byte.wrapping_add(1), byte.wrapping_sub(1)];
        block[place] = if random.chance(70) { random.pick(&near) } else { random.next() as u8 };
    }
    block
}

/// Most often in the head, the bits of the retired, the used records or the first unused one; there often the kind.
fn spoiled_place(random: &mut Random, block: &[u8]) -> usize {
    let used = RECORDS_AT + RECORD_LEN * (word(block, DELEGATIONS_AT) as usize + 1);
    let retired = RETIRED_AT + block[SUBJECTS_AT] as usize / 8 + 1;
    let (least, most) = match random.below(12) {
        0 | 1 => (0, MARKS_AT),
        2 | 3 => (MARKS_AT, RETIRED_AT),
        4 => (RETIRED_AT, RECORDS_AT),
        5 => (RETIRED_AT, retired.min(RECORDS_AT)),
        6 => (0, BLOCK_LEN),
        7 => return any_kind_place(random, block),
        _ => (RECORDS_AT, used.min(BLOCK_LEN)),
    };
    random.range(least as u32, most as u32 - 1) as usize
}

/// Where some used record of a block has its kind, or the first unused one.
pub fn any_kind_place(random: &mut Random, block: &[u8]) -> usize {
    let used = (word(block, DELEGATIONS_AT) as usize).min(MOST_DELEGATIONS - 1);
    RECORDS_AT + RECORD_LEN * random.range(0, used as u32) as usize + KIND
}

/// A length for the block: nearly always the right one.
pub fn block_length(random: &mut Random) -> usize {
    match random.below(100) {
        0 => random.below(4400) as usize,
        1 | 2 => random.pick(&NEAR_LENGTHS),
        _ => BLOCK_LEN,
    }
}

/// A length for the answers: nearly always the right one.
pub fn answers_length(random: &mut Random) -> usize {
    if random.chance(4) {
        return random.range(0, 20) as usize;
    }
    second::host::ANSWERS_LEN
}

/// What an order is lent to write into, nearly always of the right length.
fn order_buffer(random: &mut Random) -> Vec<u8> {
    let length = if random.chance(10) { random.pick(&ORDER_LENGTHS) } else { ORDER_BUFFER };
    (0..length).map(|_| random.next() as u8).collect()
}

/// A call that is likely to be accepted under this table.
fn plausible(random: &mut Random, call: Call, register: &Register, conditions: u32, table: &Table) -> Passed {
    let count = register.marks.len() as u32;
    let (giver, receiver) = match call {
        Call::Grant | Call::GrantKind => open_pair(random, register),
        Call::Reach | Call::Order => any_pair(random, count),
        _ => standing_pair(random, register),
    };
    let n = blank(call);
    let other = random.below(count);
    let by = random.pick(&[0, 0, giver, giver, giver, other]);
    match call {
        Call::Enrol => Passed { need: random.next() as u32 & MARKS as u32, ..n },
        Call::Grant | Call::GrantKind => {
            let (need, bar) = if random.chance(conditions) { random_masks(random, MARKS) } else { (0, 0) };
            let reach = reach_table(table, register, giver, receiver);
            let weight = grant_weight(random, reach.max(0) as u32);
            with_kind(random, Passed { giver, receiver, weight, need: need as u32, bar: bar as u32, ..n }, PASS_ONLY)
        }
        Call::Revoke => Passed { by, giver, receiver, ..n },
        Call::Downgrade => Passed { by, giver, receiver, weight: lower_weight(random, register, giver, receiver), ..n },
        Call::Reach => Passed { giver, receiver, ..n },
        Call::Use => Passed { receiver: random.pick(&[receiver, other]), ..n },
        Call::SetMarks | Call::Retire => owners_call(random, call, register, table),
        Call::Order => Passed { receiver: if random.chance(3) { count } else { receiver }, ..n },
        Call::Open | Call::Chain | Call::BringOver => n,
    }
}

/// The same of a call that the owner alone may make; rarely by another or for the owner.
fn owners_call(random: &mut Random, call: Call, register: &Register, table: &Table) -> Passed {
    let count = register.marks.len() as u32;
    let (giver, receiver) = passed_on_pair(random, register);
    let (other, idle) = (random.below(count), idle_subject(random, register));
    let by = if random.chance(80) { 0 } else { random.pick(&[giver, receiver, other]) };
    let likely = match call {
        Call::Retire => random.pick(&[giver, giver, receiver, other, idle]),
        _ => receiver,
    };
    let subject = if random.chance(94) { likely } else { random.pick(&[0, count]) };
    if call == Call::Retire {
        return Passed { by, receiver: subject, ..blank(call) };
    }
    let marks = new_marks(random, register, table, giver, subject);
    let need = if subject == 0 && random.chance(20) { marks + 65_536 } else { marks };
    Passed { by, receiver: subject, need, ..blank(call) }
}

/// Any two subjects, the receiver rarely the owner.
fn any_pair(random: &mut Random, count: u32) -> (u32, u32) {
    let receiver = if random.chance(10) { 0 } else { random.range(1, count.max(2) - 1) };
    (random.below(count), receiver)
}

/// For most calls a pair that stands, if there is one.
fn standing_pair(random: &mut Random, register: &Register) -> (u32, u32) {
    if register.delegations.is_empty() || random.chance(10) {
        return any_pair(random, register.marks.len() as u32);
    }
    let standing = random.pick(&register.delegations);
    (standing.giver as u32, standing.receiver as u32)
}

/// A pair that stands and whose giver isn't the owner, if one is found in a few tries.
fn passed_on_pair(random: &mut Random, register: &Register) -> (u32, u32) {
    let mut tries = (0..6).map(|_| standing_pair(random, register));
    tries.find(|&(giver, _)| giver != 0).unwrap_or_else(|| standing_pair(random, register))
}

/// A subject that gave and received nothing, if one is found in a few tries.
fn idle_subject(random: &mut Random, register: &Register) -> u32 {
    let count = register.marks.len() as u32;
    let idle = |subject: u32| !register.delegations.iter().any(|d| [d.giver as u32, d.receiver as u32].contains(&subject));
    let mut tries = (0..6).map(|_| random.range(1, count.max(2) - 1));
    tries.find(|&subject| idle(subject) && !register.is_retired(subject)).unwrap_or(1)
}

/// A pair that doesn't stand and whose giver is the owner or receives something,
/// if one is found in a few tries; rarely any pair.
fn open_pair(random: &mut Random, register: &Register) -> (u32, u32) {
    let count = register.marks.len() as u32;
    if random.chance(8) {
        return any_pair(random, count);
    }
    for _ in 0..6 {
        let giver = if random.chance(20) { 0 } else { standing_pair(random, register).1 };
        let receiver = random.range(1, count.max(2) - 1);
        if giver != receiver && register.standing(giver, receiver).is_none() {
            return (giver, receiver);
        }
    }
    any_pair(random, count)
}

/// Most grants are within the reach, some exactly, some just above it.
fn grant_weight(random: &mut Random, reach: u32) -> u32 {
    match random.below(10) {
        0 => random.below(256),
        1 => (reach + 1).min(255),
        2 | 3 => random.below(reach + 1),
        4 => reach / 2,
        5 => reach.min(random.below(12)),
        _ => reach,
    }
}

/// The grant with a kind, if it takes one: most often this, else the other or any number, rarely with weight 0 or
/// with one above 255.
fn with_kind(random: &mut Random, n: Passed, likely: u8) -> Passed {
    if n.call != Call::GrantKind {
        return n;
    }
    let likely = likely as u32;
    let kind = match random.below(20) {
        0..=12 => likely,
        13..=16 => 1 - likely,
        17 => random.pick(&[2, 3, 254, 255]),
        18 => random.pick(&[256, 257, 65_536, 0x8000_0000, 0x8000_0001, 0xFFFF_FFFE, 0xFFFF_FFFF]),
        _ => random.next() as u32,
    };
    let weight = match random.below(40) {
        0..=2 => 0,
        3 => random.pick(&[256, 257, 512]),
        _ => n.weight.max((kind == PASS_ONLY as u32) as u32),
    };
    Passed { kind, weight, ..n }
}

/// A standing delegation to grant anew: without a kind most often an ordinary one, with one often a pass-only one
/// of weight 0.
fn any_standing(random: &mut Random, call: Call, register: &Register) -> Delegation {
    let likely = |d: &&Delegation| match call {
        Call::GrantKind => d.kind == PASS_ONLY && d.weight == 0,
        _ => d.kind == ORDINARY,
    };
    let some: Vec<Delegation> = register.delegations.iter().filter(likely).copied().collect();
    let of_100 = if call == Call::GrantKind { 25 } else { 85 };
    let any = some.is_empty() || !random.chance(of_100);
    random.pick(if any { &register.delegations } else { &some })
}

/// A grant for a pair that stands: many are raises, the others differ from one by little.
fn standing_grant(random: &mut Random, call: Call, register: &Register, table: &Table) -> Passed {
    let standing = any_standing(random, call, register);
    let (giver, receiver) = (standing.giver as u32, standing.receiver as u32);
    let reach = |table: &Table| reach_table(table, register, giver, receiver).max(0) as u32;
    let weight = match random.below(10) {
        0 => reach(&OURS),
        _ => raised_weight(random, standing.weight as u32, reach(table)),
    };
    let (need, bar) = near_condition(random, standing.need as u32, standing.bar as u32);
    with_kind(random, Passed { giver, receiver, weight, need, bar, ..blank(call) }, standing.kind)
}

/// Most are above what stands, and within the reach where there is room for that.
fn raised_weight(random: &mut Random, present: u32, reach: u32) -> u32 {
    let weight = match random.below(10) {
        0 => present,
        1 => random.below(present + 1),
        2 => random.below(256),
        3 => present + 1,
        4 | 5 => reach.max(present) + 1,
        6 | 7 => reach,
        _ => random.range(present + 1, reach.max(present + 1)),
    };
    weight.min(255)
}

/// Most often the condition that stands, else with another need, another bar, or the two exchanged.
fn near_condition(random: &mut Random, need: u32, bar: u32) -> (u32, u32) {
    let mark = random.pick(&[1, 2, 4, 0x8000]);
    match random.below(12) {
        0 => ((need ^ mark) & !bar, bar),
        1 => (need, (bar ^ mark) & !need),
        2 => (bar, need),
        _ => (need, bar),
    }
}

/// Most often such that what the giver gave the subject can't stand as it does, or one mark more or less than
/// now; some are those that stand.
fn new_marks(random: &mut Random, register: &Register, table: &Table, giver: u32, subject: u32) -> u32 {
    let present = register.marks_of(subject);
    let marks = match random.below(10) {
        0 => present,
        1 => random.next() as u16,
        2 | 3 => present ^ random.pick(&[1, 2, 4, 0x8000]),
        _ => lowering_marks(random, register, table, giver, subject),
    };
    marks as u32
}

/// Marks by which the reach of a pair is below the weight that stands, if some are found in a few tries.
fn lowering_marks(random: &mut Random, register: &Register, table: &Table, giver: u32, subject: u32) -> u16 {
    let mut other = register.clone();
    let weight = register.standing(giver, subject).map_or(0, |d| d.weight as i16);
    for _ in 0..6 {
        let marks = random.next() as u16 & MARKS;
        if let Some(own) = other.marks.get_mut(subject as usize) {
            *own = marks;
        }
        if reach_table(table, &other, giver, subject) < weight {
            return marks;
        }
    }
    register.marks_of(subject) ^ 1
}

/// Most downgrades are below what stands, some not.
fn lower_weight(random: &mut Random, register: &Register, giver: u32, receiver: u32) -> u32 {
    let present = register.standing(giver, receiver).map_or(3, |d| d.weight as u32);
    match random.below(8) {
        0 => present,
        1 => 0,
        2 => random.below(256),
        3 => present.max(1) - 1,
        _ => random.below(present.max(1)),
    }
}

/// The call with some other number in one of the places that it uses.
fn with_odd_number(random: &mut Random, n: &Passed) -> Passed {
    let places: Vec<usize> = (0..6).filter(|&at| used_columns(n.call)[at]).collect();
    if places.is_empty() {
        return *n;
    }
    let mut values = values_of(n);
    let value = &mut values[1 + random.pick(&places)];
    *value = odd_value(random, *value);
    from_values(values).unwrap_or(*n)
}

/// Some other number in the place of this one.
pub fn odd_value(random: &mut Random, value: u32) -> u32 {
    match random.below(4) {
        0 => random.next() as u32,
        1 => random.pick(&EDGES),
        2 => value.wrapping_add(random.pick(&[256, 65_536, 0x8000_0000, 0xFFFF_FF00])),
        _ => random.below(70),
    }
}

/// The call with a retired subject, if there is one, in one of the places of subjects that it uses; sometimes
/// with one that isn't enrolled in another.
fn with_retired_number(random: &mut Random, n: &Passed, register: &Register) -> Passed {
    let retired: Vec<u32> = (0..64).filter(|&subject| register.is_retired(subject)).collect();
    // The kind of a grant is in the place of by.
    let first = (n.call == Call::GrantKind) as usize;
    let mut places: Vec<usize> = (first..3).filter(|&at| used_columns(n.call)[at]).collect();
    if retired.is_empty() || places.is_empty() {
        return *n;
    }
    let mut values = values_of(n);
    let at = places.swap_remove(random.below(places.len() as u32) as usize);
    values[1 + at] = random.pick(&retired);
    if !places.is_empty() && random.chance(15) {
        values[1 + random.pick(&places)] = register.marks.len() as u32;
    }
    from_values(values).unwrap_or(*n)
}
