//! The block of 2,188 bytes: layout, well-formedness, decode and encode.

pub const BLOCK_LEN: usize = 2188;
/// The length before document 02's C-16, which added the bytes of the retired.
pub const OLD_BLOCK_LEN: usize = 2180;
pub const MOST_SUBJECTS: usize = 64;
pub const MOST_DELEGATIONS: usize = 256;

pub const SUBJECTS_AT: usize = 0;
pub const ZERO_AT: usize = 1;
pub const DELEGATIONS_AT: usize = 2;
pub const MARKS_AT: usize = 4;
/// One bit a subject, lowest bit of the first byte subject 0.
pub const RETIRED_AT: usize = 132;
pub const RECORDS_AT: usize = 140;
pub const RECORD_LEN: usize = 8;

// Places within a record.
pub const GIVER: usize = 0;
pub const RECEIVER: usize = 1;
pub const WEIGHT: usize = 2;
pub const KIND: usize = 3;
pub const NEED: usize = 4;
pub const BAR: usize = 6;

// Kinds of a delegation.
pub const ORDINARY: u8 = 0;
/// Document 02, C-18: its receiver passes the right on and has no use of it by this one.
pub const PASS_ONLY: u8 = 1;

/// A standing delegation.
#[derive(Clone, Copy, Debug, PartialEq, Eq)]
pub struct Delegation {
    pub giver: u8,
    pub receiver: u8,
    pub weight: u8,
    pub kind: u8,
    pub need: u16,
    pub bar: u16,
}

/// A decoded register. `marks` has one entry for each enrolled subject; bit s of
/// `retired` is subject s; delegations rise by giver, then receiver.
#[derive(Clone, Debug, PartialEq, Eq)]
pub struct Register {
    pub marks: Vec<u16>,
    pub retired: u64,
    pub delegations: Vec<Delegation>,
}

impl Delegation {
    pub fn pair(&self) -> (u8, u8) {
        (self.giver, self.receiver)
    }
}

impl Register {
    /// One subject, the owner, none retired, and no delegation.
    pub fn fresh() -> Register {
        Register { marks: vec![0], retired: 0, delegations: Vec::new() }
    }

    pub fn enrolled(&self, subject: u32) -> bool {
        (subject as usize) < self.marks.len()
    }

    pub fn is_retired(&self, subject: u32) -> bool {
        subject < 64 && self.retired >> subject & 1 == 1
    }

    /// The marks of a subject; zero if it is not enrolled.
    pub fn marks_of(&self, subject: u32) -> u16 {
        self.marks.get(subject as usize).copied().unwrap_or(0)
    }

    /// Where the pair's delegation stands, or where it would be inserted.
    pub fn place(&self, giver: u32, receiver: u32) -> Result<usize, usize> {
        let pair = (giver, receiver);
        self.delegations.binary_search_by_key(&pair, |d| (d.giver as u32, d.receiver as u32))
    }

    pub fn standing(&self, giver: u32, receiver: u32) -> Option<&Delegation> {
        self.place(giver, receiver).ok().map(|at| &self.delegations[at])
    }
}

/// A rule of well-formedness: its name and its test on 2,188 bytes.
/// Each test is meaningful whether or not the other rules hold.
pub type Rule = (&'static str, fn(&[u8]) -> bool);

pub const RULES: [Rule; 17] = [
    ("subjects are 1 to 64", |b| b[SUBJECTS_AT] >= 1 && b[SUBJECTS_AT] <= 64),
    ("byte 1 is zero", |b| b[ZERO_AT] == 0),
    ("delegations are 0 to 256", |b| word(b, DELEGATIONS_AT) <= 256),
    ("the owner's marks are zero", |b| word(b, MARKS_AT) == 0),
    ("marks of subjects not enrolled are zero", absent_marks_zero),
    ("records rise by giver, then receiver", records_rise),
    ("givers are enrolled", |b| records(b).all(|r| (r[GIVER] as usize) < subjects(b))),
    ("receivers are enrolled", |b| records(b).all(|r| (r[RECEIVER] as usize) < subjects(b))),
    ("giver and receiver differ", |b| records(b).all(|r| r[GIVER] != r[RECEIVER])),
    ("the receiver is not the owner", |b| records(b).all(|r| r[RECEIVER] != 0)),
    ("a record's kind is 0 or 1", |b| records(b).all(|r| r[KIND] <= PASS_ONLY)),
    ("need and bar share no mark", |b| records(b).all(|r| word(r, NEED) & word(r, BAR) == 0)),
    ("unused records are zero", |b| b[RECORDS_AT + RECORD_LEN * used(b)..].iter().all(|&x| x == 0)),
    ("the retired are enrolled", |b| retired(b).all(|s| s < subjects(b))),
    ("the owner is not retired", |b| retired(b).all(|s| s != 0)),
    ("the marks of the retired are zero", |b| retired(b).all(|s| word(b, MARKS_AT + 2 * s) == 0)),
    ("the retired have no record", retired_have_no_record),
];

/// The rules that a block of 2,188 bytes breaks, as indices of `RULES`.
pub fn broken_rules(block: &[u8]) -> Vec<usize> {
    (0..RULES.len()).filter(|&at| !RULES[at].1(block)).collect()
}

pub fn well_formed(block: &[u8]) -> bool {
    block.len() == BLOCK_LEN && RULES.iter().all(|rule| rule.1(block))
}

/// The register in a block, or nothing if the block is not well formed.
pub fn decode(block: &[u8]) -> Option<Register> {
    if !well_formed(block) {
        return None;
    }
    let marks = (0..subjects(block)).map(|s| word(block, MARKS_AT + 2 * s)).collect();
    let delegations = records(block).map(read_record).collect();
    Some(Register { marks, retired: retired_bits(block), delegations })
}

/// The block of a register. Every byte that is not used is zero.
pub fn encode(register: &Register) -> Vec<u8> {
    let mut block = vec![0; BLOCK_LEN];
    block[SUBJECTS_AT] = register.marks.len() as u8;
    set_word(&mut block, DELEGATIONS_AT, register.delegations.len() as u16);
    block[RETIRED_AT..RECORDS_AT].copy_from_slice(&register.retired.to_le_bytes());
    for (subject, &marks) in register.marks.iter().enumerate() {
        set_word(&mut block, MARKS_AT + 2 * subject, marks);
    }
    for (at, delegation) in register.delegations.iter().enumerate() {
        write_record(&mut block[RECORDS_AT + RECORD_LEN * at..][..RECORD_LEN], delegation);
    }
    block
}

/// The block that an old one of 2,180 bytes becomes: the bytes of the retired, all
/// zero, come between its marks and its records. Nothing if that is not well formed.
pub fn brought(old: &[u8]) -> Option<Vec<u8>> {
    if old.len() != OLD_BLOCK_LEN {
        return None;
    }
    let block = [&old[..RETIRED_AT], &[0; RECORDS_AT - RETIRED_AT], &old[RETIRED_AT..]].concat();
    well_formed(&block).then_some(block)
}

/// A two-byte number, low byte first.
pub fn word(bytes: &[u8], at: usize) -> u16 {
    u16::from_le_bytes([bytes[at], bytes[at + 1]])
}

pub fn set_word(bytes: &mut [u8], at: usize, value: u16) {
    bytes[at..at + 2].copy_from_slice(&value.to_le_bytes());
}

/// The enrolled subjects, at most 64 whatever byte 0 says.
fn subjects(block: &[u8]) -> usize {
    (block[SUBJECTS_AT] as usize).min(MOST_SUBJECTS)
}

/// The used records, at most 256 whatever bytes 2 and 3 say.
fn used(block: &[u8]) -> usize {
    (word(block, DELEGATIONS_AT) as usize).min(MOST_DELEGATIONS)
}

fn records(block: &[u8]) -> impl Iterator<Item = &[u8]> {
    block[RECORDS_AT..].chunks_exact(RECORD_LEN).take(used(block))
}

fn absent_marks_zero(block: &[u8]) -> bool {
    block[MARKS_AT + 2 * subjects(block)..RETIRED_AT].iter().all(|&byte| byte == 0)
}

/// Bit s is subject s: it is bit s % 8 of byte s / 8 of the eight.
fn retired_bits(block: &[u8]) -> u64 {
    let bytes = block[RETIRED_AT..RECORDS_AT].iter();
    bytes.rev().fold(0, |bits, &byte| bits << 8 | byte as u64)
}

/// The subjects whose bit is set, enrolled or not.
fn retired(block: &[u8]) -> impl Iterator<Item = usize> {
    let bits = retired_bits(block);
    (0..MOST_SUBJECTS).filter(move |subject| bits >> subject & 1 == 1)
}

fn retired_have_no_record(block: &[u8]) -> bool {
    let has_record = |s: usize| records(block).any(|r| r[GIVER] as usize == s || r[RECEIVER] as usize == s);
    !retired(block).any(has_record)
}

fn records_rise(block: &[u8]) -> bool {
    let pair = |record: &[u8]| (record[GIVER], record[RECEIVER]);
    records(block).zip(records(block).skip(1)).all(|(a, b)| pair(a) < pair(b))
}

fn read_record(record: &[u8]) -> Delegation {
    Delegation {
        giver: record[GIVER],
        receiver: record[RECEIVER],
        weight: record[WEIGHT],
        kind: record[KIND],
        need: word(record, NEED),
        bar: word(record, BAR),
    }
}

fn write_record(record: &mut [u8], delegation: &Delegation) {
    record[GIVER] = delegation.giver;
    record[RECEIVER] = delegation.receiver;
    record[WEIGHT] = delegation.weight;
    record[KIND] = delegation.kind;
    set_word(record, NEED, delegation.need);
    set_word(record, BAR, delegation.bar);
}
