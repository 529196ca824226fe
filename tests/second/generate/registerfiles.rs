//! Writes and reads of register files: document 02, C-13.

use super::filetexts::{example, longest, longest_supported};
use super::*;
use second::block::{decode, encode, BLOCK_LEN};
use second::cut::settle;
use second::engine::FAST;
use second::lentcase::{Asked, Bytes, LentCase};
use second::random::{random_register, random_table, Random, Shape};
use second::refusal::takes_table;
use second::regfile::{applying_to_read, file_text, LEAST_TEXT};
use second::search::reach_table;
use second::table::{Table, OURS};
use std::collections::BTreeSet;

/// The length of a write's buffer, if nothing else is shown.
pub const BUFFER: u32 = LEAST_TEXT as u32;

/// Lengths of a write's buffer, too short and long enough.
pub const BUFFERS: [u32; 6] = [0, 1, 8191, 8192, 8193, 16_384];

pub fn cases() -> Vec<LentCase> {
    let mut cases = Vec::new();
    cases.extend(round_trip(&Register::fresh()));
    cases.extend(round_trip(&example()));
    cases.extend(refused_texts());
    cases.extend(numbers());
    cases.extend(at_once());
    cases.extend(any_content());
    cases.extend(writes());
    cases.extend(full());
    cases.extend(under_tables());
    cases.extend(at_the_reach());
    cases.extend(spoiled());
    cases.extend(sequences());
    cases.extend(of_other_kinds());
    cases.extend(retired());
    cases
}

/// Files of registers in which some have retired, with every number in the column; and calls
/// with retirements among them.
fn retired() -> Vec<LentCase> {
    let ends = retireregisters::without(retireregisters::wide(), &[1, 7, 8, 15, 16, 31, 32, 55, 56, 63]);
    let all = retireregisters::without(register(&[0, 1, 2, 3], &[]), &[1, 2, 3]);
    let full = [retireregisters::full_without_two(), retireregisters::some_without_one()];
    let registers = [vec![filetexts::gone(), ends, all], full.to_vec()].concat();
    let mut cases: Vec<LentCase> = registers.iter().flat_map(round_trip).collect();
    cases.extend(filetexts::retired().iter().map(|text| read(&other_block(), text, b"")));
    let mut random = Random::new(0x5E9D);
    (0..6).for_each(|_| cases.extend(sequence(&mut random, 28, &RETIRING)));
    cases
}

/// The calls of sequences in which subjects retire.
const RETIRING: [Call; 12] = [
    Call::Enrol, Call::Grant, Call::Grant, Call::Grant, Call::Grant, Call::Grant, Call::Revoke, Call::Reach,
    Call::SetMarks, Call::Retire, Call::Retire, Call::Retire,
];

/// A read of a file into a block, lent a table's text.
pub fn read(block: &[u8], file: &[u8], table: &[u8]) -> LentCase {
    let on = Bytes { lent: file.to_vec(), table: table.to_vec(), block: block.to_vec() };
    LentCase { asked: Asked::Read, on }
}

/// A write of a block, where no file is left before.
fn write(block: &[u8], buffer: u32) -> LentCase {
    let on = Bytes { block: block.to_vec(), ..Bytes::default() };
    LentCase { asked: Asked::Write(buffer), on }
}

/// A block that is not well formed, for reads to replace.
pub fn other_block() -> Vec<u8> {
    let mut block = encode(&Register::fresh());
    block[..4].copy_from_slice(&[9, 7, 255, 255]);
    block
}

/// The register's file is written and read back into another block.
pub fn round_trip(register: &Register) -> [LentCase; 2] {
    [write(&encode(register), BUFFER), read(&other_block(), &file_text(register), b"")]
}

/// Files of another form, files that are no well-formed register's, and both at once.
fn refused_texts() -> Vec<LentCase> {
    let block = encode(&register(&[0, 1], &[(0, 1, 3, 0, 0)]));
    let mut texts = filetexts::malformed();
    texts.extend(filetexts::unformed().into_iter().map(|(_, text)| text));
    texts.extend(filetexts::unformed_and_malformed());
    texts.iter().map(|text| read(&block, text, b"")).collect()
}

/// Numbers at and over every limit, and as many subjects and delegations as there
/// can be.
fn numbers() -> Vec<LentCase> {
    let mut texts = filetexts::numbers();
    texts.extend(filetexts::wrapped());
    texts.extend([63, 64].map(filetexts::with_subjects));
    texts.extend([0, 255, 256].map(filetexts::with_delegations));
    let mut seen = BTreeSet::new();
    texts.retain(|text| seen.insert(text.clone()));
    texts.iter().map(|text| read(&other_block(), text, b"")).collect()
}

/// The files that refusals are tried on: read under ours, malformed, unformed,
/// unsupported under every table, and malformed and unformed.
fn candidates() -> Vec<Vec<u8>> {
    let text = file_text(&example());
    let unsupported = filetexts::with_column(&text, filetexts::LAST_SUBJECT, 1, b"0");
    let unformed = filetexts::with_column(&text, filetexts::LAST_SUBJECT, 0, b"3");
    let malformed = filetexts::with_column(&text, filetexts::LAST, 2, b"08");
    let both = filetexts::with_column(&malformed, filetexts::LAST_SUBJECT, 0, b"3");
    vec![text, malformed, unformed, unsupported, both, Vec::new()]
}

/// Every file with every kind of table, and with each a block of another length for
/// every set of refusals that apply at once.
fn at_once() -> Vec<LentCase> {
    let [malformed, broken] = texts::refused_at_the_end();
    let tables = [Vec::new(), texts::by_two().text(), malformed, broken, b"\n".to_vec()];
    let mut cases = Vec::new();
    for table in &tables {
        let mut seen = BTreeSet::new();
        for file in &candidates() {
            cases.push(read(&other_block(), file, table));
            for length in [BLOCK_LEN - 1, BLOCK_LEN + 1, 0, 1, 4096] {
                let block = vec![7; length];
                if seen.insert(applying_to_read(&FAST, &block, file, table)) {
                    cases.push(read(&sized(length), file, table));
                }
            }
        }
    }
    cases.extend(limits::LENGTHS.map(|length| read(&sized(length), &candidates()[0], b"")));
    cases
}

/// A well-formed block that is cut off or continued with zeros.
fn sized(length: usize) -> Vec<u8> {
    let mut block = encode(&broken::valid());
    block.resize(length, 0);
    block
}

/// Reads into blocks of any content, accepted and refused.
fn any_content() -> Vec<LentCase> {
    let mut random = Random::new(0xA4B1);
    let drawn: Vec<u8> = (0..BLOCK_LEN).map(|_| random.next() as u8).collect();
    let mut last = vec![0; BLOCK_LEN];
    last[BLOCK_LEN - 1] = 1;
    let mut blocks = vec![drawn, vec![255; BLOCK_LEN], vec![0; BLOCK_LEN], last, encode(&full::all_enrolled())];
    blocks.extend([encode(&refusals::unsupported()), encode(&example()), encode(&Register::fresh())]);
    blocks.extend(broken::all().into_iter().step_by(9).map(|broken| broken.block));
    let [text, malformed, unformed, unsupported, ..] = &candidates()[..] else { return Vec::new() };
    let refused = [malformed, unformed, unsupported].into_iter().cycle();
    blocks.iter().zip(refused).flat_map(|(block, refused)| [refused, text].map(|file| read(block, file, b""))).collect()
}

/// Every length of the buffer, blocks that are not well formed and blocks of another
/// length, also where the buffer is too short.
fn writes() -> Vec<LentCase> {
    let mut cases = Vec::new();
    for block in [encode(&example()), encode(&longest()), other_block()] {
        cases.extend(BUFFERS.map(|buffer| write(&block, buffer)));
    }
    for length in limits::LENGTHS {
        cases.extend([BUFFER, BUFFER - 1].map(|buffer| write(&sized(length), buffer)));
    }
    cases.extend(broken::all().iter().map(|broken| write(&broken.block, BUFFER)));
    let mut again = write(&encode(&example()), BUFFER);
    again.on.lent = file_text(&example());
    cases.push(again);
    cases
}

/// Full registers, the longest files, and these with a line too many.
fn full() -> Vec<LentCase> {
    let mut cases = Vec::new();
    for register in [full::all_enrolled(), full::some_enrolled(), longest(), longest_supported()] {
        cases.extend(round_trip(&register));
    }
    let text = file_text(&longest_supported());
    let more = [&text[..], b"63 62 255 32768 16384 0\n"].concat();
    cases.extend([&more[..], &text[..text.len() - 1]].map(|text| read(&other_block(), text, b"")));
    cases
}

/// The registers of the tables' cases and long chains under every table that passes.
fn under_tables() -> Vec<LentCase> {
    let mut registers = vec![example(), register(&[0; 5], &tables::EXAMPLE), tables::ends()];
    registers.extend([0, 4, 252].map(tables::two_ways));
    registers.push(register(&[0; 3], &[(0, 1, 9, 0, 0), (1, 2, 7, 0, 0)]));
    let mut cases = Vec::new();
    for (_, table) in texts::passing() {
        let text = table.text();
        cases.extend(registers.iter().map(|register| read(&other_block(), &file_text(register), &text)));
    }
    for table in [OURS, texts::by_two(), texts::half()] {
        let unlimited = deep::path(|_| 255);
        let mut left = unlimited.clone();
        settle(&FAST, &table, &mut left);
        cases.extend([unlimited, left].map(|register| read(&other_block(), &file_text(&register), &table.text())));
    }
    cases
}

/// Registers whose delegations stand at their reach, each with one of them a weight
/// heavier or a subject without its marks.
fn at_the_reach() -> Vec<LentCase> {
    let mut registers = vec![raises::with_room(), raises::above_reach(), example()];
    registers.extend(examples::proved().iter().map(of_example));
    let mut cases = Vec::new();
    for mut register in registers {
        settle(&FAST, &OURS, &mut register);
        cases.extend(heavier(&register).iter().map(|register| read(&other_block(), &file_text(register), b"")));
    }
    let without_marks = registers_without_marks();
    cases.extend(without_marks.iter().map(|register| read(&other_block(), &file_text(register), b"")));
    cases
}

/// The subjects of an example and its grants.
fn of_example(example: &examples::Example) -> Register {
    register(&[&[0], example.marks].concat(), &example.grants)
}

/// The register with each delegation at its reach in turn, and a weight above it.
fn heavier(register: &Register) -> Vec<Register> {
    let mut all = Vec::new();
    for (place, d) in register.delegations.iter().enumerate() {
        let reach = reach_table(&OURS, register, d.giver as u32, d.receiver as u32);
        for weight in [reach, reach + 1].into_iter().filter(|weight| (0..=255).contains(weight)) {
            let mut other = register.clone();
            other.delegations[place].weight = weight as u8;
            all.push(other);
        }
    }
    all
}

/// P5 with each subject's marks all set and all cleared.
fn registers_without_marks() -> Vec<Register> {
    let register = of_example(&examples::proved()[5]);
    let mut all = Vec::new();
    for subject in 1..register.marks.len() {
        for marks in [0, 65_535] {
            let mut other = register.clone();
            other.marks[subject] = marks;
            all.push(other);
        }
    }
    all
}

/// Files of drawn registers with one byte changed, taken out or put in.
fn spoiled() -> Vec<LentCase> {
    let mut random = Random::new(0x5B01);
    let one = |_| {
        let register = small(&mut random);
        let text = changed(&mut random, &file_text(&register));
        read(&other_block(), &text, b"")
    };
    (0..40).map(one).collect()
}

/// A text with one byte changed, taken out or put in.
pub fn changed(random: &mut Random, text: &[u8]) -> Vec<u8> {
    let mut text = text.to_vec();
    let place = random.below(text.len() as u32) as usize;
    let byte = random.pick(b"0123456789 \n\r-\0a");
    match random.below(4) {
        0 => drop(text.remove(place)),
        1 => text.insert(place + random.below(2) as usize, byte),
        _ => text[place] = byte,
    }
    text
}

/// A small register, supported or not.
pub fn small(random: &mut Random) -> Register {
    let shape = Shape {
        subjects: random.range(2, 6),
        delegations: random.range(0, 8),
        weights: &unsupported::WEIGHTS,
        marks: 0x8003,
        conditions: 30,
    };
    let mut register = random_register(random, &shape);
    if random.chance(60) {
        settle(&FAST, &OURS, &mut register);
    }
    register
}

/// Calls from a fresh register on, with writes and reads among them: each is made on
/// what the one before left.
fn sequences() -> Vec<LentCase> {
    let mut random = Random::new(0x5E9C);
    let mut cases = Vec::new();
    for _ in 0..6 {
        cases.extend(sequence(&mut random, 28, &lists::CUT));
    }
    cases
}

fn sequence(random: &mut Random, length: usize, calls: &[Call]) -> Vec<LentCase> {
    let fresh = Bytes { block: encode(&Register::fresh()), ..Bytes::default() };
    let mut cases = vec![LentCase { asked: Asked::Call(open()), on: fresh.clone() }];
    let mut left = fresh;
    let table = random_table(random).text();
    for at in 0..length {
        let case = if at < 4 { enrolment(random, &left) } else { drawn(random, calls, &table, &left) };
        left = case.made(&FAST).1;
        cases.push(case);
    }
    cases
}

fn enrolment(random: &mut Random, left: &Bytes) -> LentCase {
    called(enrol(random.below(8)), b"", left)
}

fn called(n: Passed, table: &[u8], left: &Bytes) -> LentCase {
    LentCase { asked: Asked::Call(n), on: Bytes { table: table.to_vec(), ..left.clone() } }
}

/// A write, a read of what was written before or of another file, or another call.
fn drawn(random: &mut Random, calls: &[Call], table: &[u8], left: &Bytes) -> LentCase {
    let lent = if random.chance(20) { table } else { b"" };
    match random.below(12) {
        0 | 1 => LentCase { asked: Asked::Write(BUFFER), on: left.clone() },
        2 => read(&left.block, &left.lent, lent),
        3 | 4 => {
            let file = file_text(&small(random));
            let spoilt = random.chance(40);
            read(&left.block, &if spoilt { changed(random, &file) } else { file }, lent)
        }
        _ => likely(random, calls, lent, left),
    }
}

/// Another call; one that takes no table is lent none.
fn likely(random: &mut Random, calls: &[Call], table: &[u8], left: &Bytes) -> LentCase {
    let call = random.pick(calls);
    let lent = if takes_table(call) { table } else { b"" };
    let register = decode(&left.block).unwrap_or(Register::fresh());
    let n = raises::likely(random, call, &Table::read(lent).unwrap_or(OURS), &register);
    called(n, lent, left)
}

/// Of the registers of other kinds with at most so many delegations, one in so many
/// is written and read back.
const MOST_RECORDS: usize = 24;
const PASSED_OVER: usize = 28;

fn of_other_kinds() -> Vec<LentCase> {
    let registers = registers_of_other_kinds();
    let small = registers.iter().filter(|register| register.delegations.len() <= MOST_RECORDS);
    small.step_by(PASSED_OVER).flat_map(round_trip).collect()
}

/// Every register of the kinds of cases before this one, once, if all it holds is ordinary.
pub fn registers_of_other_kinds() -> Vec<Register> {
    let kinds = KINDS.iter().filter(|kind| ["base", "reach", "cut", "table", "raise"].contains(&kind.name));
    let mut seen = BTreeSet::new();
    let mut registers = Vec::new();
    let cases = kinds.flat_map(|kind| write::with_blocks(&super::cases(kind)));
    for block in cases.filter_map(|case| case.block) {
        if seen.insert(block.clone()) {
            registers.extend(decode(&block).filter(|register| register.delegations.iter().all(|d| d.kind == ORDINARY)));
        }
    }
    registers
}
