//! The register as a file, written and read: document 02, C-13.

use super::{lent, ours, same, Draw};
use crate::faults::{TEXT_LEFT_OUT, VISITED_ONCE};
use generate::filetexts::{
    example, longest, longest_supported, malformed, numbers, passes, retired, unformed, unformed_and_malformed,
    with_column, with_delegations, with_line, with_subjects, wrapped, DELEGATION, LAST, LAST_SUBJECT, OWNER, SUBJECT,
};
use generate::drawnpasses::with_drawn_kinds;
use generate::registerfiles::{changed, registers_of_other_kinds, small};
use generate::{broken, full, listfiles, retireregisters, texts, unsupported};
use second::block::{decode, encode, well_formed, Delegation, Register, BLOCK_LEN};
use second::call::{run_table, Outcome, Written};
use second::engine::{Engine, FAST, LITERAL};
use second::host::{host_read, host_write};
use second::listfile::{passed, NUMBERS};
use second::random::{random_register, random_table, Random, Shape};
use second::regfile::{applying_to_read, file_text, read, write, Rows, LEAST_TEXT, READ_REFUSALS};
use second::remainder::is_supported;
use second::table::{Table, OURS};
use std::collections::BTreeSet;

/// What a block holds before a read.
const BEFORE: u8 = 0xA5;

/// The refusal of a read under a table's text, or the register that it leaves.
fn read_by(engine: &Engine, text: &[u8], table: &[u8]) -> Result<Register, u32> {
    let mut block = vec![BEFORE; BLOCK_LEN];
    let outcome = read(engine, &mut block, text, table);
    assert_eq!(outcome.answers, [0, 0, 0]);
    if outcome.refusal != 0 {
        assert!(block.iter().all(|&byte| byte == BEFORE));
        return Err(outcome.refusal);
    }
    Ok(decode(&block).expect("a well-formed block"))
}

/// The refusal of a read by our table, 0 if it is accepted.
fn refusal(text: &[u8]) -> u32 {
    read_by(&FAST, text, b"").err().unwrap_or(0)
}

/// What a write leaves as the filled front of a buffer of 8,192 bytes.
fn written(block: &[u8]) -> Vec<u8> {
    let mut buffer = vec![BEFORE; LEAST_TEXT];
    let written = write(block, &mut buffer);
    assert_eq!(written.refusal, 0);
    buffer.truncate(written.filled);
    buffer
}

const EXAMPLE: &[u8] =
    b"subject marks retired\n0 0 0\n1 4 0\n2 4 0\n\ngiver receiver weight need bar pass\n0 1 9 4 0 0\n1 2 8 0 0 0\n";

/// Without the mark, subject 2 doesn't meet 0-1, so that 1-2 has no chain.
#[test]
fn the_example_is_read() {
    assert_eq!(written(&encode(&example())), EXAMPLE);
    for engine in [&FAST, &LITERAL] {
        assert_eq!(read_by(engine, EXAMPLE, b""), Ok(example()));
        assert_eq!(read_by(engine, &with_line(EXAMPLE, LAST_SUBJECT, b"2 0 0\n"), b""), Err(18));
    }
    assert_eq!(refusal(&with_line(EXAMPLE, LAST_SUBJECT, b"3 4 0\n")), 8);
    assert_eq!(refusal(&with_line(EXAMPLE, LAST, b"1 2 08 0 0 0\n")), 7);
    let none = with_line(&with_line(EXAMPLE, LAST, b""), DELEGATION, b"");
    assert_eq!(read_by(&FAST, &none, b""), Ok(Register { delegations: vec![], ..example() }));
}

#[test]
fn a_fresh_register_has_65_bytes() {
    let text = b"subject marks retired\n0 0 0\n\ngiver receiver weight need bar pass\n";
    assert_eq!(text.len(), 65);
    assert_eq!(written(&encode(&Register::fresh())), text);
    assert_eq!(read_by(&FAST, text, b""), Ok(Register::fresh()));
}

/// 6,893 bytes; where all is supported the owner gives, which takes a digit less.
#[test]
fn the_longest_file_has_6893_bytes() {
    assert_eq!((file_text(&longest()).len(), file_text(&longest_supported()).len()), (6893, 6892));
    assert_eq!(refusal(&file_text(&longest())), 18);
    assert_eq!(read_by(&FAST, &file_text(&longest_supported()), b""), Ok(longest_supported()));
    let mut random = Random::new(0x10E6);
    assert!((0..2000).all(|_| file_text(&any_register(&mut random)).len() < 6893));
}

/// A small register of any kinds; in some a subject has retired.
fn any_small(random: &mut Random) -> Register {
    let register = small(random);
    some_gone(random, register)
}

/// The register with drawn kinds, in one of three without a subject.
fn some_gone(random: &mut Random, register: Register) -> Register {
    let register = with_drawn_kinds(random, &register);
    let subject = random.range(1, register.marks.len() as u32 - 1);
    if random.chance(33) { retireregisters::without(register, &[subject]) } else { register }
}

/// Any register; most delegations of the larger ones are unsupported.
fn any_register(random: &mut Random) -> Register {
    let weights: Vec<u8> = (0..=255).collect();
    let shape = Shape {
        subjects: random.range(2, 64),
        delegations: random.range(0, 256),
        weights: random.pick(&[&weights[..], &[255]]),
        marks: 0xFFFF,
        conditions: random.pick(&[0, 5, 70]),
    };
    let register = random_register(random, &shape);
    some_gone(random, register)
}

/// Small registers are written and read back, 18 exactly if the definition finds one
/// unsupported. Answers how many were supported and how many not.
fn read_back(engine: &Engine, draw: Draw) -> Result<[u32; 2], String> {
    let mut random = Random::new(0xBAC4);
    let mut found = [0; 2];
    for _ in 0..3000 {
        let any = random.chance(70);
        let register = if any { any_small(&mut random) } else { unsupported::random_unsupported(&mut random) };
        let table = draw(&mut random);
        let supported = is_supported(&table, &register);
        let due = if supported { Ok(register.clone()) } else { Err(18) };
        same("read back", read_by(engine, &written(&encode(&register)), &lent(&table)), due)?;
        found[supported as usize] += 1;
    }
    Ok(found)
}

#[test]
fn small_registers_are_read_back() {
    for draw in [ours, random_table as Draw] {
        assert!(read_back(&FAST, draw).unwrap().iter().all(|&count| count > 500));
        assert!(read_back(&LITERAL, draw).is_ok());
        assert!(read_back(&VISITED_ONCE, draw).is_err());
    }
    assert!(read_back(&TEXT_LEFT_OUT, random_table).is_err());
}

/// Where all is supported by the rounds of a cut, which then lower nothing.
fn settled(table: &Table, register: &Register) -> Register {
    let mut left = register.clone();
    second::cut::settle(&FAST, table, &mut left);
    left
}

/// Registers of any size are read back once the rounds have left what is supported.
#[test]
fn large_registers_are_read_back() {
    let mut random = Random::new(0xB16);
    let (mut supported, mut lowered) = (0, 0);
    for _ in 0..300 {
        let (register, table) = (any_register(&mut random), random_table(&mut random));
        let left = settled(&table, &register);
        let due = if left == register { Ok(register.clone()) } else { Err(18) };
        lowered += due.is_err() as u32;
        supported += left.delegations.len();
        assert_eq!(read_by(&FAST, &file_text(&register), &table.text()), due);
        assert_eq!(read_by(&FAST, &file_text(&left), &table.text()), Ok(left));
    }
    assert!(supported > 1000 && lowered > 100, "{supported} {lowered}");
}

/// Every register that a recorded list of calls comes to, once.
fn registers_of_lists() -> Vec<Register> {
    let mut blocks = BTreeSet::new();
    for list in listfiles::all().into_iter().filter(|list| list.refusal() == 0) {
        let mut block = encode(&Register::fresh());
        for call in list.numbers.chunks_exact(NUMBERS) {
            let (Some(n), Some(text)) = (passed(call), list.text(call)) else { continue };
            run_table(&FAST, &n, text, &mut block);
            blocks.insert(block.clone());
        }
    }
    blocks.iter().filter_map(|block| decode(block)).collect()
}

/// Every register of the other kinds of cases and of the lists: 18 exactly where a
/// round would change it.
#[test]
fn registers_of_other_kinds_are_read_back() {
    let registers = [registers_of_other_kinds(), registers_of_lists()].concat();
    let mut refused = 0;
    for register in &registers {
        let supported = settled(&OURS, register) == *register;
        let due = if supported { Ok(register.clone()) } else { Err(18) };
        assert_eq!(read_by(&FAST, &written(&encode(register)), b""), due);
        refused += !supported as u32;
    }
    assert!(registers.len() > 2600 && refused > 300, "{} {refused}", registers.len());
}

/// Texts far longer than any register's file.
#[test]
fn long_texts_are_judged_by_their_lines() {
    let (first, second) = ("subject marks retired\n0 0 0\n", "\ngiver receiver weight need bar pass\n");
    let long = |line: &str| format!("{first}{}{second}", line.repeat(200_000));
    assert_eq!(["0 0 0\n", "1 65536 0\n", "4294967295 0 2\n"].map(|line| refusal(long(line).as_bytes())), [8; 3]);
    assert_eq!(["0  0 0\n", "1 65536 0 \n", "4294967296 0 0\n"].map(|line| refusal(long(line).as_bytes())), [7; 3]);
    assert_eq!(refusal(&[EXAMPLE, &b"1 2 8 0 0 0\n".repeat(100_000)].concat()), 8);
    assert_eq!(refusal(&[EXAMPLE, &b"1 2 8 0 0 0\n".repeat(100_000), b"1"].concat()), 7);
}

/// What is due for a text before its table is looked at, by other means than the
/// reader's: a text of the form is the rendering of its own numbers.
fn due(text: &[u8]) -> Result<Register, u32> {
    let rows = loosely(text).filter(|rows| rows.text() == text).ok_or(7u32)?;
    let (subjects, delegations) = (&rows.subjects, &rows.delegations);
    let enrolled = |subject: u32| (subject as usize) < subjects.len();
    let most_marks = |place: usize| if place == 0 { 0 } else { 65_535 };
    let right = |(place, row): (usize, &[u32; 3])| row[0] as usize == place && row[1] <= most_marks(place);
    let gone = |&[number, marks, retired]: &[u32; 3]| {
        let named = delegations.iter().any(|row| row[..2].contains(&number));
        retired == 0 || retired == 1 && number != 0 && marks == 0 && !named
    };
    let apart = |&[giver, receiver, ..]: &[u32; 6]| giver != receiver && receiver != 0;
    let fits = |&[_, _, weight, need, bar, pass]: &[u32; 6]| {
        weight <= 255 && need.max(bar) <= 65_535 && need & bar == 0 && pass <= 1
    };
    let well_formed = (1..=64).contains(&subjects.len())
        && delegations.len() <= 256
        && subjects.iter().enumerate().all(right)
        && subjects.iter().all(gone)
        && delegations.iter().all(|row| enrolled(row[0]) && enrolled(row[1]) && apart(row) && fits(row))
        && delegations.windows(2).all(|two| two[0][..2] < two[1][..2]);
    if !well_formed {
        return Err(8);
    }
    let delegation = |&[giver, receiver, weight, need, bar, pass]: &[u32; 6]| {
        let [giver, receiver, weight, kind] = [giver, receiver, weight, pass].map(|number| number as u8);
        Delegation { giver, receiver, weight, kind, need: need as u16, bar: bar as u16 }
    };
    let marks = subjects.iter().map(|row| row[1] as u16).collect();
    let retired = subjects.iter().map(|row| (row[2] as u64) << row[0]).sum();
    Ok(Register { marks, retired, delegations: delegations.iter().map(delegation).collect() })
}

/// The numbers of a text, read as loosely as the library reads them.
fn loosely(text: &[u8]) -> Option<Rows> {
    let text = std::str::from_utf8(text).ok()?;
    let (first, second) = text.split_once("\n\n")?;
    let subjects = first.lines().skip(1).map(|line| numbers_of(line)?.try_into().ok());
    let delegations = second.lines().skip(1).map(|line| numbers_of(line)?.try_into().ok());
    Some(Rows { subjects: subjects.collect::<Option<_>>()?, delegations: delegations.collect::<Option<_>>()? })
}

fn numbers_of(line: &str) -> Option<Vec<u32>> {
    line.split_whitespace().map(|word| word.parse().ok()).collect()
}

/// The reader without 18.
fn filed(text: &[u8]) -> Result<Register, u32> {
    let rows = Rows::read(text).ok_or(7u32)?;
    rows.register().ok_or(8)
}

#[test]
fn every_other_form_is_refused_with_7() {
    let all = malformed();
    for text in all.iter().chain(&unformed_and_malformed()) {
        let shown = String::from_utf8_lossy(text);
        assert_eq!((refusal(text), due(text)), (7, Err(7)), "{shown:?}");
    }
    assert!(all.len() >= 290, "{}", all.len());
    assert!(all.contains(&Vec::new()));
}

/// The whole file, the names of the delegations before it and the line after them.
#[test]
fn fronts_of_a_file_are_refused() {
    let read: Vec<usize> = (0..=EXAMPLE.len()).filter(|&length| refusal(&EXAMPLE[..length]) == 0).collect();
    assert_eq!(read, [77, 89, 101]);
    let malformed = malformed();
    assert!((0..EXAMPLE.len()).all(|length| read.contains(&length) || malformed.contains(&EXAMPLE[..length].to_vec())));
}

#[test]
fn files_of_no_block_are_refused_with_8() {
    for (shows, text) in unformed() {
        assert_eq!((refusal(&text), due(&text)), (8, Err(8)), "{shows}");
        assert!(Rows::read(&text).is_some_and(|rows| rows.text() == text), "{shows}");
    }
    let found = [63, 64, 65].map(|subjects| refusal(&with_subjects(subjects)));
    assert_eq!(found, [0, 0, 8]);
    assert_eq!([0, 255, 256, 257].map(|delegations| refusal(&with_delegations(delegations))), [0, 0, 0, 8]);
}

/// The refusal of the example with a number in the place of one of its own.
fn with(place: usize, column: usize, number: &str) -> u32 {
    refusal(&with_column(EXAMPLE, place, column, number.as_bytes()))
}

/// At and over the limits of every column.
#[test]
fn numbers_are_judged_by_their_column() {
    assert_eq!(["0", "1", "65536", "4294967295", "4294967296"].map(|number| with(OWNER, 1, number)), [0, 8, 8, 8, 7]);
    assert_eq!(["4", "65535", "65536", "65540", "4294967296"].map(|number| with(SUBJECT, 1, number)), [0, 0, 8, 8, 7]);
    assert_eq!(["1", "2", "257", "65537", "4294967297"].map(|number| with(SUBJECT, 0, number)), [0, 8, 8, 8, 7]);
    assert_eq!(["0", "1", "3", "256", "4294967296"].map(|number| with(DELEGATION, 0, number)), [0, 8, 8, 8, 7]);
    assert_eq!(["0", "1", "2", "258", "4294967298"].map(|number| with(LAST, 1, number)), [8, 8, 0, 8, 7]);
    assert_eq!(["9", "255", "256", "265", "4294967305"].map(|number| with(DELEGATION, 2, number)), [0, 0, 8, 8, 7]);
    assert_eq!(["0", "8", "9", "255", "264"].map(|number| with(LAST, 2, number)), [0, 0, 18, 18, 8]);
    assert_eq!(["4", "65535", "65536", "65540", "4294967300"].map(|number| with(LAST, 3, number)), [0, 0, 8, 8, 7]);
    assert_eq!(["0", "3", "4", "65531", "65536"].map(|number| with(DELEGATION, 4, number)), [0, 0, 8, 0, 8]);
    assert_eq!(["0", "1", "2", "256", "4294967295"].map(|number| with(LAST, 5, number)), [0, 0, 8, 8, 8]);
    assert_eq!(["", "01", "-1", "4294967296", "1 "].map(|number| with(LAST, 5, number)), [7; 5]);
}

/// A text is of a register exactly if it is the rendering of its numbers.
#[test]
fn texts_are_read_exactly_as_rendered() {
    let mut random = Random::new(0x7E88);
    let mut found = [0; 3];
    for _ in 0..20_000 {
        let register = any_small(&mut random);
        let text = changed(&mut random, &file_text(&register));
        let read = filed(&text);
        assert_eq!(read, due(&text), "{:?}", String::from_utf8_lossy(&text));
        found[match read {
            Ok(_) => 0,
            Err(7) => 1,
            Err(_) => 2,
        }] += 1;
    }
    assert!(found.iter().all(|&count| count > 1000), "{found:?}");
    for text in numbers().iter().chain(&wrapped()).chain(&retired()).chain(&passes()) {
        assert_eq!(filed(text), due(text));
    }
}

/// What is accepted is what its block would write.
#[test]
fn an_accepted_text_is_what_its_block_writes() {
    let mut random = Random::new(0xACC);
    let mut accepted = 0;
    for _ in 0..8000 {
        let table = random.chance(40).then(|| random_table(&mut random)).unwrap_or(OURS);
        let register = any_small(&mut random);
        let text = changed(&mut random, &file_text(&register));
        if let Ok(register) = read_by(&FAST, &text, &lent(&table)) {
            assert_eq!(written(&encode(&register)), text);
            assert!(is_supported(&table, &register));
            accepted += 1;
        }
    }
    assert!(accepted > 300, "{accepted}");
}

/// Any text, in part a file: the refusal is the first that applies, a refused read
/// changes no byte, an accepted one leaves a well-formed block.
#[test]
fn any_text_is_answered() {
    let mut random = Random::new(0xA12);
    let [malformed, broken] = texts::refused_at_the_end();
    let tables = [Vec::new(), texts::by_two().text(), malformed, broken];
    for _ in 0..6000 {
        let mut text = file_text(&any_small(&mut random));
        (0..random.below(4)).for_each(|_| text = changed(&mut random, &text));
        let length = random.pick(&[BLOCK_LEN, BLOCK_LEN, BLOCK_LEN, 0, 2180, 2187, 2189]);
        let before: Vec<u8> = (0..length).map(|_| random.next() as u8).collect();
        let table = &tables[random.below(4) as usize];
        let mut block = before.clone();
        let outcome = read(&FAST, &mut block, &text, table);
        let applying = applying_to_read(&LITERAL, &before, &text, table);
        assert_eq!(outcome, Outcome { refusal: applying.first().copied().unwrap_or(0), answers: [0, 0, 0] });
        assert!(if outcome.refusal == 0 { well_formed(&block) } else { block == before });
    }
}

/// What a block held before doesn't matter.
#[test]
fn blocks_of_any_content_are_read_into() {
    let due = encode(&example());
    let mut blocks: Vec<Vec<u8>> = broken::all().into_iter().map(|broken| broken.block).collect();
    blocks.extend([vec![0; BLOCK_LEN], vec![255; BLOCK_LEN], encode(&full::all_enrolled()), due.clone()]);
    for mut block in blocks {
        assert_eq!(read(&FAST, &mut block, EXAMPLE, b"").refusal, 0);
        assert_eq!(block, due);
    }
    for length in [0, 1, 2179, 2181, 4096] {
        let mut block = vec![BEFORE; length];
        assert_eq!(read(&FAST, &mut block, EXAMPLE, b"").refusal, 1);
        assert_eq!(block, vec![BEFORE; length]);
    }
}

/// Each refusal comes before those after it.
#[test]
fn refusals_of_a_read_come_in_their_order() {
    let [bad_form, bad_rule] = texts::refused_at_the_end();
    let bad_file = with_column(EXAMPLE, LAST, 2, b"08");
    let bad_block = with_column(EXAMPLE, LAST_SUBJECT, 0, b"3");
    let bad_support = with_column(EXAMPLE, LAST_SUBJECT, 1, b"0");
    let by = |text: &[u8], table: &[u8]| read_by(&FAST, text, table).err().unwrap_or(0);
    let files = [&bad_file[..], b"", &bad_block, &bad_support, EXAMPLE];
    assert_eq!(files.map(|text| by(text, b"")), [7, 7, 8, 18, 0]);
    assert_eq!(files.map(|text| by(text, &bad_form)), [7; 5]);
    assert_eq!(files.map(|text| by(text, &bad_rule)), [7, 7, 17, 17, 17]);
    assert_eq!(files.map(|text| by(text, &OURS.text())), [7, 7, 8, 18, 0]);
    assert_eq!(READ_REFUSALS, [1, 7, 17, 8, 18]);
}

/// 0-1:9 gives 1-2 a reach of 8 under ours and of 7 where each falls by two.
#[test]
fn support_is_judged_by_the_table_given() {
    let two = texts::by_two().text();
    let lighter = with_column(EXAMPLE, LAST, 2, b"7");
    for engine in [&FAST, &LITERAL] {
        assert_eq!(read_by(engine, EXAMPLE, &two), Err(18));
        assert!(read_by(engine, &lighter, &two).is_ok());
    }
    assert!(read_by(&TEXT_LEFT_OUT, EXAMPLE, &two).is_ok());
}

/// Every register is written, supported or not; bytes past the front stay, and a
/// refused write changes none.
#[test]
fn writes_fill_the_front() {
    let after = |block: &[u8], length: usize| {
        let mut buffer = vec![BEFORE; length];
        (write(block, &mut buffer), buffer)
    };
    for register in [example(), longest(), Register::fresh(), generate::refusals::unsupported()] {
        let text = file_text(&register);
        for length in [8192, 8193, 20_000] {
            let (written, buffer) = after(&encode(&register), length);
            assert_eq!(written, Written { refusal: 0, filled: text.len() });
            assert_eq!(buffer, [&text[..], &vec![BEFORE; length - text.len()]].concat());
        }
        for length in [0, 1, text.len(), 8191] {
            assert_eq!(after(&encode(&register), length), (Written { refusal: 1, filled: 0 }, vec![BEFORE; length]));
        }
    }
    for broken in broken::all() {
        assert_eq!(after(&broken.block, 8192), (Written { refusal: 8, filled: 0 }, vec![BEFORE; 8192]));
        assert_eq!(after(&broken.block, 8191).0.refusal, 1);
        assert_eq!(after(&broken.block[1..], 8192).0.refusal, 1);
    }
}

/// The first answer of a write is how many bytes it wrote; a read answers 0, 0, 0.
#[test]
fn hosts_write_and_read() {
    let (mut text, mut answers) = (vec![BEFORE; 8192], [9; 12]);
    assert_eq!(host_write(&encode(&longest()), &mut text[..8191], &mut answers), 1);
    assert_eq!(host_write(&encode(&longest()), &mut text, &mut answers[..11]), 1);
    assert_eq!(host_write(&broken::all()[0].block, &mut text, &mut answers), 8);
    assert_eq!((answers, text.iter().all(|&byte| byte == BEFORE)), ([9; 12], true));
    assert_eq!(host_write(&encode(&longest()), &mut text, &mut answers), 0);
    assert_eq!(answers, [0xED, 0x1A, 0, 0, 0, 0, 0, 0, 0, 0, 0, 0]);
    let (mut block, mut answers) = (vec![BEFORE; BLOCK_LEN], [9; 12]);
    assert_eq!(host_read(&FAST, &mut block, &text[..6893], b"", &mut answers), 18);
    assert_eq!(host_read(&FAST, &mut block, EXAMPLE, b"\n", &mut answers), 7);
    assert_eq!(host_read(&FAST, &mut block, EXAMPLE, b"", &mut answers[1..]), 1);
    assert_eq!((answers, block.iter().all(|&byte| byte == BEFORE)), ([9; 12], true));
    assert_eq!(host_read(&FAST, &mut block, EXAMPLE, b"", &mut answers), 0);
    assert_eq!((answers, block), ([0; 12], encode(&example())));
}
