//! Texts of register files: every other form at every kind of line, and files that
//! are no well-formed register's.

use super::*;
use second::casefile::split_last;
use second::regfile::{file_text, Rows, DELEGATION_NAMES, SUBJECT_NAMES};
use second::table::OURS;
use std::collections::BTreeSet;
use std::ops::Range;

/// 1-2 stands on 0-1, whose condition subject 2 meets.
pub fn example() -> Register {
    register(&[0, 4, 4], &[(0, 1, 9, 4, 0), (1, 2, 8, 0, 0)])
}

/// 3 and 5 have retired; nobody gave to 6.
pub fn gone() -> Register {
    let grants = [(0, 1, 9, 4, 0), (0, 4, 3, 0, 0), (1, 2, 8, 0, 0)];
    retireregisters::without(register(&[0, 4, 4, 0, 1, 0, 0], &grants), &[3, 5])
}

/// A register's file as it was before document 02's C-18, without the column `pass`.
pub fn without_pass(text: &[u8]) -> Vec<u8> {
    let [subjects, delegations] = parts(text);
    [subjects, &without_last(delegations)].concat()
}

/// The same without the column `retired`.
pub fn without_retired(text: &[u8]) -> Vec<u8> {
    let [subjects, delegations] = parts(text);
    [&without_last(subjects), delegations].concat()
}

/// The same as it was before C-16, without either.
pub fn old_form(text: &[u8]) -> Vec<u8> {
    without_retired(&without_pass(text))
}

/// What is before the empty line, and that line and what is after it.
fn parts(text: &[u8]) -> [&[u8]; 2] {
    let empty = text.windows(2).position(|two| two == b"\n\n").map_or(text.len(), |at| at + 1);
    [&text[..empty], &text[empty..]]
}

/// Lines without their last columns.
fn without_last(text: &[u8]) -> Vec<u8> {
    let shorter = |line| match split_last(line) {
        Some((front, _)) => [front, b"\n"].concat(),
        None => line.to_vec(),
    };
    second::callfile::lines(text).flat_map(shorter).collect()
}

// Places of lines in the example's file.
pub const NAMES: usize = 0;
pub const OWNER: usize = 1;
pub const SUBJECT: usize = 2;
pub const LAST_SUBJECT: usize = 3;
pub const EMPTY: usize = 4;
pub const OTHER_NAMES: usize = 5;
pub const DELEGATION: usize = 6;
pub const LAST: usize = 7;

/// What stands before a line and, in the place of its byte 10, after it.
const AROUND: [(&[u8], &[u8]); 14] = [
    (b"", b""), (b"", b"\r\n"), (b"", b"\r"), (b"", b" \n"), (b" ", b"\n"), (b"\t", b"\n"), (b"", b"\t\n"),
    (b"\n", b"\n"), (b"", b"\n\n"), (b"", b"\0\n"), (b"", b"\0"), (b"", b"\xff\n"), (b"", b"a\n"), (b"", b" 0\n"),
];

/// In the place of the first space of a line.
const BETWEEN: [&[u8]; 5] = [b"  ", b"\t", b"", b"\n", b","];

/// In the place of a number.
const NO_NUMBERS: [&[u8]; 5] = [b"", b"a", b"\0", b"\xff", b"4294967296"];

/// Before a number.
const SIGNS: [&[u8]; 4] = [b"-", b"+", b"0", b"0x"];

/// In the place of the names of the subjects.
const OTHER_FIRST: [&[u8]; 13] = [
    b"", b"Subject marks retired\n", b"subject\n", b"marks subject retired\n", b"subject mark retired\n",
    b"subject marks need\n", b"weight next\n", DELEGATION_NAMES, b"\xef\xbb\xbfsubject marks retired\n",
    b"subject marks\n", b"subject retired marks\n", b"subject marks retired need\n", b"subject marks Retired\n",
];

/// In the place of the names of the delegations.
const OTHER_SECOND: [&[u8]; 13] = [
    b"", b"Giver receiver weight need bar pass\n", b"giver receiver weight need bar\n",
    b"receiver giver weight need bar pass\n", b"giver receiver weight bar need pass\n",
    b"giver receiver weight need bar mark\n", b"giver receiver weight need bar pass mark\n", b"0 0 0 0 0 0\n",
    b"call by giver receiver weight need bar\n", SUBJECT_NAMES, b"giver receiver weight need pass bar\n",
    b"giver receiver weight need bar Pass\n", b"giver receiver weight need bar kind\n",
];

/// After the whole file.
const AFTER: [&[u8]; 12] = [
    b" ", b"\0", b"a", b"\xff", b"\r", b"\n", b"\n\n", b"0", b"2 1 0\n", SUBJECT_NAMES, DELEGATION_NAMES,
    b"\n0 2 0 0 0 0\n",
];

/// Whole texts.
const WHOLE: [&[u8]; 9] = [
    b"\n", b" ", b"\0", b"subject marks retired\n\n", b"subject marks retired\n0 0 0\n\n",
    DELEGATION_NAMES, b"subject marks retired\n0 0 0\ngiver receiver weight need bar pass\n",
    b"giver receiver weight need bar pass\n\nsubject marks retired\n0 0 0\n",
    b"call by giver receiver weight need bar\n0 0 0 0 0 0 0\n",
];

/// Texts of another form, each once. The fronts of the example's file come last, the
/// empty one first of them.
pub fn malformed() -> Vec<Vec<u8>> {
    let text = file_text(&example());
    let mut all = Vec::new();
    for place in [NAMES, SUBJECT, EMPTY, OTHER_NAMES, DELEGATION, LAST] {
        all.extend(spoiled(line_of(&text, place)).iter().map(|line| with_line(&text, place, line)));
    }
    for place in [SUBJECT, LAST] {
        all.extend(no_numbers(&text, place));
    }
    all.extend(OTHER_FIRST.map(|line| with_line(&text, NAMES, line)));
    all.extend(OTHER_SECOND.map(|line| with_line(&text, OTHER_NAMES, line)));
    all.extend(AFTER.map(|after| [&text, after].concat()));
    all.extend(WHOLE.map(|text| text.to_vec()));
    all.extend([[&text[..], &text].concat(), OURS.text(), vec![0; 8192], b"subject marks retired\n".repeat(320)]);
    all.extend(long_numbers(&text));
    all.extend(old_forms());
    all.extend(fronts(&text));
    let mut seen = BTreeSet::new();
    all.retain(|text| seen.insert(text.clone()));
    all
}

/// Whole files without one of the two columns and without both; and each line of a file without
/// a column alone, a line of names or of numbers, and with it alone.
fn old_forms() -> Vec<Vec<u8>> {
    let files = [Register::fresh(), example(), gone(), full::all_enrolled()].map(|register| file_text(&register));
    let forms = [old_form, without_pass, without_retired];
    let mut all: Vec<Vec<u8>> = files.iter().flat_map(|text| forms.map(|form| form(text))).collect();
    let text = file_text(&gone());
    let delegations = EMPTY_OF_GONE + 1..EMPTY_OF_GONE + 5;
    for (old, places) in [(without_retired(&text), 0..EMPTY_OF_GONE), (without_pass(&text), delegations)] {
        for place in places {
            all.push(with_line(&text, place, line_of(&old, place)));
            all.push(with_line(&old, place, line_of(&text, place)));
        }
    }
    all
}

/// The place of the empty line in the file of that register.
const EMPTY_OF_GONE: usize = 8;

/// A line, spoiled in every way that any line can be.
fn spoiled(line: &[u8]) -> Vec<Vec<u8>> {
    let line = line.strip_suffix(b"\n").unwrap_or(line);
    let mut all: Vec<Vec<u8>> = AROUND.iter().map(|(before, after)| [before, line, after].concat()).collect();
    if let Some(space) = line.iter().position(|&byte| byte == b' ') {
        all.extend(BETWEEN.map(|between| [&line[..space], between, &line[space + 1..], b"\n"].concat()));
    }
    let last = line.iter().rposition(|&byte| byte == b' ');
    all.extend(last.map(|space| [&line[..space], b"\n"].concat()));
    all
}

/// Every column of a line with no number in it, or with a sign before its number.
fn no_numbers(text: &[u8], place: usize) -> Vec<Vec<u8>> {
    let mut all = Vec::new();
    for (column, number) in columns(line_of(text, place)).into_iter().enumerate() {
        let signed = SIGNS.map(|sign| [sign, number].concat());
        let with = NO_NUMBERS.iter().map(|other| other.to_vec()).chain(signed);
        all.extend(with.map(|other| with_column(text, place, column, &other)));
        all.push(with_column(text, place, column, &[number, b"a"].concat()));
    }
    all
}

/// Numbers that 64 bits and more don't hold.
fn long_numbers(text: &[u8]) -> Vec<Vec<u8>> {
    let of_digits = |digits: usize| format!("1{}", "0".repeat(digits - 1)).into_bytes();
    let mut numbers = vec![b"9999999999".to_vec(), b"18446744073709551616".to_vec(), b"18446744073709551625".to_vec()];
    numbers.extend([11, 40, 400].map(of_digits));
    numbers.iter().map(|number| with_column(text, LAST, 2, number)).collect()
}

/// Every front of the example's file but those two that are files themselves.
fn fronts(text: &[u8]) -> impl Iterator<Item = Vec<u8>> + '_ {
    (0..text.len()).map(|length| text[..length].to_vec()).filter(|front| Rows::read(front).is_none())
}

/// The line at a place, with its byte 10.
fn line_of(text: &[u8], place: usize) -> &[u8] {
    second::callfile::lines(text).nth(place).unwrap_or_default()
}

fn columns(line: &[u8]) -> Vec<&[u8]> {
    let line = line.strip_suffix(b"\n").unwrap_or(line);
    line.split(|&byte| byte == b' ').collect()
}

/// The text with these bytes in the place of a line.
pub fn with_line(text: &[u8], place: usize, line: &[u8]) -> Vec<u8> {
    let mut lines: Vec<&[u8]> = second::callfile::lines(text).collect();
    lines[place] = line;
    lines.concat()
}

/// The text with these bytes in the place of a column of a line.
pub fn with_column(text: &[u8], place: usize, column: usize, bytes: &[u8]) -> Vec<u8> {
    let mut columns = columns(line_of(text, place));
    columns[column] = bytes;
    with_line(text, place, &[&columns.join(&b' ')[..], b"\n"].concat())
}

/// At and over every limit; the last is malformed.
pub const NUMBERS: [&str; 9] = ["0", "63", "64", "255", "256", "65535", "65536", "4294967295", "4294967296"];

/// 64 subjects, so that 63 names one; 62-61 stands on either of two.
pub fn wide() -> Register {
    let marks: Vec<u16> = (0..64).map(|subject| subject * 1000).collect();
    register(&marks, &[(0, 62, 255, 0, 0), (0, 63, 255, 0, 0), (62, 61, 200, 0, 0)])
}

/// Every column of a line of each kind with each of these numbers, and of the last
/// line where 64 are enrolled.
pub fn numbers() -> Vec<Vec<u8>> {
    let (text, wide) = (file_text(&example()), file_text(&wide()));
    let places = [(&text, OWNER), (&text, LAST_SUBJECT), (&text, LAST), (&wide, LAST_SUBJECT + 65)];
    let mut all = Vec::new();
    for (text, place) in places {
        for column in 0..columns(line_of(text, place)).len() {
            all.extend(NUMBERS.map(|number| with_column(text, place, column, number.as_bytes())));
        }
    }
    all
}

/// Every column of some lines with a number that a byte, two or four would hold as the right one.
pub fn wrapped() -> Vec<Vec<u8>> {
    let text = file_text(&example());
    let mut all = Vec::new();
    for place in [OWNER, SUBJECT, DELEGATION, LAST] {
        for (column, digits) in columns(line_of(&text, place)).into_iter().enumerate() {
            let number = digits.iter().fold(0u64, |sum, digit| 10 * sum + (digit - b'0') as u64);
            let higher = [1 << 8, 1 << 16, 1 << 32].map(|more| (number + more).to_string());
            all.extend(higher.map(|number| with_column(&text, place, column, number.as_bytes())));
        }
    }
    all
}

/// In the place of a 0 or 1 in the columns `retired` and `pass`; the last ones are malformed.
const BITS: [&str; 16] = [
    "0", "1", "2", "3", "254", "255", "256", "257", "65536", "65537", "4294967295", "4294967296", "4294967297", "01",
    "-1", "",
];

/// Every subject's column `retired` with each of these: the owner's, of those who have marks and
/// records or one of these, and of those who have none.
pub fn retired() -> Vec<Vec<u8>> {
    with_bits(&file_text(&gone()), OWNER..EMPTY_OF_GONE, 2)
}

/// Every delegation's column `pass` with each of these: of pass-only ones, one of which has
/// weight 0, and of ordinary ones.
pub fn passes() -> Vec<Vec<u8>> {
    with_bits(&file_text(&passregisters::three_of_each()), 7..13, 5)
}

fn with_bits(text: &[u8], places: Range<usize>, column: usize) -> Vec<Vec<u8>> {
    places.flat_map(|place| BITS.map(|number| with_column(text, place, column, number.as_bytes()))).collect()
}

/// The example's numbers changed so that they make no well-formed block.
const UNFORMED: [(&str, fn(&mut Rows)); 45] = [
    ("no subject", |rows| rows.subjects.clear()),
    ("no subject and no delegation", |rows| *rows = Rows { subjects: vec![], delegations: vec![] }),
    ("subjects from 1 on", |rows| rows.subjects.retain(|row| row[0] != 0)),
    ("a subject missing", |rows| rows.subjects.retain(|row| row[0] != 1)),
    ("the owner twice", |rows| rows.subjects.insert(0, [0, 0, 0])),
    ("the last subject twice", |rows| rows.subjects.push([2, 4, 0])),
    ("two subjects exchanged", |rows| rows.subjects.swap(1, 2)),
    ("the owner last", |rows| rows.subjects.rotate_left(1)),
    ("3 in the place of 2", |rows| rows.subjects[2][0] = 3),
    ("every subject one higher", |rows| rows.subjects.iter_mut().for_each(|row| row[0] += 1)),
    ("the owner has a mark", |rows| rows.subjects[0][1] = 1),
    ("the owner has the highest mark", |rows| rows.subjects[0][1] = 32_768),
    ("the giver is not enrolled", |rows| rows.delegations[1][0] = 3),
    ("the receiver is not enrolled", |rows| rows.delegations[1][1] = 3),
    ("giver and receiver are equal", |rows| rows.delegations[1][1] = 1),
    ("the receiver is the owner", |rows| rows.delegations[1][1] = 0),
    ("the owner gives to itself", |rows| rows.delegations[0][1] = 0),
    ("need and bar are equal", |rows| rows.delegations[0][4] = 4),
    ("need and bar share the highest mark", |rows| rows.delegations[1] = [1, 2, 8, 32_768, 49_152, 0]),
    ("need and bar share one mark of many", |rows| rows.delegations[1] = [1, 2, 8, 65_535, 1, 0]),
    ("two delegations exchanged", |rows| rows.delegations.swap(0, 1)),
    ("a delegation twice", |rows| rows.delegations.push([1, 2, 8, 0, 0, 0])),
    ("a pair twice, lighter", |rows| rows.delegations.insert(1, [0, 1, 8, 4, 0, 0])),
    ("a pair twice, under another need", |rows| rows.delegations.insert(1, [0, 1, 9, 0, 0, 0])),
    ("receivers fall", |rows| rows.delegations.insert(0, [0, 2, 1, 0, 0, 0])),
    ("givers fall", |rows| rows.delegations.push([0, 2, 1, 0, 0, 0])),
    ("65 subjects", |rows| enrolled(rows, 65)),
    ("256 subjects", |rows| enrolled(rows, 256)),
    ("257 subjects", |rows| enrolled(rows, 257)),
    ("320 subjects", |rows| enrolled(rows, 320)),
    ("the owner has retired", |rows| rows.subjects[0][2] = 1),
    ("the owner has retired, and has a mark", |rows| rows.subjects[0] = [0, 1, 1]),
    ("one who gives, receives and has marks has retired", |rows| rows.subjects[1][2] = 1),
    ("one who gives and receives has retired", |rows| rows.subjects[1] = [1, 0, 1]),
    ("one who receives has retired", |rows| rows.subjects[2] = [2, 0, 1]),
    ("one who gives has retired", |rows| {
        rows.subjects.push([3, 0, 1]);
        rows.delegations.push([3, 2, 1, 0, 0, 0]);
    }),
    ("one who has a mark has retired", |rows| rows.subjects.push([3, 1, 1])),
    ("one who has the highest mark has retired", |rows| rows.subjects.push([3, 32_768, 1])),
    ("retired is 2", |rows| rows.subjects.push([3, 0, 2])),
    ("retired is 256", |rows| rows.subjects.push([3, 0, 256])),
    ("retired is 4,294,967,295", |rows| rows.subjects.push([3, 0, 4_294_967_295])),
    ("pass is 2", |rows| rows.delegations[0][5] = 2),
    ("pass is 255", |rows| rows.delegations[1][5] = 255),
    ("pass is 256", |rows| rows.delegations[1][5] = 256),
    ("pass is 4,294,967,295", |rows| rows.delegations[1][5] = 4_294_967_295),
];

fn enrolled(rows: &mut Rows, subjects: u32) {
    rows.subjects.extend((3..subjects).map(|number| [number, 0, 0]));
}

/// The example with so many subjects, which is read if they are at most 64.
pub fn with_subjects(subjects: u32) -> Vec<u8> {
    let mut rows = Rows::of(&example());
    enrolled(&mut rows, subjects);
    rows.text()
}

/// Files that are no well-formed register's, with what each shows.
pub fn unformed() -> Vec<(&'static str, Vec<u8>)> {
    let changed = |(shows, change): (&'static str, fn(&mut Rows))| {
        let mut rows = Rows::of(&example());
        change(&mut rows);
        (shows, rows.text())
    };
    let mut all: Vec<_> = UNFORMED.into_iter().map(changed).collect();
    all.push(("257 delegations", with_delegations(257)));
    all.push(("512 delegations", with_delegations(512)));
    all.push(("a subject more than all", {
        let mut rows = Rows::of(&full::all_enrolled());
        rows.subjects.push([64, 0, 0]);
        rows.text()
    }));
    all
}

/// The first so many of the pairs of 64 subjects, the owner's among them, all
/// unlimited; read if they are at most 256.
pub fn with_delegations(delegations: usize) -> Vec<u8> {
    let pairs = (0..64).flat_map(|giver| (1..64).map(move |receiver| [giver, receiver, 255, 0, 0, 0]));
    let rows = Rows {
        subjects: (0..64).map(|number| [number, 0, 0]).collect(),
        delegations: pairs.filter(|row| row[0] != row[1]).take(delegations).collect(),
    };
    rows.text()
}

/// A number of the example too high, or subjects out of order, and a line of another form after it or before it.
pub fn unformed_and_malformed() -> Vec<Vec<u8>> {
    let text = file_text(&example());
    let high = with_column(&text, SUBJECT, 1, b"70000");
    let heavy = with_column(&text, DELEGATION, 2, b"256");
    let order = with_column(&text, SUBJECT, 0, b"2");
    let many = with_delegations(257);
    vec![
        with_line(&high, LAST, b"1 2  8 0 0 0\n"),
        with_line(&high, LAST_SUBJECT, b"2 04 0\n"),
        with_line(&high, EMPTY, b" \n"),
        with_line(&heavy, LAST, b"1 2 8 0 0 0"),
        with_line(&heavy, OWNER, b"0 00 0\n"),
        with_line(&order, OTHER_NAMES, b"giver receiver weight need bar\n"),
        with_line(&order, LAST, b"1 2 8 0 0 0\r\n"),
        with_column(&order, LAST, 4, b"4294967296"),
        [&many[..], b"\n"].concat(),
        many[..many.len() - 1].to_vec(),
        [&with_subjects(65)[..], b"0\n"].concat(),
    ]
}

/// 64 subjects and 256 delegations whose numbers have the most digits; none of them
/// is supported, since the owner gives nothing.
pub fn longest() -> Register {
    long((63, 62))
}

/// The same, but that the owner gives to 10, on which all others stand.
pub fn longest_supported() -> Register {
    long((0, 10))
}

/// The first 255 of the pairs of subjects from 10 on, and the last one, which may be
/// another.
fn long(last: (u8, u8)) -> Register {
    let mut marks = vec![49_151; 64];
    marks[0] = 0;
    let pairs = (10..64u8).flat_map(|giver| (10..64).map(move |receiver| (giver, receiver)));
    let used = pairs.filter(|(giver, receiver)| giver != receiver).take(255).chain([last]);
    let grants: Vec<Grant> = used.map(|(giver, receiver)| (giver, receiver, 255, 32_768, 16_384)).collect();
    register(&marks, &grants)
}
