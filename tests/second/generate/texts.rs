//! Texts of step tables: every other form, every rule broken, and tables that pass.

use second::table::{table_text, Table, OURS, WEIGHTS};

/// A text and what it shows.
pub struct Text {
    pub shows: &'static str,
    pub bytes: Vec<u8>,
}

/// Places of a text, counted from the line of names, with the bytes that replace
/// the line there.
type Lines = &'static [(usize, &'static [u8])];

/// Weights and their nexts.
type Entries = &'static [(usize, i64)];

/// The text of `level` with lines replaced: it has another form.
const FORMS: [(&str, Lines); 53] = [
    ("no names", &[(0, b"")]),
    ("names without byte 10", &[(0, b"weight next")]),
    ("names with CR", &[(0, b"weight next\r\n")]),
    ("names with a capital letter", &[(0, b"Weight next\n")]),
    ("names with a trailing space", &[(0, b"weight next \n")]),
    ("one name", &[(0, b"weight\n")]),
    ("names twice", &[(0, b"weight next\nweight next\n")]),
    ("an empty line before the names", &[(0, b"\nweight next\n")]),
    ("a byte order mark before the names", &[(0, b"\xef\xbb\xbfweight next\n")]),
    ("two lines exchanged", &[(6, b"6 0\n"), (7, b"5 0\n")]),
    ("a weight twice", &[(7, b"5 0\n")]),
    ("weights from 1 to 256", &[(1, b""), (256, b"255 0\n256 0\n")]),
    ("256 in place of 255", &[(256, b"256 0\n")]),
    ("263 in place of 7", &[(8, b"263 0\n")]),
    ("255 lines, the first missing", &[(1, b"")]),
    ("255 lines, one between missing", &[(101, b"")]),
    ("255 lines, the last missing", &[(256, b"")]),
    ("257 lines", &[(256, b"255 0\n256 0\n")]),
    ("an empty line between", &[(101, b"100 0\n\n")]),
    ("an empty line in place of a line", &[(101, b"\n")]),
    ("an empty line at the end", &[(256, b"255 0\n\n")]),
    ("-0", &[(2, b"1 -0\n")]),
    ("-2", &[(1, b"0 -2\n")]),
    ("+1", &[(256, b"255 +1\n")]),
    ("a sign alone", &[(1, b"0 -\n")]),
    ("-1 as a weight", &[(1, b"-1 -1\n")]),
    ("+7 as a weight", &[(8, b"+7 0\n")]),
    ("00", &[(2, b"1 00\n")]),
    ("01", &[(256, b"255 01\n")]),
    ("a leading zero in a weight", &[(8, b"07 0\n")]),
    ("two spaces", &[(8, b"7  0\n")]),
    ("a leading space", &[(8, b" 7 0\n")]),
    ("a trailing space", &[(8, b"7 0 \n")]),
    ("a tab between", &[(8, b"7\t0\n")]),
    ("no space", &[(8, b"70\n")]),
    ("one value", &[(8, b"7\n")]),
    ("no next after the space", &[(8, b"7 \n")]),
    ("three values", &[(8, b"7 0 0\n")]),
    ("a letter in place of a next", &[(8, b"7 a\n")]),
    ("a zero byte in place of a next", &[(8, b"7 \0\n")]),
    ("a byte that is not text", &[(8, b"7 \xff\n")]),
    ("4294967296", &[(256, b"255 4294967296\n")]),
    ("18446744073709551615", &[(1, b"0 18446744073709551615\n")]),
    ("a number of 40 digits", &[(2, b"1 1000000000000000000000000000000000000000\n")]),
    ("4294967296 in place of 0", &[(1, b"4294967296 -1\n")]),
    ("CR before byte 10", &[(8, b"7 0\r\n")]),
    ("CR in place of byte 10", &[(8, b"7 0\r")]),
    ("byte 10 missing between", &[(8, b"7 0")]),
    ("CR before the last byte 10", &[(256, b"255 0\r\n")]),
    ("the last byte 10 missing", &[(256, b"255 0")]),
    ("a zero byte in place of the last byte 10", &[(256, b"255 0\0")]),
    ("a space after the last line", &[(256, b"255 0\n ")]),
    ("a zero byte after the last line", &[(256, b"255 0\n\0")]),
];

/// Whole texts of another form.
const SHORT: [(&str, &[u8]); 9] = [
    ("one byte 10", b"\n"),
    ("one space", b" "),
    ("one zero byte", b"\0"),
    ("-1 alone", b"-1"),
    ("the names alone", b"weight next\n"),
    ("the names alone, without byte 10", b"weight next"),
    ("the first entry alone", b"weight next\n0 -1\n"),
    ("the names of a call file", b"call by giver receiver weight need bar\n"),
    ("4096 zero bytes", &[0; 4096]),
];

/// A rule broken, and a line of another form before it or after it.
const FORMS_BEFORE_RULES: [(&str, Lines); 4] = [
    ("a rule broken on line 3, line 200 malformed", &[(2, b"1 1\n"), (199, b"198 00\n")]),
    ("line 3 malformed, a rule broken on line 200", &[(2, b"1 00\n"), (199, b"198 198\n")]),
    ("a rule broken on the first line, the last byte 10 missing", &[(1, b"0 0\n"), (256, b"255 0")]),
    ("4294967295 and a line too many", &[(1, b"0 4294967295\n"), (256, b"255 0\n256 0\n")]),
];

/// Our table with entries replaced: a rule is broken.
const RULES: [(&str, Entries); 18] = [
    ("weight 0 keeps 0", &[(0, 0)]),
    ("weight 1 keeps 1", &[(1, 1)]),
    ("weight 100 keeps 100", &[(100, 100)]),
    ("weight 254 keeps 254", &[(254, 254)]),
    ("weight 254 rises to 255", &[(254, 255)]),
    ("weight 255 gives 256", &[(255, 256)]),
    ("weight 255 gives 65791", &[(255, 65_791)]),
    ("weight 255 gives 4294967295", &[(255, 4_294_967_295)]),
    ("weight 0 gives 4294967295", &[(0, 4_294_967_295)]),
    ("weight 100 gives 4294967295", &[(100, 4_294_967_295)]),
    ("weight 100 gives 355", &[(100, 355)]),
    ("weight 1 falls below weight 0", &[(0, 0), (1, -1)]),
    ("weight 2 falls below weight 1", &[(2, -1)]),
    ("weight 100 falls below weight 99", &[(100, 97)]),
    ("weight 254 falls below weight 253", &[(254, 251)]),
    ("weight 255 falls below weight 254", &[(255, 252)]),
    ("weight 255 gives 0", &[(255, 0)]),
    ("weight 255 gives -1", &[(255, -1)]),
];

/// Texts that are refused with 7.
pub fn malformed() -> Vec<Text> {
    let mut texts = Vec::new();
    for (shows, lines) in FORMS.iter().chain(&FORMS_BEFORE_RULES) {
        texts.push(Text { shows, bytes: with_lines(lines) });
    }
    texts.extend(SHORT.map(|(shows, bytes)| Text { shows, bytes: bytes.to_vec() }));
    texts
}

/// Texts that are refused with 17.
pub fn broken() -> Vec<Text> {
    RULES.iter().map(|(shows, entries)| Text { shows, bytes: with_entries(entries) }).collect()
}

/// A text of another form at its end only, and one whose last entry breaks a rule.
pub fn refused_at_the_end() -> [Vec<u8>; 2] {
    [with_lines(&[(256, b"255 0")]), with_entries(&[(255, -1)])]
}

/// The text of `level` with these lines in the place of its own.
fn with_lines(lines: Lines) -> Vec<u8> {
    let text = level().text();
    let mut parts: Vec<&[u8]> = text.split_inclusive(|&byte| byte == b'\n').collect();
    for &(place, bytes) in lines {
        parts[place] = bytes;
    }
    parts.concat()
}

/// The text of our table with these entries in the place of its own.
fn with_entries(entries: Entries) -> Vec<u8> {
    let mut next = OURS.next.map(i64::from);
    for &(weight, entry) in entries {
        next[weight] = entry;
    }
    table_text(&next)
}

/// Tables that pass, with what each shows.
pub fn passing() -> Vec<(&'static str, Table)> {
    let highest = |next: i16| move |weight: i16| if weight == 255 { next } else { weight - 1 };
    vec![
        ("ours", OURS),
        ("255 falls to 254", falling(highest(254))),
        ("255 falls to 253, as 254 does", falling(highest(253))),
        ("each falls by two", by_two()),
        ("255 falls to 0", level()),
        ("255 falls to -1", falling(|_| -1)),
        ("255 stays, all others give -1", falling(|weight| if weight == 255 { 255 } else { -1 })),
        ("each falls to its half", half()),
        ("two neighbours fall to one next", falling(|weight| (weight - 1) / 2 * 2 - (weight == 0) as i16)),
        ("from 6 on all fall to 5, 255 to 6", falling(|weight| if weight == 255 { 6 } else { (weight - 1).min(5) })),
    ]
}

/// Each falls by two, and 255 stays.
pub fn by_two() -> Table {
    falling(|weight| if weight == 255 { 255 } else { (weight - 2).max(-1) })
}

/// Each but 0 falls to its half.
pub fn half() -> Table {
    falling(|weight| if weight == 0 { -1 } else { weight / 2 })
}

/// All but 0 fall to 0; its text is short.
pub fn level() -> Table {
    falling(|weight| if weight == 0 { -1 } else { 0 })
}

fn falling(next: impl Fn(i16) -> i16) -> Table {
    let next: [i64; WEIGHTS] = std::array::from_fn(|weight| next(weight as i16) as i64);
    Table::of(&next).expect("a table that passes")
}
