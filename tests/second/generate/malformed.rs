//! Call files with every kind of malformed line.

use super::*;
use super::callfiles::{file, raw, CallFile};
use second::callfile::{used_columns, values_of, NAMES_IN};

pub fn all() -> Vec<CallFile> {
    let mut all = names();
    all.extend(LINES.iter().map(|(shows, line)| after_accepted(shows, line)));
    all.extend(unused_columns());
    all.push(after_accepted("a number of 400 digits", format!("4 0 0 {} 0 0 0\n", "1".repeat(400)).as_bytes()));
    all.push(after_accepted("a byte that is not text", b"5 0 0 \xff 0 0 0\n"));
    all.push(after_accepted("a zero byte", b"5 0 0 \0 0 0 0\n"));
    all.push(more_after());
    all
}

/// Lines of names that are not the names.
fn names() -> Vec<CallFile> {
    let without_end = &NAMES_IN[..NAMES_IN.len() - 1];
    vec![
        raw("names without byte 10", without_end),
        raw("names with CR", b"call by giver receiver weight need bar\r\n"),
        raw("names with a trailing space", b"call by giver receiver weight need bar \n"),
        raw("names with two spaces", b"call by  giver receiver weight need bar\n"),
        raw("names with a capital letter", b"Call by giver receiver weight need bar\n0 0 0 0 0 0 0\n"),
        raw("names of the output", b"refusal first second third\n"),
        raw("six names", b"call by giver receiver weight need\n"),
        raw("no names, a call at once", b"0 0 0 0 0 0 0\n"),
        raw("an empty line before the names", b"\ncall by giver receiver weight need bar\n"),
        raw("one byte 10", b"\n"),
        raw("a byte order mark before the names", b"\xef\xbb\xbfcall by giver receiver weight need bar\n"),
        raw("names twice", &[NAMES_IN, NAMES_IN].concat()),
    ]
}

const LINES: [(&str, &[u8]); 33] = [
    ("missing final byte 10", b"5 0 0 0 0 0 0"),
    ("missing final byte 10 after one digit", b"5"),
    ("an empty line", b"\n"),
    ("CR before byte 10", b"5 0 0 0 0 0 0\r\n"),
    ("CR in place of byte 10", b"5 0 0 0 0 0 0\r"),
    ("a tab between", b"5\t0 0 0 0 0 0\n"),
    ("two spaces", b"5 0  0 0 0 0 0\n"),
    ("two spaces with six values", b"5 0  0 0 0 0\n"),
    ("a leading space", b" 5 0 0 0 0 0 0\n"),
    ("a trailing space", b"5 0 0 0 0 0 0 \n"),
    ("a space alone", b" \n"),
    ("00", b"5 0 0 00 0 0 0\n"),
    ("01", b"5 0 0 01 0 0 0\n"),
    ("a leading zero in the call", b"05 0 0 1 0 0 0\n"),
    ("+1", b"5 0 0 +1 0 0 0\n"),
    ("-1", b"5 0 0 -1 0 0 0\n"),
    ("-0", b"5 0 0 -0 0 0 0\n"),
    ("4294967296", b"5 0 0 4294967296 0 0 0\n"),
    ("9999999999", b"5 0 0 9999999999 0 0 0\n"),
    ("18446744073709551617", b"5 0 0 18446744073709551617 0 0 0\n"),
    ("one value", b"5\n"),
    ("six values", b"5 0 0 0 0 0\n"),
    ("eight values", b"5 0 0 0 0 0 0 0\n"),
    ("a letter in place of a value", b"5 0 0 a 0 0 0\n"),
    ("a letter after a digit", b"5 0 0 1a 0 0 0\n"),
    ("hexadecimal digits", b"5 0 0 0x1 0 0 0\n"),
    ("a comma", b"5 0 0 1,0 0 0 0\n"),
    ("a point", b"5 0 0 1.0 0 0 0\n"),
    ("the name of a call", b"use 0 0 1 0 0 0\n"),
    ("call 6", b"6 0 0 0 0 0 0\n"),
    ("call 7", b"7 0 0 0 0 0 0\n"),
    ("call 256", b"256 0 0 0 0 0 0\n"),
    ("call 4294967295", b"4294967295 0 0 0 0 0 0\n"),
];

/// Two accepted calls, then the line.
fn after_accepted(shows: &str, line: &[u8]) -> CallFile {
    let mut file = file(shows, &[enrol(0), grant(0, 1, 3, 0, 0)]);
    file.input.extend(line);
    file
}

/// Non-zero values in every column that a call does not use.
fn unused_columns() -> Vec<CallFile> {
    const NAMES: [&str; 6] = ["by", "giver", "receiver", "weight", "need", "bar"];
    let calls = [
        ("enrol", enrol(0)),
        ("grant", grant(1, 2, 0, 0, 0)),
        ("revoke", revoke(0, 0, 1)),
        ("downgrade", downgrade(0, 0, 1, 0)),
        ("reach", reach(1, 2)),
        ("use", use_right(1)),
    ];
    let mut files = Vec::new();
    for (name, n) in calls {
        for (column, used) in used_columns(n.call).into_iter().enumerate() {
            if used {
                continue;
            }
            let mut values = values_of(&n);
            values[column + 1] = 1 + column as u32 % 2 * 4_294_967_294;
            let line = format!("{}\n", second::callfile::joined(&values));
            files.push(after_accepted(&format!("{name} with a value under {}", NAMES[column]), line.as_bytes()));
        }
    }
    files
}

/// Refused calls, a malformed line, and calls that are no longer run.
fn more_after() -> CallFile {
    let mut first = file("lines after a malformed one are not run", &[enrol(65_536), use_right(1), enrol(3)]);
    first.input.extend(b"0 0 0 0 0 0 00\n0 0 0 0 0 0 0\n\n");
    first
}
