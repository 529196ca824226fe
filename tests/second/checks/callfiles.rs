//! The program: document 01's listing and the form of lines.

use generate::callfiles;
use second::callfile::{call_line, print, read_call, NAMES_IN};
use second::engine::{FAST, LITERAL};
use second::random::Random;

const LISTING: &str = "call by giver receiver weight need bar
0 0 0 0 0 0 0
0 0 0 0 0 0 0
1 0 0 1 255 0 0
1 0 1 2 255 0 0
1 0 2 1 255 0 0
2 0 0 1 0 0 0
5 0 0 2 0 0 0
";

const PRINTED: &str = "refusal first second third
0 1 0 0
0 2 0 0
0 1 0 0
0 2 0 0
0 3 0 0
0 2 0 2
0 0 0 0
";

fn printed(input: &[u8]) -> String {
    String::from_utf8(print(&FAST, input)).unwrap()
}

#[test]
fn the_listing_byte_for_byte() {
    assert_eq!(printed(LISTING.as_bytes()), PRINTED);
    assert_eq!(callfiles::all()[0].input, LISTING.as_bytes());
}

#[test]
fn ends_of_input() {
    let names = "refusal first second third\n";
    assert_eq!(printed(NAMES_IN), names);
    assert_eq!(printed(b""), format!("{names}7 1\n"));
    assert_eq!(printed(&NAMES_IN[..NAMES_IN.len() - 1]), format!("{names}7 1\n"));
    let text = [NAMES_IN, b"5 0 0 0 0 0 0\n5 0 0 0 0 0 0"].concat();
    assert_eq!(printed(&text), format!("{names}0 1 0 0\n7 3\n"));
    let text = [NAMES_IN, b"5 0 0 64 0 0 0\n\n0 0 0 0 0 0 0\n"].concat();
    assert_eq!(printed(&text), format!("{names}2 0 0 0\n7 3\n"));
}

#[test]
fn whole_lengths() {
    let long: Vec<_> = callfiles::all().into_iter().filter(|file| file.input.len() > 60_000).collect();
    let lengths: Vec<usize> = long.iter().map(|file| file.input.len()).collect();
    assert_eq!(lengths, [65_536, 65_537, 65_536]);
    let [exact, longer, cut_off] = [0, 1, 2].map(|at| printed(&long[at].input));
    assert!(exact.lines().skip(1).all(|line| line.starts_with("0 ")) && exact.lines().count() > 4600);
    assert_eq!(longer, "refusal first second third\n7 1\n");
    assert_eq!(cut_off.lines().last(), Some(&format!("7 {}", exact.lines().count())[..]));
}

/// 256 delegations stand. A new pair gets 12, and raises are answered.
#[test]
fn a_full_register_is_raised_by_a_file() {
    let files = callfiles::all();
    let file = files.iter().find(|file| file.shows == "raises in a full register").unwrap();
    let printed = printed(&file.input);
    let lines: Vec<&str> = printed.lines().skip(1 + 19).collect();
    assert_eq!(lines[255], "0 256 0 0");
    let first = ["12 0 0 0", "11 0 0 0", "11 0 0 0", "0 256 0 0", "16 0 0 0", "0 256 0 0"];
    let due = [&first[..], &["0 256 0 0", "16 0 0 0", "12 0 0 0", "0 0 1 2", "0 126 0 0"]].concat();
    assert_eq!(lines[256..], due);
}

/// Every file of malformed lines ends with 7 and the line's number.
#[test]
fn malformed_files_end_with_7() {
    let names = ["names", "empty input", "byte 10", "call at once", "lines after", "65537", "65536 bytes without"];
    let mut malformed = 0;
    for file in callfiles::all() {
        let output = printed(&file.input);
        let last = output.lines().last().unwrap_or("");
        if last.starts_with("7 ") {
            malformed += 1;
            let line: usize = last[2..].parse().unwrap();
            assert_eq!(output.lines().count(), line.max(2), "{}", file.shows);
            let after_two = last == "7 4" && output.contains("\n0 1 0 0\n0 1 0 0\n7 4\n");
            assert!(after_two || names.iter().any(|name| file.shows.contains(name)), "{}", file.shows);
        }
    }
    // 13 of the names and empty input, 36 lines, 20 unused columns, 1 with
    // lines after it and 2 of the length.
    assert_eq!(malformed, 13 + 36 + 20 + 1 + 2);
}

/// A line is a call exactly when it equals the rendering of its numbers.
#[test]
fn lines_are_read_exactly_as_rendered() {
    let mut random = Random::new(0x11E5);
    let alphabet = b"0123456789 \n\r\t+-a";
    let mut calls = 0;
    for _ in 0..200_000 {
        let mut line = b"5 0 0 1 0 0 0\n".to_vec();
        for _ in 0..random.range(0, 2) {
            let place = random.below(line.len() as u32) as usize;
            line[place] = random.pick(alphabet);
        }
        if let Some(n) = read_call(&line) {
            assert_eq!(call_line(&n).as_bytes(), line);
            calls += 1;
        }
    }
    assert!(calls > 10_000);
}

#[test]
fn call_files_are_literal() {
    let mut compared = 0;
    for file in callfiles::all() {
        if file.input.len() < 2500 {
            assert_eq!(print(&FAST, &file.input), print(&LITERAL, &file.input), "{}", file.shows);
            compared += 1;
        }
    }
    assert!(compared > 80);
}
