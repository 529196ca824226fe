//! Random step tables as texts: those that pass, that break a rule on their
//! entries, and that have another form.

use second::callfile::lines;
use second::random::{random_table, Random};
use second::refusal::BAD_TABLE;
use second::table::{table_text, Table, OURS, WEIGHTS};

/// What a call that reckons reach is lent.
#[derive(Clone, Copy, Debug, PartialEq, Eq)]
pub enum TextKind {
    /// No text: the entry point that takes none.
    Without,
    Empty,
    /// Our table's own text.
    Ours,
    /// Another table that passes.
    Other,
    Broken,
    Malformed,
}

pub const TEXT_KINDS: [TextKind; 6] =
    [TextKind::Without, TextKind::Empty, TextKind::Ours, TextKind::Other, TextKind::Broken, TextKind::Malformed];

#[derive(Clone)]
pub struct Text {
    /// Nothing for an entry point that takes no text.
    pub bytes: Option<Vec<u8>>,
    pub kind: TextKind,
    /// What chains are judged by; ours where the text is refused.
    pub table: Table,
}

impl Text {
    pub fn without() -> Text {
        Text { bytes: None, kind: TextKind::Without, table: OURS }
    }

    /// For an entry point that always takes a text: an empty one in place of none.
    pub fn lent(self) -> Text {
        if self.bytes.is_some() { self } else { Text::of(Vec::new()) }
    }

    pub fn of(bytes: Vec<u8>) -> Text {
        let read = Table::read(&bytes);
        let kind = match read {
            Ok(_) if bytes.is_empty() => TextKind::Empty,
            Ok(table) if table == OURS => TextKind::Ours,
            Ok(_) => TextKind::Other,
            Err(BAD_TABLE) => TextKind::Broken,
            Err(_) => TextKind::Malformed,
        };
        Text { bytes: Some(bytes), kind, table: read.unwrap_or(OURS) }
    }
}

/// What the calls of a list are lent, but for some of them.
pub struct Tables {
    usual: Vec<Text>,
}

impl Tables {
    /// For most lists one table that passes, or two of which each call is lent either.
    pub fn draw(random: &mut Random) -> Tables {
        let one = Text::of(passing(random).text());
        let usual = match random.below(10) {
            0 | 1 => vec![Text::without()],
            2 => vec![Text::without(), Text::of(Vec::new()), Text::of(OURS.text())],
            3..=7 => vec![one],
            8 => vec![one, Text::of(passing(random).text())],
            _ => vec![one, Text::without()],
        };
        Tables { usual }
    }

    /// One that passes.
    pub fn usual(&self, random: &mut Random) -> Text {
        self.usual[random.below(self.usual.len() as u32) as usize].clone()
    }

    /// What a call that takes a table is lent.
    pub fn next(&self, random: &mut Random) -> Text {
        match random.below(100) {
            0..=4 => Text::of(broken(random)),
            5..=11 => Text::of(malformed(random)),
            12 | 13 => Text::of(passing(random).text()),
            14 => Text::of(Vec::new()),
            15 => Text::of(OURS.text()),
            16 => Text::without(),
            _ => self.usual(random),
        }
    }
}

/// A table that passes.
fn passing(random: &mut Random) -> Table {
    match random.below(10) {
        0..=3 => random_table(random),
        4..=6 => slow(random),
        _ => falling(random.pick(&[1, 2, 2, 2, 3, 5, 16, 100, 256]), random.chance(75)),
    }
}

/// Every weight falls by one or two, but 255 keeps 255: cuts take many rounds.
fn slow(random: &mut Random) -> Table {
    let mut next = OURS.next;
    for weight in 1..255 {
        next[weight] = next[weight - 1].max(weight as i16 - 1 - random.below(2) as i16);
    }
    Table { next }
}

/// Every weight falls by this much, but 255 may keep 255.
fn falling(fall: i16, keeps: bool) -> Table {
    let mut next: [i16; WEIGHTS] = std::array::from_fn(|weight| (weight as i16 - fall).max(-1));
    if keeps {
        next[255] = 255;
    }
    Table { next }
}

/// Numbers that no weight below 255 may fall to, some of them small when cut down to 8, 16 or 32 bits.
const TOO_LARGE: [i64; 8] = [255, 256, 32_767, 32_768, 65_535, 65_536, 0x8000_0000, 0xFFFF_FFFF];

/// A text of the form whose entries break a rule.
fn broken(random: &mut Random) -> Vec<u8> {
    let mut next = passing(random).next.map(i64::from);
    let any = random.below(WEIGHTS as u32) as usize;
    let weight = random.pick(&[0, 1, 254, 255, any, any, any, any, any, any]);
    next[weight] = match random.below(7) {
        0 => weight as i64,
        1 => weight as i64 + 1,
        2 => random.pick(&TOO_LARGE),
        3 => next[weight] + 65_536,
        4 => next[weight.max(1) - 1] - 1,
        5 => next[(weight + 1).min(255)] + 1,
        _ => random.below(300) as i64,
    };
    next[weight] = next[weight].max(-1);
    if Table::of(&next).is_some() {
        next[0] = 0;
    }
    table_text(&next)
}

/// Bytes that stand in a text, or are taken for such.
pub const BYTES: &[u8] = b"01234567899-- \n\n\r\t+.,\0\x0B\xA0";
/// Short texts, which also stand after another one.
const SHORT: [&[u8]; 7] = [b"\n", b"\0", b" ", b"255 255\n", b"256 255\n", b"weight next", b"weight next\n"];

/// A text that has another form, with few exceptions. Its entries may break a rule besides.
fn malformed(random: &mut Random) -> Vec<u8> {
    let mut text = if random.chance(30) { broken(random) } else { passing(random).text() };
    let at = place(random, text.len());
    match random.below(20) {
        0..=4 => text[at] = random.pick(BYTES),
        5 | 6 => drop(text.remove(at)),
        7 | 8 => text.insert(at, random.pick(BYTES)),
        9 | 10 => text.truncate(at),
        11 => text.extend(random.pick(&SHORT)),
        12 => text.resize(text.len() + random.pick(&[1, 2000, 70_000]), b'\n'),
        13 => drop(text.splice(at.., passing(random).text().split_off(at.min(1000)))),
        14 => text = random.pick(&SHORT).to_vec(),
        15 => text = (0..random.range(1, 3000)).map(|_| random.next() as u8).collect(),
        _ => text = with_odd_line(random, &text),
    }
    text
}

/// A place in a text of more than 20 bytes, often near one of its ends.
pub fn place(random: &mut Random, length: usize) -> usize {
    let near = random.below(20) as usize;
    match random.below(10) {
        0 | 1 => near,
        2 | 3 => length - 1 - near,
        _ => random.below(length as u32) as usize,
    }
}

/// What may not stand for a number, but -1 for a next.
const ODD: [&str; 17] = [
    "-2", "-0", "+1", "-1", "--1", "-", "", "00", "01", "-01", "0x1", "1e1", "1.0",
    "4294967296", "4294967551", "18446744073709551616", "99999999999999999999",
];

/// One of these.
pub fn odd_number(random: &mut Random) -> &'static str {
    random.pick(&ODD)
}

/// The text with one of its lines changed.
fn with_odd_line(random: &mut Random, text: &[u8]) -> Vec<u8> {
    let mut lines: Vec<String> = lines(text).map(|line| String::from_utf8_lossy(line).into()).collect();
    let at = random.below(lines.len() as u32) as usize;
    let (odd, line) = (odd_number(random), lines[at].trim_end().to_string());
    let (weight, next) = line.split_once(' ').unwrap_or_default();
    let more = random.pick(&[1, 256, 65_536, 1 << 32]) + weight.parse::<u64>().unwrap_or(0);
    lines[at] = match random.below(18) {
        0 => format!("{line}\r\n"),
        1 => format!("{line} \n"),
        2 => format!(" {line}\n"),
        3 => format!("{weight}  {next}\n"),
        4 => format!("{weight}\t{next}\n"),
        5 => format!("{line}\n\n"),
        6 => format!("{line}\n{line}\n"),
        7 => line,
        8 => String::new(),
        9 | 10 => format!("{odd} {next}\n"),
        11 | 12 => format!("{more} {next}\n"),
        13 => format!("{next} {weight}\n"),
        _ => format!("{weight} {odd}\n"),
    };
    lines.concat().into_bytes()
}
