//! What holds of the generated cases of each kind whose lines have lent bytes: `file`, `slip`
//! and `pass`.

use generate::lent_files;
use second::block::decode;
use second::call::Outcome;
use second::callfile::{used_columns, values_of, MOST_INPUT};
use second::casefile::MOST_BYTES;
use second::engine::{Engine, FAST};
use second::lentcase::{case_line, expected_text, read_case, Bytes, LentCase, MOST_LENT};
use second::refusal::Call;

/// The files are small, and each reads back to what is expected of it; answers how many bytes
/// they have.
pub fn read_back(cases: &[LentCase]) -> usize {
    let (mut lines, mut bytes) = (0, 0);
    for file in lent_files(cases) {
        assert!(file.cases.len() <= MOST_INPUT && file.expected.len() <= MOST_INPUT);
        assert_eq!(expected_text(&FAST, file.cases.as_bytes()), Ok(file.expected.clone()));
        assert!(file.cases.lines().next().is_some_and(|line| !line.contains('=')));
        lines += file.cases.lines().count();
        bytes += file.cases.len() + file.expected.len();
    }
    assert_eq!(lines, cases.len());
    bytes
}

/// Columns that a call does not use are 0, lengths are within those of the program, and the
/// line reads back, after any bytes.
pub fn keep_the_form(cases: &[LentCase]) {
    let mut before = Bytes { lent: vec![7; 4381], ..Bytes::default() };
    for case in cases {
        let on = &case.on;
        assert!(on.lent.len() <= MOST_LENT && on.table.len() <= MOST_BYTES && on.block.len() <= MOST_BYTES);
        if let Some(n) = case.passed() {
            let used = used_columns(n.call);
            assert!(values_of(&n)[1..].iter().zip(used).all(|(&value, used)| used || value == 0));
        }
        for (before, line) in [(on, case_line(case, None)), (&before, case_line(case, Some(&before)))] {
            assert_eq!(read_case(line.trim_end().as_bytes(), before).as_ref(), Some(case));
        }
        assert!(case_line(case, Some(on)).ends_with(" = = =\n"));
        before = on.clone();
    }
}

/// How many cases were run with an engine too, and how many had another result.
pub fn compared(cases: &[LentCase], engine: &Engine, of: fn(&Bytes) -> bool) -> (u32, u32) {
    let (mut all, mut differing) = (0, 0);
    let is_chain = |case: &LentCase| case.passed().is_some_and(|n| n.call == Call::Chain);
    for case in cases.iter().filter(|case| !is_chain(case) && of(&case.on)) {
        all += 1;
        differing += (case.made(&FAST) != case.made(engine)) as u32;
    }
    (all, differing)
}

/// A case and its recorded line.
pub type Recorded = (&'static LentCase, String);

/// The cases on blocks that take little time.
pub fn recorded(cases: &'static [LentCase]) -> Vec<Recorded> {
    let few = |case: &&LentCase| decode(&case.on.block).is_none_or(|register| register.delegations.len() <= 100);
    let line = |case: &'static LentCase| {
        let (outcome, left) = case.made(&FAST);
        (case, case.line(&outcome, &left))
    };
    cases.iter().filter(few).map(line).collect()
}

/// How many cases have another line than the recorded one.
pub fn noticed_in(lines: &[Recorded], program: impl Fn(&LentCase) -> (Outcome, Bytes)) -> usize {
    let other = |case: &LentCase, line: &String| {
        let (outcome, left) = program(case);
        case.line(&outcome, &left) != *line
    };
    lines.iter().filter(|(case, line)| other(case, line)).count()
}
