//! Register files as they were before document 02's C-18, without the column `pass`, and before
//! C-16, without the column `retired` too.

use generate::filetexts::{example, gone, longest, longest_supported, old_form, without_pass};
use generate::registerfiles::small;
use generate::{full, passregisters, retireregisters};
use second::block::{encode, Register, BLOCK_LEN};
use second::engine::FAST;
use second::random::Random;
use second::regfile::{file_text, read};
use std::io::Write;
use std::process::{Command, Stdio};

/// What makes a file of before C-18 of one of before C-16.
const WITH_RETIRED: [&str; 1] = ["1s/$/ retired/; 2,/^$/{/^$/!s/$/ 0/}"];

/// What makes a new file of one of before C-18: the README's line.
const WITH_PASS: [&str; 8] = ["-e", "1,/^$/b", "-e", "s/bar$/bar pass/", "-e", "t", "-e", "s/$/ 0/"];

/// The text that sed makes of another.
fn edited(text: &[u8], arguments: &[&str]) -> Vec<u8> {
    let mut command = Command::new("sed");
    let mut sed = command.args(arguments).stdin(Stdio::piped()).stdout(Stdio::piped()).spawn().expect("sed runs");
    sed.stdin.take().expect("its input").write_all(text).expect("it reads");
    let output = sed.wait_with_output().expect("it ends");
    assert!(output.status.success());
    output.stdout
}

/// The refusal of a read by our table.
fn refusal(text: &[u8]) -> u32 {
    read(&FAST, &mut [7; BLOCK_LEN], text, b"").refusal
}

/// Registers without and with delegations, the longest files and full ones, and drawn ones.
fn registers() -> Vec<Register> {
    let mut random = Random::new(0x01DF);
    let mut registers = vec![Register::fresh(), example(), longest(), longest_supported(), retireregisters::wide()];
    registers.extend([full::all_enrolled(), full::some_enrolled(), full::large(&mut random)]);
    registers.push(Register { delegations: Vec::new(), ..retireregisters::wide() });
    registers.extend((0..40).map(|_| small(&mut random)));
    registers
}

/// The file of a register is made of an old one, which gets 7.
fn becomes_new(old: &[u8], arguments: &[&[&str]], register: &Register) {
    assert_eq!(refusal(old), 7);
    let new = arguments.iter().fold(old.to_vec(), |text, arguments| edited(&text, arguments));
    assert_eq!(new, file_text(register));
    let mut block = vec![7; BLOCK_LEN];
    if read(&FAST, &mut block, &new, b"").refusal == 0 {
        assert_eq!(block, encode(register));
    }
}

/// With the columns an old file is the file of its register, in which nobody has retired and all
/// delegations are ordinary.
#[test]
fn old_files_become_new_ones() {
    for register in registers() {
        let new = file_text(&register);
        becomes_new(&without_pass(&new), &[&WITH_PASS], &register);
        becomes_new(&old_form(&new), &[&WITH_RETIRED, &WITH_PASS], &register);
    }
}

/// In files of before C-18 some have retired.
#[test]
fn the_retired_stay() {
    for register in [gone(), retireregisters::some_without_one(), retireregisters::full_without_two()] {
        becomes_new(&without_pass(&file_text(&register)), &[&WITH_PASS], &register);
    }
}

/// The old forms of a small file, as they were written.
#[test]
fn the_old_form_is_the_old_file() {
    let old = b"subject marks\n0 0\n1 4\n2 4\n\ngiver receiver weight need bar\n0 1 9 4 0\n1 2 8 0 0\n";
    assert_eq!(old_form(&file_text(&example())), old);
    becomes_new(old, &[&WITH_RETIRED, &WITH_PASS], &example());
    let later = b"subject marks retired\n0 0 0\n1 4 0\n2 4 0\n\ngiver receiver weight need bar\n0 1 9 4 0\n1 2 8 0 0\n";
    assert_eq!(without_pass(&file_text(&example())), later);
    becomes_new(later, &[&WITH_PASS], &example());
    let fresh = b"subject marks retired\n0 0 0\n\ngiver receiver weight need bar\n";
    becomes_new(fresh, &[&WITH_PASS], &Register::fresh());
}

/// A file in which some have retired, or of pass-only delegations, says so: the new one of its
/// old form is another.
#[test]
fn the_columns_say_so() {
    let new = file_text(&gone());
    assert_ne!(edited(&edited(&old_form(&new), &WITH_RETIRED), &WITH_PASS), new);
    assert!(new.starts_with(b"subject marks retired\n0 0 0\n1 4 0\n2 4 0\n3 0 1\n4 1 0\n5 0 1\n6 0 0\n\n"));
    assert_eq!(refusal(&new), 0);
    let new = file_text(&passregisters::example());
    assert_ne!(edited(&without_pass(&new), &WITH_PASS), new);
    assert!(new.ends_with(b"\n\ngiver receiver weight need bar pass\n0 1 3 0 0 1\n1 2 2 0 0 0\n"));
    assert_eq!(refusal(&new), 0);
}
