//! An archive laid out at random places and loaded: its functions are entered through
//! a table, from which the entry points' names jump.

use second::random::Random;
use std::arch::global_asm;
use std::ffi::{c_char, c_int, c_void, CString};
use std::process::Command;

extern "C" {
    fn dlopen(path: *const c_char, mode: c_int) -> *mut c_void;
    fn dlsym(library: *mut c_void, name: *const c_char) -> *const c_void;
    static mut entry_table: [*const c_void; NAMES.len()];
}

const BIND_NOW: c_int = 2;

/// Each name jumps to where its place in the table says.
macro_rules! entries {
    ($($place:literal $name:literal)*) => {
        const NAMES: &[&str] = &[$($name),*];
        global_asm!(
            ".bss", ".balign 8", ".globl entry_table", "entry_table: .skip 256", ".text",
            $(concat!(".globl ", $name, "\n", $name, ": jmp *entry_table+8*", $place, "(%rip)"),)*
            options(att_syntax)
        );
    };
}

entries! {
    0 "seatreg_open" 1 "seatreg_enrol" 2 "seatreg_grant" 3 "seatreg_reach" 4 "seatreg_use" 5 "seatreg_revoke"
    6 "seatreg_downgrade" 7 "seatreg_grant_table" 8 "seatreg_grant_kind" 9 "seatreg_reach_table"
    10 "seatreg_revoke_table" 11 "seatreg_downgrade_table" 12 "seatreg_set_marks" 13 "seatreg_retire"
    14 "seatreg_revoke_slip" 15 "seatreg_downgrade_slip" 16 "seatreg_take_back" 17 "seatreg_order"
    18 "seatreg_write" 19 "seatreg_read" 20 "seatreg_bring_over"
}

/// The table has room for 32.
const _: () = assert!(NAMES.len() <= 32);

/// Where an archive's functions lie.
pub struct Layout {
    places: [*const c_void; NAMES.len()],
}

impl Layout {
    /// What this makes while the names mean this archive's functions.
    pub fn enter<T>(&self, make: impl FnOnce() -> T) -> T {
        // The program has one thread.
        unsafe { entry_table = self.places };
        make()
    }
}

/// In the place of a function that an archive has not: no call's number.
extern "C" fn absent() -> u32 {
    u32::MAX
}

/// An archive laid out so many times.
pub fn layouts(archive: &str, folder: &str, number: usize, seed: u64) -> Vec<Layout> {
    std::fs::create_dir_all(folder).expect("a folder");
    let object = format!("{folder}/seatreg.o");
    run(Command::new("ar").args(["p", archive, "seatreg.o"]), Some(&object));
    let functions = functions(&object);
    let mut random = Random::new(seed);
    (0..number).map(|at| load(&laid_out(&object, &functions, folder, at, &mut random))).collect()
}

/// The sections of an object that hold code, one for each function.
fn functions(object: &str) -> Vec<String> {
    let listed = run(Command::new("objdump").args(["-h", object]), None);
    let names = listed.lines().filter_map(|line| line.split_whitespace().nth(1));
    names.filter(|name| name.starts_with(".text.")).map(str::to_string).collect()
}

/// The functions in an order drawn at random, before each 0 to 3 times 16 bytes; the linker sorts them by number.
fn laid_out(object: &str, functions: &[String], folder: &str, at: usize, random: &mut Random) -> String {
    let [moved, gaps, source, library] = ["o", "gaps.o", "s", "so"].map(|end| format!("{folder}/{at}.{end}"));
    let mut left: Vec<&String> = functions.iter().collect();
    let (mut objcopy, mut text) = (Command::new("objcopy"), String::new());
    for place in 0..functions.len() {
        let function = left.swap_remove(random.below(left.len() as u32) as usize);
        let gap = 16 * random.below(4);
        text += &format!(".section .text.sorted.{:03},\"ax\",@progbits\n.balign 16\n.skip {gap}\n", 2 * place);
        objcopy.arg("--rename-section").arg(format!("{function}=.text.sorted.{:03}", 2 * place + 1));
    }
    std::fs::write(&source, text).expect("a source of gaps");
    run(objcopy.args([object, &moved]), None);
    run(Command::new("gcc").args(["-c", &source, "-o", &gaps]), None);
    run(Command::new("gcc").args(["-shared", &gaps, &moved, "-o", &library]), None);
    library
}

fn load(library: &str) -> Layout {
    let path = CString::new(format!("./{library}")).expect("a path");
    // The library has no code of its own that runs when it is loaded.
    let opened = unsafe { dlopen(path.as_ptr(), BIND_NOW) };
    assert!(!opened.is_null(), "{library} is not loaded");
    let mut places = [std::ptr::null(); NAMES.len()];
    for (place, name) in places.iter_mut().zip(NAMES) {
        let name = CString::new(*name).expect("a name");
        let found = unsafe { dlsym(opened, name.as_ptr()) };
        *place = if found.is_null() { absent as *const c_void } else { found };
    }
    Layout { places }
}

/// Runs a command, which must succeed; what it prints, or writes to the file.
fn run(command: &mut Command, to: Option<&str>) -> String {
    let done = command.output().expect("a command");
    assert!(done.status.success(), "{command:?}: {}", String::from_utf8_lossy(&done.stderr));
    if let Some(path) = to {
        std::fs::write(path, &done.stdout).expect("a file");
        return String::new();
    }
    String::from_utf8(done.stdout).expect("text")
}
