//! What include/seatreg.h has to say, by the second implementation.

use crate::entry::ENTRIES;
use crate::report::{name, refusals};
use second::block::{BLOCK_LEN, MOST_DELEGATIONS, MOST_SUBJECTS, OLD_BLOCK_LEN, ORDINARY, PASS_ONLY};
use second::callfile::joined;
use second::chain::{NONE, START};
use second::host::ANSWERS_LEN;
use second::refusal::ORDER_BUFFER;
use second::regfile::LEAST_TEXT;
use second::slip::{DOWNGRADE, REVOKE, SLIP_LEN};

/// The refusals of each entry point in their order, then the constants.
pub fn print() -> bool {
    for entry in ENTRIES {
        println!("{}: {}", name(entry), joined(&refusals(entry)));
    }
    println!("BLOCK_SIZE {BLOCK_LEN}");
    println!("ANSWERS_SIZE {ANSWERS_LEN}");
    println!("ORDER_SIZE {ORDER_BUFFER}");
    println!("SLIP_SIZE {SLIP_LEN}");
    println!("OLD_BLOCK_SIZE {OLD_BLOCK_LEN}");
    println!("TEXT_SIZE {LEAST_TEXT}");
    println!("OWNER 0");
    println!("MOST_SUBJECTS {MOST_SUBJECTS}");
    println!("MOST_DELEGATIONS {MOST_DELEGATIONS}");
    println!("USE_ONLY 0");
    println!("UNLIMITED {START}");
    println!("ORDINARY {ORDINARY}");
    println!("PASS_ONLY {PASS_ONLY}");
    println!("MOST_MARKS {}", u16::MAX);
    println!("NO_REACH ({NONE})");
    println!("SLIP_REVOKE {REVOKE}");
    println!("SLIP_DOWNGRADE {DOWNGRADE}");
    true
}
