//! Slow cuts, found by a search on the time that a revocation takes. Each file has
//! a block of 2,180 bytes, which is brought over, and then by, giver and receiver of
//! the revocation.

use super::*;
use second::block::{brought, OLD_BLOCK_LEN};

/// A slow cut: its block with its call, and how many rounds it takes.
pub struct Slow {
    pub bytes: &'static [u8],
    pub rounds: u32,
}

/// Well formed and not supported; supported; and two made by grants from open on.
pub const SLOW: [Slow; 4] = [
    Slow { bytes: include_bytes!("slow/any.bin"), rounds: 302 },
    Slow { bytes: include_bytes!("slow/supported.bin"), rounds: 280 },
    Slow { bytes: include_bytes!("slow/granted_446.bin"), rounds: 446 },
    Slow { bytes: include_bytes!("slow/granted_286.bin"), rounds: 286 },
];

impl Slow {
    pub fn block(&self) -> Vec<u8> {
        brought(&self.bytes[..OLD_BLOCK_LEN]).unwrap_or_default()
    }

    pub fn cut(&self) -> Passed {
        let [by, giver, receiver] = [0, 1, 2].map(|at| self.bytes[OLD_BLOCK_LEN + at] as u32);
        revoke(by, giver, receiver)
    }
}

pub fn cases(kind: &Kind) -> Vec<Case> {
    match kind.name {
        "cut" => SLOW.iter().map(|slow| on(&slow.block(), slow.cut())).collect(),
        _ => Vec::new(),
    }
}
