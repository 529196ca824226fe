//! Document 01's example P5 before and after its cut. The calls are made through
//! the archive's entry points, and what is drawn is read out of the blocks that
//! the archive left.

use crate::entry::entry_call;
use crate::lent::Lent;
use crate::picture::{picture, Cut};
use generate::examples;
use second::block::{decode, Register, BLOCK_LEN};
use second::host::ANSWERS_LEN;
use second::refusal::Passed;

const EXAMPLE: &str = "P5";

pub fn draw() -> String {
    let example = examples::proved().into_iter().find(|e| e.name == EXAMPLE).expect("the example is there");
    let mut calls = example.calls();
    let cut = calls.pop().expect("the cut is the last call");
    let mut host = Host::new();
    host.call(&generate::open());
    for call in &calls {
        host.call(call);
    }
    let before = host.register();
    let answers = host.call(&cut);
    let after = host.register();
    picture(&Cut { name: EXAMPLE, before, after, cut, answers })
}

/// The two buffers that are lent to every call.
struct Host {
    block: Lent,
    answers: Lent,
}

impl Host {
    fn new() -> Host {
        let mut host = Host { block: Lent::new(), answers: Lent::new() };
        host.block.lend(&[0; BLOCK_LEN], 0, 0);
        host.answers.lend(&[0; ANSWERS_LEN], 0, 0);
        host
    }

    /// Makes a call that must be accepted; hands back its answers.
    fn call(&mut self, n: &Passed) -> [i32; 3] {
        assert_eq!(entry_call(n, &mut self.block, &mut self.answers), 0, "refused: {n:?}");
        let bytes = self.answers.content();
        [0, 4, 8].map(|at| i32::from_le_bytes([bytes[at], bytes[at + 1], bytes[at + 2], bytes[at + 3]]))
    }

    fn register(&self) -> Register {
        decode(self.block.content()).expect("an accepted call leaves a well-formed block")
    }
}
