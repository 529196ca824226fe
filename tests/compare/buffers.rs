//! A call on both sides: through an entry point on lent buffers, and by the
//! second implementation.

use crate::contents::{Asked, Contents};
use crate::draw::{answers_length, block_length, Drawn};
use crate::olds::old_layout;
use crate::entry::{
    entry_bring_over, entry_call, entry_call_table, entry_cut_slip, entry_order, entry_read, entry_take_back, entry_write,
    FileCall,
};
use crate::fault::Fault;
use crate::lent::Lent;
use crate::readers::{due, read, Listed};
use crate::report::{Case, Part, PARTS};
use crate::returned::{come_back, Back};
use crate::standing::{Left, Standing};
use crate::tables::Text;
use second::block::{encode, BLOCK_LEN, OLD_BLOCK_LEN};
use second::random::Random;

/// The buffers lent to the entry points; a buffer that an entry point doesn't take is empty and not lent.
pub struct Buffers {
    pub block: Lent,
    /// The register file of a read, the buffer that a write or an order writes into, the slip, or the old block.
    pub file: Lent,
    /// The table's text.
    pub table: Lent,
    pub answers: Lent,
}

impl Buffers {
    pub fn new() -> Buffers {
        Buffers { block: Lent::new(), file: Lent::new(), table: Lent::new(), answers: Lent::new() }
    }

    /// Makes a call on both sides and compares all that it returned and left. The block is left
    /// as the second implementation left it: the entry point's is the same, or the case differs.
    pub fn call(&mut self, random: &mut Random, drawn: Drawn, block: &mut Vec<u8>, fault: &Fault) -> Case {
        let Drawn { asked, text, file } = drawn;
        let table = text.bytes.as_deref().and_then(fault.text);
        let lent = Contents {
            block: sized(block, block_length(random)),
            file,
            table: table.unwrap_or_default().to_vec(),
            answers: (0..answers_length(random)).map(|_| random.next() as u8).collect(),
        };
        self.lend(random, &lent);

        let mut left = Contents { table: text.bytes.clone().unwrap_or_default(), ..lent.clone() };
        let due = left.call(&asked);
        let standing = Standing::of(&asked, &text.table, block, due);
        let before = block.clone();
        let number = match self.wrong(&asked, &lent, standing.as_ref(), fault) {
            Some(number) => number,
            None => self.enter(&asked, table.is_some(), fault),
        };
        let back = self.back(random, &asked, &text, due, &left, fault);
        (fault.after)(number, self);
        let listed_right = number != 0 || due != 0 || self.listed_right(&asked, fault.listed);

        let same = |part: &Part| match part {
            Part::Number => number == due,
            Part::Block => self.block.content() == left.block,
            Part::Answers => self.answers.content() == left.answers,
            Part::File => self.file.content() == left.file,
            Part::Table => self.table.content() == lent.table,
            Part::Guards => self.all().iter().all(|buffer| buffer.is_guarded()),
            Part::Listed => listed_right,
            Part::Back => back != Some(Back::Wrong),
        };
        let differs = PARTS.into_iter().filter(|part| !same(part)).collect();
        if left.block.len() == BLOCK_LEN {
            *block = left.block.clone();
        }
        Case { asked, text, standing, before, number, due, left, back, differs }
    }

    fn all(&self) -> [&Lent; 4] {
        [&self.block, &self.file, &self.table, &self.answers]
    }

    /// Lends these bytes, each buffer at some alignment and among guard bytes of some value.
    fn lend(&mut self, random: &mut Random, lent: &Contents) {
        let buffers = [
            (&mut self.block, &lent.block),
            (&mut self.file, &lent.file),
            (&mut self.table, &lent.table),
            (&mut self.answers, &lent.answers),
        ];
        for (buffer, content) in buffers {
            buffer.lend(content, random.below(8) as usize, random.next() as u8);
        }
    }

    /// The number that the entry point returns.
    fn enter(&mut self, asked: &Asked, with_table: bool, fault: &Fault) -> u32 {
        match asked {
            Asked::Call(n) if with_table => {
                entry_call_table(&(fault.before)(n), &mut self.block, &mut self.table, &mut self.answers)
            }
            Asked::Call(n) => entry_call(&(fault.before)(n), &mut self.block, &mut self.answers),
            Asked::CutSlip(n) => {
                entry_cut_slip(n, &mut self.block, &mut self.table, &mut self.file, &mut self.answers)
            }
            Asked::TakeBack(by) => {
                entry_take_back(*by, &mut self.block, &mut self.table, &mut self.file, &mut self.answers)
            }
            Asked::Order(receiver) => {
                entry_order(*receiver, &mut self.block, &mut self.table, &mut self.file, &mut self.answers)
            }
            Asked::File(FileCall::Write) => entry_write(&mut self.block, &mut self.file, &mut self.answers),
            Asked::File(FileCall::Read) => {
                entry_read(&mut self.block, &mut self.file, &mut self.table, &mut self.answers)
            }
            Asked::BringOver => entry_bring_over(&mut self.file, &mut self.block, &mut self.answers),
        }
    }

    /// For the self test: the number that a wrong call returns, the buffers being as it leaves them.
    /// Nothing where the fault has no wrong call in place of the entry point.
    fn wrong(&mut self, asked: &Asked, lent: &Contents, standing: Option<&Standing>, fault: &Fault) -> Option<u32> {
        if let Some(standing) = standing.filter(|standing| (fault.when)(standing)) {
            return Some(self.leave(&(fault.does)(standing)));
        }
        let (number, left) = match asked {
            Asked::Call(n) => fault.call(n.call)?(lent, n),
            Asked::CutSlip(n) => fault.cut_slip?(lent, n),
            Asked::TakeBack(by) => fault.take_back?(lent, *by),
            Asked::Order(receiver) => fault.order?(lent, *receiver),
            Asked::File(FileCall::Write) => fault.write?(lent),
            Asked::File(FileCall::Read) => fault.read?(lent),
            Asked::BringOver => fault.bring_over?(lent),
        };
        self.block.write(&left.block);
        self.file.write(&left.file);
        self.answers.write(&left.answers);
        Some(number)
    }

    /// For the self test: the buffers as a wrong grant leaves them, and the number that it returns.
    fn leave(&mut self, left: &Left) -> u32 {
        if left.number == 0 {
            self.block.write(&encode(&left.register));
            self.answers.write(&[left.answer, 0, 0].map(i32::to_le_bytes).concat());
        }
        left.number
    }

    /// What becomes of an accepted write that is read back.
    fn back(
        &self, random: &mut Random, asked: &Asked, table: &Text, due: u32, left: &Contents, fault: &Fault,
    ) -> Option<Back> {
        if !matches!(asked, Asked::File(FileCall::Write)) || due != 0 {
            return None;
        }
        let mut file = self.file.content()[..left.answer()].to_vec();
        (fault.carried)(&mut file);
        Some(come_back(random, &left.block, &file, table))
    }

    /// After an accepted call the readers list what the second implementation decodes.
    fn listed_right(&self, asked: &Asked, change: fn(&mut Listed)) -> bool {
        let (block, answers) = (self.block.content(), self.answers.content());
        let slip = matches!(asked, Asked::CutSlip(_) | Asked::TakeBack(_)).then(|| self.file.content());
        let mut listed = read(block, answers, slip);
        change(&mut listed);
        due(block, answers, slip) == Some(listed)
    }
}

/// The front of a block, or the block with zeros after it; in the old length, the block as it was laid out then.
fn sized(block: &[u8], length: usize) -> Vec<u8> {
    if length == OLD_BLOCK_LEN {
        return old_layout(block);
    }
    let mut bytes = block.to_vec();
    bytes.resize(length, 0);
    bytes
}
