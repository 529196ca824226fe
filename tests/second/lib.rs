//! The second implementation of the seat register, read from documents 01 and
//! 02 alone.

pub mod block;
pub mod call;
pub mod callfile;
pub mod casefile;
pub mod chain;
pub mod cut;
pub mod engine;
pub mod host;
pub mod judge;
pub mod lentcase;
pub mod listfile;
pub mod order;
pub mod random;
pub mod refusal;
pub mod regfile;
pub mod remainder;
pub mod search;
pub mod slip;
pub mod table;
