//! Document 01 of Zhulmekov (rights file, edits and pass block) and requests E1
//! (the file as it stands now), E2 (two sorts of undefined), E3 (what one edit
//! costs) and E14 (the file's length told beforehand) of document 02 in plain Rust.
//!
//! Two engines give the same answers. `book` keeps the effective sets in the
//! lent table and brings them up to date; `ledger` works every answer out
//! afresh from declarations and ties. `office` is the program `gate`.

pub mod answer;
pub mod atom;
pub mod block;
pub mod book;
pub mod declarations;
pub mod evaluate;
pub mod file;
pub mod graph;
pub mod ledger;
pub mod length;
pub mod line;
pub mod office;
pub mod pairs;
pub mod policy;
pub mod session;
pub mod tie;
pub mod writer;

pub mod calls;
pub mod coverage;
pub mod generate;
pub mod kit;

pub use answer::{Cause, Decision, EditAnswer, Edited, LoadAnswer, Refusal, RefusedLine, WriteAnswer};
pub use book::{c_call, Book};
pub use ledger::Ledger;
pub use office::{gate, gate_by_ledger};
pub use session::{Answer, Call, Session};

/// Words of 64 bits in the lent table.
pub const TABLE_WORDS: usize = 1024;
