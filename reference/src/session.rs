//! Lists of calls on one table, answered by either engine.

use crate::answer::{Decision, EditAnswer, LoadAnswer, WriteAnswer};
use crate::book::Book;
use crate::ledger::Ledger;
use crate::TABLE_WORDS;

#[derive(Clone, Debug, PartialEq, Eq)]
pub enum Call {
    Load(Vec<u8>),
    Edit(Vec<u8>),
    Request(Vec<u8>),
    /// No call of the ledger's: it changes neither book nor table.
    Write(Buffer),
    /// Nor does this.
    Length,
}

/// A buffer to write into: its length, and the byte that it is full of.
#[derive(Clone, Copy, Debug, PartialEq, Eq)]
pub struct Buffer {
    pub length: usize,
    pub byte: u8,
}

impl Buffer {
    pub fn filled(self) -> Vec<u8> {
        vec![self.byte; self.length]
    }
}

#[derive(Clone, Debug, PartialEq, Eq)]
pub enum Answer {
    Load(LoadAnswer),
    Edit(EditAnswer),
    Request(Decision),
    /// With all bytes of the buffer after the call.
    Write(WriteAnswer, Vec<u8>),
    /// Bytes of the text; it refuses nothing.
    Length(usize),
}

/// Something that answers calls one after another. The engines do, each with
/// the book of the last load or edit.
pub trait Engine {
    fn load(&mut self, file: &[u8]) -> LoadAnswer;
    fn edit(&mut self, line: &[u8]) -> EditAnswer;
    fn request(&mut self, block: &[u8]) -> Decision;
    fn write(&self, buffer: &mut [u8]) -> WriteAnswer;
    fn length(&self) -> usize;

    fn call(&mut self, call: &Call) -> Answer {
        match call {
            Call::Load(file) => Answer::Load(self.load(file)),
            Call::Edit(line) => Answer::Edit(self.edit(line)),
            Call::Request(block) => Answer::Request(self.request(block)),
            Call::Write(lent) => {
                let mut buffer = lent.filled();
                let written = self.write(&mut buffer);
                Answer::Write(written, buffer)
            }
            Call::Length => Answer::Length(self.length()),
        }
    }
}

/// The table-keeping engine with the table that is lent to it.
pub struct TableEngine {
    pub book: Book,
    pub table: Vec<u64>,
}

impl TableEngine {
    pub fn new(table: Vec<u64>) -> TableEngine {
        let book = Book::default();
        TableEngine { book, table }
    }
}

impl Engine for TableEngine {
    fn load(&mut self, file: &[u8]) -> LoadAnswer {
        let (book, answer) = Book::load(file, &mut self.table);
        self.book = book;
        answer
    }

    fn edit(&mut self, line: &[u8]) -> EditAnswer {
        self.book.edit(line, &mut self.table)
    }

    fn request(&mut self, block: &[u8]) -> Decision {
        self.book.request(block, &self.table)
    }

    fn write(&self, buffer: &mut [u8]) -> WriteAnswer {
        self.book.write(buffer)
    }

    fn length(&self) -> usize {
        self.book.length()
    }
}

/// The ledger, fed with the table's length besides each input.
pub struct LedgerEngine {
    pub ledger: Ledger,
    pub table_length: usize,
}

impl LedgerEngine {
    pub fn new(table_length: usize) -> LedgerEngine {
        let ledger = Ledger::default();
        LedgerEngine { ledger, table_length }
    }
}

impl Engine for LedgerEngine {
    fn load(&mut self, file: &[u8]) -> LoadAnswer {
        self.ledger.load(file, self.table_length)
    }

    fn edit(&mut self, line: &[u8]) -> EditAnswer {
        self.ledger.edit(line, self.table_length)
    }

    fn request(&mut self, block: &[u8]) -> Decision {
        self.ledger.request(block, self.table_length)
    }

    fn write(&self, buffer: &mut [u8]) -> WriteAnswer {
        let (written, after) = self.ledger.write(buffer);
        buffer.copy_from_slice(&after);
        written
    }

    fn length(&self) -> usize {
        self.ledger.length()
    }
}

/// A list of calls that begins with a load, and the table they all use.
#[derive(Clone, Debug)]
pub struct Session {
    pub table: Vec<u64>,
    pub calls: Vec<Call>,
}

impl Session {
    /// Runs both engines, compares answer, length of the text and all words after
    /// every call, and gives the answers. The error says at which call they part.
    pub fn compare(&self) -> Result<Vec<Answer>, String> {
        let mut by_table = TableEngine::new(self.table.clone());
        let mut by_ledger = LedgerEngine::new(self.table.len());
        let mut answers = Vec::new();
        for (place, call) in self.calls.iter().enumerate() {
            let (kept, fresh) = (by_table.call(call), by_ledger.call(call));
            if kept != fresh {
                return Err(format!("call {place}: table {kept:?}, ledger {fresh:?}"));
            }
            let (counted, put_out) = (by_table.length(), by_ledger.length());
            if counted != put_out {
                return Err(format!("call {place}: length {counted}, ledger {put_out}"));
            }
            let right = if self.table.len() == TABLE_WORDS {
                by_table.table == by_ledger.ledger.words()
            } else {
                by_table.table == self.table
            };
            if !right {
                return Err(format!("call {place}: words differ after {kept:?}"));
            }
            answers.push(kept);
        }
        Ok(answers)
    }
}
