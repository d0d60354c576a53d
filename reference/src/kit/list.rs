//! Call lists with their typed answers.

use super::Kit;
use crate::calls::hex;
use std::ops::Range;

/// A call list and what it prints, call by call.
pub struct List {
    calls: String,
    answers: Vec<String>,
    /// Edits that the ledger makes and does not answer.
    unanswered: Range<usize>,
    /// The words that are not 0 by now.
    pub words: String,
}

impl List {
    pub fn new() -> List {
        List::on("1024", "")
    }

    pub fn on(table: &str, words: &str) -> List {
        let calls = format!("table={table}\n");
        List { calls, answers: Vec::new(), unanswered: 0..0, words: words.to_string() }
    }

    fn call(&mut self, call: String, answer: String) {
        self.calls += &format!("{call}\n");
        self.answers.push(format!("{answer} words={}", self.words));
    }

    /// An accepted file.
    pub fn load(&mut self, file: &str, words: &str) {
        self.words = words.to_string();
        let lines = file.lines().count();
        self.call(format!("load={}", hex(file.as_bytes())), format!("load=0,{lines}"));
    }

    pub fn refused_load(&mut self, file: &str, answer: &str) {
        self.call(format!("load={}", hex(file.as_bytes())), answer.to_string());
    }

    /// An accepted edit, its count and joins, and the words after it.
    pub fn edit(&mut self, line: &str, (count, joins): (usize, usize), words: &str) {
        self.words = words.to_string();
        self.call(format!("edit={}0a", hex(line.as_bytes())), format!("edit=0,{count},{joins}"));
    }

    /// Accepted edits that change no set, each with its joins.
    pub fn edits(&mut self, lines: &[(impl AsRef<str>, usize)]) {
        for (line, joins) in lines {
            self.edit(line.as_ref(), (0, *joins), &self.words.clone());
        }
    }

    /// Such edits, once in a list, that are too many for the ledger to answer.
    pub fn edits_unanswered_by_ledger(&mut self, lines: &[(impl AsRef<str>, usize)]) {
        let first = self.answers.len();
        self.edits(lines);
        self.unanswered = first..self.answers.len();
    }

    pub fn refused_edit(&mut self, line: &str, number: u8) {
        self.call(format!("edit={}0a", hex(line.as_bytes())), format!("edit={number},0,0"));
    }

    pub fn request(&mut self, block: &str, answer: &str) {
        self.call(format!("request={block}"), answer.to_string());
    }

    /// A buffer that the text fits into; behind it stands what stood there.
    pub fn write(&mut self, length: usize, byte: u8, text: &str) {
        let behind = vec![byte; length - text.len()];
        let buffer = hex(text.as_bytes()) + &hex(&behind);
        let answer = format!("write=0,{} buffer={buffer}", text.len());
        self.call(format!("write={length},{byte:02x}"), answer);
    }

    /// A buffer that the text does not fit into, or one for a text that is too
    /// long for any: it stays as it was.
    pub fn unwritten(&mut self, length: usize, byte: u8) {
        let answer = format!("write=18,0 buffer={}", hex(&vec![byte; length]));
        self.call(format!("write={length},{byte:02x}"), answer);
    }

    /// The length that is told: typed, or added up from typed numbers.
    pub fn length(&mut self, bytes: usize) {
        self.call("length=".to_string(), format!("length={bytes}"));
    }

    pub fn done(self, kit: &mut Kit, name: &str) {
        kit.case_with_unanswered(name, self.calls, &self.answers.join(" "), self.unanswered);
    }
}
