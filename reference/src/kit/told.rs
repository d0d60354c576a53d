//! Call lists that ask for lengths. These are typed: a line stands beside its bytes,
//! its byte 10 among them, as they were counted by hand. Only such numbers are added
//! up here, never the bytes of a text.

use super::list::List;
use super::Kit;

/// A line without its byte 10, and its bytes with it, as it is written.
pub type Counted = (&'static str, usize);

/// The bytes of the first line, which are all that the empty book has.
pub const FIRST_LINE: usize = 9;

pub fn lines(counted: &[Counted]) -> String {
    counted.iter().map(|(line, _)| format!("{line}\n")).collect()
}

/// The first line and these.
pub fn file(counted: &[Counted]) -> String {
    format!("rights=1\n{}", lines(counted))
}

/// The bytes of that file, by the numbers beside its lines.
pub fn bytes(counted: &[Counted]) -> usize {
    FIRST_LINE + counted.iter().map(|(_, bytes)| bytes).sum::<usize>()
}

/// A list, and how long the text is by now, by typed numbers.
pub struct Told {
    pub list: List,
    pub length: usize,
}

impl Told {
    pub fn new() -> Told {
        Told { list: List::new(), length: FIRST_LINE }
    }

    pub fn ask(&mut self) {
        self.list.length(self.length);
    }

    /// An accepted file, and the length of its text.
    pub fn load(&mut self, file: &str, length: usize, words: &str) {
        self.list.load(file, words);
        self.length = length;
        self.ask();
    }

    pub fn load_lines(&mut self, lines: &[Counted]) {
        self.load(&file(lines), bytes(lines), "");
    }

    pub fn refused_load(&mut self, file: &str, answer: &str) {
        self.list.words.clear();
        self.list.refused_load(file, answer);
        self.length = FIRST_LINE;
        self.ask();
    }

    /// An accepted line to add: the text is longer by it.
    pub fn add(&mut self, (line, bytes): (&str, usize), count_and_joins: (usize, usize), words: &str) {
        self.list.edit(&format!("+{line}"), count_and_joins, words);
        self.length += bytes;
        self.ask();
    }

    /// An accepted line to take: the text is shorter by it.
    pub fn take(&mut self, (line, bytes): (&str, usize), count_and_joins: (usize, usize), words: &str) {
        self.list.edit(&format!("-{line}"), count_and_joins, words);
        self.length -= bytes;
        self.ask();
    }

    pub fn refused_edit(&mut self, line: &str, number: u8) {
        self.list.refused_edit(line, number);
        self.ask();
    }

    /// The writer refuses a buffer of one byte less than the length, and fills one
    /// of just that length. The length stays.
    pub fn written(&mut self, text: &str) {
        self.list.unwritten(self.length - 1, 0x55);
        self.list.write(self.length, 0xaa, text);
        self.ask();
    }

    pub fn done(self, kit: &mut Kit, name: &str) {
        self.list.done(kit, name);
    }
}
