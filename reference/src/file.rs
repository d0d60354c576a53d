//! The rights file, read as its lines one after another.

use crate::answer::{Refusal, RefusedLine};
use crate::declarations::Declarations;
use crate::line::{key_and_rest, pieces, Key};
use crate::tie::{self, StandingTies};

pub const FILE_LIMIT: usize = 32_768;

pub const FIRST_LINE: &[u8] = b"rights=1\n";

/// What a file gives: declarations, ties and the number of lines read.
pub struct Rights<T> {
    pub declared: Declarations,
    pub ties: T,
    pub lines: usize,
}

/// Reads a whole file. The first offending line decides.
pub fn read<T: StandingTies>(file: &[u8]) -> Result<Rights<T>, RefusedLine> {
    let refuse = |refusal, line| Err(RefusedLine { refusal, line });
    if file.len() > FILE_LIMIT {
        return refuse(Refusal::FileTooLong, 0);
    }
    if !file.starts_with(FIRST_LINE) {
        return refuse(Refusal::FirstLine, 1);
    }
    let mut rights = Rights { declared: Declarations::default(), ties: T::default(), lines: 1 };
    let mut last_key = None;
    for line in pieces(&file[FIRST_LINE.len()..]) {
        rights.lines += 1;
        match rights.take_line(line, last_key) {
            Ok(key) => last_key = Some(key),
            Err(refusal) => return refuse(refusal, rights.lines),
        }
    }
    Ok(rights)
}

impl<T: StandingTies> Rights<T> {
    /// Takes in one line after the first and gives its key.
    fn take_line(&mut self, line: &[u8], last_key: Option<Key>) -> Result<Key, Refusal> {
        let (key, rest) = key_and_rest(line)?;
        if Some(key) < last_key {
            return Err(Refusal::KeyOrder);
        }
        if key.is_tie() {
            let tie = tie::read(key, rest, &self.declared)?;
            tie::judge_adding(&tie, &self.ties)?;
            self.ties.add(tie);
        } else {
            self.declared.declare(key, rest)?;
        }
        Ok(key)
    }
}
