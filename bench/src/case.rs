//! One thing that is measured: a file, and the calls that are timed on its book.

use crate::joins;
use crate::told::Told;

pub struct Case {
    /// The table that it is printed in.
    pub part: &'static str,
    pub name: String,
    /// How many times faster than the reference the library is to be.
    pub goal: Option<f64>,
    pub file: Vec<u8>,
    /// Edits that are made once behind the load, and not timed: ties that the file has no room for.
    pub before: Vec<String>,
    pub calls: Calls,
}

/// What is timed, with the answer that it is to get, so that nothing else is timed by mistake.
pub enum Calls {
    /// The load of the case's file itself.
    Load,
    /// Edits one after another, which leave the book as it was: a tie put and taken, or refused edits.
    Edits(Vec<(String, Told)>),
    Request(Vec<u8>, Told),
    /// The write of the file as it stands now, which has so many bytes, into a buffer that fits every file.
    Write(usize),
    /// The length of the file as it stands now, told beforehand.
    Length(usize),
    /// The one call for hosts in C, with the case's file.
    Pass(Vec<u8>, u32),
}

impl Case {
    pub fn new(part: &'static str, name: impl Into<String>, file: &[u8], calls: Calls) -> Case {
        Case { part, name: name.into(), goal: None, file: file.to_vec(), before: Vec::new(), calls }
    }

    pub fn after(mut self, edits: Vec<String>) -> Case {
        self.before = edits;
        self
    }

    pub fn with_goal(mut self, goal: f64) -> Case {
        self.goal = Some(goal);
        self
    }

    /// The joins of one edit, of a pair their mean; none where nothing is accepted.
    pub fn joins(&self) -> Option<f64> {
        let Calls::Edits(edits) = &self.calls else {
            return None;
        };
        let all: u32 = edits.iter().map(|(_, told)| told.joins).sum();
        (all > 0).then(|| f64::from(all) / edits.len() as f64)
    }

    pub fn lines(&self) -> usize {
        self.file.iter().filter(|&&byte| byte == b'\n').count()
    }
}

impl Calls {
    /// A tie that is put into what the file says and taken again, or taken and put; each edit changes `count` stored
    /// sets. A tie up is a join of its holder's while it stands.
    pub fn pair(file: &[u8], first: char, tie: &str, count: usize) -> Calls {
        let second = if first == '+' { '-' } else { '+' };
        let (key, fields) = tie.split_once('=').unwrap_or_default();
        let standing = joins::of_edit(file, fields.split(',').next().unwrap_or_default());
        let own = usize::from(key != "value");
        let edit = |sign: char| {
            let joins = match (first, sign) {
                ('+', '+') => standing + own,
                ('-', '-') => standing - own,
                _ => standing,
            };
            (format!("{sign}{tie}\n"), Told::edited(count, joins))
        };
        Calls::Edits(vec![edit(first), edit(second)])
    }

    /// An edit that is refused with `number`.
    pub fn refused(edit: &str, number: u32) -> Calls {
        Calls::Edits(vec![(format!("{edit}\n"), Told::new(number, 0))])
    }
}
