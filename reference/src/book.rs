//! The engine that keeps the lent table: load, edit, request, write, length and
//! the C call.

use crate::answer::{Cause, Decision, EditAnswer, LoadAnswer, Refusal, RefusedLine, WriteAnswer};
use crate::block::Block;
use crate::declarations::{Declarations, ADMIN};
use crate::evaluate::{held, Outcome, View};
use crate::file;
use crate::graph::TieGraph;
use crate::pairs::PairSet;
use crate::tie::{judge_edit, Change, StandingTies, Tie};
use crate::{length, writer, TABLE_WORDS};

/// Declarations and ties. The default is the empty book, with admin alone.
#[derive(Clone, Debug, Default, PartialEq, Eq)]
pub struct Book {
    declared: Declarations,
    ties: TieGraph,
}

impl Book {
    /// Reads a rights file and stores all its sets. A refused file gives the
    /// empty book on a table of 0; a wrong table keeps its words.
    pub fn load(file: &[u8], table: &mut [u64]) -> (Book, LoadAnswer) {
        if table.len() != TABLE_WORDS {
            let refusal = Refusal::TableLength;
            return (Book::default(), Err(RefusedLine { refusal, line: 0 }));
        }
        table.fill(0);
        match file::read::<TieGraph>(file) {
            Ok(rights) => {
                rights.ties.fill(table);
                let (declared, ties) = (rights.declared, rights.ties);
                (Book { declared, ties }, Ok(rights.lines))
            }
            Err(refused) => (Book::default(), Err(refused)),
        }
    }

    /// Adds or takes one tie and renews the sets that hang on it.
    pub fn edit(&mut self, line: &[u8], table: &mut [u64]) -> EditAnswer {
        if table.len() != TABLE_WORDS {
            return Err(Refusal::TableLength);
        }
        let tie = match judge_edit(line, &self.declared, &self.ties)? {
            Change::Add(tie) => {
                self.ties.add(tie);
                tie
            }
            Change::Remove(tie) => {
                self.ties.remove(&tie);
                tie
            }
        };
        Ok(self.ties.renew_below(edited_holder(&tie), table))
    }

    /// Decides one pass block on the stored sets; nothing is written.
    pub fn request(&self, block: &[u8], table: &[u64]) -> Decision {
        if table.len() != TABLE_WORDS {
            return Decision::Refused(Refusal::TableLength);
        }
        let decided = self.decide(block, table);
        decided.unwrap_or_else(Decision::Refused)
    }

    fn decide(&self, block: &[u8], table: &[u64]) -> Result<Decision, Refusal> {
        let block = Block::read(block)?;
        let entries = block.judge_numbers(&self.declared)?;
        let user = PairSet::stored(table, block.user);
        let holds = |attribute| held(&self.declared, &user, attribute).next().is_some();
        block.judge_mask(&self.declared, holds)?;
        let view = View {
            declared: &self.declared,
            block: &block,
            entries: &entries,
            user,
            object: PairSet::stored(table, block.object),
            admin: PairSet::stored(table, ADMIN),
        };
        Ok(self.run_rules(&view, block.operation))
    }

    /// The rules of the operation in their order; the first TRUE one permits.
    /// Of the causes of UNDEF rules absent is the one that counts.
    fn run_rules(&self, view: &View, operation: usize) -> Decision {
        let mut all = Outcome::False;
        for (number, rule) in self.declared.rules.iter().enumerate() {
            if rule.operation != operation {
                continue;
            }
            let outcome = view.policy(&rule.policy);
            if outcome == Outcome::True {
                return Decision::Permit(number);
            }
            all = all.max(outcome);
        }
        match all {
            Outcome::Absent => Decision::Undefined(Cause::Absent),
            Outcome::Unlike => Decision::Undefined(Cause::Unlike),
            _ => Decision::Deny,
        }
    }

    /// Writes the file as it stands now over the start of `buffer`. A refusal
    /// leaves it untouched.
    pub fn write(&self, buffer: &mut [u8]) -> WriteAnswer {
        writer::lay(&self.text(), buffer)
    }

    /// The file as it stands now, also one that is too long to be written.
    pub fn text(&self) -> Vec<u8> {
        writer::text(&self.declared, &self.ties)
    }

    /// How long the file as it stands now is, also one that is too long to be
    /// written. Nothing is put out for it.
    pub fn length(&self) -> usize {
        length::of_text(&self.declared, &self.ties)
    }

    pub fn declared(&self) -> &Declarations {
        &self.declared
    }

    pub fn ties(&self) -> &TieGraph {
        &self.ties
    }
}

/// The holder that the line names first.
fn edited_holder(tie: &Tie) -> usize {
    match *tie {
        Tie::Parent { child, .. } => child,
        Tie::Member { party, .. } => party,
        Tie::Value { holder, .. } => holder,
    }
}

/// The call for hosts in C: loads, then decides. 0 permit, 64 deny, 65
/// undefined of either sort, else the refusal. The table is as after the load.
pub fn c_call(file: &[u8], block: &[u8], table: &mut [u64]) -> u8 {
    let (book, loaded) = Book::load(file, table);
    if let Err(refused) = loaded {
        return refused.refusal.number();
    }
    match book.request(block, table) {
        Decision::Permit(_) => 0,
        Decision::Deny => 64,
        Decision::Undefined(_) => 65,
        Decision::Refused(refusal) => refusal.number(),
    }
}
