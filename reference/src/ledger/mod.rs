//! The ledger: every answer worked out afresh from declarations and ties,
//! in the words of document 01. Slow, and meant to be obvious.

mod cause;
mod reading;
mod writing;

use crate::answer::{Decision, EditAnswer, Edited, LoadAnswer, Refusal, RefusedLine, WriteAnswer};
use crate::block::Block;
use crate::declarations::{Declarations, ADMIN};
use crate::file;
use crate::tie::{judge_edit, Change, StandingTies, Tie};
use crate::TABLE_WORDS;
use reading::Reading;
use std::collections::BTreeSet;

/// A set of pair numbers.
type Pairs = BTreeSet<usize>;

/// T: the standing ties, as one set and nothing else.
#[derive(Clone, Debug, Default, PartialEq, Eq)]
pub struct TieSet(BTreeSet<Tie>);

impl TieSet {
    /// Parents of a group, or the groups that a party is a member of.
    fn right_above(&self, holder: usize) -> BTreeSet<usize> {
        let parent = |parent| Tie::Parent { child: holder, parent };
        let member = |group| Tie::Member { party: holder, group };
        let parents = self.0.range(parent(0)..=parent(usize::MAX));
        let groups = self.0.range(member(0)..=member(usize::MAX));
        let above = |tie: &Tie| match *tie {
            Tie::Parent { parent, .. } => Some(parent),
            Tie::Member { group, .. } => Some(group),
            Tie::Value { .. } => None,
        };
        parents.chain(groups).filter_map(above).collect()
    }

    /// How many ties of T lead from `holder` to a parent or group; a value tie
    /// leads to none.
    fn up(&self, holder: usize) -> usize {
        let from_holder = |tie: &&Tie| match **tie {
            Tie::Parent { child, .. } => child == holder,
            Tie::Member { party, .. } => party == holder,
            Tie::Value { .. } => false,
        };
        self.0.iter().filter(from_holder).count()
    }

    /// All holders to which a chain of ties leads from `holder`.
    fn above(&self, holder: usize) -> BTreeSet<usize> {
        let mut found = self.right_above(holder);
        let mut waiting: Vec<usize> = found.iter().copied().collect();
        while let Some(next) = waiting.pop() {
            for one in self.right_above(next) {
                if found.insert(one) {
                    waiting.push(one);
                }
            }
        }
        found
    }

    /// `+t` adds t, `-t` removes it.
    fn make(&mut self, change: Change) {
        match change {
            Change::Add(tie) => self.add(tie),
            Change::Remove(tie) => self.remove(&tie),
        }
    }

    fn direct(&self, holder: usize) -> Pairs {
        let value = |pair| Tie::Value { holder, pair };
        let given = self.0.range(value(0)..=value(usize::MAX));
        let pair = |tie: &Tie| match *tie {
            Tie::Value { pair, .. } => Some(pair),
            _ => None,
        };
        given.filter_map(pair).collect()
    }

    /// The direct pairs of the holder and of all above it. Inheritance step
    /// by step along acyclic ties adds up to just these.
    pub fn effective(&self, holder: usize) -> Pairs {
        let mut pairs = self.direct(holder);
        for one in self.above(holder) {
            pairs.extend(self.direct(one));
        }
        pairs
    }
}

impl StandingTies for TieSet {
    fn stands(&self, tie: &Tie) -> bool {
        self.0.contains(tie)
    }

    fn leads_up(&self, low: usize, high: usize) -> bool {
        self.above(low).contains(&high)
    }

    fn add(&mut self, tie: Tie) {
        self.0.insert(tie);
    }

    fn remove(&mut self, tie: &Tie) {
        self.0.remove(tie);
    }
}

/// The state: declarations D and ties T. The default is the empty D and T.
#[derive(Clone, Debug, Default, PartialEq, Eq)]
pub struct Ledger {
    declared: Declarations,
    ties: TieSet,
}

impl Ledger {
    pub fn load(&mut self, file: &[u8], table_length: usize) -> LoadAnswer {
        *self = Ledger::default();
        if table_length != TABLE_WORDS {
            let refusal = Refusal::TableLength;
            return Err(RefusedLine { refusal, line: 0 });
        }
        let rights = file::read::<TieSet>(file)?;
        self.declared = rights.declared;
        self.ties = rights.ties;
        Ok(rights.lines)
    }

    pub fn edit(&mut self, line: &[u8], table_length: usize) -> EditAnswer {
        if table_length != TABLE_WORDS {
            return Err(Refusal::TableLength);
        }
        let change = judge_edit(line, &self.declared, &self.ties)?;
        let before = self.effective_sets();
        self.ties.make(change);
        let after = self.effective_sets();
        let pairs = before.iter().zip(&after);
        let count = pairs.filter(|(old, new)| old != new).count();
        let edited = self.first_named(line).expect("an accepted line names its holder");
        Ok(Edited { count, joins: self.joins(edited) })
    }

    /// An edit on a table of the right length without its answer: T changes as `edit`
    /// changes it, and no set is worked out.
    pub fn change(&mut self, line: &[u8]) -> Result<(), Refusal> {
        let change = judge_edit(line, &self.declared, &self.ties)?;
        self.ties.make(change);
        Ok(())
    }

    /// The edited holder is the first one named: between the line's `=` and its
    /// first comma.
    fn first_named(&self, line: &[u8]) -> Option<usize> {
        let equals = line.iter().position(|&byte| byte == b'=')?;
        let comma = line.iter().position(|&byte| byte == b',')?;
        self.declared.holder(&line[equals + 1..comma])
    }

    /// For the edited holder and each one below it, one plus the number of its
    /// ties up, summed; on T after the edit.
    fn joins(&self, edited: usize) -> usize {
        let holders = 0..self.declared.holders.len();
        let met = holders.filter(|&holder| holder == edited || self.ties.above(holder).contains(&edited));
        met.map(|holder| 1 + self.ties.up(holder)).sum()
    }

    pub fn request(&self, block: &[u8], table_length: usize) -> Decision {
        if table_length != TABLE_WORDS {
            return Decision::Refused(Refusal::TableLength);
        }
        self.decide(block).unwrap_or_else(Decision::Refused)
    }

    /// The writer's answer, and what the buffer must hold afterwards.
    pub fn write(&self, buffer: &[u8]) -> (WriteAnswer, Vec<u8>) {
        let text = writing::file(&self.declared, &self.ties);
        if text.len() > buffer.len() || text.len() > 32_768 {
            return (Err(Refusal::DoesNotFit), buffer.to_vec());
        }
        let after = [&text, &buffer[text.len()..]].concat();
        (Ok(text.len()), after)
    }

    /// The length of the writer's text, found by putting it out.
    pub fn length(&self) -> usize {
        writing::file(&self.declared, &self.ties).len()
    }

    fn effective_sets(&self) -> Vec<Pairs> {
        let holders = 0..self.declared.holders.len();
        holders.map(|holder| self.ties.effective(holder)).collect()
    }

    /// The 1,024 words that a table must have now.
    pub fn words(&self) -> Vec<u64> {
        let mut words = vec![0; TABLE_WORDS];
        for (holder, pairs) in self.effective_sets().iter().enumerate() {
            for pair in pairs {
                words[4 * holder + pair / 64] += 1 << (pair % 64);
            }
        }
        words
    }

    fn decide(&self, block: &[u8]) -> Result<Decision, Refusal> {
        let block = Block::read(block)?;
        let entries = block.judge_numbers(&self.declared)?;
        let reading = Reading {
            declared: &self.declared,
            block: &block,
            entries: &entries,
            user: self.ties.effective(block.user),
            object: self.ties.effective(block.object),
            admin: self.ties.effective(ADMIN),
        };
        block.judge_mask(&self.declared, |attribute| !reading.held(&reading.user, attribute).is_empty())?;
        Ok(reading.decision())
    }
}
