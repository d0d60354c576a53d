//! The standing ties of a book, kept so that the holders above and below one
//! are at hand, and the renewal of stored sets along them.

use crate::answer::Edited;
use crate::pairs::PairSet;
use crate::tie::{StandingTies, Tie};
use std::collections::BTreeSet;

/// Holders that a book can have, admin among them.
const HOLDERS: usize = 256;

#[derive(Clone, Debug, PartialEq, Eq)]
pub struct TieGraph {
    /// Parents of a group, or groups of a party.
    up: Vec<BTreeSet<usize>>,
    /// Children and parties of a group.
    down: Vec<BTreeSet<usize>>,
    direct: Vec<PairSet>,
}

impl Default for TieGraph {
    fn default() -> TieGraph {
        TieGraph {
            up: vec![BTreeSet::new(); HOLDERS],
            down: vec![BTreeSet::new(); HOLDERS],
            direct: vec![PairSet::default(); HOLDERS],
        }
    }
}

impl StandingTies for TieGraph {
    fn stands(&self, tie: &Tie) -> bool {
        match *tie {
            Tie::Parent { child, parent } => self.up[child].contains(&parent),
            Tie::Member { party, group } => self.up[party].contains(&group),
            Tie::Value { holder, pair } => self.direct[holder].contains(pair),
        }
    }

    fn leads_up(&self, low: usize, high: usize) -> bool {
        let mut seen = [false; HOLDERS];
        let mut waiting = vec![low];
        while let Some(holder) = waiting.pop() {
            for &above in &self.up[holder] {
                if above == high {
                    return true;
                }
                if !std::mem::replace(&mut seen[above], true) {
                    waiting.push(above);
                }
            }
        }
        false
    }

    fn add(&mut self, tie: Tie) {
        match tie {
            Tie::Parent { child, parent } => self.link(child, parent),
            Tie::Member { party, group } => self.link(party, group),
            Tie::Value { holder, pair } => self.direct[holder].insert(pair),
        }
    }

    fn remove(&mut self, tie: &Tie) {
        match *tie {
            Tie::Parent { child, parent } => self.unlink(child, parent),
            Tie::Member { party, group } => self.unlink(party, group),
            Tie::Value { holder, pair } => self.direct[holder].remove(pair),
        }
    }
}

impl TieGraph {
    fn link(&mut self, low: usize, high: usize) {
        self.up[low].insert(high);
        self.down[high].insert(low);
    }

    fn unlink(&mut self, low: usize, high: usize) {
        self.up[low].remove(&high);
        self.down[high].remove(&low);
    }

    /// Parents of a group or groups of a party, in the order of their numbers.
    pub fn right_above(&self, holder: usize) -> &BTreeSet<usize> {
        &self.up[holder]
    }

    /// Children and parties of a group.
    pub fn right_below(&self, holder: usize) -> &BTreeSet<usize> {
        &self.down[holder]
    }

    pub fn direct(&self, holder: usize) -> &PairSet {
        &self.direct[holder]
    }

    /// Stores every set on a table whose words are all 0.
    pub fn fill(&self, table: &mut [u64]) {
        for holder in self.highest_first(0..HOLDERS) {
            self.renew(holder, table);
        }
    }

    /// Renews the stored sets of `edited` and of all below it, and counts
    /// those that changed and the joins made for them. Each holder below is
    /// visited once, even if one between stayed the same, since another path
    /// may reach it.
    pub fn renew_below(&self, edited: usize, table: &mut [u64]) -> Edited {
        let mut all = Edited { count: 0, joins: 0 };
        for holder in self.highest_first(std::iter::once(edited)) {
            let one = self.renew(holder, table);
            all.count += one.count;
            all.joins += one.joins;
        }
        all
    }

    /// Rewrites one stored set: joins the direct pairs and the stored sets right
    /// above, which must be right by now, to an empty one. The count is 1 if it
    /// changed.
    fn renew(&self, holder: usize, table: &mut [u64]) -> Edited {
        let mut set = PairSet::default();
        let mut joins = 0;
        let above = self.up[holder].iter().map(|&above| PairSet::stored(table, above));
        for part in std::iter::once(self.direct[holder]).chain(above) {
            set.join(&part);
            joins += 1;
        }
        let changed = set != PairSet::stored(table, holder);
        if changed {
            set.store(table, holder);
        }
        Edited { count: usize::from(changed), joins }
    }

    /// `starts` and all below them, each after every one above it.
    fn highest_first(&self, starts: impl Iterator<Item = usize>) -> Vec<usize> {
        let mut order = Vec::new();
        let mut seen = [false; HOLDERS];
        for start in starts {
            self.lowest_first(start, &mut seen, &mut order);
        }
        order.reverse();
        order
    }

    /// Appends what is below `holder`, then `holder` itself. The depth of the
    /// calls is at most the longest chain: 64 groups and a party.
    fn lowest_first(&self, holder: usize, seen: &mut [bool; HOLDERS], order: &mut Vec<usize>) {
        if std::mem::replace(&mut seen[holder], true) {
            return;
        }
        for &below in &self.down[holder] {
            self.lowest_first(below, seen, order);
        }
        order.push(holder);
    }
}
