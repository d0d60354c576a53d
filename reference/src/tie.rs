//! Ties: parent, member and value lines, in a file or behind an edit's sign.

use crate::answer::Refusal;
use crate::atom::{read_name, Atom, Name};
use crate::declarations::{Declarations, Pair, Sort};
use crate::line::{fields, key_and_rest, Key};

/// A tie by the numbers of what it ties together.
#[derive(Clone, Copy, Debug, PartialEq, Eq, PartialOrd, Ord, Hash)]
pub enum Tie {
    Parent { child: usize, parent: usize },
    Member { party: usize, group: usize },
    Value { holder: usize, pair: usize },
}

/// The standing ties, as an engine keeps them.
pub trait StandingTies: Default {
    fn stands(&self, tie: &Tie) -> bool;
    /// Whether a chain of standing ties leads from `low` up to `high`.
    fn leads_up(&self, low: usize, high: usize) -> bool;
    fn add(&mut self, tie: Tie);
    fn remove(&mut self, tie: &Tie);
}

/// Reads the fields of a tie line (6) and looks its names up (8, 9).
pub fn read(key: Key, rest: &[u8], declared: &Declarations) -> Result<Tie, Refusal> {
    match key {
        Key::Parent => {
            let (child, parent) = two_holders(rest, declared)?;
            let sort = declared.sort(child);
            let fits = sort.is_group() && declared.sort(parent) == sort;
            sorted(fits, Tie::Parent { child, parent })
        }
        Key::Member => {
            let (party, group) = two_holders(rest, declared)?;
            let fits = matches!(
                (declared.sort(party), declared.sort(group)),
                (Sort::User, Sort::UserGroup) | (Sort::Object, Sort::ObjectGroup)
            );
            sorted(fits, Tie::Member { party, group })
        }
        Key::Value => read_value(rest, declared),
        _ => Err(Refusal::OtherKey),
    }
}

fn sorted(fits: bool, tie: Tie) -> Result<Tie, Refusal> {
    if fits {
        Ok(tie)
    } else {
        Err(Refusal::WrongSort)
    }
}

fn two_holders(rest: &[u8], declared: &Declarations) -> Result<(usize, usize), Refusal> {
    let [first, second] = fields(rest)?;
    let first: Name = read_name(first).ok_or(Refusal::Malformed)?;
    let second: Name = read_name(second).ok_or(Refusal::Malformed)?;
    let first = declared.holder(&first).ok_or(Refusal::Undeclared)?;
    let second = declared.holder(&second).ok_or(Refusal::Undeclared)?;
    Ok((first, second))
}

/// The holder's sort fixes the source, so a pair of another source, or of
/// another type, is simply not there.
fn read_value(rest: &[u8], declared: &Declarations) -> Result<Tie, Refusal> {
    let [holder, name, atom] = fields(rest)?;
    let holder = read_name(holder).ok_or(Refusal::Malformed)?;
    let name = read_name(name).ok_or(Refusal::Malformed)?;
    let atom = Atom::read(atom).ok_or(Refusal::Malformed)?;
    let holder = declared.holder(&holder).ok_or(Refusal::Undeclared)?;
    let source = declared.sort(holder).source();
    let attribute = declared.attribute(source, &name);
    let attribute = attribute.ok_or(Refusal::Undeclared)?;
    let pair = declared.pair(&Pair { attribute, atom });
    let pair = pair.ok_or(Refusal::Undeclared)?;
    Ok(Tie::Value { holder, pair })
}

/// Whether `tie` may be added: 10 if it stands, 12 if it closes a circle.
pub fn judge_adding(tie: &Tie, ties: &impl StandingTies) -> Result<(), Refusal> {
    if ties.stands(tie) {
        return Err(Refusal::AlreadyThere);
    }
    match *tie {
        Tie::Parent { child, parent } if child == parent || ties.leads_up(parent, child) => {
            Err(Refusal::Circle)
        }
        _ => Ok(()),
    }
}

#[derive(Clone, Copy, Debug, PartialEq, Eq)]
pub enum Change {
    Add(Tie),
    Remove(Tie),
}

/// Judges a whole edit line and says what it would change.
pub fn judge_edit(line: &[u8], declared: &Declarations, ties: &impl StandingTies) -> Result<Change, Refusal> {
    let (sign, line) = line.split_first().ok_or(Refusal::LineFrame)?;
    if !matches!(sign, b'+' | b'-') {
        return Err(Refusal::LineFrame);
    }
    let (key, rest) = key_and_rest(line)?;
    let tie = read(key, rest, declared)?;
    if *sign == b'+' {
        judge_adding(&tie, ties)?;
        Ok(Change::Add(tie))
    } else if ties.stands(&tie) {
        Ok(Change::Remove(tie))
    } else {
        Err(Refusal::NotStanding)
    }
}
