//! The grammar: OR of AND of terms. Policy and term readers call each other.

use super::{Named, Operator, Token, Truth};
use crate::atom::Atom;

/// Alternatives joined by OR, each a list of terms joined by AND. `A` is an
/// attribute: its name as written, or its number once looked up.
#[derive(Clone, Debug, PartialEq, Eq)]
pub struct Policy<A> {
    pub alternatives: Vec<Vec<Term<A>>>,
}

#[derive(Clone, Debug, PartialEq, Eq)]
pub enum Term<A> {
    Compare(Operand<A>, Operator, Operand<A>),
    Plain(Lone<A>),
    Not(Lone<A>),
}

#[derive(Clone, Debug, PartialEq, Eq)]
pub enum Lone<A> {
    Truth(Truth),
    Attribute(A),
    Policy(Policy<A>),
}

#[derive(Clone, Debug, PartialEq, Eq)]
pub enum Operand<A> {
    /// Read as a set of one, but other tokens than that set.
    Constant(Atom),
    Set(Vec<Atom>),
    Attribute(A),
}

impl<A> Policy<A> {
    fn every_term(&self) -> impl Iterator<Item = &Term<A>> {
        self.alternatives.iter().flatten()
    }

    /// All terms at every depth; a parenthesised policy itself is not counted.
    pub fn terms(&self) -> usize {
        let count = |term: &Term<A>| term.inner().map_or(1, Policy::terms);
        self.every_term().map(count).sum()
    }

    /// How deep parentheses stand in each other.
    pub fn depth(&self) -> usize {
        let depth = |term: &Term<A>| term.inner().map_or(0, |inner| 1 + inner.depth());
        self.every_term().map(depth).max().unwrap_or(0)
    }

    /// Atoms of the largest set, counted as written.
    pub fn largest_set(&self) -> usize {
        let largest = |term: &Term<A>| match term {
            Term::Compare(left, _, right) => left.atoms().max(right.atoms()),
            _ => term.inner().map_or(0, Policy::largest_set),
        };
        self.every_term().map(largest).max().unwrap_or(0)
    }

    /// The same policy with each attribute looked up; nothing if one fails.
    pub fn look_up<B>(&self, find: &impl Fn(&A) -> Option<B>) -> Option<Policy<B>> {
        let alternative = |terms: &Vec<Term<A>>| terms.iter().map(|term| term.look_up(find)).collect();
        let alternatives = self.alternatives.iter().map(alternative);
        Some(Policy { alternatives: alternatives.collect::<Option<_>>()? })
    }
}

impl<A> Term<A> {
    fn inner(&self) -> Option<&Policy<A>> {
        match self {
            Term::Plain(Lone::Policy(inner)) | Term::Not(Lone::Policy(inner)) => Some(inner),
            _ => None,
        }
    }

    fn look_up<B>(&self, find: &impl Fn(&A) -> Option<B>) -> Option<Term<B>> {
        Some(match self {
            Term::Compare(left, operator, right) => {
                Term::Compare(left.look_up(find)?, *operator, right.look_up(find)?)
            }
            Term::Plain(lone) => Term::Plain(lone.look_up(find)?),
            Term::Not(lone) => Term::Not(lone.look_up(find)?),
        })
    }
}

impl<A> Lone<A> {
    fn look_up<B>(&self, find: &impl Fn(&A) -> Option<B>) -> Option<Lone<B>> {
        Some(match self {
            Lone::Truth(truth) => Lone::Truth(*truth),
            Lone::Attribute(attribute) => Lone::Attribute(find(attribute)?),
            Lone::Policy(inner) => Lone::Policy(inner.look_up(find)?),
        })
    }
}

impl<A> Operand<A> {
    fn atoms(&self) -> usize {
        match self {
            Operand::Constant(_) => 1,
            Operand::Set(atoms) => atoms.len(),
            Operand::Attribute(_) => 0,
        }
    }

    fn look_up<B>(&self, find: &impl Fn(&A) -> Option<B>) -> Option<Operand<B>> {
        Some(match self {
            Operand::Constant(atom) => Operand::Constant(atom.clone()),
            Operand::Set(atoms) => Operand::Set(atoms.clone()),
            Operand::Attribute(attribute) => Operand::Attribute(find(attribute)?),
        })
    }
}

/// A policy that takes up all of `tokens`.
pub fn read_all(tokens: &[Token]) -> Option<Policy<Named>> {
    let mut reader = Reader { rest: tokens };
    let policy = reader.policy()?;
    reader.rest.is_empty().then_some(policy)
}

struct Reader<'t> {
    rest: &'t [Token],
}

impl<'t> Reader<'t> {
    fn next(&mut self) -> Option<&'t Token> {
        let (first, rest) = self.rest.split_first()?;
        self.rest = rest;
        Some(first)
    }

    /// Takes the next token if it is `wanted`.
    fn take(&mut self, wanted: &Token) -> bool {
        let there = self.rest.first() == Some(wanted);
        if there {
            self.rest = &self.rest[1..];
        }
        there
    }

    fn policy(&mut self) -> Option<Policy<Named>> {
        let mut alternatives = vec![self.alternative()?];
        while self.take(&Token::Or) {
            alternatives.push(self.alternative()?);
        }
        Some(Policy { alternatives })
    }

    fn alternative(&mut self) -> Option<Vec<Term<Named>>> {
        let mut terms = vec![self.term()?];
        while self.take(&Token::And) {
            terms.push(self.term()?);
        }
        Some(terms)
    }

    fn term(&mut self) -> Option<Term<Named>> {
        if self.take(&Token::Not) {
            return self.lone().map(Term::Not);
        }
        if matches!(self.rest.first()?, Token::Truth(_) | Token::Open) {
            return self.lone().map(Term::Plain);
        }
        let left = self.operand()?;
        if let Some(Token::Compare(operator)) = self.rest.first() {
            self.rest = &self.rest[1..];
            return Some(Term::Compare(left, *operator, self.operand()?));
        }
        match left {
            Operand::Attribute(attribute) => Some(Term::Plain(Lone::Attribute(attribute))),
            Operand::Constant(_) | Operand::Set(_) => None,
        }
    }

    /// What NOT may stand before.
    fn lone(&mut self) -> Option<Lone<Named>> {
        match self.next()? {
            Token::Truth(truth) => Some(Lone::Truth(*truth)),
            Token::Attribute(attribute) => Some(Lone::Attribute(attribute.clone())),
            Token::Open => {
                let inner = self.policy()?;
                self.take(&Token::Close).then_some(Lone::Policy(inner))
            }
            _ => None,
        }
    }

    fn operand(&mut self) -> Option<Operand<Named>> {
        match self.next()? {
            Token::Attribute(attribute) => Some(Operand::Attribute(attribute.clone())),
            Token::Constant(atom) => Some(Operand::Constant(atom.clone())),
            Token::SetOpen => self.set().map(Operand::Set),
            _ => None,
        }
    }

    /// The atoms up to the closing brace, all of one type.
    fn set(&mut self) -> Option<Vec<Atom>> {
        let mut atoms: Vec<Atom> = Vec::new();
        loop {
            let Token::Constant(atom) = self.next()? else {
                return None;
            };
            if atoms.first().is_some_and(|first| first.kind() != atom.kind()) {
                return None;
            }
            atoms.push(atom.clone());
            if self.take(&Token::SetClose) {
                return Some(atoms);
            }
            if !self.take(&Token::Comma) {
                return None;
            }
        }
    }
}
