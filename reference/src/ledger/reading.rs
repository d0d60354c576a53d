//! One request worked out on sets of values, in the words of "Policies".

use super::Pairs;
use crate::answer::{Cause, Decision};
use crate::atom::{Atom, Source};
use crate::block::{Block, Entry};
use crate::declarations::Declarations;
use crate::policy::{Lone, Operand, Operator, Policy, Term, Truth};
use std::collections::BTreeSet;

/// The sets that one request reads.
pub struct Reading<'r> {
    pub declared: &'r Declarations,
    pub block: &'r Block<'r>,
    pub entries: &'r [Entry],
    pub user: Pairs,
    pub object: Pairs,
    pub admin: Pairs,
}

impl Reading<'_> {
    pub fn decision(&self) -> Decision {
        let rules = self.declared.rules.iter().enumerate();
        let asked = rules.filter(|(_, rule)| rule.operation == self.block.operation);
        let truths: Vec<(usize, Truth)> =
            asked.map(|(number, rule)| (number, self.policy(&rule.policy))).collect();
        let all = |wanted: Truth| {
            let same = truths.iter().filter(move |(_, truth)| *truth == wanted);
            same.map(|(number, _)| *number)
        };
        match all(Truth::True).min() {
            Some(lowest) => Decision::Permit(lowest),
            None if all(Truth::Undef).count() == 0 => Decision::Deny,
            None => {
                let mut undef = all(Truth::Undef).map(|number| &self.declared.rules[number]);
                let absent = undef.any(|rule| self.policy_is_absent(&rule.policy));
                Decision::Undefined(if absent { Cause::Absent } else { Cause::Unlike })
            }
        }
    }

    fn policy(&self, policy: &Policy<usize>) -> Truth {
        let truths = policy.alternatives.iter().map(|terms| self.alternative(terms));
        truths.fold(Truth::False, or)
    }

    pub fn alternative(&self, terms: &[Term<usize>]) -> Truth {
        terms.iter().map(|term| self.term(term)).fold(Truth::True, and)
    }

    pub fn term(&self, term: &Term<usize>) -> Truth {
        match term {
            Term::Plain(lone) => self.lone(lone),
            Term::Not(lone) => not(self.lone(lone)),
            Term::Compare(left, operator, right) => {
                compare(*operator, &self.operand(left), &self.operand(right))
            }
        }
    }

    fn lone(&self, lone: &Lone<usize>) -> Truth {
        match lone {
            Lone::Truth(truth) => *truth,
            Lone::Policy(inner) => self.policy(inner),
            Lone::Attribute(attribute) => {
                let values = self.values(*attribute);
                if values.contains(&Atom::Bool(true)) {
                    Truth::True
                } else if values.contains(&Atom::Bool(false)) {
                    Truth::False
                } else {
                    Truth::Undef
                }
            }
        }
    }

    pub fn operand(&self, operand: &Operand<usize>) -> BTreeSet<Atom> {
        match operand {
            Operand::Constant(atom) => BTreeSet::from([atom.clone()]),
            Operand::Set(atoms) => atoms.iter().cloned().collect(),
            Operand::Attribute(attribute) => self.values(*attribute),
        }
    }

    pub fn values(&self, attribute: usize) -> BTreeSet<Atom> {
        match self.declared.attributes[attribute].source {
            Source::User if !self.block.activates(attribute) => BTreeSet::new(),
            Source::User => self.held(&self.user, attribute),
            Source::Object => self.held(&self.object, attribute),
            Source::Admin => self.held(&self.admin, attribute),
            Source::Env | Source::Connect => {
                let same = self.entries.iter().filter(|one| one.attribute == attribute);
                same.map(|one| one.atom.clone()).collect()
            }
        }
    }

    pub fn held(&self, pairs: &Pairs, attribute: usize) -> BTreeSet<Atom> {
        let declared = pairs.iter().map(|&pair| &self.declared.pairs[pair]);
        let same = declared.filter(|pair| pair.attribute == attribute);
        same.map(|pair| pair.atom.clone()).collect()
    }
}

fn not(one: Truth) -> Truth {
    match one {
        Truth::True => Truth::False,
        Truth::False => Truth::True,
        Truth::Undef => Truth::Undef,
    }
}

/// FALSE if either is, else UNDEF if either is, else TRUE.
fn and(one: Truth, other: Truth) -> Truth {
    if one == Truth::False || other == Truth::False {
        Truth::False
    } else if one == Truth::Undef || other == Truth::Undef {
        Truth::Undef
    } else {
        Truth::True
    }
}

/// The dual of AND.
fn or(one: Truth, other: Truth) -> Truth {
    not(and(not(one), not(other)))
}

fn compare(operator: Operator, left: &BTreeSet<Atom>, right: &BTreeSet<Atom>) -> Truth {
    let absent = left.is_empty() || right.is_empty();
    let kinds: BTreeSet<_> = left.union(right).map(Atom::kind).collect();
    if absent || kinds.len() > 1 {
        return Truth::Undef;
    }
    match operator {
        Operator::Equal | Operator::In => Truth::of(!left.is_disjoint(right)),
        Operator::Unequal => not(Truth::of(!left.is_disjoint(right))),
        Operator::Subset => Truth::of(left.is_subset(right)),
        _ => order(operator, integers(left), integers(right)),
    }
}

fn integers(atoms: &BTreeSet<Atom>) -> Vec<u32> {
    let integer = |atom: &Atom| match atom {
        Atom::Int(value) => Some(*value),
        _ => None,
    };
    atoms.iter().filter_map(integer).collect()
}

/// Both lists are empty when the operands are of another type than int.
fn order(operator: Operator, left: Vec<u32>, right: Vec<u32>) -> Truth {
    let ordered = |one: u32, other: u32| match operator {
        Operator::Less => one < other,
        Operator::LessEqual => one <= other,
        Operator::Greater => one > other,
        _ => one >= other,
    };
    if left.is_empty() {
        return Truth::Undef;
    }
    let mut found = false;
    for one in left {
        for other in &right {
            found = found || ordered(one, *other);
        }
    }
    Truth::of(found)
}
