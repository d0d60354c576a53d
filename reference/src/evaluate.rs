//! Evaluation of policies for the engine that keeps the table: the values of
//! an attribute are picked from a stored set by masks, without copies. The
//! cause of an UNDEF is found where it arises and carried along beside it.

use crate::atom::{Atom, Source, Type};
use crate::block::{Block, Entry};
use crate::declarations::Declarations;
use crate::pairs::PairSet;
use crate::policy::{Lone, Operand, Operator, Policy, Term, Truth};

/// A K3 value, UNDEF with its cause. Declared in this order so that OR is the
/// maximum, of two UNDEF an absent one.
#[derive(Clone, Copy, Debug, PartialEq, Eq, PartialOrd, Ord)]
pub enum Outcome {
    False,
    Unlike,
    Absent,
    True,
}

impl Outcome {
    fn of(holds: bool) -> Outcome {
        if holds {
            Outcome::True
        } else {
            Outcome::False
        }
    }

    /// The constant UNDEF lacks no value.
    fn constant(truth: Truth) -> Outcome {
        match truth {
            Truth::True => Outcome::True,
            Truth::Undef => Outcome::Unlike,
            Truth::False => Outcome::False,
        }
    }

    fn negated(self) -> Outcome {
        match self {
            Outcome::True => Outcome::False,
            Outcome::False => Outcome::True,
            undef => undef,
        }
    }

    fn and(self, other: Outcome) -> Outcome {
        AND[self as usize][other as usize]
    }
}

/// The minimum, but of two UNDEF an absent one. A table, as it costs a request no
/// more than the minimum would.
const AND: [[Outcome; 4]; 4] = [
    [Outcome::False, Outcome::False, Outcome::False, Outcome::False],
    [Outcome::False, Outcome::Unlike, Outcome::Absent, Outcome::Unlike],
    [Outcome::False, Outcome::Absent, Outcome::Absent, Outcome::Absent],
    [Outcome::False, Outcome::Unlike, Outcome::Absent, Outcome::True],
];

/// What one request reads.
pub struct View<'v> {
    pub declared: &'v Declarations,
    pub block: &'v Block<'v>,
    pub entries: &'v [Entry],
    pub user: PairSet,
    pub object: PairSet,
    pub admin: PairSet,
}

impl View<'_> {
    /// AND binds tighter than OR.
    pub fn policy(&self, policy: &Policy<usize>) -> Outcome {
        let outcomes = policy.alternatives.iter().map(|terms| self.alternative(terms));
        outcomes.max().unwrap_or(Outcome::False)
    }

    pub fn alternative(&self, terms: &[Term<usize>]) -> Outcome {
        let outcomes = terms.iter().map(|term| self.term(term));
        outcomes.fold(Outcome::True, Outcome::and)
    }

    pub fn term(&self, term: &Term<usize>) -> Outcome {
        match term {
            Term::Plain(lone) => self.lone(lone),
            Term::Not(lone) => self.lone(lone).negated(),
            Term::Compare(left, operator, right) => {
                compare(*operator, &self.operand(left), &self.operand(right))
            }
        }
    }

    fn lone(&self, lone: &Lone<usize>) -> Outcome {
        match lone {
            Lone::Truth(truth) => Outcome::constant(*truth),
            Lone::Policy(inner) => self.policy(inner),
            Lone::Attribute(attribute) => {
                let values = self.values(*attribute);
                if values.is_empty() {
                    return Outcome::Absent;
                }
                if self.declared.attributes[*attribute].kind != Type::Bool {
                    return Outcome::Unlike;
                }
                Outcome::of(values.contains(&&Atom::Bool(true)))
            }
        }
    }

    pub fn operand<'a>(&'a self, operand: &'a Operand<usize>) -> Vec<&'a Atom> {
        match operand {
            Operand::Constant(atom) => vec![atom],
            Operand::Set(atoms) => atoms.iter().collect(),
            Operand::Attribute(attribute) => self.values(*attribute),
        }
    }

    /// The values of an attribute in the set that is read; none if absent.
    fn values(&self, attribute: usize) -> Vec<&Atom> {
        match self.declared.attributes[attribute].source {
            Source::User if self.block.activates(attribute) => {
                held(self.declared, &self.user, attribute).collect()
            }
            Source::User => Vec::new(),
            Source::Object => held(self.declared, &self.object, attribute).collect(),
            Source::Admin => held(self.declared, &self.admin, attribute).collect(),
            Source::Env | Source::Connect => {
                let same = self.entries.iter().filter(|one| one.attribute == attribute);
                same.map(|one| &one.atom).collect()
            }
        }
    }
}

/// The values of an attribute in a stored set. A table that is not the book's
/// may have bits that are no pair's; they are passed over.
pub fn held<'d>(
    declared: &'d Declarations,
    set: &'d PairSet,
    attribute: usize,
) -> impl Iterator<Item = &'d Atom> {
    let pairs = set.iter().filter_map(|pair| declared.pairs.get(pair));
    pairs.filter(move |pair| pair.attribute == attribute).map(|pair| &pair.atom)
}

/// An operand without values is absent, whatever the types are. All values of one
/// operand have one type.
fn compare(operator: Operator, left: &[&Atom], right: &[&Atom]) -> Outcome {
    let (Some(one), Some(other)) = (left.first(), right.first()) else {
        return Outcome::Absent;
    };
    if one.kind() != other.kind() {
        return Outcome::Unlike;
    }
    let common = || left.iter().any(|atom| right.contains(atom));
    match operator {
        Operator::Equal | Operator::In => Outcome::of(common()),
        Operator::Unequal => Outcome::of(!common()),
        Operator::Subset => Outcome::of(left.iter().all(|atom| right.contains(atom))),
        Operator::Less => order(left, right, |a, b| a < b),
        Operator::LessEqual => order(left, right, |a, b| a <= b),
        Operator::Greater => order(left, right, |a, b| a > b),
        Operator::GreaterEqual => order(left, right, |a, b| a >= b),
    }
}

/// Some left and some right value are so ordered; only integers have an order.
fn order(left: &[&Atom], right: &[&Atom], holds: impl Fn(u32, u32) -> bool) -> Outcome {
    if left[0].kind() != Type::Int {
        return Outcome::Unlike;
    }
    let ordered = |one: &Atom, other: &Atom| match (one, other) {
        (Atom::Int(a), Atom::Int(b)) => holds(*a, *b),
        _ => false,
    };
    let found = |one: &&Atom| right.iter().any(|other| ordered(one, other));
    Outcome::of(left.iter().any(found))
}
