//! Which sort of UNDEF, in the words of document 02, E2. It is asked afterwards,
//! about a part of a policy that has come to UNDEF, and goes down from there by
//! its UNDEF operands.

use super::reading::Reading;
use crate::policy::{Lone, Policy, Term, Truth};

impl Reading<'_> {
    /// "An UNDEF built by AND, OR or NOT is absent if one of its UNDEF operands
    /// is." Here the operands of OR.
    pub fn policy_is_absent(&self, policy: &Policy<usize>) -> bool {
        let all = policy.alternatives.iter();
        let mut undef = all.filter(|terms| self.alternative(terms) == Truth::Undef);
        undef.any(|terms| self.alternative_is_absent(terms))
    }

    /// The operands of AND.
    fn alternative_is_absent(&self, terms: &[Term<usize>]) -> bool {
        let mut undef = terms.iter().filter(|term| self.term(term) == Truth::Undef);
        undef.any(|term| self.term_is_absent(term))
    }

    /// A comparison: "an operand ... lacks values, even if types differ too".
    fn term_is_absent(&self, term: &Term<usize>) -> bool {
        match term {
            Term::Plain(lone) | Term::Not(lone) => self.lone_is_absent(lone),
            Term::Compare(left, _, right) => self.operand(left).is_empty() || self.operand(right).is_empty(),
        }
    }

    /// A lone attribute: "that attribute lacks values"; the constant is unlike.
    fn lone_is_absent(&self, lone: &Lone<usize>) -> bool {
        match lone {
            Lone::Truth(_) => false,
            Lone::Policy(inner) => self.policy_is_absent(inner),
            Lone::Attribute(attribute) => self.values(*attribute).is_empty(),
        }
    }
}
