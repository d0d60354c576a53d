//! Where the two sorts of UNDEF were met: in the parts of the rules that a block
//! was decided by, and among these rules. What an engine might get wrong has a
//! name of its own, such as which of two causes stands first.

use crate::answer::{Cause, Decision};
use crate::atom::Type;
use crate::block::Block;
use crate::declarations::ADMIN;
use crate::evaluate::{Outcome, View};
use crate::pairs::PairSet;
use crate::policy::{Lone, Operand, Operator, Policy, Term};
use crate::session::TableEngine;

/// Every name of this module that can be met.
pub fn possible() -> Vec<String> {
    let mut names = Vec::new();
    for joint in ["AND", "OR", "rules"] {
        names.extend(ORDERS.map(|order| format!("{joint} of {order}")));
        names.extend(["absent", "unlike"].map(|cause| format!("{joint} swallowing {cause}")));
    }
    names.extend(["NOT of absent", "NOT of unlike"].map(str::to_string));
    names.extend(ABSENT_AND_UNLIKE.map(str::to_string));
    names.extend([OTHER_OPERATION, SWALLOWED].map(str::to_string));
    names
}

/// In which order the UNDEF operands of an UNDEF stand, by cause.
const ORDERS: [&str; 6] = [
    "absent",
    "unlike",
    "absent before unlike",
    "unlike before absent",
    "absent between unlike",
    "unlike between absent",
];

/// Comparisons that are UNDEF for both reasons.
const ABSENT_AND_UNLIKE: [&str; 4] = [
    "absent left and another type",
    "absent right and another type",
    "absent both and another type",
    "absent in an order of no integers",
];

const OTHER_OPERATION: &str = "unlike beside an absent rule of another operation";
const SWALLOWED: &str = "unlike around an absent part that does not count";

/// The names that a block meets. It must be one that was decided.
pub fn names(engine: &TableEngine, block: &[u8], decision: Decision) -> Option<Vec<String>> {
    let block = Block::read(block).ok()?;
    let declared = engine.book.declared();
    let entries = block.judge_numbers(declared).ok()?;
    let stored = |holder| PairSet::stored(&engine.table, holder);
    let (user, object, admin) = (stored(block.user), stored(block.object), stored(ADMIN));
    let view = View { declared, block: &block, entries: &entries, user, object, admin };
    let mut walk = Walk { view: &view, names: Vec::new(), absent_leaf: false };
    let (mut asked, mut others) = (Vec::new(), Vec::new());
    for rule in &declared.rules {
        if rule.operation == block.operation {
            asked.push(walk.policy(&rule.policy));
        } else {
            others.push(view.policy(&rule.policy));
        }
    }
    walk.join("rules", &asked);
    if decision == Decision::Undefined(Cause::Unlike) {
        let swallowed = walk.absent_leaf.then_some(SWALLOWED);
        let other = others.contains(&Outcome::Absent).then_some(OTHER_OPERATION);
        walk.names.extend(swallowed.into_iter().chain(other).map(str::to_string));
    }
    Some(walk.names)
}

/// Goes through all parts of the rules.
struct Walk<'w> {
    view: &'w View<'w>,
    names: Vec<String>,
    absent_leaf: bool,
}

impl Walk<'_> {
    fn policy(&mut self, policy: &Policy<usize>) -> Outcome {
        let alternatives = policy.alternatives.iter();
        let outcomes: Vec<Outcome> = alternatives.map(|terms| self.alternative(terms)).collect();
        self.join("OR", &outcomes);
        self.view.policy(policy)
    }

    fn alternative(&mut self, terms: &[Term<usize>]) -> Outcome {
        let outcomes: Vec<Outcome> = terms.iter().map(|term| self.term(term)).collect();
        self.join("AND", &outcomes);
        self.view.alternative(terms)
    }

    fn term(&mut self, term: &Term<usize>) -> Outcome {
        let outcome = self.view.term(term);
        match term {
            Term::Plain(Lone::Policy(inner)) | Term::Not(Lone::Policy(inner)) => drop(self.policy(inner)),
            _ => self.absent_leaf |= outcome == Outcome::Absent,
        }
        if let Term::Compare(left, operator, right) = term {
            self.names.extend(self.absent_and_unlike(left, *operator, right).map(str::to_string));
        }
        if let (Term::Not(_), Some(cause)) = (term, cause_word(outcome)) {
            self.names.push(format!("NOT of {cause}"));
        }
        outcome
    }

    fn absent_and_unlike(
        &self,
        left: &Operand<usize>,
        operator: Operator,
        right: &Operand<usize>,
    ) -> Option<&'static str> {
        let lacks = |side| self.view.operand(side).is_empty();
        let kinds = [left, right].map(|side| match side {
            Operand::Constant(atom) => atom.kind(),
            Operand::Set(atoms) => atoms[0].kind(),
            Operand::Attribute(number) => self.view.declared.attributes[*number].kind,
        });
        match (lacks(left), lacks(right)) {
            (false, false) => None,
            _ if kinds[0] == kinds[1] => {
                let no_order = Operator::ORDERS.contains(&operator) && kinds[0] != Type::Int;
                no_order.then_some(ABSENT_AND_UNLIKE[3])
            }
            (true, false) => Some(ABSENT_AND_UNLIKE[0]),
            (false, true) => Some(ABSENT_AND_UNLIKE[1]),
            (true, true) => Some(ABSENT_AND_UNLIKE[2]),
        }
    }

    /// Names the causes among the operands of AND, of OR or of a decision.
    fn join(&mut self, joint: &str, operands: &[Outcome]) {
        let causes: Vec<&str> = operands.iter().filter_map(|one| cause_word(*one)).collect();
        let (Some(first), Some(last)) = (causes.first(), causes.last()) else {
            return;
        };
        if operands.len() < 2 {
            return;
        }
        let deciding = if joint == "AND" { Outcome::False } else { Outcome::True };
        if operands.contains(&deciding) {
            for cause in ["absent", "unlike"].into_iter().filter(|cause| causes.contains(cause)) {
                self.names.push(format!("{joint} swallowing {cause}"));
            }
            return;
        }
        let other = causes.iter().find(|cause| *cause != first);
        let order = match other {
            None => first.to_string(),
            Some(other) if last == other => format!("{first} before {other}"),
            Some(other) => format!("{other} between {first}"),
        };
        self.names.push(format!("{joint} of {order}"));
    }
}

/// The cause of an UNDEF.
fn cause_word(outcome: Outcome) -> Option<&'static str> {
    match outcome {
        Outcome::Absent => Some(Cause::Absent.word()),
        Outcome::Unlike => Some(Cause::Unlike.word()),
        Outcome::True | Outcome::False => None,
    }
}
