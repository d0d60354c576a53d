//! How many bytes the file as it stands now has: "the exact byte length that the
//! writer of E1 would put out", counted from the book without putting anything out.

use crate::atom::Atom;
use crate::declarations::{Declarations, Holder, Rule};
use crate::file::FIRST_LINE;
use crate::graph::TieGraph;
use crate::line::Key;
use crate::policy::{Lone, Operand, Operator, Policy, Term, Truth};

/// The bytes of the whole text, whatever their number.
pub fn of_text(declared: &Declarations, ties: &TieGraph) -> usize {
    let rules = declared.rules.iter().map(|one| rule(declared, one));
    FIRST_LINE.len()
        + declarations(declared)
        + links(declared, ties)
        + values(declared, ties)
        + rules.sum::<usize>()
}

/// A line whose fields have these lengths. Commas part the fields, and the `=`
/// and the byte 10 stand besides, so that there is one such byte more than fields.
fn line<const N: usize>(key: Key, fields: [usize; N]) -> usize {
    key.word().len() + fields.iter().sum::<usize>() + N + 1
}

fn declarations(declared: &Declarations) -> usize {
    let attributes = declared
        .attributes
        .iter()
        .map(|one| line(Key::Attr, [one.source.word().len(), one.name.len(), one.kind.word().len()]));
    let operations = declared.operations.iter().map(|name| line(Key::Op, [name.len()]));
    let pairs = declared.pairs.iter();
    let pairs = pairs.map(|pair| line(Key::Atom, [dotted(declared, pair.attribute), atom(&pair.atom)]));
    let holders = declared.holders.iter();
    let holders = holders.filter_map(|one| Some(line(one.sort.key()?, [one.name.len()])));
    attributes.chain(operations).chain(pairs).chain(holders).sum()
}

/// Parent and member lines. Each names the holder below and the one above, so a
/// holder's name stands once for each of its ties up and once for each down.
fn links(declared: &Declarations, ties: &TieGraph) -> usize {
    let of_holder = |(number, holder): (usize, &Holder)| {
        let (up, down) = (ties.right_above(number).len(), ties.right_below(number).len());
        let key = if holder.sort.is_group() { Key::Parent } else { Key::Member };
        up * line(key, [0, 0]) + (up + down) * holder.name.len()
    };
    declared.holders.iter().enumerate().map(of_holder).sum()
}

fn values(declared: &Declarations, ties: &TieGraph) -> usize {
    let name = |attribute: usize| declared.attributes[attribute].name.len();
    let pairs = declared.pairs.iter();
    // A line that gives the pair, but for the holder's name.
    let giving: Vec<usize> =
        pairs.map(|pair| line(Key::Value, [0, name(pair.attribute), atom(&pair.atom)])).collect();
    let of_holder = |(number, holder): (usize, &Holder)| -> usize {
        ties.direct(number).iter().map(|pair| giving[pair] + holder.name.len()).sum()
    };
    declared.holders.iter().enumerate().map(of_holder).sum()
}

fn rule(declared: &Declarations, rule: &Rule) -> usize {
    let operation = &declared.operations[rule.operation];
    line(Key::Rule, [operation.len(), policy(declared, &rule.policy).bytes])
}

fn dotted(declared: &Declarations, attribute: usize) -> usize {
    let attribute = &declared.attributes[attribute];
    attribute.source.word().len() + 1 + attribute.name.len()
}

fn atom(atom: &Atom) -> usize {
    match atom {
        Atom::Int(value) => 1 + value.checked_ilog10().map_or(0, |power| power as usize),
        Atom::Bool(true) => 4,
        Atom::Bool(false) => 5,
        Atom::Str(inner) => inner.len() + 2,
    }
}

/// A part of a policy: its bytes, and whether it begins and ends with a word.
#[derive(Clone, Copy)]
struct Part {
    bytes: usize,
    begins: bool,
    ends: bool,
}

impl Part {
    const fn word(bytes: usize) -> Part {
        Part { bytes, begins: true, ends: true }
    }

    /// What has a sign, a quote, a brace or a parenthesis at both ends.
    const fn closed(bytes: usize) -> Part {
        Part { bytes, begins: false, ends: false }
    }

    /// "one space stands only between two neighbouring words"
    fn then(self, next: Part) -> Part {
        let space = usize::from(self.ends && next.begins);
        Part { bytes: self.bytes + space + next.bytes, begins: self.begins, ends: next.ends }
    }
}

const AND: Part = Part::word(3);
const OR: Part = Part::word(2);
const NOT: Part = Part::word(3);

fn policy(declared: &Declarations, policy: &Policy<usize>) -> Part {
    let terms = |terms: &Vec<Term<usize>>| joined(terms.iter().map(|one| term(declared, one)), AND);
    joined(policy.alternatives.iter().map(terms), OR)
}

fn joined(parts: impl Iterator<Item = Part>, by: Part) -> Part {
    let all = parts.reduce(|before, next| before.then(by).then(next));
    all.expect("a policy has a term")
}

fn term(declared: &Declarations, term: &Term<usize>) -> Part {
    match term {
        Term::Plain(one) => lone(declared, one),
        Term::Not(one) => NOT.then(lone(declared, one)),
        Term::Compare(left, by, right) => {
            operand(declared, left).then(operator(*by)).then(operand(declared, right))
        }
    }
}

fn lone(declared: &Declarations, lone: &Lone<usize>) -> Part {
    match lone {
        Lone::Truth(Truth::True) => Part::word(4),
        Lone::Truth(Truth::False | Truth::Undef) => Part::word(5),
        Lone::Attribute(attribute) => Part::word(dotted(declared, *attribute)),
        Lone::Policy(inner) => Part::closed(policy(declared, inner).bytes + 2),
    }
}

fn operator(operator: Operator) -> Part {
    let bytes = operator.text().len();
    match operator {
        Operator::In | Operator::Subset => Part::word(bytes),
        _ => Part::closed(bytes),
    }
}

fn operand(declared: &Declarations, operand: &Operand<usize>) -> Part {
    match operand {
        Operand::Attribute(attribute) => Part::word(dotted(declared, *attribute)),
        Operand::Constant(one @ Atom::Str(_)) => Part::closed(atom(one)),
        Operand::Constant(one) => Part::word(atom(one)),
        // Each atom has a comma or a brace behind it, so that no words are neighbours.
        Operand::Set(atoms) => Part::closed(1 + atoms.iter().map(|one| atom(one) + 1).sum::<usize>()),
    }
}

#[cfg(test)]
mod tests {
    use super::*;

    #[test]
    fn an_integer_has_1_to_10_digits() {
        let mut power = 1;
        for digits in 1..=9 {
            assert_eq!(atom(&Atom::Int(power)), digits);
            power *= 10;
            assert_eq!(atom(&Atom::Int(power - 1)), digits);
        }
        assert_eq!(atom(&Atom::Int(0)), 1);
        assert_eq!(atom(&Atom::Int(1_000_000_000)), 10);
        assert_eq!(atom(&Atom::Int(u32::MAX)), 10);
    }

    #[test]
    fn a_space_stands_between_two_words_only() {
        let (word, sign) = (Part::word(5), Part::closed(1));
        assert_eq!(word.then(word).bytes, 11);
        assert_eq!(word.then(sign).then(word).bytes, 11);
        assert_eq!(sign.then(word).then(word).then(sign).bytes, 13);
    }
}
