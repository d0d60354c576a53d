//! Files whose rules mix the two sorts of UNDEF: values that are lacking and
//! types that are unlike, under each other and beside what is no UNDEF.

use super::files::with_user_and_object;
use super::plan::{atom, Plan};
use super::policies::{self, spaced, Words, ROOM};
use super::rng::Rng;
use crate::atom::{Source, Type};
use crate::declarations::Attribute;
use crate::policy::Operator;

/// Several rules for each of few operations.
pub fn plan(rng: &mut Rng) -> Plan {
    let mut plan = with_user_and_object(rng);
    let lacking = add_lacking(&mut plan);
    for _ in 0..rng.between(3, 9) {
        let operation = rng.below(2);
        let policy = policy_of(rng, &plan, &lacking);
        plan.rules.push((operation, policy));
    }
    plan
}

/// Attributes of each type for which no pair is declared, so that no edit can
/// give one. They are told by name.
fn add_lacking(plan: &mut Plan) -> Vec<Vec<u8>> {
    let mut names = Vec::new();
    for source in [Source::User, Source::Object, Source::Admin] {
        for kind in Type::ALL {
            let name = format!("no_{}", kind.word()).into_bytes();
            plan.attributes.push(Attribute { source, name, kind });
            names.push(plan.dotted(plan.attributes.len() - 1));
        }
    }
    names
}

fn policy_of(rng: &mut Rng, plan: &Plan, lacking: &[Vec<u8>]) -> Vec<u8> {
    for terms in (1..=rng.between(1, 4)).rev() {
        let words = joined(rng, plan, lacking, terms, 2);
        let text = spaced(rng, &words);
        if text.len() <= ROOM {
            return text;
        }
    }
    b"UNDEF".to_vec()
}

fn joined(rng: &mut Rng, plan: &Plan, lacking: &[Vec<u8>], terms: usize, depth: usize) -> Words {
    let mut words = term(rng, plan, lacking, depth);
    for _ in 1..terms {
        words.push(rng.pick(&["AND", "OR"]).as_bytes().to_vec());
        words.extend(term(rng, plan, lacking, depth));
    }
    words
}

fn term(rng: &mut Rng, plan: &Plan, lacking: &[Vec<u8>], depth: usize) -> Words {
    if depth == 0 || rng.chance(70) {
        return leaf(rng, plan, lacking);
    }
    let mut words = Words::new();
    if rng.chance(40) {
        words.push(b"NOT".to_vec());
    }
    let terms = rng.between(1, 3);
    words.push(b"(".to_vec());
    words.extend(joined(rng, plan, lacking, terms, depth - 1));
    words.push(b")".to_vec());
    words
}

/// Each of the two sorts about as often as all that is no UNDEF.
fn leaf(rng: &mut Rng, plan: &Plan, lacking: &[Vec<u8>]) -> Words {
    match rng.weighted(&[30, 30, 15, 15, 10]) {
        0 => absent(rng, plan, lacking),
        1 => unlike(rng, plan),
        2 => vec![rng.pick(&["FALSE", "1=2", "NOT TRUE"]).as_bytes().to_vec()],
        3 => vec![rng.pick(&["TRUE", "1=1", "NOT FALSE"]).as_bytes().to_vec()],
        _ => policies::term(rng, plan, 0),
    }
}

/// A lone attribute that lacks values, or a comparison with one on either side;
/// the other side may be of another type, or lack values too.
fn absent(rng: &mut Rng, plan: &Plan, lacking: &[Vec<u8>]) -> Words {
    let name = rng.pick(lacking).clone();
    if rng.chance(20) {
        return vec![name];
    }
    let mut other =
        if rng.chance(20) { vec![rng.pick(lacking).clone()] } else { policies::operand(rng, plan) };
    let operator = rng.pick(&Operator::ALL).text().as_bytes().to_vec();
    if rng.chance(50) {
        other.push(operator);
        other.push(name);
        return other;
    }
    [vec![name, operator], other].concat()
}

/// UNDEF with nothing lacking: the constant, two types, or an order of strings.
fn unlike(rng: &mut Rng, plan: &Plan) -> Words {
    let constant = |rng: &mut Rng, kind: Type| atom(rng, kind, plan.pairs.len()).text();
    let (kinds, operator) = match rng.below(4) {
        0 => return vec![b"UNDEF".to_vec()],
        1 => ([Type::Str, Type::Str], *rng.pick(&Operator::ORDERS)),
        2 => ([Type::Int, Type::Str], *rng.pick(&Operator::ALL)),
        _ => ([Type::Str, Type::Int], *rng.pick(&Operator::ALL)),
    };
    let [left, right] = kinds.map(|kind| constant(rng, kind));
    vec![left, operator.text().as_bytes().to_vec(), right]
}
