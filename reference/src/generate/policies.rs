//! Random policies: good ones, ones at and over the limits, and ones with flaws.

use super::plan::{atom, Plan};
use super::rng::Rng;
use crate::atom::Type;
use crate::policy::Operator;

pub type Words = Vec<Vec<u8>>;

/// Bytes left for a policy behind `rule=`, an operation and a comma.
pub const ROOM: usize = 255 - 5 - 13;

/// A well-formed policy over declared attributes that fits its line.
pub fn good(rng: &mut Rng, plan: &Plan) -> Vec<u8> {
    for terms in (1..=rng.between(1, 5)).rev() {
        let words = policy(rng, plan, terms, 3);
        let text = spaced(rng, &words);
        if text.len() <= ROOM {
            return text;
        }
    }
    b"TRUE".to_vec()
}

/// One term alone, a comparison or not.
pub fn one_term(rng: &mut Rng, plan: &Plan) -> Vec<u8> {
    let words = term(rng, plan, 0);
    let text = spaced(rng, &words);
    if text.len() <= ROOM {
        text
    } else {
        b"UNDEF".to_vec()
    }
}

/// A policy at a limit (16 terms, 8 deep, 8 atoms) or one over it.
pub fn at_limit(rng: &mut Rng) -> Vec<u8> {
    let over = rng.below(2);
    match rng.below(4) {
        0 => vec!["1=1"; 16 + over].join(" OR ").into_bytes(),
        1 => [b"(".repeat(8 + over), b"TRUE".to_vec(), b")".repeat(8 + over)].concat(),
        2 => format!("1 IN{{{}}}", vec!["1"; 8 + over].join(",")).into_bytes(),
        _ => {
            let inner = ["UNDEF"; 8].join(" AND ");
            let more = vec!["FALSE"; 8 + over].join(" OR ");
            format!("({inner}) OR ({more})").into_bytes()
        }
    }
}

/// A malformed policy, or one that only seems so.
pub fn flawed(rng: &mut Rng, plan: &Plan) -> Vec<u8> {
    let terms = rng.between(1, 3);
    let mut words = policy(rng, plan, terms, 2);
    for _ in 0..rng.between(1, 2) {
        let place = rng.below(words.len());
        match rng.below(4) {
            0 => words[place] = loose_token(rng),
            1 => words.insert(place, loose_token(rng)),
            2 if words.len() > 1 => drop(words.remove(place)),
            _ => words.push(loose_token(rng)),
        }
    }
    let mut text = spaced(rng, &words);
    text.truncate(ROOM);
    text
}

/// Tokens, pieces of tokens and bytes of none.
const LOOSE_TOKENS: [&str; 48] = [
    "AND",
    "OR",
    "NOT",
    "TRUE",
    "FALSE",
    "UNDEF",
    "IN",
    "SUBSET",
    "=",
    "!=",
    "<",
    "<=",
    ">",
    ">=",
    "(",
    ")",
    "{",
    "}",
    ",",
    "1",
    "\"a\"",
    "{}",
    "{1}",
    "{1,\"a\"}",
    "{TRUE}",
    "\"b",
    "!",
    "==",
    "=<",
    "NULL",
    "true",
    "01",
    "4294967296",
    "1.5",
    "-1",
    "user.",
    ".a",
    "user.a0.b",
    "users.a",
    "user.nn",
    "env.nn",
    "\t",
    "\r",
    "\0",
    "\"thirteen bytes\"",
    "{1,1,1,1,1,1,1,1,1}",
    "((((((((((",
    "1=1 OR 1=1 OR 1=1 OR 1=1 OR 1=1 OR 1=1 OR 1=1 OR 1=1 OR 1=1 OR 1=1",
];

/// A token, or bytes that are none.
fn loose_token(rng: &mut Rng) -> Vec<u8> {
    rng.pick(&LOOSE_TOKENS).as_bytes().to_vec()
}

fn policy(rng: &mut Rng, plan: &Plan, terms: usize, depth: usize) -> Words {
    let mut words = term(rng, plan, depth);
    for _ in 1..terms {
        words.push(if rng.chance(50) { b"AND".to_vec() } else { b"OR".to_vec() });
        words.extend(term(rng, plan, depth));
    }
    words
}

pub fn term(rng: &mut Rng, plan: &Plan, depth: usize) -> Words {
    if rng.chance(60) {
        let mut words = operand(rng, plan);
        words.push(rng.pick(&Operator::ALL).text().as_bytes().to_vec());
        words.extend(operand(rng, plan));
        return words;
    }
    let mut words = Words::new();
    if rng.chance(40) {
        words.push(b"NOT".to_vec());
    }
    if depth > 0 && rng.chance(50) {
        words.push(b"(".to_vec());
        let terms = rng.between(1, 3);
        words.extend(policy(rng, plan, terms, depth - 1));
        words.push(b")".to_vec());
    } else if plan.attributes.is_empty() || rng.chance(40) {
        words.push(rng.pick(&["TRUE", "FALSE", "UNDEF"]).as_bytes().to_vec());
    } else {
        words.push(plan.dotted(rng.below(plan.attributes.len())));
    }
    words
}

pub fn operand(rng: &mut Rng, plan: &Plan) -> Words {
    if !plan.attributes.is_empty() && rng.chance(65) {
        return vec![plan.dotted(rng.below(plan.attributes.len()))];
    }
    let kind = if rng.chance(70) { Type::Int } else { Type::Str };
    let constant = |rng: &mut Rng| atom(rng, kind, plan.pairs.len()).text();
    if rng.chance(60) {
        return vec![constant(rng)];
    }
    let mut words = vec![b"{".to_vec(), constant(rng)];
    for _ in 0..rng.below(4) {
        words.push(b",".to_vec());
        words.push(constant(rng));
    }
    words.push(b"}".to_vec());
    words
}

/// Joins words, with spaces where two runs of letters would grow together and
/// now and then elsewhere.
pub fn spaced(rng: &mut Rng, words: &Words) -> Vec<u8> {
    let in_run = |byte: Option<&u8>| {
        byte.is_some_and(|byte| byte.is_ascii_alphanumeric() || matches!(byte, b'_' | b'.'))
    };
    let loose = rng.chance(50);
    let mut text: Vec<u8> = Vec::new();
    for word in words {
        if in_run(text.last()) && in_run(word.first()) || loose && rng.chance(50) {
            text.extend(b" ".repeat(rng.between(1, 2)));
        }
        text.extend(word);
    }
    if loose && rng.chance(20) {
        text.push(b' ');
    }
    text
}
