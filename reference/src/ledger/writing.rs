//! The file as it stands now, worked out from D and T line by line, in the
//! words of the request.

use super::TieSet;
use crate::atom::Atom;
use crate::declarations::{Declarations, Pair};
use crate::line::Key;
use crate::policy::{Operator, Token, Truth};
use crate::tie::Tie;

/// The first line, then those of each key in the file's order of keys.
pub fn file(declared: &Declarations, ties: &TieSet) -> Vec<u8> {
    let mut text = b"rights=1\n".to_vec();
    for key in Key::ALL {
        for fields in fields_of(key, declared, ties) {
            text.extend([key.word().as_bytes(), b"=", &fields.join(&b","[..]), b"\n"].concat());
        }
    }
    text
}

type Fields = Vec<Vec<u8>>;

/// The fields of all lines of a key: declarations by their numbers, ties
/// sorted by the holder's number and then by the other's or the pair's.
fn fields_of(key: Key, declared: &Declarations, ties: &TieSet) -> Vec<Fields> {
    match key {
        Key::Attr => {
            let text = |word: &str| word.as_bytes().to_vec();
            let all = declared.attributes.iter();
            all.map(|one| vec![text(one.source.word()), one.name.clone(), text(one.kind.word())]).collect()
        }
        Key::Op => declared.operations.iter().map(|name| vec![name.clone()]).collect(),
        Key::Atom => {
            let fields = |pair: &Pair| vec![dotted(declared, pair.attribute), pair.atom.text()];
            declared.pairs.iter().map(fields).collect()
        }
        Key::UserGroup | Key::ObjectGroup | Key::User | Key::Object => {
            let same = declared.holders.iter().filter(|one| one.sort.key() == Some(key));
            same.map(|one| vec![one.name.clone()]).collect()
        }
        Key::Parent | Key::Member | Key::Value => {
            let mut numbers = numbers_of(key, ties);
            numbers.sort();
            numbers.into_iter().map(|numbers| tie_fields(key, declared, numbers)).collect()
        }
        Key::Rule => {
            let rules = declared.rules.iter();
            rules.map(|one| vec![declared.operations[one.operation].clone(), policy(&one.tokens)]).collect()
        }
    }
}

/// The two numbers of each tie of a key.
fn numbers_of(key: Key, ties: &TieSet) -> Vec<(usize, usize)> {
    let numbers = |tie: &Tie| match *tie {
        Tie::Parent { child, parent } => (Key::Parent, (child, parent)),
        Tie::Member { party, group } => (Key::Member, (party, group)),
        Tie::Value { holder, pair } => (Key::Value, (holder, pair)),
    };
    let same = ties.0.iter().map(numbers).filter(|(other, _)| *other == key);
    same.map(|(_, numbers)| numbers).collect()
}

fn tie_fields(key: Key, declared: &Declarations, (holder, other): (usize, usize)) -> Fields {
    let name = |number: usize| declared.holders[number].name.clone();
    if key != Key::Value {
        return vec![name(holder), name(other)];
    }
    let Pair { attribute, atom } = &declared.pairs[other];
    vec![name(holder), declared.attributes[*attribute].name.clone(), atom.text()]
}

fn dotted(declared: &Declarations, attribute: usize) -> Vec<u8> {
    let attribute = &declared.attributes[attribute];
    [attribute.source.word().as_bytes(), b".", &attribute.name].concat()
}

/// The tokens, with one space between two neighbouring words.
fn policy(tokens: &[Token]) -> Vec<u8> {
    let mut text = Vec::new();
    let mut after_word = false;
    for token in tokens {
        if after_word && is_word(token) {
            text.push(b' ');
        }
        text.extend(token_text(token));
        after_word = is_word(token);
    }
    text
}

/// Strings are no words: their quotes are not of a run of letters, digits,
/// `_` and `.`.
fn is_word(token: &Token) -> bool {
    match token {
        Token::Attribute(_) | Token::Truth(_) | Token::Not | Token::And | Token::Or => true,
        Token::Constant(atom) => !matches!(atom, Atom::Str(_)),
        Token::Compare(operator) => matches!(operator, Operator::In | Operator::Subset),
        Token::Open | Token::Close | Token::SetOpen | Token::SetClose | Token::Comma => false,
    }
}

fn token_text(token: &Token) -> Vec<u8> {
    let sign = match token {
        Token::Attribute((source, name)) => return [source.word().as_bytes(), b".", name].concat(),
        Token::Constant(atom) => return atom.text(),
        Token::Compare(operator) => operator.text(),
        Token::Truth(Truth::True) => "TRUE",
        Token::Truth(Truth::False) => "FALSE",
        Token::Truth(Truth::Undef) => "UNDEF",
        Token::Not => "NOT",
        Token::And => "AND",
        Token::Or => "OR",
        Token::Open => "(",
        Token::Close => ")",
        Token::SetOpen => "{",
        Token::SetClose => "}",
        Token::Comma => ",",
    };
    sign.as_bytes().to_vec()
}
