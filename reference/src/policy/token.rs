//! Tokens of a policy. Byte 32 alone may stand between them.

use super::{Named, Truth};
use crate::atom::{read_dotted, read_int, read_text, Atom};

#[derive(Clone, Copy, Debug, PartialEq, Eq, PartialOrd, Ord, Hash)]
pub enum Operator {
    Equal,
    Unequal,
    Less,
    LessEqual,
    Greater,
    GreaterEqual,
    In,
    Subset,
}

impl Operator {
    pub const ALL: [Operator; 8] = [
        Operator::Equal,
        Operator::Unequal,
        Operator::Less,
        Operator::LessEqual,
        Operator::Greater,
        Operator::GreaterEqual,
        Operator::In,
        Operator::Subset,
    ];

    /// Those that only integers have.
    pub const ORDERS: [Operator; 4] =
        [Operator::Less, Operator::LessEqual, Operator::Greater, Operator::GreaterEqual];

    pub fn text(self) -> &'static str {
        match self {
            Operator::Equal => "=",
            Operator::Unequal => "!=",
            Operator::Less => "<",
            Operator::LessEqual => "<=",
            Operator::Greater => ">",
            Operator::GreaterEqual => ">=",
            Operator::In => "IN",
            Operator::Subset => "SUBSET",
        }
    }
}

#[derive(Clone, Debug, PartialEq, Eq)]
pub enum Token {
    Attribute(Named),
    Constant(Atom),
    Compare(Operator),
    Truth(Truth),
    Not,
    And,
    Or,
    Open,
    Close,
    SetOpen,
    SetClose,
    Comma,
}

/// All tokens of `text`, or nothing if some byte belongs to no token.
pub fn read_all(text: &[u8]) -> Option<Vec<Token>> {
    let mut tokens = Vec::new();
    let mut rest = text;
    while let Some(&first) = rest.first() {
        if first == b' ' {
            rest = &rest[1..];
            continue;
        }
        let (token, length) = read_one(rest)?;
        tokens.push(token);
        rest = &rest[length..];
    }
    Some(tokens)
}

/// The token at the start of `rest` and its length.
fn read_one(rest: &[u8]) -> Option<(Token, usize)> {
    match rest[0] {
        b'"' => read_string(rest),
        byte if is_word_byte(byte) => {
            let length = rest.iter().take_while(|&&byte| is_word_byte(byte)).count();
            Some((read_word(&rest[..length])?, length))
        }
        _ => read_sign(rest),
    }
}

/// A run of these bytes is one word.
pub fn is_word_byte(byte: u8) -> bool {
    byte.is_ascii_alphanumeric() || byte == b'_' || byte == b'.'
}

fn read_string(rest: &[u8]) -> Option<(Token, usize)> {
    let inner_length = rest[1..].iter().position(|&byte| byte == b'"')?;
    let inner = read_text(&rest[1..1 + inner_length])?;
    Some((Token::Constant(Atom::Str(inner)), inner_length + 2))
}

fn read_word(word: &[u8]) -> Option<Token> {
    Some(match word {
        b"AND" => Token::And,
        b"OR" => Token::Or,
        b"NOT" => Token::Not,
        b"TRUE" => Token::Truth(Truth::True),
        b"FALSE" => Token::Truth(Truth::False),
        b"UNDEF" => Token::Truth(Truth::Undef),
        b"IN" => Token::Compare(Operator::In),
        b"SUBSET" => Token::Compare(Operator::Subset),
        _ if word[0].is_ascii_digit() => Token::Constant(Atom::Int(read_int(word)?)),
        _ => Token::Attribute(read_dotted(word)?),
    })
}

/// Operators are read longest first.
fn read_sign(rest: &[u8]) -> Option<(Token, usize)> {
    Some(match rest {
        [b'!', b'=', ..] => (Token::Compare(Operator::Unequal), 2),
        [b'<', b'=', ..] => (Token::Compare(Operator::LessEqual), 2),
        [b'>', b'=', ..] => (Token::Compare(Operator::GreaterEqual), 2),
        [b'=', ..] => (Token::Compare(Operator::Equal), 1),
        [b'<', ..] => (Token::Compare(Operator::Less), 1),
        [b'>', ..] => (Token::Compare(Operator::Greater), 1),
        [b'(', ..] => (Token::Open, 1),
        [b')', ..] => (Token::Close, 1),
        [b'{', ..] => (Token::SetOpen, 1),
        [b'}', ..] => (Token::SetClose, 1),
        [b',', ..] => (Token::Comma, 1),
        _ => return None,
    })
}
