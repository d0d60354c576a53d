//! Policies: tokens, grammar, limits and the K3 truth values.

mod grammar;
mod token;

pub use grammar::{Lone, Operand, Policy, Term};
pub use token::{is_word_byte, Operator, Token};

use crate::answer::Refusal;
use crate::atom::{Name, Source};

pub const MOST_TERMS: usize = 16;
pub const MOST_DEPTH: usize = 8;
pub const MOST_ATOMS: usize = 8;

/// An attribute as a policy names it, before it is looked up.
pub type Named = (Source, Name);

/// A K3 value.
#[derive(Clone, Copy, Debug, PartialEq, Eq, Hash)]
pub enum Truth {
    False,
    Undef,
    True,
}

impl Truth {
    pub fn of(holds: bool) -> Truth {
        if holds {
            Truth::True
        } else {
            Truth::False
        }
    }
}

/// Reads a policy: 6 if it is malformed, judged without the limits, then 7.
/// Gives its tokens besides.
pub fn read(text: &[u8]) -> Result<(Vec<Token>, Policy<Named>), Refusal> {
    let tokens = token::read_all(text).ok_or(Refusal::Malformed)?;
    let policy = grammar::read_all(&tokens).ok_or(Refusal::Malformed)?;
    let within =
        policy.terms() <= MOST_TERMS && policy.depth() <= MOST_DEPTH && policy.largest_set() <= MOST_ATOMS;
    if within {
        Ok((tokens, policy))
    } else {
        Err(Refusal::OverLimit)
    }
}
