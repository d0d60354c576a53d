//! What a rights file declares: attributes, operations, pairs, holders, rules.

use crate::answer::Refusal;
use crate::atom::{read_dotted, read_name, Atom, Name, Source, Type};
use crate::line::{fields, Key};
use crate::policy::{self, Policy, Token};
use std::collections::HashMap;

pub const MOST_ATTRIBUTES: usize = 32;
pub const MOST_OPERATIONS: usize = 8;
pub const MOST_PAIRS: usize = 256;
pub const MOST_GROUPS: usize = 64;
/// Holders besides admin.
pub const MOST_HOLDERS: usize = 255;
pub const MOST_RULES: usize = 32;

/// The holder that is always there.
pub const ADMIN: usize = 0;

#[derive(Clone, Debug, PartialEq, Eq)]
pub struct Attribute {
    pub source: Source,
    pub name: Name,
    pub kind: Type,
}

#[derive(Clone, Debug, PartialEq, Eq, Hash)]
pub struct Pair {
    pub attribute: usize,
    pub atom: Atom,
}

#[derive(Clone, Copy, Debug, PartialEq, Eq, PartialOrd, Ord, Hash)]
pub enum Sort {
    Admin,
    UserGroup,
    ObjectGroup,
    User,
    Object,
}

impl Sort {
    pub fn is_group(self) -> bool {
        matches!(self, Sort::UserGroup | Sort::ObjectGroup)
    }

    /// The key of the lines that declare holders of this sort; admin has none.
    pub fn key(self) -> Option<Key> {
        match self {
            Sort::Admin => None,
            Sort::UserGroup => Some(Key::UserGroup),
            Sort::ObjectGroup => Some(Key::ObjectGroup),
            Sort::User => Some(Key::User),
            Sort::Object => Some(Key::Object),
        }
    }

    /// The source of the attributes whose pairs a holder of this sort is given.
    pub fn source(self) -> Source {
        match self {
            Sort::Admin => Source::Admin,
            Sort::UserGroup | Sort::User => Source::User,
            Sort::ObjectGroup | Sort::Object => Source::Object,
        }
    }
}

#[derive(Clone, Debug, PartialEq, Eq)]
pub struct Holder {
    pub sort: Sort,
    pub name: Name,
}

#[derive(Clone, Debug, PartialEq, Eq)]
pub struct Rule {
    pub operation: usize,
    /// What the ledger has of a policy; equal rules have equal tokens.
    pub tokens: Vec<Token>,
    pub policy: Policy<usize>,
}

/// Numbers are positions in these lists. The two maps find a number by name.
#[derive(Clone, Debug, PartialEq, Eq)]
pub struct Declarations {
    pub attributes: Vec<Attribute>,
    pub operations: Vec<Name>,
    pub pairs: Vec<Pair>,
    pub holders: Vec<Holder>,
    pub rules: Vec<Rule>,
    pair_numbers: HashMap<Pair, usize>,
    holder_numbers: HashMap<Name, usize>,
}

impl Default for Declarations {
    /// Nothing is declared but admin.
    fn default() -> Declarations {
        let mut empty = Declarations {
            attributes: Vec::new(),
            operations: Vec::new(),
            pairs: Vec::new(),
            holders: Vec::new(),
            rules: Vec::new(),
            pair_numbers: HashMap::new(),
            holder_numbers: HashMap::new(),
        };
        empty.add_holder(Sort::Admin, b"admin".to_vec());
        empty
    }
}

impl Declarations {
    pub fn attribute(&self, source: Source, name: &[u8]) -> Option<usize> {
        let same = |one: &Attribute| one.source == source && one.name == name;
        self.attributes.iter().position(same)
    }

    pub fn operation(&self, name: &[u8]) -> Option<usize> {
        self.operations.iter().position(|one| one == name)
    }

    pub fn holder(&self, name: &[u8]) -> Option<usize> {
        self.holder_numbers.get(name).copied()
    }

    pub fn pair(&self, pair: &Pair) -> Option<usize> {
        self.pair_numbers.get(pair).copied()
    }

    pub fn sort(&self, holder: usize) -> Sort {
        self.holders[holder].sort
    }

    /// Takes in one line that declares something; ties are not for here.
    pub fn declare(&mut self, key: Key, rest: &[u8]) -> Result<(), Refusal> {
        match key {
            Key::Attr => self.declare_attribute(rest),
            Key::Op => self.declare_operation(rest),
            Key::Atom => self.declare_pair(rest),
            Key::UserGroup => self.declare_holder(Sort::UserGroup, rest),
            Key::ObjectGroup => self.declare_holder(Sort::ObjectGroup, rest),
            Key::User => self.declare_holder(Sort::User, rest),
            Key::Object => self.declare_holder(Sort::Object, rest),
            Key::Rule => self.declare_rule(rest),
            Key::Parent | Key::Member | Key::Value => unreachable!("a tie declares nothing"),
        }
    }

    fn declare_attribute(&mut self, rest: &[u8]) -> Result<(), Refusal> {
        let [source, name, kind] = fields(rest)?;
        let source = Source::read(source).ok_or(Refusal::Malformed)?;
        let name = read_name(name).ok_or(Refusal::Malformed)?;
        let kind = Type::read(kind).ok_or(Refusal::Malformed)?;
        if source.comes_with_block() && kind == Type::Str {
            return Err(Refusal::WrongSort);
        }
        if self.attribute(source, &name).is_some() {
            return Err(Refusal::AlreadyThere);
        }
        room(self.attributes.len(), MOST_ATTRIBUTES)?;
        self.attributes.push(Attribute { source, name, kind });
        Ok(())
    }

    fn declare_operation(&mut self, rest: &[u8]) -> Result<(), Refusal> {
        let name = read_name(rest).ok_or(Refusal::Malformed)?;
        if self.operation(&name).is_some() {
            return Err(Refusal::AlreadyThere);
        }
        room(self.operations.len(), MOST_OPERATIONS)?;
        self.operations.push(name);
        Ok(())
    }

    fn declare_pair(&mut self, rest: &[u8]) -> Result<(), Refusal> {
        let [dotted, atom] = fields(rest)?;
        let (source, name) = read_dotted(dotted).ok_or(Refusal::Malformed)?;
        let atom = Atom::read(atom).ok_or(Refusal::Malformed)?;
        let attribute = self.attribute(source, &name).ok_or(Refusal::Undeclared)?;
        if source.comes_with_block() || self.attributes[attribute].kind != atom.kind() {
            return Err(Refusal::WrongSort);
        }
        let pair = Pair { attribute, atom };
        if self.pair(&pair).is_some() {
            return Err(Refusal::AlreadyThere);
        }
        room(self.pairs.len(), MOST_PAIRS)?;
        self.pair_numbers.insert(pair.clone(), self.pairs.len());
        self.pairs.push(pair);
        Ok(())
    }

    fn declare_holder(&mut self, sort: Sort, rest: &[u8]) -> Result<(), Refusal> {
        let name = read_name(rest).ok_or(Refusal::Malformed)?;
        if self.holder(&name).is_some() {
            return Err(Refusal::AlreadyThere);
        }
        if sort.is_group() {
            let groups = self.holders.iter().filter(|one| one.sort.is_group());
            room(groups.count(), MOST_GROUPS)?;
        }
        room(self.holders.len() - 1, MOST_HOLDERS)?;
        self.add_holder(sort, name);
        Ok(())
    }

    fn add_holder(&mut self, sort: Sort, name: Name) {
        self.holder_numbers.insert(name.clone(), self.holders.len());
        self.holders.push(Holder { sort, name });
    }

    fn declare_rule(&mut self, rest: &[u8]) -> Result<(), Refusal> {
        let [operation, text] = fields(rest)?;
        let operation = read_name(operation).ok_or(Refusal::Malformed)?;
        let (tokens, policy) = policy::read(text)?;
        let operation = self.operation(&operation).ok_or(Refusal::Undeclared)?;
        let policy = policy.look_up(&|(source, name)| self.attribute(*source, name));
        let policy = policy.ok_or(Refusal::Undeclared)?;
        room(self.rules.len(), MOST_RULES)?;
        self.rules.push(Rule { operation, tokens, policy });
        Ok(())
    }
}

fn room(taken: usize, most: usize) -> Result<(), Refusal> {
    if taken < most {
        Ok(())
    } else {
        Err(Refusal::TableFull)
    }
}
