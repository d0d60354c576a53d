//! The file as it stands now, put out in one pass over the book: names and
//! atoms from the declarations, ties from the graph, rules from their trees.

use crate::answer::{Refusal, WriteAnswer};
use crate::atom::Atom;
use crate::declarations::{Declarations, Sort};
use crate::file::{FILE_LIMIT, FIRST_LINE};
use crate::graph::TieGraph;
use crate::line::Key;
use crate::policy::{is_word_byte, Lone, Operand, Policy, Term, Truth};
use std::io::Write as _;

/// The whole text, whatever its length.
pub fn text(declared: &Declarations, ties: &TieGraph) -> Vec<u8> {
    let bytes = Vec::with_capacity(FILE_LIMIT);
    let mut writer = Writer { declared, ties, bytes };
    writer.bytes.extend_from_slice(FIRST_LINE);
    writer.declarations();
    writer.links(Key::Parent, Sort::is_group);
    writer.links(Key::Member, |sort| !sort.is_group());
    writer.values();
    writer.rules();
    writer.bytes
}

/// Lays a text over the start of a lent buffer, if it fits there and is no
/// longer than a file may be.
pub fn lay(text: &[u8], buffer: &mut [u8]) -> WriteAnswer {
    if text.len() > FILE_LIMIT {
        return Err(Refusal::DoesNotFit);
    }
    let start = buffer.get_mut(..text.len()).ok_or(Refusal::DoesNotFit)?;
    start.copy_from_slice(text);
    Ok(text.len())
}

struct Writer<'w> {
    declared: &'w Declarations,
    ties: &'w TieGraph,
    bytes: Vec<u8>,
}

impl Writer<'_> {
    fn put(&mut self, bytes: &[u8]) {
        self.bytes.extend_from_slice(bytes);
    }

    fn begin(&mut self, key: Key) {
        self.put(key.word().as_bytes());
        self.bytes.push(b'=');
    }

    fn end(&mut self) {
        self.bytes.push(b'\n');
    }

    fn declarations(&mut self) {
        for one in &self.declared.attributes {
            self.begin(Key::Attr);
            for field in [one.source.word().as_bytes(), b",", &one.name, b",", one.kind.word().as_bytes()] {
                self.put(field);
            }
            self.end();
        }
        for name in &self.declared.operations {
            self.begin(Key::Op);
            self.put(name);
            self.end();
        }
        for pair in &self.declared.pairs {
            self.begin(Key::Atom);
            self.dotted(pair.attribute);
            self.bytes.push(b',');
            self.atom(&pair.atom);
            self.end();
        }
        for holder in &self.declared.holders {
            if let Some(key) = holder.sort.key() {
                self.begin(key);
                self.put(&holder.name);
                self.end();
            }
        }
    }

    /// Lines of the ties right above the holders of some sorts.
    fn links(&mut self, key: Key, wanted: impl Fn(Sort) -> bool) {
        let (declared, ties) = (self.declared, self.ties);
        for (number, holder) in declared.holders.iter().enumerate() {
            if !wanted(holder.sort) {
                continue;
            }
            for &above in ties.right_above(number) {
                self.begin(key);
                self.put(&holder.name);
                self.bytes.push(b',');
                self.put(&declared.holders[above].name);
                self.end();
            }
        }
    }

    fn values(&mut self) {
        let (declared, ties) = (self.declared, self.ties);
        for (number, holder) in declared.holders.iter().enumerate() {
            for pair in ties.direct(number).iter() {
                let pair = &declared.pairs[pair];
                self.begin(Key::Value);
                self.put(&holder.name);
                self.bytes.push(b',');
                self.put(&declared.attributes[pair.attribute].name);
                self.bytes.push(b',');
                self.atom(&pair.atom);
                self.end();
            }
        }
    }

    fn rules(&mut self) {
        for rule in &self.declared.rules {
            self.begin(Key::Rule);
            self.put(&self.declared.operations[rule.operation]);
            self.bytes.push(b',');
            self.policy(&rule.policy);
            self.end();
        }
    }

    fn policy(&mut self, policy: &Policy<usize>) {
        for (place, terms) in policy.alternatives.iter().enumerate() {
            if place > 0 {
                self.token(b"OR");
            }
            for (place, term) in terms.iter().enumerate() {
                if place > 0 {
                    self.token(b"AND");
                }
                self.term(term);
            }
        }
    }

    fn term(&mut self, term: &Term<usize>) {
        match term {
            Term::Plain(lone) => self.lone(lone),
            Term::Not(lone) => {
                self.token(b"NOT");
                self.lone(lone);
            }
            Term::Compare(left, operator, right) => {
                self.operand(left);
                self.token(operator.text().as_bytes());
                self.operand(right);
            }
        }
    }

    fn lone(&mut self, lone: &Lone<usize>) {
        match lone {
            Lone::Truth(Truth::True) => self.token(b"TRUE"),
            Lone::Truth(Truth::False) => self.token(b"FALSE"),
            Lone::Truth(Truth::Undef) => self.token(b"UNDEF"),
            Lone::Attribute(attribute) => self.attribute(*attribute),
            Lone::Policy(inner) => {
                self.token(b"(");
                self.policy(inner);
                self.token(b")");
            }
        }
    }

    fn operand(&mut self, operand: &Operand<usize>) {
        match operand {
            Operand::Attribute(attribute) => self.attribute(*attribute),
            Operand::Constant(atom) => self.constant(atom),
            Operand::Set(atoms) => {
                for (place, atom) in atoms.iter().enumerate() {
                    self.token(if place == 0 { b"{" } else { b"," });
                    self.constant(atom);
                }
                self.token(b"}");
            }
        }
    }

    fn token(&mut self, token: &[u8]) {
        self.part_from(token[0]);
        self.put(token);
    }

    fn attribute(&mut self, attribute: usize) {
        // A source begins with a letter.
        self.part_from(b'a');
        self.dotted(attribute);
    }

    fn constant(&mut self, atom: &Atom) {
        self.part_from(if matches!(atom, Atom::Str(_)) { b'"' } else { b'0' });
        self.atom(atom);
    }

    /// A space, if a token that begins with this byte would else run together
    /// with the word before it.
    fn part_from(&mut self, first: u8) {
        let last = self.bytes.last();
        if is_word_byte(first) && last.is_some_and(|&byte| is_word_byte(byte)) {
            self.bytes.push(b' ');
        }
    }

    fn dotted(&mut self, attribute: usize) {
        let attribute = &self.declared.attributes[attribute];
        self.put(attribute.source.word().as_bytes());
        self.bytes.push(b'.');
        self.put(&attribute.name);
    }

    fn atom(&mut self, atom: &Atom) {
        match atom {
            Atom::Int(value) => write!(self.bytes, "{value}").expect("a list of bytes grows"),
            Atom::Bool(true) => self.put(b"TRUE"),
            Atom::Bool(false) => self.put(b"FALSE"),
            Atom::Str(inner) => {
                self.bytes.push(b'"');
                self.put(inner);
                self.bytes.push(b'"');
            }
        }
    }
}
