//! Lines with flaws: each field is drawn by itself, so several refusals may
//! apply to one line at once.

use super::plan::{atom, Plan};
use super::policies;
use super::rng::Rng;
use crate::atom::{Source, Type};
use crate::declarations::Sort;
use crate::line::Key;

const BAD_NAMES: [&str; 10] = ["", "A", "thirteen_byte", "a b", "a.b", "a-b", "\u{e9}", "\0", "a\r", " a"];
const BAD_ATOMS: [&str; 14] = [
    "",
    "01",
    "4294967296",
    "-1",
    "1 ",
    "true",
    "\"",
    "\"a",
    "a\"",
    "\"thirteen byte\"",
    "\"a\"b\"",
    "UNDEF",
    "{1}",
    "99999999999999999999",
];
const BAD_KEYS: [&str; 14] = [
    "rights", "Rule", "rule ", " rule", "", "end", "try", "attrs", "min", "op\r", "+op", "\0", "group",
    "parent,",
];

/// Draws lines over a plan; `flaws` is the chance of a flaw in each field.
pub struct Writer<'w> {
    pub plan: &'w Plan,
    pub flaws: usize,
}

impl Writer<'_> {
    /// A line of this key without its byte 10.
    pub fn line(&self, rng: &mut Rng, key: Key) -> Vec<u8> {
        let fields = match key {
            Key::Attr => vec![self.source(rng), self.new_name(rng), self.kind(rng)],
            Key::Op => vec![self.new_name(rng)],
            Key::Atom => vec![self.dotted(rng), self.atom(rng)],
            Key::UserGroup | Key::ObjectGroup | Key::User | Key::Object => {
                vec![self.new_name(rng)]
            }
            Key::Parent => self.two_groups(rng),
            Key::Member => self.party_and_group(rng),
            Key::Value => self.value_fields(rng),
            Key::Rule => vec![self.operation(rng), self.policy(rng)],
        };
        let mut rest = fields.join(&b","[..]);
        if rng.below(400) < self.flaws {
            rest = rng.pick(&[&b""[..], b",", b",,", b"a", b"a,a,a,a", b"="]).to_vec();
        }
        [key.word().as_bytes(), b"=", &rest].concat()
    }

    fn flawed(&self, rng: &mut Rng) -> bool {
        rng.chance(self.flaws)
    }

    fn bad_name(&self, rng: &mut Rng) -> Vec<u8> {
        if rng.chance(50) {
            return b"nobody".to_vec();
        }
        rng.pick(&BAD_NAMES).as_bytes().to_vec()
    }

    /// A name for something new; now and then one that is taken.
    fn new_name(&self, rng: &mut Rng) -> Vec<u8> {
        if !self.flawed(rng) {
            return format!("new{}", rng.below(1000)).into_bytes();
        }
        match rng.below(3) {
            0 => rng.pick(&BAD_NAMES).as_bytes().to_vec(),
            1 => rng.pick(&self.plan.holders).name.clone(),
            _ => self.operation(rng),
        }
    }

    fn source(&self, rng: &mut Rng) -> Vec<u8> {
        if self.flawed(rng) {
            return rng.pick(&["", "users", "User", "group", "env "]).as_bytes().to_vec();
        }
        rng.pick(&Source::ALL).word().as_bytes().to_vec()
    }

    fn kind(&self, rng: &mut Rng) -> Vec<u8> {
        if self.flawed(rng) {
            return rng.pick(&["", "float", "Int", "int,", "str "]).as_bytes().to_vec();
        }
        rng.pick(&Type::ALL).word().as_bytes().to_vec()
    }

    fn dotted(&self, rng: &mut Rng) -> Vec<u8> {
        let bad = ["user.nobody", "users.a0", "usera0", "user.", ".a0", "user.a0.b", "env.nobody"];
        if self.plan.attributes.is_empty() || self.flawed(rng) {
            return rng.pick(&bad).as_bytes().to_vec();
        }
        self.plan.dotted(rng.below(self.plan.attributes.len()))
    }

    fn atom(&self, rng: &mut Rng) -> Vec<u8> {
        if self.flawed(rng) {
            return rng.pick(&BAD_ATOMS).as_bytes().to_vec();
        }
        let kind = *rng.pick(&Type::ALL);
        atom(rng, kind, self.plan.pairs.len()).text()
    }

    fn operation(&self, rng: &mut Rng) -> Vec<u8> {
        if self.plan.operations.is_empty() || self.flawed(rng) {
            return self.bad_name(rng);
        }
        rng.pick(&self.plan.operations).clone()
    }

    fn policy(&self, rng: &mut Rng) -> Vec<u8> {
        if !self.flawed(rng) {
            return policies::good(rng, self.plan);
        }
        match rng.below(4) {
            0 => policies::at_limit(rng),
            1 => b"user.nobody AND env.nobody=1".to_vec(),
            _ => policies::flawed(rng, self.plan),
        }
    }

    /// A holder of one of these sorts, unless the field is flawed.
    fn holder(&self, rng: &mut Rng, sorts: &[Sort]) -> Vec<u8> {
        let numbers = self.plan.numbers(sorts);
        if self.flawed(rng) {
            return match rng.below(2) {
                0 => self.bad_name(rng),
                _ => rng.pick(&self.plan.holders).name.clone(),
            };
        }
        if numbers.is_empty() {
            return rng.pick(&self.plan.holders).name.clone();
        }
        self.plan.holders[*rng.pick(&numbers)].name.clone()
    }

    fn two_groups(&self, rng: &mut Rng) -> Vec<Vec<u8>> {
        let sort = *rng.pick(&[Sort::UserGroup, Sort::UserGroup, Sort::ObjectGroup]);
        let child = self.holder(rng, &[sort]);
        if self.flawed(rng) && rng.chance(30) {
            return vec![child.clone(), child];
        }
        vec![child, self.holder(rng, &[sort])]
    }

    fn party_and_group(&self, rng: &mut Rng) -> Vec<Vec<u8>> {
        let user = (Sort::User, Sort::UserGroup);
        let (party, group) = *rng.pick(&[user, user, (Sort::Object, Sort::ObjectGroup)]);
        vec![self.holder(rng, &[party]), self.holder(rng, &[group])]
    }

    fn value_fields(&self, rng: &mut Rng) -> Vec<Vec<u8>> {
        let holder = rng.below(self.plan.holders.len());
        let pairs = self.plan.pairs_for(holder);
        if pairs.is_empty() || self.flawed(rng) {
            let attribute = match rng.below(2) {
                0 => self.bad_name(rng),
                _ => format!("a{}", rng.below(4)).into_bytes(),
            };
            return vec![self.holder(rng, &[]), attribute, self.atom(rng)];
        }
        let line = self.plan.value_line((holder, *rng.pick(&pairs)));
        vec![line[b"value=".len()..].to_vec()]
    }
}

/// Spoils a line as a whole: key, `=`, spaces or length.
pub fn spoil_frame(rng: &mut Rng, line: &mut Vec<u8>) {
    let equals = line.iter().position(|&byte| byte == b'=');
    match (rng.below(8), equals) {
        (0, Some(place)) => drop(line.splice(..place, rng.pick(&BAD_KEYS).bytes())),
        (1, Some(place)) => drop(line.remove(place)),
        (2, _) => line.clear(),
        _ => pad(line, rng.between(253, 258)),
    }
}

/// Lengthens a line: with spaces where a policy ends it, else with letters.
pub fn pad(line: &mut Vec<u8>, length: usize) {
    let filler = if line.starts_with(b"rule=") { b' ' } else { b'a' };
    if line.len() < length {
        line.resize(length, filler);
    }
}
