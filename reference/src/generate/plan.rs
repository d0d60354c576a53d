//! Random declarations and ties that a file may have, and their lines.

use super::policies;
use super::rng::Rng;
use crate::atom::{Atom, Name, Source, Type};
use crate::declarations::{Attribute, Holder, Pair, Sort};

/// How many of each kind a plan tries to have.
#[derive(Clone, Copy, Debug, Default)]
pub struct Size {
    pub attributes: usize,
    pub operations: usize,
    pub pairs: usize,
    pub user_groups: usize,
    pub object_groups: usize,
    pub users: usize,
    pub objects: usize,
    pub parents: usize,
    pub members: usize,
    pub values: usize,
    pub rules: usize,
}

impl Size {
    pub fn tiny(rng: &mut Rng) -> Size {
        Size::up_to(rng, 3)
    }

    pub fn small(rng: &mut Rng) -> Size {
        Size::up_to(rng, 8)
    }

    fn up_to(rng: &mut Rng, most: usize) -> Size {
        let mut some = |most: usize| rng.below(most + 1);
        Size {
            attributes: some(most + 2),
            operations: some(most.min(8)),
            pairs: some(2 * most),
            user_groups: some(most),
            object_groups: some(most),
            users: some(most),
            objects: some(most),
            parents: some(2 * most),
            members: some(2 * most),
            values: some(3 * most),
            rules: some(most),
        }
    }

    /// A file for most days: something of everything.
    pub fn middle(rng: &mut Rng) -> Size {
        Size {
            attributes: rng.between(8, 16),
            operations: rng.between(1, 4),
            pairs: rng.between(20, 90),
            user_groups: rng.between(4, 14),
            object_groups: rng.between(3, 8),
            users: rng.between(3, 20),
            objects: rng.between(2, 10),
            parents: rng.between(8, 30),
            members: rng.between(8, 40),
            values: rng.between(15, 60),
            rules: rng.between(2, 12),
        }
    }

    /// Every table full.
    pub fn full(rng: &mut Rng) -> Size {
        let user_groups = rng.between(20, 50);
        let users = rng.between(60, 150);
        Size {
            attributes: 32,
            operations: 8,
            pairs: 256,
            user_groups,
            object_groups: 64 - user_groups,
            users,
            objects: 191 - users,
            parents: rng.between(60, 150),
            members: rng.between(150, 250),
            values: rng.between(150, 250),
            rules: 32,
        }
    }
}

/// Declarations and ties by number; holder 0 is admin.
#[derive(Clone, Debug)]
pub struct Plan {
    pub attributes: Vec<Attribute>,
    pub operations: Vec<Name>,
    pub pairs: Vec<Pair>,
    pub holders: Vec<Holder>,
    pub parents: Vec<(usize, usize)>,
    pub members: Vec<(usize, usize)>,
    pub values: Vec<(usize, usize)>,
    pub rules: Vec<(usize, Vec<u8>)>,
}

/// Names that look like something else but are good ones.
const ODD_NAMES: [&str; 10] =
    ["min_group", "user", "and", "_", "0", "rule", "true", "end", "in", "z23456789012"];

impl Plan {
    pub fn new(rng: &mut Rng, size: &Size) -> Plan {
        let mut plan = Plan::bare();
        plan.grow_attributes(rng, size.attributes);
        plan.grow_operations(rng, size.operations);
        plan.grow_pairs(rng, size.pairs);
        plan.grow_holders(rng, Sort::UserGroup, size.user_groups);
        plan.grow_holders(rng, Sort::ObjectGroup, size.object_groups);
        plan.grow_holders(rng, Sort::User, size.users);
        plan.grow_holders(rng, Sort::Object, size.objects);
        plan.grow_parents(rng, size.parents);
        plan.grow_members(rng, size.members);
        plan.grow_values(rng, size.values);
        plan.grow_rules(rng, size.rules);
        plan
    }

    /// Nothing but admin.
    pub fn bare() -> Plan {
        let admin = Holder { sort: Sort::Admin, name: b"admin".to_vec() };
        Plan {
            attributes: vec![],
            operations: vec![],
            pairs: vec![],
            holders: vec![admin],
            parents: vec![],
            members: vec![],
            values: vec![],
            rules: vec![],
        }
    }

    pub fn grow_attributes(&mut self, rng: &mut Rng, count: usize) {
        for number in 0..count {
            let source = Source::ALL[rng.weighted(&[40, 20, 10, 20, 10])];
            let kind = Type::ALL[rng.weighted(&[50, 25, 25])];
            if source.comes_with_block() && kind == Type::Str {
                continue;
            }
            let name = name(rng, 'a', number / 2);
            let same = |one: &Attribute| one.source == source && one.name == name;
            if !self.attributes.iter().any(same) {
                self.attributes.push(Attribute { source, name, kind });
            }
        }
        // What fell out above is made up for, so that a full table is full.
        for number in self.attributes.len()..count {
            let (source, kind) = (Source::User, Type::Int);
            let name = name(rng, 'x', number);
            self.attributes.push(Attribute { source, name, kind });
        }
    }

    pub fn grow_operations(&mut self, rng: &mut Rng, count: usize) {
        for number in 0..count {
            let name = name(rng, 'o', number);
            if !self.operations.contains(&name) {
                self.operations.push(name);
            }
        }
    }

    /// Brings the number of operations up to `count`.
    pub fn grow_operations_to(&mut self, count: usize) {
        for number in self.operations.len()..count {
            self.operations.push(format!("q{number}").into_bytes());
        }
    }

    pub fn grow_pairs(&mut self, rng: &mut Rng, count: usize) {
        let given = |one: &usize| !self.attributes[*one].source.comes_with_block();
        let choices: Vec<usize> = (0..self.attributes.len()).filter(given).collect();
        if choices.is_empty() {
            return;
        }
        for _ in 0..20 * count {
            if self.pairs.len() == count {
                break;
            }
            let attribute = *rng.pick(&choices);
            let atom = atom(rng, self.attributes[attribute].kind, count);
            let pair = Pair { attribute, atom };
            if !self.pairs.contains(&pair) {
                self.pairs.push(pair);
            }
        }
    }

    pub fn grow_holders(&mut self, rng: &mut Rng, sort: Sort, count: usize) {
        let letter = match sort {
            Sort::Admin => 'n',
            Sort::UserGroup => 'g',
            Sort::ObjectGroup => 'h',
            Sort::User => 'p',
            Sort::Object => 't',
        };
        for number in 0..count {
            let mut name = name(rng, letter, number);
            if self.holders.iter().any(|one| one.name == name) {
                name = format!("{letter}_{number}").into_bytes();
            }
            self.holders.push(Holder { sort, name });
        }
    }

    /// The numbers of the holders of these sorts.
    pub fn numbers(&self, sorts: &[Sort]) -> Vec<usize> {
        let fits = |one: &usize| sorts.contains(&self.holders[*one].sort);
        (0..self.holders.len()).filter(fits).collect()
    }

    /// Parent ties that lead from higher to lower numbers are never circular.
    pub fn grow_parents(&mut self, rng: &mut Rng, count: usize) {
        for _ in 0..count {
            let sort = *rng.pick(&[Sort::UserGroup, Sort::ObjectGroup]);
            let groups = self.numbers(&[sort]);
            if groups.len() < 2 {
                continue;
            }
            let high = rng.between(1, groups.len() - 1);
            let tie = (groups[high], groups[rng.below(high)]);
            if !self.parents.contains(&tie) {
                self.parents.push(tie);
            }
        }
    }

    pub fn grow_members(&mut self, rng: &mut Rng, count: usize) {
        for _ in 0..count {
            let sorts = [(Sort::User, Sort::UserGroup), (Sort::Object, Sort::ObjectGroup)];
            let (party, group) = *rng.pick(&sorts);
            let (parties, groups) = (self.numbers(&[party]), self.numbers(&[group]));
            if parties.is_empty() || groups.is_empty() {
                continue;
            }
            let tie = (*rng.pick(&parties), *rng.pick(&groups));
            if !self.members.contains(&tie) {
                self.members.push(tie);
            }
        }
    }

    pub fn grow_values(&mut self, rng: &mut Rng, count: usize) {
        for _ in 0..count {
            let holder = rng.below(self.holders.len());
            let pairs = self.pairs_for(holder);
            if pairs.is_empty() {
                continue;
            }
            let tie = (holder, *rng.pick(&pairs));
            if !self.values.contains(&tie) {
                self.values.push(tie);
            }
        }
    }

    /// The pairs that this holder may be given.
    pub fn pairs_for(&self, holder: usize) -> Vec<usize> {
        let source = self.holders[holder].sort.source();
        let fits = |one: &usize| self.attributes[self.pairs[*one].attribute].source == source;
        (0..self.pairs.len()).filter(fits).collect()
    }

    pub fn grow_rules(&mut self, rng: &mut Rng, count: usize) {
        for _ in 0..count {
            if self.operations.is_empty() {
                return;
            }
            let policy = policies::good(rng, self);
            self.rules.push((rng.below(self.operations.len()), policy));
        }
    }

    /// The name of attribute `number` with its source, as policies write it.
    pub fn dotted(&self, number: usize) -> Vec<u8> {
        let attribute = &self.attributes[number];
        let source = attribute.source.word().as_bytes();
        [source, b".", &attribute.name].concat()
    }

    /// All lines of the file, each without its byte 10.
    pub fn lines(&self) -> Vec<Vec<u8>> {
        let mut lines = vec![b"rights=1".to_vec()];
        lines.extend(self.declaring_lines());
        lines.extend(self.tie_lines());
        for (operation, policy) in &self.rules {
            let operation = self.operations[*operation].as_slice();
            lines.push([b"rule=", operation, b",", policy].concat());
        }
        lines
    }

    fn declaring_lines(&self) -> Vec<Vec<u8>> {
        let mut lines = Vec::new();
        for one in &self.attributes {
            let (source, kind) = (one.source.word().as_bytes(), one.kind.word().as_bytes());
            lines.push([b"attr=", source, b",", &one.name, b",", kind].concat());
        }
        for name in &self.operations {
            lines.push([b"op=", name.as_slice()].concat());
        }
        for pair in &self.pairs {
            let (dotted, atom) = (self.dotted(pair.attribute), pair.atom.text());
            lines.push([b"atom=", dotted.as_slice(), b",", &atom].concat());
        }
        for one in &self.holders[1..] {
            lines.push([holder_key(one.sort), b"=", &one.name].concat());
        }
        lines
    }

    /// The lines of all ties, in the file's order of keys.
    pub fn tie_lines(&self) -> Vec<Vec<u8>> {
        let parents = self.parents.iter().map(|tie| self.parent_line(*tie));
        let members = self.members.iter().map(|tie| self.member_line(*tie));
        let values = self.values.iter().map(|tie| self.value_line(*tie));
        parents.chain(members).chain(values).collect()
    }

    pub fn parent_line(&self, (child, parent): (usize, usize)) -> Vec<u8> {
        let (child, parent) = (&self.holders[child].name, &self.holders[parent].name);
        [b"parent=", child.as_slice(), b",", parent].concat()
    }

    pub fn member_line(&self, (party, group): (usize, usize)) -> Vec<u8> {
        let (party, group) = (&self.holders[party].name, &self.holders[group].name);
        [b"member=", party.as_slice(), b",", group].concat()
    }

    pub fn value_line(&self, (holder, pair): (usize, usize)) -> Vec<u8> {
        let Pair { attribute, atom } = &self.pairs[pair];
        let (holder, attribute) = (&self.holders[holder].name, &self.attributes[*attribute].name);
        [b"value=", holder.as_slice(), b",", attribute, b",", &atom.text()].concat()
    }

    /// The whole file. Value ties fall away from the end until it fits.
    pub fn file(&mut self) -> Vec<u8> {
        loop {
            let file = join(&self.lines());
            if file.len() <= crate::file::FILE_LIMIT || self.values.pop().is_none() {
                return file;
            }
        }
    }
}

fn holder_key(sort: Sort) -> &'static [u8] {
    match sort {
        Sort::Admin => b"admin",
        Sort::UserGroup => b"ugroup",
        Sort::ObjectGroup => b"ogroup",
        Sort::User => b"user",
        Sort::Object => b"object",
    }
}

/// Lines, each with its byte 10.
pub fn join(lines: &[Vec<u8>]) -> Vec<u8> {
    let mut file = Vec::new();
    for line in lines {
        file.extend_from_slice(line);
        file.push(b'\n');
    }
    file
}

fn name(rng: &mut Rng, letter: char, number: usize) -> Name {
    if number == 0 && rng.chance(25) {
        return rng.pick(&ODD_NAMES).as_bytes().to_vec();
    }
    format!("{letter}{number}").into_bytes()
}

/// Few different values in a small plan, so that comparisons meet.
pub fn atom(rng: &mut Rng, kind: Type, spread: usize) -> Atom {
    let spread = spread.clamp(4, 60);
    match kind {
        Type::Bool => Atom::Bool(rng.chance(50)),
        Type::Int if rng.chance(8) => Atom::Int(u32::MAX - rng.below(2) as u32),
        Type::Int if rng.chance(5) => Atom::Int(1 << 31),
        Type::Int => Atom::Int(rng.below(spread) as u32),
        Type::Str if rng.chance(8) => {
            Atom::Str(rng.pick(&["", " ", "a,b", "\\", "AND", "twelve bytes", "{}", "1"]).as_bytes().to_vec())
        }
        Type::Str => Atom::Str(format!("s{}", rng.below(spread)).into_bytes()),
    }
}
