//! Plans of files for certain ends, and files with flaws.

use super::lines::{spoil_frame, Writer};
use super::plan::{join, Plan, Size};
use super::policies;
use super::rng::Rng;
use crate::atom::{Source, Type};
use crate::declarations::{Attribute, Sort};
use crate::file::FILE_LIMIT;
use crate::line::Key;

/// A chain of diamonds of user groups with values on top and users below.
pub fn diamonds(rng: &mut Rng) -> Plan {
    let mut size = Size::small(rng);
    size.attributes = 8;
    size.pairs = rng.between(8, 70);
    size.user_groups = 3 * rng.between(1, 8) + 1;
    size.users = rng.between(1, 8);
    size.operations = 2;
    let mut plan = Plan::new(rng, &size);
    let groups = plan.numbers(&[Sort::UserGroup]);
    for step in groups.windows(4).step_by(3) {
        for tie in [(1, 0), (2, 0), (3, 1), (3, 2)] {
            let tie = (step[tie.0], step[tie.1]);
            if !plan.parents.contains(&tie) {
                plan.parents.push(tie);
            }
        }
    }
    plan.grow_members(rng, 10);
    plan.grow_values(rng, 15);
    plan
}

/// A small plan with one user and one object at least, and operations.
pub fn with_user_and_object(rng: &mut Rng) -> Plan {
    let mut size = Size::small(rng);
    size.attributes += 4;
    size.pairs += 6;
    size.operations = rng.between(2, 4);
    size.users += 1;
    size.objects += 1;
    size.user_groups += 1;
    size.values += 12;
    size.rules = 0;
    Plan::new(rng, &size)
}

/// Rules of which the first that can be TRUE stands at a drawn number.
pub fn late_permit(rng: &mut Rng) -> Plan {
    let mut plan = with_user_and_object(rng);
    let permitting = rng.below(32);
    for number in 0..32 {
        let policy = if number == permitting {
            b"1=1".to_vec()
        } else if number < permitting {
            rng.pick(&[&b"FALSE"[..], b"1=2", b"UNDEF", b"NOT TRUE"]).to_vec()
        } else {
            policies::good(rng, &plan)
        };
        plan.rules.push((0, policy));
    }
    plan
}

/// Rules at the limits of policies, of which one may be over.
pub fn limit_rules(rng: &mut Rng) -> Plan {
    let mut plan = with_user_and_object(rng);
    for _ in 0..rng.between(1, 3) {
        plan.rules.push((rng.below(2), policies::at_limit(rng)));
    }
    plan
}

/// One rule for each operation, each of one term, so that a decision shows
/// the term's truth.
pub fn one_term(rng: &mut Rng) -> Plan {
    let mut plan = with_user_and_object(rng);
    plan.grow_operations_to(8);
    for operation in 0..plan.operations.len() {
        let policy = policies::one_term(rng, &plan);
        plan.rules.push((operation, policy));
    }
    plan
}

/// A file of which the table of some key is full, and one more line of that
/// key, which may have flaws besides.
pub fn full_table(rng: &mut Rng) -> (Plan, Vec<u8>) {
    let full = Size::full(rng);
    let mut size = Size::tiny(rng);
    let key = *rng.pick(&[
        Key::Attr,
        Key::Op,
        Key::Atom,
        Key::UserGroup,
        Key::ObjectGroup,
        Key::User,
        Key::Object,
        Key::Rule,
    ]);
    match key {
        Key::Attr => size.attributes = full.attributes,
        Key::Op => size.operations = full.operations,
        Key::Atom => (size.attributes, size.pairs) = (full.attributes, full.pairs),
        Key::UserGroup => size.user_groups = 64,
        Key::ObjectGroup => size.object_groups = 64 - size.user_groups,
        Key::User => size.users = 255 - size.user_groups - size.object_groups,
        Key::Object => size.objects = 255 - size.user_groups - size.object_groups - size.users,
        _ => (size.operations, size.rules) = (2, 32),
    }
    let plan = Plan::new(rng, &size);
    let flaws = *rng.pick(&[0, 0, 30]);
    let writer = Writer { plan: &plan, flaws };
    let line = writer.line(rng, key);
    let mut lines = plan.lines();
    let place = section_end(&lines, key);
    lines.insert(place, line);
    (plan, join(&lines))
}

/// A file of exactly `length` bytes, full of value ties.
pub fn sized(rng: &mut Rng, length: usize) -> (Plan, Vec<u8>) {
    let mut plan = Plan::bare();
    let (source, kind) = (Source::User, Type::Int);
    let name = b"a0".to_vec();
    plan.attributes.push(Attribute { source, name, kind });
    plan.grow_operations(rng, 1);
    plan.grow_pairs(rng, 40);
    plan.grow_holders(rng, Sort::User, 100);
    plan.grow_holders(rng, Sort::Object, 2);
    let mut left = length - join(&plan.lines()).len();
    'fill: for holder in plan.numbers(&[Sort::User]) {
        for pair in plan.pairs_for(holder) {
            let line = plan.value_line((holder, pair)).len() + 1;
            if left < line + 300 {
                break 'fill;
            }
            left -= line;
            plan.values.push((holder, pair));
        }
    }
    // Two rules padded with spaces take up what is left.
    let head = b"rule=".len() + plan.operations[0].len() + 2;
    for part in [left / 2, left - left / 2] {
        let mut policy = b"user.a0 = 1".to_vec();
        policy.resize(part - head, b' ');
        plan.rules.push((0, policy));
    }
    let file = join(&plan.lines());
    assert_eq!(file.len(), length);
    (plan, file)
}

/// About the limit of 32,768 bytes.
pub fn about_limit(rng: &mut Rng) -> (Plan, Vec<u8>) {
    let length = rng.between(FILE_LIMIT - 2, FILE_LIMIT + 2);
    sized(rng, length)
}

/// A file with flaws in one to three lines.
pub fn flawed(rng: &mut Rng) -> (Plan, Vec<u8>) {
    let size = if rng.chance(50) { Size::tiny(rng) } else { Size::middle(rng) };
    let plan = Plan::new(rng, &size);
    let mut lines = plan.lines();
    for _ in 0..rng.weighted(&[0, 70, 15, 15]) {
        insert_flaw(rng, &plan, &mut lines);
    }
    if rng.chance(6) {
        let first = ["rights=2", "rights=1 ", "rights=1\r", "", "attr=user,a,int", "Rights=1"];
        lines[0] = rng.pick(&first).as_bytes().to_vec();
    }
    let mut file = join(&lines);
    if rng.chance(5) {
        file.pop();
    }
    if rng.chance(3) {
        file.truncate(rng.below(12));
    }
    (plan, file)
}

fn insert_flaw(rng: &mut Rng, plan: &Plan, lines: &mut Vec<Vec<u8>>) {
    let key = *rng.pick(&Key::ALL);
    let writer = Writer { plan, flaws: rng.between(5, 50) };
    let mut line = match rng.weighted(&[60, 20, 10]) {
        0 => writer.line(rng, key),
        1 => repeated(rng, lines, key).unwrap_or_else(|| writer.line(rng, key)),
        _ => turned(rng, plan).unwrap_or_else(|| writer.line(rng, key)),
    };
    let key = key_of(&line).unwrap_or(key);
    if rng.chance(20) {
        spoil_frame(rng, &mut line);
    }
    let section = section_end(lines, key);
    let place = if rng.chance(75) { section } else { rng.between(section, lines.len()) };
    lines.insert(place, line);
}

/// A line of this key that the file has already.
fn repeated(rng: &mut Rng, lines: &[Vec<u8>], key: Key) -> Option<Vec<u8>> {
    let same: Vec<&Vec<u8>> = lines.iter().filter(|one| key_of(one) == Some(key)).collect();
    (!same.is_empty()).then(|| rng.pick(&same).to_vec())
}

/// A parent tie that closes a circle.
fn turned(rng: &mut Rng, plan: &Plan) -> Option<Vec<u8>> {
    if plan.parents.is_empty() {
        return None;
    }
    let (child, parent) = *rng.pick(&plan.parents);
    Some(plan.parent_line((parent, child)))
}

fn key_of(line: &[u8]) -> Option<Key> {
    Key::read(line.split(|&byte| byte == b'=').next()?)
}

/// The place behind the last line of this key.
fn section_end(lines: &[Vec<u8>], key: Key) -> usize {
    let later = |line: &Vec<u8>| key_of(line).is_some_and(|other| other > key);
    lines.iter().position(later).unwrap_or(lines.len())
}
