//! A file with every table full, or each of them to a part, and ties up to the limit of bytes. The same at every
//! run.

use crate::policies;
use std::collections::HashSet;

/// How much a file declares, and how long it may be.
pub struct Size {
    pub attributes: usize,
    pub operations: usize,
    pub pairs: usize,
    pub groups: usize,
    /// Groups among them, admin not.
    pub holders: usize,
    pub rules: usize,
    pub bytes: usize,
}

impl Size {
    /// So many quarters of every limit of document 01.
    pub fn quarters(part: usize) -> Size {
        Size {
            attributes: 8 * part,
            operations: 2 * part,
            pairs: 64 * part,
            groups: 16 * part,
            holders: (255 * part).div_ceil(4),
            rules: 8 * part,
            bytes: 8_192 * part,
        }
    }

    fn user_groups(&self) -> usize {
        self.groups * 5 / 8
    }

    fn object_groups(&self) -> usize {
        self.groups - self.user_groups()
    }

    fn users(&self) -> usize {
        (self.holders - self.groups) * 3 / 4
    }

    fn objects(&self) -> usize {
        self.holders - self.groups - self.users()
    }

    /// The holder number of user or object j.
    pub fn user_number(&self, j: usize) -> usize {
        1 + self.groups + j
    }

    pub fn object_number(&self, j: usize) -> usize {
        1 + self.groups + self.users() + j
    }

    /// The user group that nobody stands below.
    pub fn last_group(&self) -> String {
        format!("g{}", self.user_groups() - 1)
    }

    /// The first user group and all below it.
    pub fn under_first_group(&self) -> usize {
        self.user_groups() + self.users()
    }
}

/// Sources and types of eight attributes; the next eight have the same.
const ATTRIBUTES: [(&str, &str); 8] = [
    ("user", "int"),
    ("object", "int"),
    ("env", "int"),
    ("user", "str"),
    ("admin", "int"),
    ("user", "bool"),
    ("object", "str"),
    ("connect", "bool"),
];

/// A pair: attribute and atom.
type Pair = (usize, String);

pub struct FullFile {
    pub bytes: Vec<u8>,
    /// An atom of user attribute a0 that nobody has.
    pub of_nobody: String,
}

/// The last two pairs of attribute a0 are kept apart, for edits that change something: one is the last user
/// group's alone, one is nobody's.
pub fn file(size: &Size) -> FullFile {
    let pairs = pairs(size);
    let mut spare = pairs.iter().rev().filter(|(attribute, _)| *attribute == 0).map(|(_, atom)| atom.clone());
    let (of_nobody, of_last_group) = (spare.next().unwrap_or_default(), spare.next().unwrap_or_default());
    let mut lines = declarations(size, &pairs);
    lines.extend(ties_up(size));
    lines.push(format!("value={},a0,{of_last_group}", size.last_group()));
    let rules = rules(size);
    let length = |lines: &[String]| lines.iter().map(|line| line.len() + 1).sum::<usize>();
    let free: Vec<&Pair> =
        pairs.iter().filter(|(k, atom)| *k != 0 || (*atom != of_nobody && *atom != of_last_group)).collect();
    let room = size.bytes - length(&lines) - length(&rules);
    lines.extend(values(size, &free, room));
    lines.extend(rules);
    let bytes = (lines.join("\n") + "\n").into_bytes();
    FullFile { bytes, of_nobody }
}

fn source(attribute: usize) -> &'static str {
    ATTRIBUTES[attribute % 8].0
}

/// Value v of each attribute that has pairs, v rising, until there are enough pairs.
fn pairs(size: &Size) -> Vec<Pair> {
    let mut pairs = Vec::new();
    for v in 0..size.pairs {
        for attribute in 0..size.attributes {
            let atom = match ATTRIBUTES[attribute % 8] {
                ("env" | "connect", _) => continue,
                (_, "int") => format!("{}", 3 * v + attribute),
                (_, "str") => format!("\"s{v}\""),
                _ if v == 0 => "FALSE".to_string(),
                _ if v == 1 => "TRUE".to_string(),
                _ => continue,
            };
            if pairs.len() < size.pairs {
                pairs.push((attribute, atom));
            }
        }
    }
    pairs
}

fn declarations(size: &Size, pairs: &[Pair]) -> Vec<String> {
    let mut lines = vec!["rights=1".to_string()];
    for k in 0..size.attributes {
        let (source, kind) = ATTRIBUTES[k % 8];
        lines.push(format!("attr={source},a{k},{kind}"));
    }
    lines.extend((0..size.operations).map(|k| format!("op=o{k}")));
    lines.extend(pairs.iter().map(|(k, atom)| format!("atom={}.a{k},{atom}", source(*k))));
    lines.extend((0..size.user_groups()).map(|i| format!("ugroup=g{i}")));
    lines.extend((0..size.object_groups()).map(|i| format!("ogroup=h{i}")));
    lines.extend((0..size.users()).map(|j| format!("user=p{j}")));
    lines.extend((0..size.objects()).map(|j| format!("object=t{j}")));
    lines
}

/// Two parents for nearly every group, of lower numbers, so that all stand below the first; three groups for a
/// user and two for an object, none of them the last.
fn ties_up(size: &Size) -> Vec<String> {
    let mut lines = Vec::new();
    for (letter, groups) in [('g', size.user_groups()), ('h', size.object_groups())] {
        for i in 1..groups {
            let above = (i - 1) / 2;
            lines.push(format!("parent={letter}{i},{letter}{above}"));
            if i > 3 && i - 3 != above {
                lines.push(format!("parent={letter}{i},{letter}{}", i - 3));
            }
        }
    }
    lines.extend(members('p', size.users(), 'g', size.user_groups() - 1, &[0, 5, 11]));
    lines.extend(members('t', size.objects(), 'h', size.object_groups() - 1, &[0, 3]));
    lines
}

fn members(party: char, parties: usize, group: char, groups: usize, steps: &[usize]) -> Vec<String> {
    let mut given = HashSet::new();
    let all = (0..parties).flat_map(|j| steps.iter().map(move |step| (j, (7 * j + step) % groups)));
    all.filter(|tie| given.insert(*tie)).map(|(j, i)| format!("member={party}{j},{group}{i}")).collect()
}

/// Holder after holder gets one more pair of its source, until the room is used.
fn values(size: &Size, pairs: &[&Pair], mut room: usize) -> Vec<String> {
    let of =
        |wanted: &str| pairs.iter().copied().filter(|(k, _)| source(*k) == wanted).collect::<Vec<&Pair>>();
    let (user, object, admin) = (of("user"), of("object"), of("admin"));
    let mut holders = vec![("admin".to_string(), &admin)];
    holders.extend((0..size.user_groups()).map(|i| (format!("g{i}"), &user)));
    holders.extend((0..size.object_groups()).map(|i| (format!("h{i}"), &object)));
    holders.extend((0..size.users()).map(|j| (format!("p{j}"), &user)));
    holders.extend((0..size.objects()).map(|j| (format!("t{j}"), &object)));
    let mut lines = Vec::new();
    for turn in 0..pairs.len() {
        for (place, (holder, pairs)) in
            holders.iter().enumerate().filter(|(_, (_, pairs))| turn < pairs.len())
        {
            let (k, atom) = pairs[(turn + 5 * place) % pairs.len()];
            let line = format!("value={holder},a{k},{atom}");
            if room <= line.len() {
                return lines;
            }
            room -= line.len() + 1;
            lines.push(line);
        }
    }
    lines
}

/// Half of the rules are large ones of the first operation, the rest small ones of the others.
fn rules(size: &Size) -> Vec<String> {
    let large = size.rules / 2;
    let line = |k: usize| match k {
        k if k < large => format!("rule=o0,{}", policies::sixteen_terms_full()),
        k => format!("rule=o{},user.a0 = object.a1 AND env.a2 < 17", 1 + k % (size.operations - 1)),
    };
    (0..size.rules).map(line).collect()
}
