//! The valley file, and files for edits of a group at the top.

use crate::policies;
use reference::office::{read_hex, split_at_end};
use reference::{Book, TABLE_WORDS};

const VALLEY_SESSION: &[u8] = include_bytes!("../../vectors/valley/office-example.in");

/// The valley file, 27 lines.
pub fn valley() -> Vec<u8> {
    split_at_end(VALLEY_SESSION).0.to_vec()
}

/// The block of the valley session, which is permitted.
pub fn valley_block() -> Vec<u8> {
    let lines = split_at_end(VALLEY_SESSION).1.split(|&byte| byte == b'\n');
    let hex = lines.filter_map(|line| line.strip_prefix(b"try=")).next();
    hex.and_then(read_hex).expect("the valley session has a try line")
}

/// The valley file with these policies in place of its own.
pub fn valley_with(policies: &[String]) -> Vec<u8> {
    let text = String::from_utf8(valley()).expect("the valley file is plain text");
    let mut lines: Vec<String> =
        text.lines().filter(|line| !line.starts_with("rule=")).map(String::from).collect();
    lines.extend(policies.iter().map(|policy| format!("rule=pass,{policy}")));
    (lines.join("\n") + "\n").into_bytes()
}

/// The valley file with `rules` rules of 16 terms.
pub fn valley_large(rules: usize) -> Vec<u8> {
    valley_with(&vec![policies::sixteen_terms_valley().to_string(); rules])
}

/// How many bytes a file has when it is loaded and written.
pub fn written_length(file: &[u8]) -> usize {
    let (book, _) = Book::load(file, &mut [0; TABLE_WORDS]);
    book.text().len()
}

/// Groups below group g0: for each the numbers of its parents.
type Parents = Vec<Vec<usize>>;

/// A file whose group g0 stands at the top. The users are members of the groups that `groups_of` names. Pair
/// `zone,2` is nobody's but that of `over`, a group that stands apart.
fn topped(parents: &Parents, users: usize, groups_of: impl Fn(usize) -> Vec<usize>) -> Vec<u8> {
    let mut lines: Vec<String> = ["rights=1", "attr=user,zone,int", "atom=user.zone,1", "atom=user.zone,2"]
        .iter()
        .map(|line| line.to_string())
        .collect();
    lines.extend((0..=parents.len()).map(|i| format!("ugroup=g{i}")));
    lines.push("ugroup=over".to_string());
    lines.extend((0..users).map(|j| format!("user=p{j}")));
    for (i, above) in parents.iter().enumerate() {
        lines.extend(above.iter().map(|k| format!("parent=g{},g{k}", i + 1)));
    }
    for j in 0..users {
        lines.extend(groups_of(j).iter().map(|i| format!("member=p{j},g{i}")));
    }
    lines.push("value=g0,zone,1".to_string());
    lines.push("value=over,zone,2".to_string());
    (lines.join("\n") + "\n").into_bytes()
}

/// g0 with `below` users as its members.
pub fn members(below: usize) -> Vec<u8> {
    topped(&Vec::new(), below, |_| vec![0])
}

/// How many groups a chain has below g0; with g0 and `over` there can be no more.
const CHAIN: usize = 62;

/// A chain of groups under g0, as long as it can be, and users spread over them.
pub fn chain(below: usize) -> Vec<u8> {
    let groups = below.min(CHAIN);
    let parents: Parents = (0..groups).map(|i| vec![i]).collect();
    topped(&parents, below - groups, |j| vec![1 + j % groups])
}

/// The last group of a full chain.
pub fn chain_end() -> String {
    format!("g{CHAIN}")
}

/// A chain as long as it can be, whose groups were declared in another order: `at` gives the group at each place
/// below g0.
fn declared_otherwise(below: usize, at: impl Fn(usize) -> usize) -> Vec<u8> {
    let mut parents: Parents = vec![Vec::new(); CHAIN];
    let mut above = 0;
    for place in 1..=CHAIN {
        let group = at(place);
        parents[group - 1] = vec![above];
        above = group;
    }
    topped(&parents, below - CHAIN, |j| vec![1 + j % CHAIN])
}

/// The lowest group of the chain was declared first, behind g0.
pub fn chain_from_below(below: usize) -> Vec<u8> {
    declared_otherwise(below, |place| CHAIN + 1 - place)
}

/// Groups of the chain were declared from both ends in turn, so that a walk over them in their order finds one more
/// at a time.
pub fn chain_in_turn(below: usize) -> Vec<u8> {
    declared_otherwise(below, |place| if place.is_multiple_of(2) { place / 2 } else { CHAIN - place / 2 })
}

/// How many groups a lattice has below g0.
const LATTICE: usize = 56;

/// Eight rows of seven groups under g0, each group with two parents in the row above; each user is a member of
/// three of them.
pub fn lattice(below: usize) -> Vec<u8> {
    let above = |i: usize| match i {
        0..7 => vec![0],
        i => vec![1 + 7 * (i / 7 - 1) + i % 7, 1 + 7 * (i / 7 - 1) + (i + 1) % 7],
    };
    let parents: Parents = (0..LATTICE).map(above).collect();
    topped(&parents, below - LATTICE, |j| [0, 19, 37].map(|step| 1 + (j + step) % LATTICE).to_vec())
}

/// All users that there can be beside 64 groups.
const CROWD: usize = 191;

/// Each group under all groups before it, and each user in all of them: more ties than a file has room for.
pub fn crowd() -> Vec<u8> {
    let parents: Parents = (0..CHAIN).map(|i| (0..=i).collect()).collect();
    topped(&parents, CROWD, |_| (0..=CHAIN).collect())
}

/// The lines of a file without its ties up, and edits that put these.
pub fn parted(file: &[u8]) -> (Vec<u8>, Vec<String>) {
    let text = String::from_utf8_lossy(file);
    let is_tie_up = |line: &&str| line.starts_with("parent=") || line.starts_with("member=");
    let (ties, others): (Vec<&str>, Vec<&str>) = text.lines().partition(is_tie_up);
    ((others.join("\n") + "\n").into_bytes(), ties.iter().map(|tie| format!("+{tie}\n")).collect())
}
