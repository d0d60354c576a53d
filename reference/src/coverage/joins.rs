//! What accepted edits cost: how many joins, for which edit, and with what below
//! the edited holder. What an engine might get wrong has a name of its own.

use crate::answer::Edited;
use crate::book::Book;
use crate::declarations::Sort;
use std::collections::BTreeSet;

/// How many joins an edit of this sign and key can have. A tie that is added counts,
/// so there are two at least; a party has nobody below it and at most 64 groups.
const SPANS: [(&str, &[&str]); 6] = [
    ("+parent", &["2 to 9", "10 to 99", "100 to 999", "1000 and more"]),
    ("-parent", &["1", "2 to 9", "10 to 99", "100 to 999", "1000 and more"]),
    ("+member", &["2 to 9", "10 to 99"]),
    ("-member", &["1", "2 to 9", "10 to 99"]),
    ("+value", &["1", "2 to 9", "10 to 99", "100 to 999", "1000 and more"]),
    ("-value", &["1", "2 to 9", "10 to 99", "100 to 999", "1000 and more"]),
];

const NONE_CHANGED: &str = "joins above 1, no set changed";
const SOME_CHANGED: &str = "joins, some sets changed";
const ALL_CHANGED: &str = "joins, all sets changed";
const TWO_PATHS: &str = "joins of a holder below on two paths";
const ELSEWHERE: &str = "joins of a tie to a group that is not below";

const SORTS: [Sort; 5] = [Sort::Admin, Sort::UserGroup, Sort::ObjectGroup, Sort::User, Sort::Object];

/// Every name of this module that can be met.
pub fn possible() -> Vec<String> {
    let mut names = Vec::new();
    for (edit, spans) in SPANS {
        names.extend(spans.iter().map(|span| format!("joins {edit} {span}")));
    }
    names.extend(SORTS.map(of_sort));
    names.extend([NONE_CHANGED, SOME_CHANGED, ALL_CHANGED, TWO_PATHS, ELSEWHERE].map(str::to_string));
    names
}

/// The names that an accepted edit meets, on the book as it is after it.
pub fn names(book: &Book, line: &[u8], edited: Edited) -> Vec<String> {
    let equals = line.iter().position(|&byte| byte == b'=').expect("an accepted edit has a key");
    let edit = String::from_utf8_lossy(&line[..equals]);
    let first = line[equals + 1..].split(|&byte| byte == b',').next().unwrap_or(b"");
    let holder = book.declared().holder(first).expect("an accepted edit names its holder");
    let mut names =
        vec![format!("joins {edit} {}", span(edited.joins)), of_sort(book.declared().sort(holder))];
    let met = met(book, holder);
    let changed = match edited.count {
        0 if edited.joins > 1 => Some(NONE_CHANGED),
        0 => None,
        count if count == met.len() => Some(ALL_CHANGED),
        _ => Some(SOME_CHANGED),
    };
    let above = |one: usize| book.ties().right_above(one);
    let below = || met.iter().copied().filter(|&one| one != holder);
    let two_paths = below().any(|one| above(one).intersection(&met).count() > 1);
    let elsewhere = below().any(|one| !above(one).is_subset(&met));
    let two_paths = two_paths.then_some(TWO_PATHS);
    let elsewhere = elsewhere.then_some(ELSEWHERE);
    names.extend([changed, two_paths, elsewhere].into_iter().flatten().map(str::to_string));
    names
}

/// The holder and all below it.
fn met(book: &Book, holder: usize) -> BTreeSet<usize> {
    let mut met = BTreeSet::from([holder]);
    let mut waiting = vec![holder];
    while let Some(one) = waiting.pop() {
        let below = book.ties().right_below(one).iter();
        waiting.extend(below.filter(|&&low| met.insert(low)));
    }
    met
}

fn of_sort(sort: Sort) -> String {
    let word = match sort {
        Sort::Admin => "admin",
        Sort::UserGroup => "a ugroup",
        Sort::ObjectGroup => "an ogroup",
        Sort::User => "a user",
        Sort::Object => "an object",
    };
    format!("joins of {word}")
}

fn span(joins: usize) -> &'static str {
    match joins {
        0 => "0",
        1 => "1",
        2..=9 => "2 to 9",
        10..=99 => "10 to 99",
        100..=999 => "100 to 999",
        _ => "1000 and more",
    }
}
