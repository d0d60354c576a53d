//! How the cost of a call grows with what it has to go through.

use crate::case::{Calls, Case};
use crate::files;
use crate::full::{self, Size};
use crate::policies;
use crate::told::{Told, DENY};
use reference::Cause;

const NOBODY_BELOW_GOAL: f64 = 1.5;

pub fn all() -> Vec<Case> {
    let mut cases = loads();
    cases.extend(by_bytes("write, by bytes", Calls::Write));
    cases.extend(by_bytes("length, by bytes", Calls::Length));
    cases.extend(edits("edit of a group, by members below", files::members));
    cases.extend(edits("edit of a group, by holders below, chain of groups first", files::chain));
    cases.extend(requests_by_terms());
    cases.extend(requests_by_rules());
    cases
}

/// The first line alone, the valley file, and files with every table full to a part.
fn growing() -> Vec<Vec<u8>> {
    let mut files = vec![b"rights=1\n".to_vec(), files::valley()];
    files.extend((1..=4).map(|part| full::file(&Size::quarters(part)).bytes));
    files
}

fn loads() -> Vec<Case> {
    let case = |file: &Vec<u8>| {
        let mut case = Case::new("load, by lines", "", file, Calls::Load);
        case.name = format!("{} lines, {} bytes", case.lines(), file.len());
        case
    };
    growing().iter().map(case).collect()
}

fn by_bytes(part: &'static str, calls: fn(usize) -> Calls) -> Vec<Case> {
    let case = |file: &Vec<u8>| {
        let length = files::written_length(file);
        Case::new(part, format!("{length} bytes"), file, calls(length))
    };
    growing().iter().map(case).collect()
}

fn edits(part: &'static str, file: fn(usize) -> Vec<u8>) -> Vec<Case> {
    let case = |below: usize| {
        let file = file(below);
        let calls = Calls::pair(&file, '+', "value=g0,zone,2", below + 1);
        let case = Case::new(part, format!("{below} below"), &file, calls);
        if below == 0 {
            case.with_goal(NOBODY_BELOW_GOAL)
        } else {
            case
        }
    };
    [0, 50, 100, 150, 200].into_iter().map(case).collect()
}

fn requests_by_terms() -> Vec<Case> {
    let case = |terms: usize| {
        let file = files::valley_with(&[policies::terms(terms)]);
        let calls = Calls::Request(files::valley_block(), Told::new(DENY, 0));
        Case::new("request, by terms of one rule", format!("{terms} terms"), &file, calls)
    };
    [1, 2, 4, 8, 16].into_iter().map(case).collect()
}

fn requests_by_rules() -> Vec<Case> {
    let case = |rules: usize| {
        let calls = Calls::Request(files::valley_block(), Told::undefined(Cause::Unlike));
        Case::new(
            "request, by rules of 16 terms",
            format!("{rules} rules, {} terms", 16 * rules),
            &files::valley_large(rules),
            calls,
        )
    };
    [1, 2, 4, 8, 16, 32].into_iter().map(case).collect()
}
