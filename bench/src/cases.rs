//! The calls that are compared, with their goals.

use crate::blocks::{block, held_mask};
use crate::case::{Calls, Case};
use crate::files;
use crate::full::{self, FullFile, Size};
use crate::policies;
use crate::told::{Told, DENY};
use reference::Cause;

const LOAD_GOAL: f64 = 3.0;
const USER_GOAL: f64 = 2.5;
const VALLEY_REQUEST_GOAL: f64 = 2.3;
const LARGE_REQUEST_GOAL: f64 = 2.5;
const REFUSED_REQUEST_GOAL: f64 = 1.5;
const WRITE_GOAL: f64 = 3.0;

/// How the rows of the full file's load, write and length begin: their times are held against each other.
pub const FULL: &str = "every table full";

/// The user and the object of the full file that edits and requests are about.
const USER: usize = 5;
const OBJECT: usize = 3;

pub fn all() -> Vec<Case> {
    let size = Size::quarters(4);
    let full = full::file(&size);
    let mut cases = loads(&full);
    cases.extend(edits_of_a_user(&size, &full));
    cases.extend(edits_at_the_top(&size, &full));
    cases.extend(refused_edits(&size, &full));
    cases.extend(requests(&size, &full));
    cases.extend(undefined_requests());
    cases.extend(refused_requests(&size, &full));
    cases.extend(writes(&full));
    cases.extend(lengths(&full));
    cases.extend(passes(&size, &full));
    cases
}

fn loads(full: &FullFile) -> Vec<Case> {
    let case = |name: String, file: &[u8]| Case::new("load", name, file, Calls::Load).with_goal(LOAD_GOAL);
    let lines = full.bytes.iter().filter(|&&byte| byte == b'\n').count();
    vec![
        case("valley, 27 lines".to_string(), &files::valley()),
        case(format!("{FULL}, {} bytes, {lines} lines", full.bytes.len()), &full.bytes),
    ]
}

fn edits_of_a_user(size: &Size, full: &FullFile) -> Vec<Case> {
    let case = |name: &str, file: &[u8], first: char, tie: &str| {
        Case::new("edit of one user", name, file, Calls::pair(file, first, tie, 1)).with_goal(USER_GOAL)
    };
    let value = format!("value=p{USER},a0,{}", full.of_nobody);
    let member = format!("member=p{USER},{}", size.last_group());
    vec![
        case("member tie, valley", &files::valley(), '-', "member=p17,season"),
        case("member tie, full file", &full.bytes, '+', &member),
        case("value tie, full file", &full.bytes, '+', &value),
    ]
}

fn edits_at_the_top(size: &Size, full: &FullFile) -> Vec<Case> {
    let case = |name: &str, file: &[u8], tie: &str, count: usize, goal: f64| {
        Case::new("edit at the top", name, file, Calls::pair(file, '+', tie, count)).with_goal(goal)
    };
    let (value, parent) = ("value=g0,zone,2", "parent=g0,over");
    let of_full = format!("value=g0,a0,{}", full.of_nobody);
    let under = size.under_first_group();
    let crowd = files::crowd();
    let (declared, ties) = files::parted(&crowd);
    let calls = Calls::pair(&crowd, '+', value, 254);
    let name = "value tie, 62 groups under all before them, 191 members of all";
    let otherwise = |order: &str, file: Vec<u8>| {
        let name = format!("value tie, chain of 62 groups declared {order}, 138 members");
        Case::new("edit at the top", name, &file, Calls::pair(&file, '+', value, 201))
    };
    vec![
        case("value tie, 200 members", &files::members(200), value, 201, 2.0),
        case("value tie, chain of 62 groups, 138 members", &files::chain(200), value, 201, 1.5),
        case("value tie, 8 rows of 7 groups, 144 members of three", &files::lattice(200), value, 201, 2.0),
        case("parent tie, 200 members", &files::members(200), parent, 201, 2.0),
        case("parent tie, chain of 62 groups, 138 members", &files::chain(200), parent, 201, 1.5),
        case(&format!("value tie, full file, {} below", under - 1), &full.bytes, &of_full, under, 2.0),
        otherwise("from below", files::chain_from_below(200)),
        otherwise("from both ends in turn", files::chain_in_turn(200)),
        Case::new("edit at the top", name, &declared, calls).after(ties),
    ]
}

fn refused_edits(size: &Size, full: &FullFile) -> Vec<Case> {
    let case = |name: &str, file: &[u8], edit: &str, number: u32| {
        Case::new("refused edit", format!("{number}: {name}"), file, Calls::refused(edit, number))
    };
    let last = size.last_group();
    let standing = format!("+member=p{USER},g{}", 7 * USER % (size.groups * 5 / 8 - 1));
    let file = &full.bytes;
    vec![
        case("malformed atom", file, &format!("+value=p{USER},a0,01"), 6),
        case("undeclared holder", file, &format!("+member=p{USER},nobody"), 8),
        case("undeclared pair", file, &format!("+value=p{USER},a0,4000000000"), 8),
        case("standing", file, &standing, 10),
        case("circle, full file", file, &format!("+parent=g0,{last}"), 12),
        case(
            "circle, chain of 62 groups",
            &files::chain(200),
            &format!("+parent=g0,{}", files::chain_end()),
            12,
        ),
        case("not standing", file, &format!("-member=p{USER},{last}"), 14),
    ]
}

/// The block of the full file that asks for its large rules.
fn large_block(size: &Size, file: &[u8]) -> Vec<u8> {
    let (user, object) = (size.user_number(USER), size.object_number(OBJECT));
    block(user, object, 0, held_mask(file, user), &[(2, 10), (7, 1)])
}

fn requests(size: &Size, full: &FullFile) -> Vec<Case> {
    let case = |name: &str, file: &[u8], block: Vec<u8>, told: Told, goal: f64| {
        Case::new("request", name, file, Calls::Request(block, told)).with_goal(goal)
    };
    vec![
        case("valley, permit", &files::valley(), files::valley_block(), Told::new(0, 0), VALLEY_REQUEST_GOAL),
        case(
            "16 rules of 16 terms, valley values",
            &files::valley_large(16),
            files::valley_block(),
            Told::undefined(Cause::Unlike),
            LARGE_REQUEST_GOAL,
        ),
        case(
            "16 rules of 16 terms, full file",
            &full.bytes,
            large_block(size, &full.bytes),
            Told::new(DENY, 0),
            3.0,
        ),
    ]
}

/// A term that is UNDEF is looked at again for its cause: one such term behind others, and nothing but such terms.
fn undefined_requests() -> Vec<Case> {
    let case = |name: &str, file: &[u8], block: Vec<u8>, cause: Cause, goal: f64| {
        let name = format!("{}: {name}", cause.word());
        let calls = Calls::Request(block, Told::undefined(cause));
        Case::new("undefined request", name, file, calls).with_goal(goal)
    };
    let late = block(4, 5, 0, 3, &[(4, 17)]);
    let unlike = files::valley_with(&policies::valley_and_unlike());
    let large = |policy: String| files::valley_with(&vec![policy; 16]);
    let (absent_terms, unlike_terms) = (large(policies::terms(16)), large(policies::unlike_terms(16)));
    vec![
        case("rule 1, valley", &files::valley(), late.clone(), Cause::Absent, VALLEY_REQUEST_GOAL),
        case("rule 1, valley values", &unlike, late.clone(), Cause::Unlike, VALLEY_REQUEST_GOAL),
        case(
            "16 rules of 16 terms, each term",
            &absent_terms,
            block(4, 5, 0, 0, &[]),
            Cause::Absent,
            LARGE_REQUEST_GOAL,
        ),
        case("16 rules of 16 terms, each term", &unlike_terms, late, Cause::Unlike, LARGE_REQUEST_GOAL),
    ]
}

fn refused_requests(size: &Size, full: &FullFile) -> Vec<Case> {
    let case = |name: &str, file: &[u8], block: Vec<u8>, number: u32| {
        let calls = Calls::Request(block, Told::new(number, 0));
        Case::new("refused request", format!("{number}: {name}"), file, calls).with_goal(REFUSED_REQUEST_GOAL)
    };
    let mut wrong_byte = files::valley_block();
    wrong_byte[9] = 1;
    let valley = files::valley();
    let (user, object) = (size.user_number(USER), size.object_number(OBJECT));
    let mask = held_mask(&full.bytes, user);
    vec![
        case("byte 9 wrong, valley", &valley, wrong_byte, 15),
        case("a group for the user, valley", &valley, block(1, 5, 0, 3, &[(4, 10)]), 16),
        case("entry of a user attribute, valley", &valley, block(4, 5, 0, 3, &[(4, 10), (1, 1)]), 16),
        case("attribute not held, valley", &valley, block(4, 5, 0, 7, &[(4, 10)]), 17),
        case(
            "attribute of an object, full file",
            &full.bytes,
            block(user, object, 0, mask | 2, &[(2, 10)]),
            17,
        ),
    ]
}

fn writes(full: &FullFile) -> Vec<Case> {
    let case = |name: &str, file: &[u8]| {
        let length = files::written_length(file);
        let name = format!("{name}, {length} bytes");
        Case::new("write", name, file, Calls::Write(length)).with_goal(WRITE_GOAL)
    };
    vec![case("valley", &files::valley()), case(FULL, &full.bytes)]
}

fn lengths(full: &FullFile) -> Vec<Case> {
    let case = |name: &str, file: &[u8]| {
        let length = files::written_length(file);
        Case::new("length", format!("{name}, {length} bytes"), file, Calls::Length(length))
    };
    vec![case("valley", &files::valley()), case(FULL, &full.bytes)]
}

fn passes(size: &Size, full: &FullFile) -> Vec<Case> {
    let case = |name: &str, file: &[u8], block: Vec<u8>, answer: u32| {
        Case::new("the one C call", name, file, Calls::Pass(block, answer))
    };
    vec![
        case("valley, permit", &files::valley(), files::valley_block(), 0),
        case("full file, 16 rules of 16 terms", &full.bytes, large_block(size, &full.bytes), DENY),
    ]
}
