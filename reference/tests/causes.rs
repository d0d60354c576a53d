//! Document 02, E2: the cause of an UNDEF, by both engines, against the tables that
//! its sentences give for two operands.

use reference::{Book, Cause, Decision, Ledger};

/// A user with n 1 and an object without a value.
const BOOK: &str = "rights=1\nattr=user,n,int\nattr=object,gone,bool\nop=o\natom=user.n,1\n\
                    user=u\nobject=t\nvalue=u,n,1\n";

const BLOCK: [u8; 10] = [1, 1, 2, 0, 1, 0, 0, 0, 0, 0];

/// Parts of rules, each with the letter of what it comes to.
const PARTS: [(char, &str); 4] =
    [('T', "user.n=1"), ('F', "user.n=2"), ('A', "object.gone"), ('U', "user.n=\"1\"")];

/// What two parts come to by AND and by OR: rows and columns as `PARTS`.
const AND: [&str; 4] = ["TFAU", "FFFF", "AFAA", "UFAU"];
const OR: [&str; 4] = ["TTTT", "TFAU", "TAAA", "TUAU"];

fn place(letter: char) -> usize {
    PARTS.iter().position(|(one, _)| *one == letter).unwrap()
}

fn joined(joint: &str, one: char, other: char) -> char {
    let table = if joint == "AND" { AND } else { OR };
    table[place(one)].chars().nth(place(other)).unwrap()
}

fn negated(one: char) -> char {
    match one {
        'T' => 'F',
        'F' => 'T',
        undef => undef,
    }
}

/// The decision for these rules, the same by both engines.
fn decision(rules: &[String]) -> Decision {
    let lines: String = rules.iter().map(|rule| format!("rule=o,{rule}\n")).collect();
    let file = format!("{BOOK}{lines}");
    let mut table = vec![0; 1024];
    let (book, loaded) = Book::load(file.as_bytes(), &mut table);
    assert_eq!(loaded, Ok(8 + rules.len()), "{rules:?}");
    let kept = book.request(&BLOCK, &table);
    let mut ledger = Ledger::default();
    ledger.load(file.as_bytes(), 1024).unwrap();
    assert_eq!(kept, ledger.request(&BLOCK, 1024), "{rules:?}");
    kept
}

fn expected(letter: char, rule: usize) -> Decision {
    match letter {
        'T' => Decision::Permit(rule),
        'F' => Decision::Deny,
        'A' => Decision::Undefined(Cause::Absent),
        _ => Decision::Undefined(Cause::Unlike),
    }
}

fn assert_rule(rule: String, letter: char) {
    assert_eq!(decision(std::slice::from_ref(&rule)), expected(letter, 0), "{rule}");
}

#[test]
fn one_part_and_not() {
    for (letter, part) in PARTS {
        assert_rule(part.to_string(), letter);
        assert_rule(format!("NOT ({part})"), negated(letter));
        assert_rule(format!("NOT (NOT ({part}))"), letter);
    }
}

#[test]
fn two_parts() {
    for (one, left) in PARTS {
        for (other, right) in PARTS {
            for joint in ["AND", "OR"] {
                let letter = joined(joint, one, other);
                assert_rule(format!("{left} {joint} {right}"), letter);
                assert_rule(format!("NOT ({left} {joint} {right})"), negated(letter));
            }
        }
    }
}

/// Three parts, by both joints in each place, with parentheses to the left, to the
/// right and without.
#[test]
fn three_parts() {
    let joints = [["AND", "AND"], ["AND", "OR"], ["OR", "AND"], ["OR", "OR"]];
    for number in 0..64 {
        let [(a, one), (b, two), (c, three)] = [number / 16, number / 4 % 4, number % 4].map(|at| PARTS[at]);
        for [first, second] in joints {
            let to_the_left = joined(second, joined(first, a, b), c);
            let to_the_right = joined(first, a, joined(second, b, c));
            let tight = if [first, second] == ["OR", "AND"] { to_the_right } else { to_the_left };
            assert_rule(format!("{one} {first} {two} {second} {three}"), tight);
            assert_rule(format!("({one} {first} {two}) {second} {three}"), to_the_left);
            assert_rule(format!("{one} {first} ({two} {second} {three})"), to_the_right);
        }
    }
}

/// Rules of one operation: the decision is as by OR, with the lowest TRUE rule.
#[test]
fn three_rules() {
    for number in 0..64 {
        let chosen = [number / 16, number / 4 % 4, number % 4].map(|at| PARTS[at]);
        let letters = chosen.map(|(letter, _)| letter);
        let all = letters.into_iter().reduce(|one, other| joined("OR", one, other)).unwrap();
        let lowest = letters.iter().position(|letter| *letter == 'T').unwrap_or(0);
        let rules = chosen.map(|(_, part)| part.to_string());
        assert_eq!(decision(&rules), expected(all, lowest), "{rules:?}");
    }
}
