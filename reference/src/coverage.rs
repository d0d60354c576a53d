//! Counts which answers a run of random sessions met. Document 01 says which
//! can occur; each of these must be met, and no other may be.

mod causes;
mod joins;

use crate::answer::{Decision, Refusal};
use crate::book::c_call;
use crate::file::FILE_LIMIT;
use crate::generate;
use crate::line::{pieces, Key};
use crate::office::{gate, split_at_end};
use crate::policy::{Lone, Operator, Policy, Term};
use crate::session::{Answer, Call, Engine, Session, TableEngine};
use std::collections::BTreeMap;

/// How often each answer was met, by a name such as `load parent 12`.
#[derive(Debug, Default)]
pub struct Coverage {
    pub met: BTreeMap<String, usize>,
}

impl Coverage {
    /// Sessions of the library and inputs of the office program, one of each
    /// for every seed.
    pub fn count(seeds: std::ops::Range<u64>) -> Coverage {
        let mut coverage = Coverage::default();
        for seed in seeds {
            coverage.take_session(&generate::session(seed));
            coverage.take_gate(&generate::gate_input(seed));
        }
        coverage
    }

    fn meet(&mut self, answer: String) {
        *self.met.entry(answer).or_default() += 1;
    }

    fn take_session(&mut self, session: &Session) {
        let mut engine = TableEngine::new(session.table.clone());
        let mut refused = true;
        for (place, call) in session.calls.iter().enumerate() {
            let answer = engine.call(call);
            if let Answer::Load(loaded) = answer {
                refused = loaded.is_err();
            }
            let name = name_answer(call, &answer);
            if refused && !matches!(call, Call::Load(_)) {
                self.meet(format!("empty book: {}", name_on_empty_book(&answer)));
            }
            self.meet(name);
            if let (Call::Request(block), Answer::Request(decision)) = (call, &answer) {
                self.take_term(&engine, block, *decision);
                self.take_causes(&engine, block, *decision);
            }
            if let Call::Load(file) = call {
                self.take_c_call(session, place, file);
            }
            if let (Call::Edit(line), Answer::Edit(Ok(edited))) = (call, answer) {
                self.meet(format!("edit count {}", span(edited.count)));
                for name in joins::names(&engine.book, line, edited) {
                    self.meet(name);
                }
            }
        }
    }

    /// The call for hosts in C with this file and the next block in the list.
    fn take_c_call(&mut self, session: &Session, place: usize, file: &[u8]) {
        let blocks = session.calls[place..].iter().filter_map(|call| match call {
            Call::Request(block) => Some(block.as_slice()),
            _ => None,
        });
        let block = blocks.into_iter().next().unwrap_or(b"");
        let number = c_call(file, block, &mut session.table.clone());
        self.meet(format!("C call {number}"));
    }

    /// Where an operation has one rule of one term, the decision shows the
    /// term's truth.
    fn take_term(&mut self, engine: &TableEngine, block: &[u8], decision: Decision) {
        if matches!(decision, Decision::Refused(_)) {
            return;
        }
        let rules = engine.book.declared().rules.iter();
        let mut asked = rules.filter(|rule| rule.operation == usize::from(block[3]));
        let (Some(rule), None) = (asked.next(), asked.next()) else {
            return;
        };
        if let Some(form) = name_term(&rule.policy) {
            let truth = match decision {
                Decision::Permit(_) => "TRUE".to_string(),
                Decision::Undefined(cause) => format!("UNDEF {}", cause.word()),
                _ => "FALSE".to_string(),
            };
            self.meet(format!("term {form} {truth}"));
        }
    }

    fn take_causes(&mut self, engine: &TableEngine, block: &[u8], decision: Decision) {
        if matches!(decision, Decision::Refused(_)) {
            return;
        }
        for name in causes::names(engine, block, decision).expect("a decided block is read") {
            self.meet(name);
        }
    }

    fn take_gate(&mut self, input: &[u8]) {
        let output = gate(input);
        let (_, after) = split_at_end(input);
        let expected = if input.len() > 65_536 {
            self.meet("gate over 65,536 bytes".to_string());
            1
        } else {
            1 + pieces(after).count()
        };
        assert_eq!(pieces(&output).count(), expected, "one answer for each line");
        for line in pieces(&output) {
            let line = String::from_utf8_lossy(line);
            // The cause is a word; what follows other commas is a number.
            let shown = match line.trim_end() {
                undefined if undefined.starts_with("try=undefined") => undefined,
                other => other.split(',').next().unwrap_or(other),
            };
            self.meet(format!("gate {shown}"));
        }
    }
}

/// The kinds of call in the summary, as the names of answers begin.
pub const KINDS: [&str; 6] = ["load ", "edit ", "request ", "write ", "length ", "C call "];

impl Coverage {
    /// How often `number` was met for this kind of call; for request 0 how
    /// often it was not refused.
    pub fn sum(&self, kind: &str, number: u8) -> usize {
        let of_kind = |name: &str| name.starts_with(kind) && !name.starts_with("edit count");
        let same = |name: &str| match name.rsplit(' ').next().map(str::parse::<u8>) {
            _ if number == 0 && kind == "request " => is_decision(name),
            Some(Ok(last)) => last == number && !is_decision(name),
            _ => false,
        };
        let met = self.met.iter().filter(|(name, _)| of_kind(name) && same(name));
        met.map(|(_, count)| count).sum()
    }
}

fn is_decision(name: &str) -> bool {
    ["permit", "deny", "undefined"].iter().any(|word| name.contains(word))
}

fn span(count: usize) -> &'static str {
    match count {
        0 => "0",
        1 => "1",
        2..=9 => "2 to 9",
        _ => "10 and more",
    }
}

fn name_answer(call: &Call, answer: &Answer) -> String {
    match (call, answer) {
        (_, Answer::Load(Ok(_))) => "load 0".to_string(),
        (Call::Load(file), Answer::Load(Err(refused))) => {
            let number = refused.refusal.number();
            match refused.line {
                0 | 1 => format!("load {number}"),
                line => {
                    let line = pieces(file).nth(line - 1).unwrap_or(b"");
                    format!("load {} {number}", key_word(line))
                }
            }
        }
        (_, Answer::Edit(Err(Refusal::TableLength))) => "edit 1".to_string(),
        (Call::Edit(line), Answer::Edit(edited)) => {
            let number = edited.err().map_or(0, Refusal::number);
            match line.split_first() {
                Some((sign @ (b'+' | b'-'), line)) => {
                    format!("edit {}{} {number}", *sign as char, key_word(line))
                }
                _ => format!("edit without sign {number}"),
            }
        }
        (_, Answer::Request(decision)) => name_decision(*decision),
        (_, Answer::Write(Ok(_), _)) => "write 0".to_string(),
        (_, Answer::Write(Err(refusal), buffer)) => {
            // A buffer for the longest file there is does not lack room.
            let long = if buffer.len() < FILE_LIMIT { "short buffer" } else { "long text" };
            format!("write {long} {}", refusal.number())
        }
        (_, Answer::Length(length)) if *length > FILE_LIMIT => "length long text 0".to_string(),
        (_, Answer::Length(_)) => "length 0".to_string(),
        (call, answer) => unreachable!("{answer:?} to {call:?}"),
    }
}

fn name_decision(decision: Decision) -> String {
    match decision {
        Decision::Permit(rule) => format!("request permit {rule}"),
        Decision::Deny => "request deny".to_string(),
        Decision::Undefined(cause) => format!("request undefined {}", cause.word()),
        Decision::Refused(refusal) => format!("request {}", refusal.number()),
    }
}

fn name_on_empty_book(answer: &Answer) -> String {
    match answer {
        Answer::Edit(edited) => {
            let number = edited.err().map_or(0, Refusal::number);
            format!("edit {number}")
        }
        Answer::Request(decision) => name_decision(*decision),
        Answer::Write(written, _) => {
            let number = written.err().map_or(0, Refusal::number);
            format!("write {number}")
        }
        Answer::Length(length) => format!("length {length}"),
        Answer::Load(_) => unreachable!("a load is not made on a book"),
    }
}

/// The known key of a line, or `other`.
fn key_word(line: &[u8]) -> &'static str {
    let equals = line.iter().position(|&byte| byte == b'=');
    let key = equals.and_then(|place| Key::read(&line[..place]));
    key.map_or("other", Key::word)
}

fn name_term(policy: &Policy<usize>) -> Option<&'static str> {
    let [alternative] = policy.alternatives.as_slice() else {
        return None;
    };
    match alternative.as_slice() {
        [Term::Compare(_, operator, _)] => Some(operator.text()),
        [Term::Plain(Lone::Attribute(_))] => Some("attribute"),
        [Term::Not(Lone::Attribute(_))] => Some("NOT attribute"),
        _ => None,
    }
}

/// The numbers that a file's line of this key may get.
pub fn load_numbers(key: Key) -> &'static [u8] {
    match key {
        Key::Attr => &[4, 5, 6, 9, 10, 11],
        Key::Op | Key::UserGroup | Key::ObjectGroup | Key::User | Key::Object => &[4, 5, 6, 10, 11],
        Key::Atom => &[4, 5, 6, 8, 9, 10, 11],
        Key::Parent => &[4, 5, 6, 8, 9, 10, 12],
        Key::Member => &[4, 5, 6, 8, 9, 10],
        Key::Value => &[4, 5, 6, 8, 10],
        Key::Rule => &[4, 6, 7, 8, 11],
    }
}

/// The numbers that an edit with this sign and key may get.
pub fn edit_numbers(sign: char, key: Key) -> &'static [u8] {
    match (sign, key) {
        ('+', Key::Parent) => &[0, 4, 6, 8, 9, 10, 12],
        ('+', Key::Member) => &[0, 4, 6, 8, 9, 10],
        ('+', Key::Value) => &[0, 4, 6, 8, 10],
        (_, Key::Parent | Key::Member) => &[0, 4, 6, 8, 9, 14],
        (_, Key::Value) => &[0, 4, 6, 8, 14],
        _ => &[4, 13],
    }
}

/// Every answer that can occur.
pub fn possible() -> Vec<String> {
    let mut names: Vec<String> = Vec::new();
    for fixed in FIXED {
        names.extend(fixed.1.iter().map(|one| format!("{} {one}", fixed.0)));
    }
    for key in Key::ALL {
        let word = key.word();
        names.extend(load_numbers(key).iter().map(|one| format!("load {word} {one}")));
        for sign in ['+', '-'] {
            let numbers = edit_numbers(sign, key).iter();
            names.extend(numbers.map(|one| format!("edit {sign}{word} {one}")));
        }
    }
    names.extend((0..32).map(|rule| format!("request permit {rule}")));
    let operators = Operator::ALL.map(Operator::text);
    for form in operators.into_iter().chain(["attribute", "NOT attribute"]) {
        let truths = ["TRUE", "FALSE", "UNDEF absent", "UNDEF unlike"];
        names.extend(truths.map(|truth| format!("term {form} {truth}")));
    }
    names.extend(causes::possible());
    names.extend(joins::possible());
    names
}

/// Answers that do not hang on a key.
const FIXED: [(&str, &[&str]); 20] = [
    ("load", &["0", "1", "2", "3"]),
    ("load other", &["4"]),
    ("edit", &["1"]),
    ("edit +other", &["4"]),
    ("edit -other", &["4"]),
    ("edit without sign", &["4"]),
    ("edit count", &["0", "1", "2 to 9", "10 and more"]),
    ("request", &["deny", "undefined absent", "undefined unlike", "1", "15", "16", "17"]),
    ("write", &["0"]),
    ("write short buffer", &["18"]),
    ("write long text", &["18"]),
    ("length", &["0"]),
    ("length long text", &["0"]),
    ("empty book: write", &["0", "18"]),
    ("empty book: length", &["9"]),
    ("empty book: edit", &["1", "4", "6", "8", "9", "13"]),
    ("empty book: request", &["1", "15", "16"]),
    (
        "C call",
        &["0", "1", "2", "3", "4", "5", "6", "7", "8", "9", "10", "11", "12", "15", "16", "17", "64", "65"],
    ),
    (
        "gate",
        &[
            "load=0",
            "load=2",
            "load=3",
            "load=4",
            "load=5",
            "load=6",
            "load=7",
            "load=8",
            "load=9",
            "load=10",
            "load=11",
            "load=12",
            "edit=0",
            "edit=4",
            "edit=6",
            "edit=8",
            "edit=9",
            "edit=10",
            "edit=12",
            "edit=13",
            "edit=14",
            "try=permit",
            "try=deny",
            "try=undefined,absent",
            "try=undefined,unlike",
            "try=refused",
            "bad=",
        ],
    ),
    ("gate over", &["65,536 bytes"]),
];
