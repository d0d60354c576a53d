//! The office program `gate` as a function from input bytes to output bytes.

use crate::answer::{Decision, EditAnswer, Edited, LoadAnswer, WriteAnswer};
use crate::book::Book;
use crate::line::pieces;
use crate::session::{Answer, Engine, LedgerEngine, TableEngine};
use crate::TABLE_WORDS;

pub const INPUT_LIMIT: usize = 65_536;

/// What `gate` prints for `input`.
pub fn gate(input: &[u8]) -> Vec<u8> {
    run(input, &mut TableEngine::new(vec![0; TABLE_WORDS]))
}

/// What `gate` prints and the book that the input leaves. One that is too long
/// makes no call, so it leaves none.
pub fn gate_and_book(input: &[u8]) -> (Vec<u8>, Option<Book>) {
    let mut engine = TableEngine::new(vec![0; TABLE_WORDS]);
    let output = run(input, &mut engine);
    (output, (input.len() <= INPUT_LIMIT).then_some(engine.book))
}

/// The same, answered by the ledger.
pub fn gate_by_ledger(input: &[u8]) -> Vec<u8> {
    run(input, &mut LedgerEngine::new(TABLE_WORDS))
}

fn run(input: &[u8], engine: &mut impl Engine) -> Vec<u8> {
    if input.len() > INPUT_LIMIT {
        return b"load=2,0\n".to_vec();
    }
    let (file, after) = split_at_end(input);
    let mut output = print(Answer::Load(engine.load(file)));
    for line in pieces(after) {
        output.extend(answer_line(line, engine));
    }
    output
}

/// The bytes before the first `end=` line and those after it. Without such a
/// line all is file.
pub fn split_at_end(input: &[u8]) -> (&[u8], &[u8]) {
    let mut start = 0;
    for line in pieces(input) {
        if line == b"end=\n" || line == b"end=" {
            return (&input[..start], &input[start + line.len()..]);
        }
        start += line.len();
    }
    (input, &[])
}

/// An edit gets its line whole, so that one without byte 10 is judged as such.
fn answer_line(line: &[u8], engine: &mut impl Engine) -> Vec<u8> {
    if line.starts_with(b"+") || line.starts_with(b"-") {
        return print(Answer::Edit(engine.edit(line)));
    }
    let body = line.strip_suffix(b"\n").unwrap_or(line);
    match body.strip_prefix(b"try=").and_then(read_hex) {
        Some(block) => print(Answer::Request(engine.request(&block))),
        None => b"bad=\n".to_vec(),
    }
}

/// Lower-case pairs; no pairs at all are a block of 0 bytes.
pub fn read_hex(text: &[u8]) -> Option<Vec<u8>> {
    if !text.len().is_multiple_of(2) {
        return None;
    }
    let pair = |pair: &[u8]| Some(digit(pair[0])? << 4 | digit(pair[1])?);
    text.chunks_exact(2).map(pair).collect()
}

fn digit(byte: u8) -> Option<u8> {
    match byte {
        b'0'..=b'9' => Some(byte - b'0'),
        b'a'..=b'f' => Some(byte - b'a' + 10),
        _ => None,
    }
}

/// An answer as `gate` prints it, with its byte 10. A write and a length are no
/// calls of `gate`: their lines are for call lists.
pub fn print(answer: Answer) -> Vec<u8> {
    let text = match answer {
        Answer::Load(loaded) => print_load(loaded),
        Answer::Edit(edited) => print_edit(edited),
        Answer::Request(decision) => print_decision(decision),
        Answer::Write(written, _) => print_write(written),
        Answer::Length(length) => format!("length={length}"),
    };
    (text + "\n").into_bytes()
}

fn print_load(answer: LoadAnswer) -> String {
    match answer {
        Ok(lines) => format!("load=0,{lines}"),
        Err(refused) => format!("load={},{}", refused.refusal.number(), refused.line),
    }
}

fn print_edit(answer: EditAnswer) -> String {
    match answer {
        Ok(Edited { count, joins }) => format!("edit=0,{count},{joins}"),
        Err(refusal) => format!("edit={},0,0", refusal.number()),
    }
}

pub fn print_write(answer: WriteAnswer) -> String {
    match answer {
        Ok(length) => format!("write=0,{length}"),
        Err(refusal) => format!("write={},0", refusal.number()),
    }
}

fn print_decision(decision: Decision) -> String {
    match decision {
        Decision::Permit(rule) => format!("try=permit,{rule}"),
        Decision::Deny => "try=deny".to_string(),
        Decision::Undefined(cause) => format!("try=undefined,{}", cause.word()),
        Decision::Refused(refusal) => format!("try=refused,{}", refusal.number()),
    }
}
