//! Runs damaged inputs through the office program: `damaged [COUNT [SEED]]`.
//! Each must be answered, line for line, and the two engines must agree. A
//! panic ends the program with another status than 0.

use reference::generate::{damage_input, gate_input, Rng};
use reference::line::pieces;
use reference::office::{split_at_end, INPUT_LIMIT};
use reference::{gate, gate_by_ledger};

/// Damaged copies of one drawn input.
const COPIES: u64 = 10;

/// One in so many is run by the ledger too, which takes longer.
const LEDGER_EVERY: u64 = 10;

fn main() {
    let mut numbers = std::env::args().skip(1).map(|word| word.parse());
    let count: u64 = numbers.next().and_then(Result::ok).unwrap_or(100_000);
    let seed: u64 = numbers.next().and_then(Result::ok).unwrap_or(1);
    let mut refused = 0;
    let mut base = Vec::new();
    for number in 0..count {
        if number % COPIES == 0 {
            base = gate_input(seed + number / COPIES);
        }
        let mut input = base.clone();
        damage_input(&mut Rng::new(seed ^ number.rotate_left(32)), &mut input);
        let output = gate(&input);
        assert_answered(&input, &output);
        refused += usize::from(!output.starts_with(b"load=0,"));
        if number % LEDGER_EVERY == 0 {
            assert_eq!(output, gate_by_ledger(&input), "session {number}");
        }
    }
    println!("{count} damaged sessions answered, {refused} with a refused load");
}

/// One answer for the load and one for each line behind `end=`.
fn assert_answered(input: &[u8], output: &[u8]) {
    let lines = if input.len() > INPUT_LIMIT { 0 } else { pieces(split_at_end(input).1).count() };
    assert_eq!(pieces(output).count(), 1 + lines);
    assert!(output.ends_with(b"\n") && output.is_ascii());
}
