//! The engine that keeps the table against the one that works all out afresh.

use reference::generate::{damaged_input, gate_input, session};
use reference::session::{Call, Session};
use reference::{c_call, calls, gate, gate_by_ledger, Decision, Ledger};

const SESSIONS: u64 = 6_000;

#[test]
fn the_same_answers_lengths_and_words_after_every_call() {
    let mut calls = 0;
    for seed in 1..=SESSIONS {
        match session(seed).compare() {
            Ok(answers) => calls += answers.len(),
            Err(parted) => panic!("seed {seed}, {parted}"),
        }
    }
    assert!(calls > 6 * SESSIONS as usize, "only {calls} calls compared");
}

#[test]
fn the_same_output_of_the_office_program() {
    for seed in 1..=SESSIONS {
        for input in [gate_input(seed), damaged_input(seed)] {
            assert_eq!(gate(&input), gate_by_ledger(&input), "seed {seed}");
        }
    }
}

#[test]
fn the_same_output_for_call_lists() {
    for seed in 1..=SESSIONS / 10 {
        let list = calls::write(&session(seed));
        let output = calls::run(&list).expect("what is written is a call list");
        assert_eq!(Ok(output), calls::run_by_ledger(&list), "seed {seed}");
    }
}

#[test]
fn the_c_call_is_a_load_and_a_request() {
    for seed in 1..=SESSIONS {
        let Session { mut table, calls } = session(seed);
        let Some(Call::Load(file)) = calls.first() else {
            panic!("a session begins with a load");
        };
        let blocks = calls.iter().filter_map(|call| match call {
            Call::Request(block) => Some(block),
            _ => None,
        });
        for block in blocks.take(3) {
            let number = c_call(file, block, &mut table);
            assert_eq!(number, by_ledger(file, block, table.len()), "seed {seed}");
        }
    }
}

fn by_ledger(file: &[u8], block: &[u8], table_length: usize) -> u8 {
    let mut ledger = Ledger::default();
    if let Err(refused) = ledger.load(file, table_length) {
        return refused.refusal.number();
    }
    match ledger.request(block, table_length) {
        Decision::Permit(_) => 0,
        Decision::Deny => 64,
        Decision::Undefined(_) => 65,
        Decision::Refused(refusal) => refusal.number(),
    }
}
