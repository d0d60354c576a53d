//! Measures both engines on files with every table full, with edits and blocks
//! drawn for them, and on the valley file. Prints microseconds for each kind of
//! call: the best of several rounds, since other programs may run on the machine.

use reference::file::FILE_LIMIT;
use reference::session::{Buffer, Call, Engine, LedgerEngine, Session, TableEngine};
use reference::{generate, kit, TABLE_WORDS};
use std::hint::black_box;
use std::time::{Duration, Instant};

const SEEDS: u64 = 4;
const CALLS: usize = 2_000;
const LEDGER_CALLS: usize = 50;
const LOADS: u32 = 20;
const WRITES: u32 = 20;
const LENGTHS: u32 = 20;
const ROUNDS: usize = 5;

/// Time and number of calls for loads, edits, requests, writes and lengths in one
/// round.
type Round = [(Duration, u32); 5];

fn round<E: Engine>(sessions: &[Session], start: impl Fn() -> E) -> Round {
    let mut spent = Round::default();
    let mut buffer = vec![0; FILE_LIMIT];
    for session in sessions {
        let mut engine = start();
        for call in &session.calls {
            let (kind, times) = match call {
                Call::Load(_) => (0, LOADS),
                Call::Edit(_) => (1, 1),
                Call::Request(_) => (2, 1),
                Call::Write(_) => (3, WRITES),
                Call::Length => (4, LENGTHS),
            };
            let begin = Instant::now();
            for _ in 0..times {
                make(&mut engine, black_box(call), &mut buffer);
            }
            spent[kind].0 += begin.elapsed();
            spent[kind].1 += times;
        }
    }
    spent
}

/// A write gets a buffer that is there already, as a host lends it.
fn make(engine: &mut impl Engine, call: &Call, buffer: &mut [u8]) {
    match call {
        Call::Write(_) => drop(black_box(engine.write(buffer))),
        _ => drop(black_box(engine.call(call))),
    }
}

fn measure<E: Engine>(name: &str, sessions: &[Session], start: impl Fn() -> E) {
    let rounds: Vec<Round> = (0..ROUNDS).map(|_| round(sessions, &start)).collect();
    for (kind, word) in ["load", "edit", "request", "write", "length"].iter().enumerate() {
        let count = rounds[0][kind].1;
        if count == 0 {
            continue;
        }
        let each = |round: &Round| round[kind].0.as_secs_f64() * 1e6 / f64::from(count);
        let best = rounds.iter().map(each).fold(f64::INFINITY, f64::min);
        println!("{name:14} {word:7} {best:9.2} us, {count} calls");
    }
}

const WRITE: Call = Call::Write(Buffer { length: FILE_LIMIT, byte: 0 });

/// The valley file is small, so that one call about it is soon done.
const VALLEYS: usize = 50;

/// A full file: its load, a write, its length, then edits and blocks.
fn full(seed: u64) -> Session {
    let mut session = generate::full_session(seed, CALLS);
    session.calls.splice(1..1, [WRITE, Call::Length]);
    session
}

fn valleys() -> Vec<Session> {
    let calls = vec![Call::Load(kit::valley_file().into_bytes()), WRITE, Call::Length];
    vec![Session { table: vec![0; TABLE_WORDS], calls }; VALLEYS]
}

fn main() {
    let mut sessions: Vec<Session> = (1..=SEEDS).map(full).collect();
    let lengths = sessions.iter().filter_map(|session| match session.calls.first() {
        Some(Call::Load(file)) => Some(file.len()),
        _ => None,
    });
    println!("files of {:?} bytes", lengths.collect::<Vec<usize>>());
    measure("table", &sessions, || TableEngine::new(vec![0; TABLE_WORDS]));
    measure("table, valley", &valleys(), || TableEngine::new(vec![0; TABLE_WORDS]));
    for session in &mut sessions {
        session.calls.truncate(LEDGER_CALLS);
    }
    measure("ledger", &sessions, || LedgerEngine::new(TABLE_WORDS));
    measure("ledger, valley", &valleys(), || LedgerEngine::new(TABLE_WORDS));
}
