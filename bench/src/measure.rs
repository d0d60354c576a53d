//! Times of both engines, taken round by round in turn, so that a slow phase of the machine meets both.

use crate::case::{Calls, Case};
use crate::engines::Engines;
use reference::c_call;
use reference::file::FILE_LIMIT;
use reference::session::Engine;
use std::hint::black_box;
use std::time::{Duration, Instant};

const ROUNDS: usize = 9;

/// A round takes at least so long, so that the clock's own steps do not count.
const ROUND: Duration = Duration::from_millis(20);

/// Nanoseconds of one call, the best of all rounds.
pub struct Times {
    pub ours: f64,
    pub reference: f64,
}

/// Checks the case on both engines, times it, and checks it once more on what the timed calls left.
pub fn measure(case: &Case) -> Result<Times, String> {
    let mut engines = Engines::start(case)?;
    engines.agree(case)?;
    let times = time(case, &mut engines);
    engines.agree(case)?;
    Ok(times)
}

/// Checks the case on both engines alone.
pub fn agree(case: &Case) -> Result<(), String> {
    Engines::start(case)?.agree(case)
}

fn time(case: &Case, engines: &mut Engines) -> Times {
    let Engines { ours, reference } = engines;
    let file = case.file.as_slice();
    let (mut to, mut to_other) = (vec![0; FILE_LIMIT], vec![0; FILE_LIMIT]);
    match &case.calls {
        Calls::Load => best(1, || ours.load(black_box(file)), || reference.load(black_box(file))),
        Calls::Edits(edits) => best(
            edits.len(),
            || edits.iter().for_each(|(line, _)| seen(ours.edit(black_box(line.as_bytes())))),
            || edits.iter().for_each(|(line, _)| seen(reference.edit(black_box(line.as_bytes())))),
        ),
        Calls::Request(block, _) => {
            best(1, || ours.request(black_box(block)), || reference.request(black_box(block)))
        }
        Calls::Write(_) => {
            best(1, || ours.write(black_box(&mut to)), || reference.write(black_box(&mut to_other)))
        }
        Calls::Length(_) => best(1, || black_box(&*ours).length(), || black_box(&*reference).length()),
        Calls::Pass(block, _) => best(
            1,
            || ours.pass(black_box(file), black_box(block)),
            || c_call(black_box(file), black_box(block), &mut reference.table),
        ),
    }
}

/// The best rounds of both; one turn makes so many calls.
fn best<A, B>(calls: usize, mut ours: impl FnMut() -> A, mut reference: impl FnMut() -> B) -> Times {
    let turns = (enough_turns(&mut ours), enough_turns(&mut reference));
    let mut times = Times { ours: f64::INFINITY, reference: f64::INFINITY };
    for _ in 0..ROUNDS {
        times.ours = times.ours.min(per_call(turns.0, calls, &mut ours));
        times.reference = times.reference.min(per_call(turns.1, calls, &mut reference));
    }
    times
}

/// Twice as many turns as before, until they fill a round.
fn enough_turns<R>(turn: &mut impl FnMut() -> R) -> u32 {
    let mut turns = 1;
    while round(turns, turn) < ROUND {
        turns *= 2;
    }
    turns
}

fn per_call<R>(turns: u32, calls: usize, turn: &mut impl FnMut() -> R) -> f64 {
    round(turns, turn).as_secs_f64() * 1e9 / f64::from(turns) / calls as f64
}

fn round<R>(turns: u32, turn: &mut impl FnMut() -> R) -> Duration {
    let start = Instant::now();
    for _ in 0..turns {
        seen(turn());
    }
    start.elapsed()
}

/// An answer that somebody might look at, so that its call is not left out.
#[inline(always)]
fn seen<R>(answer: R) {
    let _ = black_box(answer);
}

/// Makes the library's calls of a case alone for a while: what a profiler is to see.
pub fn alone(case: &Case, while_running: Duration) -> Result<(), String> {
    let mut engines = Engines::start(case)?;
    engines.agree(case)?;
    let mut buffer = vec![0; FILE_LIMIT];
    let start = Instant::now();
    while start.elapsed() < while_running {
        for _ in 0..100 {
            library_turn(case, &mut engines, &mut buffer);
        }
    }
    Ok(())
}

fn library_turn(case: &Case, engines: &mut Engines, buffer: &mut [u8]) {
    let ours = &mut engines.ours;
    match &case.calls {
        Calls::Load => seen(ours.load(&case.file)),
        Calls::Edits(edits) => edits.iter().for_each(|(line, _)| seen(ours.edit(line.as_bytes()))),
        Calls::Request(block, _) => seen(ours.request(block)),
        Calls::Write(_) => seen(ours.write(buffer)),
        Calls::Length(_) => seen(ours.length()),
        Calls::Pass(block, _) => seen(ours.pass(&case.file, block)),
    }
}
