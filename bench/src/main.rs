//! Compares the library with the reference, call by call: what `bench/compare` builds and runs.

mod blocks;
mod case;
mod cases;
mod engines;
mod files;
mod full;
mod growth;
mod joins;
mod library;
mod measure;
mod policies;
mod table;
mod told;

use case::Case;
use std::io::Read;
use std::process::ExitCode;
use std::time::Duration;

const USAGE: &str = "usage: compare rows | compare table < ROWS | compare answers | compare names | compare alone NAME SECONDS";

fn main() -> ExitCode {
    let arguments: Vec<String> = std::env::args().skip(1).collect();
    let words: Vec<&str> = arguments.iter().map(String::as_str).collect();
    let done = match words.as_slice() {
        ["rows"] => rows(),
        ["table"] => table(),
        ["answers"] => answers(),
        ["names"] => names(),
        ["alone", name, seconds] => alone(name, seconds),
        _ => Err(USAGE.to_string()),
    };
    match done {
        Ok(()) => ExitCode::SUCCESS,
        Err(line) => {
            eprintln!("compare: {line}");
            ExitCode::FAILURE
        }
    }
}

fn cases() -> Vec<Case> {
    let mut cases = cases::all();
    cases.extend(growth::all());
    cases
}

fn full_name(case: &Case) -> String {
    format!("{}: {}", case.part, case.name)
}

/// Measures every case, and prints a row for each.
fn rows() -> Result<(), String> {
    for case in &cases() {
        let times = measure::measure(case).map_err(|error| format!("{}: {error}", full_name(case)))?;
        println!("{}", table::line(case, &times));
    }
    Ok(())
}

/// Has both engines answer every case, and times none.
fn answers() -> Result<(), String> {
    let cases = cases();
    for case in &cases {
        measure::agree(case).map_err(|error| format!("{}: {error}", full_name(case)))?;
    }
    println!("{} cases: answers, tables and written files are the same", cases.len());
    Ok(())
}

/// Prints the tables of the rows on standard input.
fn table() -> Result<(), String> {
    let mut lines = String::new();
    std::io::stdin().read_to_string(&mut lines).map_err(|error| format!("standard input: {error}"))?;
    print!("{}", table::tables(&lines)?);
    Ok(())
}

fn names() -> Result<(), String> {
    cases().iter().for_each(|case| println!("{}", full_name(case)));
    Ok(())
}

/// Makes the library's calls of one case for some seconds, for a profiler.
fn alone(name: &str, seconds: &str) -> Result<(), String> {
    let seconds: u64 = seconds.parse().map_err(|_| format!("{seconds} is no number of seconds"))?;
    let cases = cases();
    let case = cases.iter().find(|case| full_name(case) == name);
    let case = case.ok_or(format!("no case is named \"{name}\"; compare names lists them"))?;
    measure::alone(case, Duration::from_secs(seconds))
}
