//! Prints how often each answer was met over a range of seeds: `coverage [SEED
//! [COUNT]]`. Ends with status 1 if one that can occur was not met, or one that
//! cannot was.

use reference::coverage::{possible, Coverage, KINDS};
use std::process::ExitCode;

fn main() -> ExitCode {
    let mut numbers = std::env::args().skip(1).map(|word| word.parse());
    let seed: u64 = numbers.next().and_then(Result::ok).unwrap_or(1);
    let count: u64 = numbers.next().and_then(Result::ok).unwrap_or(10_000);
    let coverage = Coverage::count(seed..seed + count);
    let possible = possible();
    let met = |name: &String| coverage.met.get(name).copied().unwrap_or(0);
    for name in &possible {
        println!("{:8} {name}", met(name));
    }
    print_summary(&coverage);
    let missing = possible.iter().filter(|name| met(name) == 0).count();
    let wrong: Vec<&String> = coverage.met.keys().filter(|name| !possible.contains(name)).collect();
    println!(
        "seeds {seed} to {}: {} answers can occur, {missing} not met, {} met that cannot occur {wrong:?}",
        seed + count - 1,
        possible.len(),
        wrong.len()
    );
    ExitCode::from(u8::from(missing > 0 || !wrong.is_empty()))
}

/// Answers by number and kind of call.
fn print_summary(coverage: &Coverage) {
    println!("number     load     edit  request    write   length   C call");
    for number in (0..=18).chain([64, 65]) {
        let sums = KINDS.map(|kind| format!("{:8}", coverage.sum(kind, number)));
        println!("{number:6} {}", sums.join(" "));
    }
}
