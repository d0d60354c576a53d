//! `calls`: reads a call list from standard input, prints answers and words.

use std::io::{self, Read, Write};
use std::process::ExitCode;

fn main() -> io::Result<ExitCode> {
    let mut list = Vec::new();
    io::stdin().lock().read_to_end(&mut list)?;
    match reference::calls::run(&list) {
        Ok(output) => {
            io::stdout().write_all(&output)?;
            Ok(ExitCode::SUCCESS)
        }
        Err(line) => {
            eprintln!("calls: line {line} is not of a call list");
            Ok(ExitCode::from(2))
        }
    }
}
