//! `gate`: reads standard input, prints the answers.

use reference::office::INPUT_LIMIT;
use std::io::{self, Read, Write};

fn main() -> io::Result<()> {
    let mut input = Vec::new();
    // One byte over the limit is enough to know that it is over.
    let most = INPUT_LIMIT as u64 + 1;
    io::stdin().lock().take(most).read_to_end(&mut input)?;
    io::stdout().write_all(&reference::gate(&input))
}
