//! Writes between the calls of a list, into buffers about as long as the text.

use super::rng::Rng;
use crate::file::FILE_LIMIT;
use crate::session::{Buffer, Call, Engine, TableEngine};

/// The calls with writes after some of them and after the last. The engine
/// runs along, since its book tells how long the text is.
pub fn insert(rng: &mut Rng, table: &[u64], calls: Vec<Call>) -> Vec<Call> {
    let mut engine = TableEngine::new(table.to_vec());
    let mut all = Vec::new();
    let last = calls.len().saturating_sub(1);
    for (place, call) in calls.into_iter().enumerate() {
        engine.call(&call);
        all.push(call);
        if place == last || rng.chance(8) {
            let text = engine.book.text().len();
            all.push(Call::Write(buffer(rng, text)));
        }
    }
    all
}

fn buffer(rng: &mut Rng, text: usize) -> Buffer {
    let length = match rng.weighted(&[40, 25, 20, 10, 5, 5]) {
        0 => text,
        1 => text - 1,
        2 => text + rng.between(1, 40),
        3 => rng.below(text),
        4 => 0,
        _ => rng.between(FILE_LIMIT - 1, FILE_LIMIT + 40),
    };
    Buffer { length, byte: rng.byte() }
}
