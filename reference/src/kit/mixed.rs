//! Whole sessions drawn at random. Their answers are not typed: the engine
//! that keeps the table gives them, and `check` holds the ledger to them.

use super::Kit;
use crate::generate::gate_input;
use crate::line::pieces;
use crate::office::{gate, split_at_end};

const SESSIONS: usize = 28;
const MOST_BYTES: usize = 2_500;
const LEAST_LINES: usize = 8;

pub fn kit() -> Kit {
    let mut kit = Kit::new("mixed");
    kit.says("Sessions drawn at random, for what no single sentence shows. Their answers are those of the reference's two engines, which agree.");
    let drawn = (1..).map(|seed: u64| (seed, gate_input(seed)));
    let fits = |(_, input): &(u64, Vec<u8>)| {
        let lines = pieces(split_at_end(input).1).count();
        input.len() <= MOST_BYTES && lines >= LEAST_LINES
    };
    for (seed, input) in drawn.filter(fits).take(SESSIONS) {
        let output = gate(&input);
        let answers = String::from_utf8_lossy(&output).trim_end().replace('\n', " ");
        kit.case(&format!("seed-{seed}"), input, &answers);
    }
    kit
}
