//! Pass blocks: ones that are decided, and ones with flaws.

use super::plan::{atom, Plan};
use super::rng::Rng;
use crate::atom::{Atom, Source, Type};
use crate::declarations::Sort;
use crate::pairs::PairSet;
use crate::session::TableEngine;

/// A block for the book that `engine` has now. Its stored sets tell which
/// attributes may be activated.
pub fn good(rng: &mut Rng, plan: &Plan, engine: &TableEngine) -> Vec<u8> {
    let users = plan.numbers(&[Sort::User]);
    let objects = plan.numbers(&[Sort::Object]);
    let number = |rng: &mut Rng, choices: &[usize]| {
        if choices.is_empty() {
            rng.below(4)
        } else {
            *rng.pick(choices)
        }
    };
    let user = number(rng, &users);
    let object = number(rng, &objects);
    let operation = rng.below(plan.operations.len().max(1));
    let mask = mask(rng, engine, user);
    let mut block = vec![1, user as u8, object as u8, operation as u8];
    block.extend(mask.to_le_bytes());
    let entries = entries(rng, plan);
    block.extend([entries.len() as u8, 0]);
    block.extend(entries.concat());
    block
}

/// Some of the attributes that the user holds, mostly all of them.
fn mask(rng: &mut Rng, engine: &TableEngine, user: usize) -> u32 {
    let declared = engine.book.declared();
    let mut mask = 0;
    for pair in PairSet::stored(&engine.table, user).iter() {
        let attribute = declared.pairs[pair].attribute;
        if declared.attributes[attribute].source == Source::User && rng.chance(85) {
            mask |= 1 << attribute;
        }
    }
    mask
}

fn entries(rng: &mut Rng, plan: &Plan) -> Vec<Vec<u8>> {
    let fits = |one: &usize| plan.attributes[*one].source.comes_with_block();
    let numbers: Vec<usize> = (0..plan.attributes.len()).filter(fits).collect();
    if numbers.is_empty() {
        return Vec::new();
    }
    let count = rng.below(9);
    let mut entry = || {
        let number = *rng.pick(&numbers);
        let kind = plan.attributes[number].kind;
        let value = match atom(rng, kind, plan.pairs.len()) {
            Atom::Int(value) => value,
            other => u32::from(other == Atom::Bool(true) && kind == Type::Bool),
        };
        let mut entry = vec![number as u8];
        entry.extend(value.to_le_bytes());
        entry
    };
    (0..count).map(|_| entry()).collect()
}

/// Spoils one or several places of a block.
pub fn spoil(rng: &mut Rng, block: &mut Vec<u8>) {
    for _ in 0..rng.between(1, 2) {
        match rng.below(9) {
            0 => block.truncate(rng.below(block.len() + 1)),
            1 => block.extend(vec![0; rng.between(1, 6)]),
            2 => set(block, 8, rng.below(12) as u8),
            3 => set(block, 9 * rng.below(2), rng.byte()),
            4 => set(block, rng.between(1, 3), rng.below(16) as u8),
            5 => set(block, rng.between(4, 7), 1 << rng.below(8)),
            6 => set(block, 10, rng.below(33) as u8),
            7 => set(block, 12, 1),
            _ => {
                let place = rng.below(block.len().max(1));
                set(block, place, rng.byte());
            }
        }
    }
}

fn set(block: &mut [u8], place: usize, byte: u8) {
    if let Some(old) = block.get_mut(place) {
        *old = byte;
    }
}
