//! Pass blocks.

use reference::atom::Source;
use reference::evaluate::held;
use reference::pairs::PairSet;
use reference::session::{Engine, TableEngine};
use reference::TABLE_WORDS;

/// A block with these numbers and entries of attribute and value.
pub fn block(user: usize, object: usize, operation: u8, mask: u32, entries: &[(u8, u32)]) -> Vec<u8> {
    let mut block = vec![1, user as u8, object as u8, operation];
    block.extend(mask.to_le_bytes());
    block.extend([entries.len() as u8, 0]);
    for (attribute, value) in entries {
        block.push(*attribute);
        block.extend(value.to_le_bytes());
    }
    block
}

/// The mask of all user attributes that a user of a file holds.
pub fn held_mask(file: &[u8], user: usize) -> u32 {
    let mut engine = TableEngine::new(vec![0; TABLE_WORDS]);
    let _ = engine.load(file);
    let declared = engine.book.declared();
    let set = PairSet::stored(&engine.table, user);
    let holds = |k: &usize| {
        declared.attributes[*k].source == Source::User && held(declared, &set, *k).next().is_some()
    };
    (0..declared.attributes.len()).filter(holds).map(|k| 1 << k).sum()
}
