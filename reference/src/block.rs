//! The pass block: its frame (15), its numbers (16) and its mask (17).

use crate::answer::Refusal;
use crate::atom::{Atom, Source, Type};
use crate::declarations::{Declarations, Sort};

const HEAD: usize = 10;
const ENTRY: usize = 5;
const MOST_ENTRIES: usize = 8;

/// A block whose frame is right. `entries` is the part behind the head.
pub struct Block<'b> {
    pub user: usize,
    pub object: usize,
    pub operation: usize,
    pub mask: u32,
    entries: &'b [u8],
}

/// One env or connect value that came with the block.
pub struct Entry {
    pub attribute: usize,
    pub atom: Atom,
}

impl<'b> Block<'b> {
    pub fn read(bytes: &'b [u8]) -> Result<Block<'b>, Refusal> {
        if bytes.len() < HEAD {
            return Err(Refusal::BlockFrame);
        }
        let (head, entries) = bytes.split_at(HEAD);
        let count = usize::from(head[8]);
        let right = head[0] == 1 && count <= MOST_ENTRIES && head[9] == 0 && entries.len() == ENTRY * count;
        if !right {
            return Err(Refusal::BlockFrame);
        }
        Ok(Block {
            user: usize::from(head[1]),
            object: usize::from(head[2]),
            operation: usize::from(head[3]),
            mask: low_byte_first(&head[4..8]),
            entries,
        })
    }

    /// Judges holder, operation and entry numbers and gives the entries.
    pub fn judge_numbers(&self, declared: &Declarations) -> Result<Vec<Entry>, Refusal> {
        let sort = |number: usize| declared.holders.get(number).map(|one| one.sort);
        let known = sort(self.user) == Some(Sort::User)
            && sort(self.object) == Some(Sort::Object)
            && self.operation < declared.operations.len();
        if !known {
            return Err(Refusal::BlockNumber);
        }
        let entries = self.entries.chunks_exact(ENTRY);
        entries.map(|entry| read_entry(entry, declared)).collect()
    }

    pub fn activates(&self, attribute: usize) -> bool {
        self.mask >> attribute & 1 == 1
    }

    /// Judges the mask: each activated bit must be a user attribute of which
    /// the user holds some pair, as `holds` tells.
    pub fn judge_mask(&self, declared: &Declarations, holds: impl Fn(usize) -> bool) -> Result<(), Refusal> {
        let of_user = |number: usize| {
            let attribute = declared.attributes.get(number);
            attribute.is_some_and(|one| one.source == Source::User)
        };
        let mut bits = (0..32).filter(|&number| self.activates(number));
        if bits.all(|number| of_user(number) && holds(number)) {
            Ok(())
        } else {
            Err(Refusal::NotHeld)
        }
    }
}

fn read_entry(entry: &[u8], declared: &Declarations) -> Result<Entry, Refusal> {
    let number = usize::from(entry[0]);
    let value = low_byte_first(&entry[1..]);
    let attribute = declared.attributes.get(number);
    let attribute = attribute.ok_or(Refusal::BlockNumber)?;
    if !attribute.source.comes_with_block() {
        return Err(Refusal::BlockNumber);
    }
    let atom = match (attribute.kind, value) {
        (Type::Int, _) => Atom::Int(value),
        (Type::Bool, 0 | 1) => Atom::Bool(value == 1),
        _ => return Err(Refusal::BlockNumber),
    };
    Ok(Entry { attribute: number, atom })
}

fn low_byte_first(bytes: &[u8]) -> u32 {
    let add = |high: u32, &byte: &u8| high << 8 | u32::from(byte);
    bytes.iter().rev().fold(0, add)
}
