//! What both engines answer, in one form.

use reference::{Cause, Decision, EditAnswer, Edited, LoadAnswer, WriteAnswer};

/// A number of document 01, and what it carries: the line of a load (of an accepted one the lines read), the
/// count of an edit, the rule of a permit, the length that a write answers or that is told beforehand; the cause
/// of what is undefined, 1 absent and 2 unlike, 0 of every other answer; and the joins of an edit, 0 likewise.
#[derive(Clone, Copy, Debug, PartialEq, Eq)]
pub struct Told {
    pub number: u32,
    pub carried: u32,
    pub cause: u32,
    pub joins: u32,
}

pub const DENY: u32 = 64;
const UNDEFINED: u32 = 65;

impl Told {
    pub fn new(number: u32, carried: usize) -> Told {
        Told { number, carried: carried as u32, cause: 0, joins: 0 }
    }

    /// An accepted edit.
    pub fn edited(count: usize, joins: usize) -> Told {
        Told { joins: joins as u32, ..Told::new(0, count) }
    }

    pub fn undefined(cause: Cause) -> Told {
        let cause = match cause {
            Cause::Absent => 1,
            Cause::Unlike => 2,
        };
        Told { cause, ..Told::new(UNDEFINED, 0) }
    }

    /// The library packs number and what is carried into one word.
    pub fn of_library(answer: u64) -> Told {
        Told::new(answer as u32, (answer >> 32) as usize)
    }

    /// Of an edit also the joins, above the twelve bits of the count; no bit is left out.
    pub fn of_edit_call(answer: u64) -> Told {
        let carried = (answer >> 32) as usize;
        Told { joins: (carried / 4096) as u32, ..Told::new(answer as u32, carried % 4096) }
    }

    /// Of a request also the cause, above the eight bits of the rule; no bit is left out.
    pub fn of_request(answer: u64) -> Told {
        Told { cause: (answer >> 40) as u32, ..Told::new(answer as u32, (answer >> 32) as usize % 256) }
    }

    pub fn of_load(answer: LoadAnswer) -> Told {
        match answer {
            Ok(lines) => Told::new(0, lines),
            Err(refused) => Told::new(refused.refusal.number().into(), refused.line),
        }
    }

    pub fn of_edit(answer: EditAnswer) -> Told {
        match answer {
            Ok(Edited { count, joins }) => Told::edited(count, joins),
            Err(refusal) => Told::new(refusal.number().into(), 0),
        }
    }

    pub fn of_write(answer: WriteAnswer) -> Told {
        match answer {
            Ok(length) => Told::new(0, length),
            Err(refusal) => Told::new(refusal.number().into(), 0),
        }
    }

    pub fn of_decision(decision: Decision) -> Told {
        match decision {
            Decision::Permit(rule) => Told::new(0, rule),
            Decision::Deny => Told::new(DENY, 0),
            Decision::Undefined(cause) => Told::undefined(cause),
            Decision::Refused(refusal) => Told::new(refusal.number().into(), 0),
        }
    }
}
