//! The numbers a caller may meet and the answers that carry them.

/// A refusal, with document 01's number as its discriminant.
#[derive(Clone, Copy, Debug, PartialEq, Eq, PartialOrd, Ord, Hash)]
#[repr(u8)]
pub enum Refusal {
    TableLength = 1,
    FileTooLong = 2,
    FirstLine = 3,
    LineFrame = 4,
    KeyOrder = 5,
    Malformed = 6,
    OverLimit = 7,
    Undeclared = 8,
    WrongSort = 9,
    AlreadyThere = 10,
    TableFull = 11,
    Circle = 12,
    OtherKey = 13,
    NotStanding = 14,
    BlockFrame = 15,
    BlockNumber = 16,
    NotHeld = 17,
    DoesNotFit = 18,
}

impl Refusal {
    pub fn number(self) -> u8 {
        self as u8
    }
}

/// A refused file: the number and the line it is about (0 for 1 and 2).
#[derive(Clone, Copy, Debug, PartialEq, Eq)]
pub struct RefusedLine {
    pub refusal: Refusal,
    pub line: usize,
}

/// A load: the lines read, or the refusal.
pub type LoadAnswer = Result<usize, RefusedLine>;

/// What an accepted edit did.
#[derive(Clone, Copy, Debug, PartialEq, Eq)]
pub struct Edited {
    /// Holders whose stored set changed.
    pub count: usize,
    /// Set joins made: for the edited holder and each one below it, one and its
    /// ties up to a parent or group after the edit.
    pub joins: usize,
}

/// An edit: what it did, or the refusal, which reports 0 for both.
pub type EditAnswer = Result<Edited, Refusal>;

/// A write: the length of the text, or the writer's only refusal.
pub type WriteAnswer = Result<usize, Refusal>;

/// Why an answer is undefined: a value is lacking, or anything else.
#[derive(Clone, Copy, Debug, PartialEq, Eq)]
pub enum Cause {
    Absent,
    Unlike,
}

impl Cause {
    pub fn word(self) -> &'static str {
        match self {
            Cause::Absent => "absent",
            Cause::Unlike => "unlike",
        }
    }
}

/// The answer to a pass block.
#[derive(Clone, Copy, Debug, PartialEq, Eq)]
pub enum Decision {
    Permit(usize),
    Deny,
    Undefined(Cause),
    Refused(Refusal),
}
