//! The whole line a second time: messages, stations, server, and the world they make together.
//!
//! Written from document 01, document 02's wishes and their readings alone; "reading N" in a comment is a point of the readings.

pub mod call;
pub mod checks;
pub mod counts;
pub mod crossing;
pub mod damage;
pub mod draining;
pub mod hot;
pub mod keeps;
pub mod lent;
pub mod little;
pub mod message;
pub mod neighbours;
pub mod owner;
pub mod places;
pub mod rejects;
pub mod repeats;
pub mod runs;
pub mod scripts;
pub mod served;
pub mod server;
pub mod sets;
pub mod shorten;
pub mod spoil;
pub mod station;
pub mod truth;
pub mod waits;
pub mod window;
pub mod world;

use crate::record::{ENTRY, HEADER};

/// Why a call on the line is turned back, by document 01's number.
#[derive(Clone, Copy, Debug, PartialEq, Eq)]
#[repr(u8)]
pub enum Number {
    Length = 2,
    Kind = 3,
    Range = 4,
    Record = 5,
    Unexpected = 6,
    Waiting = 7,
    Closed = 8,
    Open = 9,
    Kept = 10,
    Spent = 11,
    /// Document 02, wish 1: "the owner's 49th recorded read or 49th written object, checked after 8".
    Long = 15,
}

impl Number {
    pub fn of(number: u32) -> Option<Number> {
        [
            Number::Length,
            Number::Kind,
            Number::Range,
            Number::Record,
            Number::Unexpected,
            Number::Waiting,
            Number::Closed,
            Number::Open,
            Number::Kept,
            Number::Spent,
            Number::Long,
        ]
        .into_iter()
        .find(|one| *one as u32 == number)
    }
}

/// Document 02, wish 1: "Set the limit at 48 distinct reads and 48 distinct writes."
pub const LIMIT: usize = 48;

/// "Records are then at most 880 bytes"
pub const LONGEST: usize = HEADER + ENTRY * 2 * LIMIT;

/// "Stations 0 to 7, fixed for life as locking (0) or validating (1)"; document 02, wish 10: "Add station kind 2, keeping".
#[derive(Clone, Copy, Debug, PartialEq, Eq)]
#[repr(u8)]
pub enum Kind {
    Locking = 0,
    Validating = 1,
    Keeping = 2,
}

/// Whose rules a kind has; nothing else says it.
impl Kind {
    pub const ALL: [Kind; 3] = [Kind::Locking, Kind::Validating, Kind::Keeping];

    pub fn of(number: u32) -> Option<Kind> {
        Kind::ALL.into_iter().find(|kind| *kind as u32 == number)
    }

    pub fn name(self) -> &'static str {
        match self {
            Kind::Locking => "locking",
            Kind::Validating => "validating",
            Kind::Keeping => "keeping",
        }
    }

    /// A locking station's: document 02, reading 28: "Keeping is a locking station everywhere else".
    pub fn locks(self) -> bool {
        self != Kind::Validating
    }

    /// "whose whole-page lock outlives commit and abort"
    pub fn keeps(self) -> bool {
        self == Kind::Keeping
    }
}

/// Why a transaction gets 22.
#[derive(Clone, Copy, Debug, PartialEq, Eq)]
#[repr(u8)]
pub enum Cause {
    /// "the youngest in any cycle gets 22, cause 1"
    Cycle = 1,
    /// "Cause 2 is given for a used object with another version."
    Version = 2,
    /// "cause 3 is given exactly when a written object itself is locked by another"
    Locked = 3,
    /// "number 4,294,967,295 already used, cause 4"
    Spent = 4,
}

impl Cause {
    /// Reading 2: causes are 1 to 4.
    pub fn of(byte: u8) -> Option<Cause> {
        [Cause::Cycle, Cause::Version, Cause::Locked, Cause::Spent]
            .into_iter()
            .find(|cause| *cause as u8 == byte)
    }
}

/// What an owner gets, from its own call or from a delivery.
#[derive(Clone, Copy, Debug, PartialEq, Eq)]
pub enum Answer {
    Begun(u32),
    Value(u64),
    Waits,
    Written,
    Committed(u32),
    /// ended by its owner's abort
    Dropped,
    /// ended by 22 or 23
    Aborted(Cause),
    Purged,
    /// a step that tells the owner nothing
    Nothing,
}
