//! What the playback program says to people, written from docs/PLAYBACK.md and document 01.

mod asked;
mod fault;
pub mod fees;
mod flips;
pub mod order;
mod play;

pub use asked::{Asked, Listing};
pub use fault::{Cause, Fault};
pub use flips::Flips;
pub use play::{Play, Stop};

use crate::program::Said;

/// Exit statuses of the command.
pub const ACCEPTED: i32 = 0;
pub const REFUSED: i32 = 1;
pub const UNCLEAR: i32 = 2;
pub const FAILED: i32 = 3;

/// What is said to a word that is not understood.
fn unclear(word: &str) -> Said {
    let shown = &word.as_bytes()[..word.len().min(64)];
    let rest = b" is not understood here; playback --help says what is\n";
    Said {
        output: Vec::new(),
        errors: [b"playback: ", shown, rest].concat(),
        status: UNCLEAR,
    }
}

/// What the program must print with these arguments for the archive; none where that is left open.
pub fn said(arguments: &[&str], archive: &[u8]) -> Option<Said> {
    match Asked::by(arguments) {
        Ok(asked) => Play::of(archive, &asked).said(&asked),
        Err(word) => Some(unclear(&word)),
    }
}
