//! The second implementation: the record, the archive and its playback, and the line, written from document 01.
//!
//! It shares no code with the proved library. `compare` runs both on the same inputs, `stations` and `lines` do so with whole
//! lines, `bench` times both; `line_runs` tries the line on random crossings.

pub mod archive;
pub mod block;
pub mod buffers;
pub mod chart;
pub mod counts;
#[cfg(feature = "proved")]
pub mod ffi;
pub mod generate;
pub mod licence;
pub mod line;
pub mod numbers;
pub mod options;
pub mod order;
pub mod people;
pub mod program;
pub mod random;
pub mod record;
pub mod samples;
pub mod show;
pub mod tally;
pub mod text;
pub mod turns;

/// Why a call is turned back, by document 01's number.
#[derive(Clone, Copy, Debug, PartialEq, Eq)]
#[repr(u32)]
pub enum Refusal {
    Buffer = 1,
    Record = 5,
    Short = 12,
    Sequence = 13,
    Replay = 14,
    Block = 21,
}

impl Refusal {
    pub fn number(self) -> u32 {
        self as u32
    }
}
