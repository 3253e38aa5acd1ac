//! What one flipped bit of an archive does: every bit, one at a time.

use super::{Asked, Listing, Play, Stop};
use crate::program::Said;

/// How many bits, and what becomes of the archive when one of them is flipped.
#[derive(Clone, Copy, Debug, Default, PartialEq, Eq)]
pub struct Flips {
    pub bits: usize,
    pub refused: usize,
    /// Accepted, with another total of a counter.
    pub totals: usize,
    /// Accepted with the same totals, and another line for a commit.
    pub lines: usize,
    /// Accepted, and the lines and the totals are the same.
    pub unseen: usize,
}

impl Flips {
    /// Of an archive that is accepted.
    pub fn of(archive: &[u8]) -> Flips {
        let mut flips = Flips::default();
        let (lines, totals) = played(archive).expect("an archive that is accepted");
        let mut flipped = archive.to_vec();
        for bit in 0..8 * archive.len() {
            flipped[bit / 8] ^= 1 << (bit % 8);
            let place = match played(&flipped) {
                None => &mut flips.refused,
                Some((_, other)) if other != totals => &mut flips.totals,
                Some((other, _)) if other != lines => &mut flips.lines,
                Some(_) => &mut flips.unseen,
            };
            *place += 1;
            flips.bits += 1;
            flipped[bit / 8] ^= 1 << (bit % 8);
        }
        flips
    }

    /// A row of the table in docs/PLAYBACK.md.
    pub fn row(&self, name: &str) -> String {
        let Flips {
            bits,
            refused,
            totals,
            lines,
            unseen,
        } = self;
        format!("| `{name}` | {bits} | {refused} | {totals} | {lines} | {unseen} |")
    }
}

/// The lines and the table, where the archive is accepted.
fn played(archive: &[u8]) -> Option<(Said, Said)> {
    let totals = Asked {
        listing: Listing::Totals,
        ..Asked::COMMITS
    };
    let said = |asked: &Asked| {
        let play = Play::of(archive, asked);
        let whole = play.stop == Stop::End;
        whole.then(|| play.said(asked)).flatten()
    };
    said(&Asked::COMMITS).zip(said(&totals))
}
