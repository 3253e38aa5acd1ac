//! The archive: records one behind the other, and playback, which keeps what they leave.

use crate::record::{View, ENTRY, HEADER};
use crate::Refusal;

/// Objects on the line: 32 pages of 8.
pub const ADDRESSES: usize = 256;

/// The record at this position, behind the commit with number `last`; none at the archive's end.
pub fn read(archive: &[u8], at: usize, last: u32) -> Result<Option<View<'_>>, Refusal> {
    let rest = archive.get(at..).ok_or(Refusal::Short)?;
    if rest.is_empty() {
        return Ok(None);
    }
    next(rest, last).map(Some)
}

/// The first record of these bytes, which must be the commit behind `last`.
#[inline]
fn next(bytes: &[u8], last: u32) -> Result<View<'_>, Refusal> {
    let view = View::first(bytes)?;
    if last.checked_add(1) == Some(view.header.commit) {
        Ok(view)
    } else {
        Err(Refusal::Sequence)
    }
}

/// Entry `i`, reads first, of the record at this position that has so many entries.
pub fn entry(archive: &[u8], at: usize, entries: u32, i: u32) -> Option<(u8, u64)> {
    let entries = usize::try_from(entries).ok()?;
    let i = usize::try_from(i).ok()?;
    let body = archive.get(at..)?.get(HEADER..)?;
    let body = body.get(..ENTRY.checked_mul(entries)?)?;
    let (addresses, values) = body.split_at(entries);
    let (values, _) = values.as_chunks();
    Some((*addresses.get(i)?, u64::from_le_bytes(*values.get(i)?)))
}

/// What the records so far have left. Laid out as the C interface's `wax_playback`.
#[derive(Clone, Debug, PartialEq, Eq)]
#[repr(C)]
pub struct Playback {
    pub values: [u64; ADDRESSES],
    pub last: u32,
}

impl Playback {
    /// A fresh line: every value and the last commit number 0.
    pub const FRESH: Playback = Playback {
        values: [0; ADDRESSES],
        last: 0,
    };

    /// Plays the first record of these bytes. A refused one changes nothing.
    // a call for each record would pass the view through memory
    #[inline(always)]
    pub fn record<'a>(&mut self, bytes: &'a [u8]) -> Result<View<'a>, Refusal> {
        let view = next(bytes, self.last)?;
        if !self.agrees(&view) {
            return Err(Refusal::Replay);
        }
        for (address, value) in view.writes() {
            self.values[usize::from(address)] = value;
        }
        self.last = view.header.commit;
        Ok(view)
    }

    /// Plays record behind record, to the end or to the first that is refused.
    pub fn replay(&mut self, archive: &[u8]) -> Result<(), Refusal> {
        let mut rest = archive;
        while !rest.is_empty() {
            let view = self.record(rest)?;
            rest = &rest[view.length()..];
        }
        Ok(())
    }

    /// Each read shows the value left by earlier records. One test behind the loop is faster than one in it.
    #[inline]
    fn agrees(&self, view: &View) -> bool {
        let differing = view.reads().fold(0, |bits, (address, value)| {
            bits | (self.values[usize::from(address)] ^ value)
        });
        differing == 0
    }
}
