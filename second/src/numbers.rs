//! The second implementation in the shape of the C interface: numbers for answers, lent buffers for results.

use crate::archive::{self, Playback};
use crate::record::{self, Header, View};
use crate::Refusal;

pub const OK: u32 = 0;
/// No record, or no entry, there.
pub const END: u32 = 255;

/// Fields that `archive_read` gives.
pub const FIELDS: usize = 7;
/// Numbers that `archive_entry` gives.
pub const ENTRY_FIELDS: usize = 2;

#[inline]
fn number<T>(answer: Result<T, Refusal>) -> u32 {
    answer.map_or_else(Refusal::number, |_| OK)
}

#[inline]
pub fn record_check(bytes: &[u8]) -> u32 {
    number(record::check(bytes))
}

#[inline]
pub fn record_write(header: &Header, addresses: &[u8], values: &[u8], out: &mut [u8]) -> u32 {
    number(record::write(header, addresses, values, out))
}

#[inline]
pub fn archive_read(archive: &[u8], at: usize, last: u32, fields: &mut [u64]) -> u32 {
    let Some(fields) = fields.first_chunk_mut() else {
        return Refusal::Buffer.number();
    };
    match archive::read(archive, at, last) {
        Ok(Some(view)) => {
            *fields = fields_of(at, &view);
            OK
        }
        Ok(None) => END,
        Err(refusal) => refusal.number(),
    }
}

pub fn fields_of(at: usize, view: &View) -> [u64; FIELDS] {
    let header = &view.header;
    [
        (at + view.length()) as u64,
        header.reads.into(),
        header.writes.into(),
        header.commit.into(),
        header.transaction.into(),
        header.station.into(),
        header.kind.into(),
    ]
}

#[inline]
pub fn archive_entry(archive: &[u8], at: usize, entries: u32, i: u32, entry: &mut [u64]) -> u32 {
    let Some(entry) = entry.first_chunk_mut::<ENTRY_FIELDS>() else {
        return Refusal::Buffer.number();
    };
    match archive::entry(archive, at, entries, i) {
        Some((address, value)) => {
            *entry = [address.into(), value];
            OK
        }
        None => END,
    }
}

pub fn archive_replay(archive: &[u8], playback: &mut Playback) -> u32 {
    number(playback.replay(archive))
}

#[inline]
pub fn playback_record(playback: &mut Playback, record: &[u8]) -> u32 {
    number(playback.record(record))
}
