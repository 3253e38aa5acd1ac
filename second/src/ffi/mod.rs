//! The proved library's C interface, and safe wrappers over it. Must say the same as `include/waxwingrack.h`.

pub mod blocks;
pub mod counts;
pub mod ends;
pub mod licence;
pub mod order;
pub mod server;
pub mod stations;
pub mod turns;
pub mod windows;

use crate::archive::{Playback, ADDRESSES};
use crate::record::Header;
use std::ptr;

extern "C" {
    fn wax_record_check(bytes: *const u8, length: usize) -> u32;
    fn wax_record_write(
        reads: u32,
        writes: u32,
        commit: u32,
        transaction: u32,
        station: u32,
        kind: u32,
        addresses: *const u8,
        addresses_length: usize,
        values: *const u8,
        values_length: usize,
        out: *mut u8,
        out_length: usize,
    ) -> u32;
    fn wax_archive_read(
        archive: *const u8,
        length: usize,
        at: usize,
        last: u32,
        fields: *mut u64,
        fields_length: usize,
    ) -> u32;
    fn wax_archive_entry(
        archive: *const u8,
        length: usize,
        at: usize,
        entries: u32,
        i: u32,
        entry: *mut u64,
        entry_length: usize,
    ) -> u32;
    fn wax_archive_replay(
        archive: *const u8,
        length: usize,
        values: *mut [u64; ADDRESSES],
        last: *mut u32,
    ) -> u32;
    fn wax_playback_record(playback: *mut Playback, record: *const u8, length: usize) -> u32;
}

// Each wrapper lends whole slices for the length of one call: every pointer is good for the length beside it.

#[inline]
pub fn record_check(bytes: &[u8]) -> u32 {
    let (bytes, length) = lent(bytes);
    unsafe { wax_record_check(bytes, length) }
}

#[inline]
pub fn record_write(header: &Header, addresses: &[u8], values: &[u8], out: &mut [u8]) -> u32 {
    let (addresses, addresses_length) = lent(addresses);
    let (values, values_length) = lent(values);
    let (out, out_length) = lent_mut(out);
    unsafe {
        wax_record_write(
            header.reads,
            header.writes,
            header.commit,
            header.transaction,
            header.station,
            header.kind,
            addresses,
            addresses_length,
            values,
            values_length,
            out,
            out_length,
        )
    }
}

#[inline]
pub fn archive_read(archive: &[u8], at: usize, last: u32, fields: &mut [u64]) -> u32 {
    let (archive, length) = lent(archive);
    let (fields, fields_length) = lent_mut(fields);
    unsafe { wax_archive_read(archive, length, at, last, fields, fields_length) }
}

#[inline]
pub fn archive_entry(archive: &[u8], at: usize, entries: u32, i: u32, entry: &mut [u64]) -> u32 {
    let (archive, length) = lent(archive);
    let (entry, entry_length) = lent_mut(entry);
    unsafe { wax_archive_entry(archive, length, at, entries, i, entry, entry_length) }
}

#[inline]
pub fn archive_replay(archive: &[u8], playback: &mut Playback) -> u32 {
    let (archive, length) = lent(archive);
    unsafe { wax_archive_replay(archive, length, &mut playback.values, &mut playback.last) }
}

#[inline]
pub fn playback_record(playback: &mut Playback, record: &[u8]) -> u32 {
    let (record, length) = lent(record);
    unsafe { wax_playback_record(playback, record, length) }
}

/// Pointer and length; NULL for nothing, as a C host may give it.
#[inline]
fn lent<T>(slice: &[T]) -> (*const T, usize) {
    match slice.len() {
        0 => (ptr::null(), 0),
        length => (slice.as_ptr(), length),
    }
}

#[inline]
fn lent_mut<T>(slice: &mut [T]) -> (*mut T, usize) {
    match slice.len() {
        0 => (ptr::null_mut(), 0),
        length => (slice.as_mut_ptr(), length),
    }
}
