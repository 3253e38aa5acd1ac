//! The two readers of an archive and the counts file's reader of the proved library.

use super::{lent, lent_mut};
use crate::archive::{Playback, ADDRESSES};

extern "C" {
    fn wax_counts_at(
        archive: *const u8,
        length: usize,
        commit: u32,
        out: *mut u8,
        out_length: usize,
    ) -> u32;
    fn wax_service_at(
        archive: *const u8,
        length: usize,
        commit: u32,
        out: *mut u64,
        out_length: usize,
    ) -> u32;
    fn wax_counts_record(
        bytes: *const u8,
        length: usize,
        values: *mut [u64; ADDRESSES],
        last: *mut u32,
        out: *mut u8,
        out_length: usize,
    ) -> u32;
    fn wax_service_record(
        bytes: *const u8,
        length: usize,
        values: *mut [u64; ADDRESSES],
        last: *mut u32,
        out: *mut u64,
        out_length: usize,
    ) -> u32;
    fn wax_counts_read(
        file: *const u8,
        length: usize,
        at: usize,
        last: u32,
        out: *mut u64,
        out_length: usize,
    ) -> u32;
    fn wax_counts_entry(
        file: *const u8,
        length: usize,
        at: usize,
        writes: u32,
        i: u32,
        out: *mut u64,
        out_length: usize,
    ) -> u32;
}

#[inline]
pub fn counts_at(archive: &[u8], commit: u32, out: &mut [u8]) -> u32 {
    let (archive, length) = lent(archive);
    let (out, out_length) = lent_mut(out);
    unsafe { wax_counts_at(archive, length, commit, out, out_length) }
}

#[inline]
pub fn service_at(archive: &[u8], commit: u32, out: &mut [u64]) -> u32 {
    let (archive, length) = lent(archive);
    let (out, out_length) = lent_mut(out);
    unsafe { wax_service_at(archive, length, commit, out, out_length) }
}

/// A call on a record, with the values and the last commit number that the host keeps.
type OnRecord<T> =
    unsafe extern "C" fn(*const u8, usize, *mut [u64; ADDRESSES], *mut u32, *mut T, usize) -> u32;

#[inline]
fn on_record<T>(call: OnRecord<T>, bytes: &[u8], kept: &mut Playback, out: &mut [T]) -> u32 {
    let (bytes, length) = lent(bytes);
    let (out, out_length) = lent_mut(out);
    let (values, last) = (&mut kept.values, &mut kept.last);
    unsafe { call(bytes, length, values, last, out, out_length) }
}

#[inline]
pub fn counts_record(bytes: &[u8], playback: &mut Playback, out: &mut [u8]) -> u32 {
    on_record(wax_counts_record, bytes, playback, out)
}

#[inline]
pub fn service_record(bytes: &[u8], playback: &mut Playback, out: &mut [u64]) -> u32 {
    on_record(wax_service_record, bytes, playback, out)
}

#[inline]
pub fn counts_read(file: &[u8], at: usize, last: u32, out: &mut [u64]) -> u32 {
    let (file, length) = lent(file);
    let (out, out_length) = lent_mut(out);
    unsafe { wax_counts_read(file, length, at, last, out, out_length) }
}

#[inline]
pub fn counts_entry(file: &[u8], at: usize, writes: u32, i: u32, out: &mut [u64]) -> u32 {
    let (file, length) = lent(file);
    let (out, out_length) = lent_mut(out);
    unsafe { wax_counts_entry(file, length, at, writes, i, out, out_length) }
}
