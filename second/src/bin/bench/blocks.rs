//! Blocks laid out by column, written, read and looked up: the second implementation, the proved library, a plain copy.

use crate::measure::{time, Times};
use second::block::{self, COUNTS, LONGEST_BLOCK, RECORDS};
use second::ffi::blocks as proved;
use second::generate::{self, Size};
use second::random::Random;
use std::hint::black_box;

/// The place that is looked up.
pub const PLACE: u32 = 40;

/// Full blocks, and the records of each.
pub struct Bench {
    records: Vec<Vec<u8>>,
    blocks: Vec<Vec<u8>>,
    rounds: usize,
}

type Call = fn(&[u8], &mut [u8]) -> bool;

impl Bench {
    pub fn new(seed: u64, size: Size, length: usize, rounds: usize) -> Bench {
        let mut random = Random::new(seed);
        let (mut records, mut blocks, mut bytes) = (Vec::new(), Vec::new(), 0);
        while bytes < length {
            let list: Vec<_> = (0..RECORDS)
                .map(|_| generate::record(&mut random, size))
                .collect();
            let archive = generate::archive(&list);
            let mut out = vec![0; archive.len() + COUNTS];
            block::write(&archive, &mut out).unwrap();
            bytes += archive.len();
            records.push(archive);
            blocks.push(out);
        }
        Bench {
            records,
            blocks,
            rounds,
        }
    }

    pub fn length(&self) -> usize {
        self.records.iter().map(Vec::len).sum()
    }

    pub fn write(&self) -> Times {
        self.time(&self.records, second_write, proved_write)
    }

    pub fn read(&self) -> Times {
        self.time(&self.blocks, second_read, proved_read)
    }

    pub fn record(&self) -> Times {
        self.time(&self.blocks, second_record, proved_record)
    }

    fn time(&self, given: &[Vec<u8>], second: Call, proved: Call) -> Times {
        let [mut one, mut other, mut copy] = [(); 3].map(|()| vec![0; LONGEST_BLOCK]);
        let each = |call: Call, out: &mut [u8]| {
            for from in given {
                assert!(call(black_box(from), black_box(&mut *out)));
            }
        };
        time(
            self.rounds,
            &|| (),
            [
                &mut || each(second, &mut one),
                &mut || each(proved, &mut other),
                &mut || each(copied, &mut copy),
            ],
        )
    }
}

/// One call on both sides, none inlined.
#[inline(never)]
fn second_write(from: &[u8], out: &mut [u8]) -> bool {
    block::write(from, out).is_ok()
}

#[inline(never)]
fn proved_write(from: &[u8], out: &mut [u8]) -> bool {
    proved::block_write(from, out) == 0
}

#[inline(never)]
fn second_read(from: &[u8], out: &mut [u8]) -> bool {
    block::read(from, out).is_ok()
}

#[inline(never)]
fn proved_read(from: &[u8], out: &mut [u8]) -> bool {
    proved::block_read(from, out) == 0
}

#[inline(never)]
fn second_record(from: &[u8], out: &mut [u8]) -> bool {
    block::record(from, PLACE, out).is_ok()
}

#[inline(never)]
fn proved_record(from: &[u8], out: &mut [u8]) -> bool {
    proved::block_record(from, PLACE, out) == 0
}

#[inline(never)]
fn copied(from: &[u8], out: &mut [u8]) -> bool {
    out[..from.len()].copy_from_slice(from);
    true
}
