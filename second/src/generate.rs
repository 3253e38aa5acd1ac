//! Records and archives made by chance, for the comparison, the benchmark and the samples.

use crate::archive::{Playback, ADDRESSES};
use crate::random::Random;
use crate::record::{Record, KINDS};

/// How many reads and writes the records have.
#[derive(Clone, Copy, Debug)]
pub enum Size {
    /// 0 to 3 of each.
    Tiny,
    /// 1 to 3 of each.
    Small,
    /// Anything, the limits often.
    Mixed,
    /// 256 of each.
    Large,
}

impl Size {
    /// Reads and writes of one record.
    pub fn counts(self, random: &mut Random) -> (usize, usize) {
        (self.count(random), self.count(random))
    }

    fn count(self, random: &mut Random) -> usize {
        match self {
            Size::Tiny => random.below(4),
            Size::Small => 1 + random.below(3),
            Size::Mixed => match random.below(4) {
                0 => random.pick(&[0, 1, 2, 15, 16, 17, 255, 256]),
                1 => random.below(257),
                _ => random.below(8),
            },
            Size::Large => ADDRESSES,
        }
    }
}

/// So many different addresses, rising.
pub fn addresses(random: &mut Random, count: usize) -> Vec<u8> {
    // a set of more than half is drawn as what it leaves out
    let inverted = count > ADDRESSES / 2;
    let draws = if inverted { ADDRESSES - count } else { count };
    let mut drawn = [0u64; ADDRESSES / 64];
    let mut left = draws;
    while left > 0 {
        let address = usize::from(random.byte());
        let bit = 1 << (address % 64);
        left -= usize::from(drawn[address / 64] & bit == 0);
        drawn[address / 64] |= bit;
    }
    members(drawn.map(|word| if inverted { !word } else { word }))
}

/// The members of a set of addresses, rising.
fn members(set: [u64; ADDRESSES / 64]) -> Vec<u8> {
    let mut members = Vec::with_capacity(ADDRESSES);
    for (first, mut word) in (0..=255u8).step_by(64).zip(set) {
        while word != 0 {
            members.push(first + word.trailing_zeros() as u8);
            word &= word - 1;
        }
    }
    members
}

/// Any value, those at the ends of the range often.
pub fn value(random: &mut Random) -> u64 {
    match random.below(4) {
        0 => random.pick(&[0, 1, 255, 256, 1 << 32, 1 << 63, u64::MAX]),
        1 => random.below(1000) as u64,
        _ => random.number(),
    }
}

/// Any number of 32 bits but 0, those at the ends of the range often.
pub fn number(random: &mut Random) -> u32 {
    match random.below(3) {
        0 => random.pick(&[1, 255, 256, 65_535, 65_536, 1 << 31, u32::MAX]),
        _ => (random.number() as u32).max(1),
    }
}

/// A well-formed record on its own; it may have any commit number.
pub fn record(random: &mut Random, size: Size) -> Record {
    let (reads, writes) = size.counts(random);
    let mut entries = |count| {
        let addresses = addresses(random, count);
        let valued = addresses.into_iter().map(|a| (a, value(random)));
        valued.collect()
    };
    Record {
        reads: entries(reads),
        writes: entries(writes),
        commit: if random.one_in(4) { 0 } else { number(random) },
        transaction: number(random),
        station: random.below(8) as u8,
        kind: random.below(KINDS as usize) as u8,
    }
}

/// A line whose stations commit one behind the other: its records replay.
pub struct Line {
    playback: Playback,
    transactions: [u32; 8],
}

impl Line {
    /// A line that goes on from here.
    pub fn from(playback: Playback) -> Line {
        Line {
            playback,
            transactions: [0; 8],
        }
    }

    pub fn fresh() -> Line {
        Line::from(Playback::FRESH)
    }

    /// The next commit's record: reads show what earlier records left.
    pub fn commit(&mut self, random: &mut Random, size: Size) -> Record {
        let (reads, writes) = size.counts(random);
        let station = random.below(8);
        self.transactions[station] += 1 + random.below(2) as u32;
        // behind the last number of all comes 0, which nobody may take
        self.playback.last = self.playback.last.wrapping_add(1);
        let reads = addresses(random, reads)
            .into_iter()
            .map(|address| (address, self.playback.values[usize::from(address)]))
            .collect();
        Record {
            reads,
            writes: self.write(random, writes),
            commit: self.playback.last,
            transaction: self.transactions[station],
            station: station as u8,
            // a station's kind is fixed for life
            kind: (station % KINDS as usize) as u8,
        }
    }

    fn write(&mut self, random: &mut Random, count: usize) -> Vec<(u8, u64)> {
        let mut writes = Vec::with_capacity(count);
        for address in addresses(random, count) {
            let value = value(random);
            self.playback.values[usize::from(address)] = value;
            writes.push((address, value));
        }
        writes
    }
}

/// The records of so many commits behind this point.
pub fn commits(random: &mut Random, start: &Playback, size: Size, count: usize) -> Vec<Record> {
    let mut line = Line::from(start.clone());
    (0..count).map(|_| line.commit(random, size)).collect()
}

/// The bytes of these records, one behind the other.
pub fn archive(records: &[Record]) -> Vec<u8> {
    records.iter().flat_map(Record::encode).collect()
}

/// An archive of a fresh line, of at least so many bytes.
pub fn archive_of_length(random: &mut Random, size: Size, length: usize) -> Vec<u8> {
    let mut line = Line::fresh();
    let mut archive = Vec::with_capacity(length + crate::record::LONGEST);
    while archive.len() < length {
        archive.extend(line.commit(random, size).encode());
    }
    archive
}

/// Playback in the middle of a line's life.
pub fn playback(random: &mut Random) -> Playback {
    Playback {
        values: std::array::from_fn(|_| value(random)),
        last: number(random),
    }
}

/// Makes most header bytes small: else hardly any record is long enough or in range.
pub fn tame(bytes: &mut [u8], random: &mut Random) {
    // sizes, commit number, transaction, station, kind, the two zero bytes
    let bounds = [4, 1, 4, 1, 3, 1, 1, 1, 3, 1, 1, 1, 8, 2, 1, 1];
    for (byte, bound) in bytes.iter_mut().zip(bounds) {
        if !random.one_in(40) {
            *byte %= bound;
        }
    }
}

/// One bit of these bytes is another.
pub fn change_a_bit(random: &mut Random, bytes: &mut [u8]) {
    let at = random.below(bytes.len());
    bytes[at] ^= 1 << random.below(8);
}
