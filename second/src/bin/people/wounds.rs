//! Faults that are made on purpose: each breaks one rule of a record.

use second::line::little::{word, WORD};
use second::line::places::{header::Field, Place};
use second::random::Random;
use second::record::{claimed_length, Record, HEADER, VALUE};

/// A record's bytes, and the sizes it had when it was whole.
pub struct Part {
    pub bytes: Vec<u8>,
    reads: usize,
    writes: usize,
}

/// Answers whether the record could be broken so.
type Wound = fn(&mut Part, &mut Random) -> bool;

const WOUNDS: [Wound; 10] = [
    |part, random| part.claim(Field::Reads, random),
    |part, random| part.claim(Field::Writes, random),
    |part, _| part.put(Field::Transaction.start(), &[0; WORD]),
    |part, random| part.put(Field::Station.start(), &[8 + random.below(248) as u8]),
    |part, random| part.put(Field::Kind.start(), &[2 + random.below(254) as u8]),
    |part, random| part.put(Field::Spare.start(), &[1 + random.below(255) as u8]),
    |part, random| part.put(HEADER - 1, &[1 + random.below(255) as u8]),
    Part::disorder,
    Part::renumber,
    Part::misread,
];

impl Part {
    pub fn of(record: &Record) -> Part {
        Part {
            bytes: record.encode(),
            reads: record.reads.len(),
            writes: record.writes.len(),
        }
    }

    /// So many different wounds; answers how many could be made.
    pub fn wound(&mut self, random: &mut Random, count: usize) -> usize {
        let mut left: Vec<Wound> = WOUNDS.to_vec();
        let mut made = 0;
        for _ in 0..count {
            let wound = left.swap_remove(random.below(left.len()));
            made += usize::from(wound(self, random));
        }
        made
    }

    fn put(&mut self, at: usize, bytes: &[u8]) -> bool {
        self.bytes[at..at + bytes.len()].copy_from_slice(bytes);
        true
    }

    /// More entries than a record may have, mostly with all that they claim.
    fn claim(&mut self, size: Field, random: &mut Random) -> bool {
        let many: u16 = match random.below(6) {
            0 => u16::MAX,
            1 => 257 + random.below(65_279) as u16,
            _ => random.pick(&[257, 258, 300, 512]),
        };
        self.put(size.start(), &many.to_le_bytes());
        let length = claimed_length(&self.bytes).expect("a header");
        let missing = length.saturating_sub(self.bytes.len());
        if !random.one_in(5) {
            self.bytes.extend(random.bytes(missing));
        }
        true
    }

    /// An address that is not above the one before it.
    fn disorder(&mut self, random: &mut Random) -> bool {
        let entries = self.reads + self.writes;
        let behind: Vec<usize> = (1..entries).filter(|i| *i != self.reads).collect();
        if behind.is_empty() {
            return false;
        }
        let at = HEADER + random.pick(&behind);
        let before = self.bytes[at - 1];
        let lower = random.below(usize::from(before) + 1) as u8;
        self.bytes[at] = random.pick(&[before, lower]);
        true
    }

    fn renumber(&mut self, random: &mut Random) -> bool {
        let at = Field::Commit.start();
        let number = word(&self.bytes, at);
        let near = [number.wrapping_sub(1), number.wrapping_add(1)];
        let any = random.number() as u32;
        let other = random.pick(&[0, 1, near[0], near[1], u32::MAX, any]);
        self.put(at, &other.to_le_bytes());
        other != number
    }

    /// One or more values that were never there.
    fn misread(&mut self, random: &mut Random) -> bool {
        let values = HEADER + self.reads + self.writes;
        for _ in 0..self.reads.min(1 + random.below(3)) {
            let at = values + random.below(VALUE * self.reads);
            self.bytes[at] ^= 1 << random.below(8);
        }
        self.reads > 0
    }
}
