//! Lists of records and blocks: well-formed, damaged, random, and at the limits.

use crate::judge::Judge;
use second::block::{COUNTS, RECORDS};
use second::generate::{self, change_a_bit, tame, Size};
use second::random::Random;
use second::record::{Record, HEADER, LONGEST};

pub fn round(judge: &mut Judge, random: &mut Random) {
    let size = random.pick(&[Size::Tiny, Size::Tiny, Size::Small, Size::Mixed]);
    let records = list(random, size);
    let bytes = generate::archive(&records);
    there_and_back(judge, random, &records, &bytes);
    damaged_records(judge, random, &bytes);
    if let Some(block) = judge.write(&bytes, bytes.len() + COUNTS) {
        damaged_block(judge, random, &block, records.len());
    }
    random_bytes(judge, random);
    if random.one_in(50) {
        at_the_limits(judge, random);
    }
}

/// 1 to 64 records, often few, at times none or too many.
fn list(random: &mut Random, size: Size) -> Vec<Record> {
    let count = match random.below(8) {
        0 => random.pick(&[0, 1, RECORDS, RECORDS + 1, RECORDS + 2]),
        1 => random.below(RECORDS + 4),
        _ => 1 + random.below(5),
    };
    (0..count).map(|_| generate::record(random, size)).collect()
}

fn there_and_back(judge: &mut Judge, random: &mut Random, records: &[Record], bytes: &[u8]) {
    let exact = bytes.len() + COUNTS;
    let room = random.pick(&[
        exact,
        exact,
        exact + 1,
        exact + 100,
        exact - 1,
        COUNTS - 1,
        0,
    ]);
    let block = judge.write(bytes, room);
    let Some(block) = block else { return };
    let room = bytes.len() + random.pick(&[0, 0, 1, 77]);
    assert_eq!(
        judge.read(&block, room).as_deref(),
        Some(bytes),
        "there and back"
    );
    judge.read(&block, bytes.len() - 1);
    for (place, record) in records.iter().enumerate() {
        let found = judge
            .record(&block, place as u32, LONGEST)
            .expect("a place of the block");
        assert!(found.starts_with(&record.encode()), "place {place}");
    }
    for place in [records.len() as u32, 64, 65, 1 << 16, u32::MAX] {
        judge.record(&block, place, LONGEST);
    }
    judge.record(&block, 0, random.pick(&[0, LONGEST - 1, LONGEST + 1]));
}

fn damaged_records(judge: &mut Judge, random: &mut Random, bytes: &[u8]) {
    if bytes.is_empty() {
        return;
    }
    for _ in 0..8 {
        let mut other = bytes.to_vec();
        change_a_bit(random, &mut other);
        judge.write(&other, other.len() + COUNTS);
        other.truncate(random.below(other.len() + 1));
        judge.write(&other, other.len() + COUNTS);
    }
}

/// Bits changed anywhere, in the counts and in the headers; cut; lengthened.
fn damaged_block(judge: &mut Judge, random: &mut Random, block: &[u8], count: usize) {
    for turn in 0..12 {
        let mut other = block.to_vec();
        let until = match turn % 3 {
            0 => other.len(),
            1 => COUNTS,
            _ => COUNTS + HEADER * count,
        };
        change_a_bit(random, &mut other[..until]);
        both(judge, random, &other);
        match turn % 4 {
            0 => other.truncate(random.below(other.len() + 1)),
            1 => other.push(0),
            2 => {
                // two headers that give and take
                let (i, j) = (random.below(count), random.below(count));
                let [i, j] = [i, j].map(|i| COUNTS + HEADER * i + 2 * random.below(2));
                other = block.to_vec();
                other[i] = other[i].wrapping_add(1);
                other[j] = other[j].wrapping_sub(1);
            }
            _ => continue,
        }
        both(judge, random, &other);
    }
}

fn both(judge: &mut Judge, random: &mut Random, block: &[u8]) {
    judge.read(block, block.len().saturating_sub(COUNTS));
    judge.record(block, random.below(5) as u32, LONGEST);
}

/// Random headers behind counts that often agree.
fn random_bytes(judge: &mut Judge, random: &mut Random) {
    let length = random.below(40);
    let bytes = random.bytes(length);
    both(judge, random, &bytes);
    judge.write(&bytes, bytes.len() + COUNTS);
    let count = 1 + random.below(4);
    let mut headers = random.bytes(HEADER * count);
    let mut total = 0;
    for header in headers.chunks_exact_mut(HEADER) {
        tame(header, random);
        let [n0, n1, m0, m1, ..] = *header else {
            unreachable!()
        };
        total +=
            usize::from(u16::from_le_bytes([n0, n1])) + usize::from(u16::from_le_bytes([m0, m1]));
    }
    if total > 3000 {
        return;
    }
    let mut block = vec![count as u8, 0, total as u8, (total >> 8) as u8];
    block.extend(headers);
    let mut addresses = random.bytes(total);
    if random.one_in(2) {
        addresses.sort_unstable();
    }
    block.extend(addresses);
    block.extend(random.bytes(8 * total));
    both(judge, random, &block);
}

/// The longest block, a 65th record of any kind, sizes above the limit with agreeing counts.
fn at_the_limits(judge: &mut Judge, random: &mut Random) {
    let large: Vec<_> = (0..RECORDS)
        .map(|_| generate::record(random, Size::Large))
        .collect();
    let mut bytes = generate::archive(&large);
    let block = judge
        .write(&bytes, bytes.len() + COUNTS)
        .expect("64 records of the longest");
    assert_eq!(judge.read(&block, bytes.len()).as_deref(), Some(&bytes[..]));
    judge.record(&block, 63, LONGEST);
    bytes.push(random.byte());
    judge.write(&bytes, bytes.len() + COUNTS);
    for (reads, writes) in [
        (257u16, 0u16),
        (0, 257),
        (256, 256),
        (512, 0),
        (65_535, 0),
        (40_000, 25_535),
    ] {
        let total = usize::from(reads) + usize::from(writes);
        let mut block = vec![1, 0, total as u8, (total >> 8) as u8];
        block.extend(reads.to_le_bytes());
        block.extend(writes.to_le_bytes());
        block.extend([1, 0, 0, 0, 1, 0, 0, 0, 0, 0, 0, 0]);
        block.extend((0..usize::from(reads)).map(|i| i as u8));
        block.extend((0..usize::from(writes)).map(|i| i as u8));
        block.extend(random.bytes(8 * total));
        both(judge, random, &block);
    }
}
