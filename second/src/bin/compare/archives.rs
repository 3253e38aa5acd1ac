//! Cases of the archive reader, of replay and of playback.

use crate::judge::Judge;
use crate::records::{every_change, every_cut, some_changes};
use second::archive::Playback;
use second::generate::{self, tame, Size};
use second::numbers::{ENTRY_FIELDS, FIELDS};
use second::random::Random;
use second::record::{Record, ENTRY, HEADER};

/// Where records begin, and the end.
fn positions(records: &[Record]) -> Vec<usize> {
    let lengths = records.iter().map(|record| record.header().length());
    let ends = lengths.scan(0, |end, length| {
        *end += length as usize;
        Some(*end)
    });
    [0].into_iter().chain(ends).collect()
}

fn few(random: &mut Random, start: &Playback) -> Vec<Record> {
    let count = 1 + random.below(3);
    generate::commits(random, start, Size::Tiny, count)
}

/// A fresh line, one in the middle of its life, or one at its last commit numbers.
fn start(random: &mut Random) -> Playback {
    match random.below(4) {
        0 | 1 => Playback::FRESH,
        2 => generate::playback(random),
        _ => Playback {
            last: u32::MAX - random.below(3) as u32,
            ..generate::playback(random)
        },
    }
}

/// Every position and some behind the end, with last numbers that fit and that do not.
pub fn read_positions(judge: &mut Judge, random: &mut Random) {
    let start = start(random);
    let records = few(random, &start);
    let archive = generate::archive(&records);
    let far = [1, 2, 16, 1 << 32, usize::MAX - archive.len()].map(|n| archive.len() + n);
    for at in (0..=archive.len()).chain(far) {
        for last in [0, start.last, start.last.wrapping_add(1), u32::MAX] {
            judge.archive_read(&archive, at, last, FIELDS);
        }
    }
}

/// Each record with its own last number, and others; room for fewer and more fields.
pub fn read_records(judge: &mut Judge, random: &mut Random) {
    for _ in 0..50 {
        let start = start(random);
        let count = 1 + random.below(5);
        let records = generate::commits(random, &start, Size::Mixed, count);
        let archive = generate::archive(&records);
        for (i, at) in positions(&records).into_iter().enumerate() {
            let last = start.last.wrapping_add(i as u32);
            let others = [0, last.wrapping_sub(1), last.wrapping_add(1), u32::MAX];
            for last in others.into_iter().chain([last]) {
                for room in [0, 1, FIELDS - 1, FIELDS, FIELDS + 1, FIELDS + 5] {
                    judge.archive_read(&archive, at, last, room);
                }
            }
        }
    }
}

/// Every byte of a record, and of what lies before it, takes every other value.
pub fn read_changed(judge: &mut Judge, random: &mut Random) {
    let start = start(random);
    let at = random.below(5);
    let mut archive = random.bytes(at);
    let records = generate::commits(random, &start, Size::Tiny, 1);
    archive.extend(generate::archive(&records));
    every_change(&archive, |changed| {
        judge.archive_read(changed, at, start.last, FIELDS)
    });
}

pub fn read_random(judge: &mut Judge, random: &mut Random) {
    for _ in 0..1_000 {
        let length = random.below(100);
        let mut archive = random.bytes(length);
        let at = random.below(length + 1);
        tame(&mut archive[at..], random);
        let last = random.pick(&[0, 1, 256, u32::MAX]);
        judge.archive_read(&archive, at, last, FIELDS + random.below(3) - 1);
    }
}

/// Each entry of each record, and those that are not there.
pub fn entries(judge: &mut Judge, random: &mut Random) {
    let records = few(random, &Playback::FRESH);
    let archive = generate::archive(&records);
    for (record, at) in records.iter().zip(positions(&records)) {
        let entries = record.header().entries() as u32;
        for entries in [
            entries,
            entries + 1,
            entries.saturating_sub(1),
            entries + 40,
        ] {
            for i in (0..entries + 2).chain([255, 256, u32::MAX]) {
                for room in [0, 1, ENTRY_FIELDS, ENTRY_FIELDS + 1] {
                    judge.archive_entry(&archive, at, entries, i, room);
                }
            }
        }
    }
}

/// Positions and numbers whose sums and products do not fit a word.
pub fn entries_far(judge: &mut Judge, random: &mut Random) {
    let archive = generate::archive(&few(random, &Playback::FRESH));
    let counts = [0, 1, 2, 6, 512, 477_218_588, 477_218_587, 1 << 31, u32::MAX];
    for entries in counts {
        let length = HEADER + ENTRY * entries as usize;
        // so far that the record's end wraps to 0 or to a place in the archive
        let wrapping = [0, 1, archive.len()].map(|end| end.wrapping_sub(length));
        let near = [0, 1, archive.len().saturating_sub(length), archive.len()];
        let far = [archive.len() + 1, usize::MAX - 15, usize::MAX];
        for at in near.into_iter().chain(wrapping).chain(far) {
            for i in [0, 1, 5, entries.saturating_sub(1), entries, u32::MAX] {
                judge.archive_entry(&archive, at, entries, i, ENTRY_FIELDS);
            }
        }
    }
}

/// Archives without a fault, from any start, small to large, empty ones too.
pub fn replay_well_formed(judge: &mut Judge, random: &mut Random) {
    for size in [Size::Tiny, Size::Small, Size::Mixed, Size::Large] {
        for _ in 0..50 {
            let start = start(random);
            let count = random.below(12);
            let records = generate::commits(random, &start, size, count);
            judge.archive_replay(&generate::archive(&records), &start);
        }
    }
}

/// From another start than the archive's: wrong values, or a wrong last number.
pub fn replay_other_start(judge: &mut Judge, random: &mut Random) {
    for _ in 0..200 {
        let begun = start(random);
        let count = 1 + random.below(5);
        let records = generate::commits(random, &begun, Size::Mixed, count);
        let archive = generate::archive(&records);
        let mut other = begun.clone();
        other.values[random.below(256)] ^= 1 << random.below(64);
        judge.archive_replay(&archive, &other);
        let last = other.last;
        for last in [0, 1, last.wrapping_sub(1), last.wrapping_add(1), u32::MAX] {
            other.last = last;
            judge.archive_replay(&archive, &other);
        }
    }
}

/// Every byte of a small archive takes every other value.
pub fn replay_changed(judge: &mut Judge, random: &mut Random) {
    let start = start(random);
    let archive = generate::archive(&few(random, &start));
    every_change(&archive, |changed| {
        judge.archive_replay(changed, &start);
    });
}

/// Every byte of a larger archive takes some other values.
pub fn replay_changed_large(judge: &mut Judge, random: &mut Random) {
    let start = start(random);
    let records = generate::commits(random, &start, Size::Mixed, 3);
    some_changes(&generate::archive(&records), random, |changed| {
        judge.archive_replay(changed, &start);
    });
}

/// Cut at every length.
pub fn replay_cut(judge: &mut Judge, random: &mut Random) {
    let start = start(random);
    let records = generate::commits(random, &start, Size::Mixed, 2);
    every_cut(&generate::archive(&records), |cut| {
        judge.archive_replay(cut, &start);
    });
}

/// Two bytes changed: which number comes first, and at which record?
pub fn replay_two_faults(judge: &mut Judge, random: &mut Random) {
    for _ in 0..300 {
        let start = start(random);
        let mut archive = generate::archive(&few(random, &start));
        for _ in 0..2 {
            let at = random.below(archive.len());
            let any = random.byte();
            archive[at] = random.pick(&[0, 1, 2, 8, 255, any]);
        }
        let length = archive.len() - random.below(2) * random.below(archive.len());
        judge.archive_replay(&archive[..length], &start);
    }
}

/// One read, or two, show a wrong value.
pub fn replay_wrong_read(judge: &mut Judge, random: &mut Random) {
    for _ in 0..400 {
        let start = start(random);
        let mut records = generate::commits(random, &start, Size::Mixed, 4);
        let reads = &mut records[random.below(4)].reads;
        if reads.is_empty() {
            continue;
        }
        let (one, other) = (random.below(reads.len()), random.below(reads.len()));
        let by = 1 << random.below(64);
        reads[one].1 = reads[one].1.wrapping_add(by);
        if random.one_in(2) {
            // two faults that a sum would not show
            reads[other].1 = reads[other].1.wrapping_sub(by);
        }
        judge.archive_replay(&generate::archive(&records), &start);
    }
}

/// A read shows what its own record writes: still a wrong read.
pub fn replay_own_write(judge: &mut Judge, random: &mut Random) {
    for _ in 0..200 {
        let start = start(random);
        let mut records = generate::commits(random, &start, Size::Mixed, 3);
        let record = &mut records[random.below(3)];
        record.reads = record.writes.clone();
        judge.archive_replay(&generate::archive(&records), &start);
    }
}

/// One record has another commit number.
pub fn replay_wrong_number(judge: &mut Judge, random: &mut Random) {
    for _ in 0..100 {
        let start = start(random);
        let good = generate::commits(random, &start, Size::Tiny, 4);
        let at = random.below(good.len());
        let number = good[at].commit;
        for other in [0, number.wrapping_sub(1), number.wrapping_add(1), u32::MAX] {
            let mut records = good.clone();
            records[at].commit = other;
            judge.archive_replay(&generate::archive(&records), &start);
        }
    }
}

pub fn replay_random(judge: &mut Judge, random: &mut Random) {
    for _ in 0..500 {
        let length = random.below(120);
        let mut archive = random.bytes(length);
        tame(&mut archive, random);
        judge.archive_replay(&archive, &Playback::FRESH);
        judge.playback_record(&archive, &Playback::FRESH);
    }
}

/// Record by record: well-formed, damaged and cut archives.
pub fn play_through(judge: &mut Judge, random: &mut Random) {
    for _ in 0..100 {
        let start = start(random);
        let count = random.below(6);
        let records = generate::commits(random, &start, Size::Mixed, count);
        let mut archive = generate::archive(&records);
        judge.play_through(&archive, &start);
        if archive.is_empty() {
            judge.playback_record(&archive, &start);
            continue;
        }
        judge.play_through(&archive[..random.below(archive.len())], &start);
        generate::change_a_bit(random, &mut archive);
        judge.play_through(&archive, &start);
    }
}
