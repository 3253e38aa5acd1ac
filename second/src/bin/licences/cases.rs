//! Archives, tariffs and stretches: random, at both ends of the range, with halves, and damaged.

use second::generate;
use second::licence::{table, Step, MOST, MOST_STEPS};
use second::random::Random;
use second::record::Record;

pub struct Case {
    pub archive: Vec<u8>,
    pub table: Vec<u8>,
    pub stretch: (u32, u32),
    pub address: u8,
}

/// Addresses that archives write.
const WRITTEN: [u8; 5] = [0, 7, 8, 200, 255];

/// A value at most 2^63 - 1, at the ends often.
fn value(random: &mut Random) -> u64 {
    match random.below(6) {
        0 => 0,
        1 => MOST,
        2 => random.pick(&[1, 49_999, 50_000, 150_000, MOST - 1]),
        3 => random.below(1_000_000) as u64,
        _ => random.number() & MOST,
    }
}

fn price(random: &mut Random) -> u32 {
    match random.below(4) {
        0 => random.pick(&[0, 1, 2, 100_000, u32::MAX]),
        1 => random.below(10_000) as u32,
        _ => random.number() as u32,
    }
}

/// A tariff of so many steps; its upper counts are low or anywhere.
pub fn steps(random: &mut Random, count: usize) -> Vec<Step> {
    let low = random.one_in(2);
    let mut uppers: Vec<u64> = (1..count)
        .map(|_| match low {
            true => random.below(2_000_000) as u64,
            false => value(random),
        })
        .filter(|upper| *upper < MOST)
        .chain([MOST])
        .collect();
    uppers.sort_unstable();
    uppers.dedup();
    let step = |upper| Step {
        upper,
        price: price(random),
    };
    uppers.into_iter().map(step).collect()
}

/// Commits of a line whose values are at most 2^63 - 1, now and then above.
pub fn records(random: &mut Random, count: usize, above: bool) -> Vec<Record> {
    let mut values = [0; 256];
    let mut record = |commit| {
        let some = |random: &mut Random| -> Vec<u8> {
            WRITTEN.into_iter().filter(|_| random.one_in(2)).collect()
        };
        let (reads, writes) = (some(random), some(random));
        let reads = reads
            .into_iter()
            .map(|a| (a, values[usize::from(a)]))
            .collect();
        let mut write = |address: u8| {
            let new = match above && random.one_in(8) {
                true => random.number() | 1 << 63,
                false => value(random),
            };
            values[usize::from(address)] = new;
            (address, new)
        };
        let writes = writes.into_iter().map(&mut write).collect();
        let station = (commit % 8) as u8;
        Record {
            reads,
            writes,
            commit,
            transaction: commit / 8 + 1,
            station,
            kind: station % 3,
        }
    };
    (1..=count as u32).map(&mut record).collect()
}

fn stretch(random: &mut Random, last: u32) -> (u32, u32) {
    if random.one_in(8) {
        let any = |random: &mut Random| random.pick(&[0, 1, last, last + 1, u32::MAX]);
        return (any(random), any(random));
    }
    if last == 0 {
        return (1, 1);
    }
    let first = 1 + random.below(last as usize) as u32;
    (
        first,
        first + random.below((last - first + 1) as usize) as u32,
    )
}

fn fine(random: &mut Random) -> Case {
    let count = random.below(12);
    let above = random.one_in(4);
    let many = 1 + random.below(MOST_STEPS);
    Case {
        archive: generate::archive(&records(random, count, above)),
        table: table(&steps(random, many)),
        stretch: stretch(random, count as u32),
        address: random.pick(&[
            WRITTEN[0], WRITTEN[1], WRITTEN[2], WRITTEN[3], WRITTEN[4], 9,
        ]),
    }
}

/// A single change from 0 or back to it, so that sum and fee are known.
fn single(random: &mut Random, frames: u64, steps: &[Step]) -> Case {
    let record = |commit, value| Record {
        reads: Vec::new(),
        writes: vec![(8, value)],
        commit,
        transaction: 1,
        station: 0,
        kind: 0,
    };
    let up = random.one_in(2);
    let values = if up { [0, frames] } else { [frames, 0] };
    Case {
        archive: generate::archive(&[record(1, values[0]), record(2, values[1])]),
        table: table(steps),
        stretch: (2, 2),
        address: 8,
    }
}

/// Frames and prices whose fee is at the end of the range, a half, or just beside.
fn edges(random: &mut Random) -> Case {
    let flat = |price| vec![Step { upper: MOST, price }];
    match random.below(3) {
        0 => {
            let (price, frames) = random.pick(&[
                (100_000, MOST),
                (100_001, MOST),
                (99_999, MOST),
                (200_000, MOST / 2),
                (200_000, MOST / 2 + 1),
            ]);
            single(random, frames, &flat(price))
        }
        1 => {
            let odd = 2 * random.below(1_000_000) as u64 + 1;
            let near = random.pick(&[0u64, 1, 2]);
            single(random, (odd * 50_000 + near).saturating_sub(1), &flat(1))
        }
        // a last step of which a single frame brings the fee to its end
        _ => {
            let split = 1 + random.number() % (MOST - 1);
            let last = MOST - random.below(2) as u64;
            let steps = [
                (split, 100_000),
                (MOST, random.pick(&[99_999, 100_000, 100_001])),
            ];
            single(
                random,
                last,
                &steps.map(|(upper, price)| Step { upper, price }),
            )
        }
    }
}

fn damaged_table(random: &mut Random) -> Case {
    let mut case = fine(random);
    match random.below(5) {
        0 => case.table.truncate(random.below(case.table.len() + 1)),
        1 => case.table.extend(random.bytes(12)),
        2 => generate::change_a_bit(random, &mut case.table),
        3 => {
            let many = random.below(20);
            case.table = random.bytes(12 * many);
        }
        _ => {
            let mut many = steps(random, 40);
            let behind = many.split_off(many.len().min(16 + random.below(3)) - 1);
            many.extend(behind.last());
            case.table = table(&many);
        }
    }
    case
}

fn damaged_archive(random: &mut Random) -> Case {
    let mut case = fine(random);
    if !case.archive.is_empty() {
        match random.below(3) {
            0 => case.archive.truncate(random.below(case.archive.len() + 1)),
            1 => generate::change_a_bit(random, &mut case.archive),
            _ => {
                let length = random.below(60);
                let mut more = random.bytes(length);
                generate::tame(&mut more, random);
                case.archive.extend(more);
            }
        }
    }
    // several faults at once: the table's comes first
    if random.one_in(8) {
        case.table.push(0);
    }
    case
}

pub fn round(random: &mut Random) -> [(Case, &'static str); 5] {
    [
        (fine(random), "a random case"),
        (edges(random), "at the ends of the range, halves"),
        (damaged_table(random), "a damaged table"),
        (damaged_archive(random), "a damaged archive"),
        (fine(random), "a random case"),
    ]
}
