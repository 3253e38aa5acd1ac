//! Cases of record check and record writer.

use crate::judge::{Judge, MOST_ROOM};
use second::generate::{self, tame, Size};
use second::line::places::{header, Place};
use second::random::Random;
use second::record::{Header, Record, ENTRY, HEADER, VALUE};

const SIZES: [u16; 6] = [0, 1, 255, 256, 257, u16::MAX];
/// The last ones: 16 + 9 × count comes to little if it is counted in 32 bits.
const COUNTS: [u32; 12] = [
    0,
    1,
    2,
    255,
    256,
    257,
    65_535,
    65_536,
    1 << 31,
    u32::MAX,
    477_218_588,
    477_218_587,
];
const STATIONS: [u32; 10] = [0, 1, 6, 7, 8, 9, 255, 256, 263, u32::MAX];
const KINDS: [u32; 9] = [0, 1, 2, 3, 255, 256, 257, 258, u32::MAX];
const NUMBERS: [u32; 8] = [0, 1, 255, 256, 65_536, 1 << 24, 1 << 31, u32::MAX];

/// Size fields at their limits, in bytes that are just long enough, too short or longer.
pub fn sizes_at_limits(judge: &mut Judge, random: &mut Random) {
    let longest = HEADER + ENTRY * 2 * usize::from(u16::MAX) + 1;
    let mut bytes = random.bytes(longest);
    for reads in SIZES {
        for writes in SIZES {
            put_record(&mut bytes, random, reads, writes);
            let exact = HEADER + ENTRY * (usize::from(reads) + usize::from(writes));
            for length in [0, HEADER - 1, HEADER, exact - 1, exact, exact + 1, longest] {
                judge.record_check(&bytes[..length]);
            }
        }
    }
}

/// A record of these sizes at the start of the bytes, well-formed where the sizes allow it.
fn put_record(bytes: &mut [u8], random: &mut Random, reads: u16, writes: u16) {
    let mut record = generate::record(random, Size::Tiny).encode();
    record.truncate(HEADER);
    record[header::Field::Reads.range()].copy_from_slice(&reads.to_le_bytes());
    record[header::Field::Writes.range()].copy_from_slice(&writes.to_le_bytes());
    for count in [reads, writes] {
        let count = usize::from(count);
        record.extend(generate::addresses(random, count.min(256)));
        // more than there are addresses: they begin again
        record.extend((256..count).map(|i| i as u8));
    }
    bytes[..record.len()].copy_from_slice(&record);
}

pub fn check_well_formed(judge: &mut Judge, random: &mut Random) {
    for size in [Size::Tiny, Size::Small, Size::Mixed, Size::Large] {
        for _ in 0..200 {
            let mut bytes = generate::record(random, size).encode();
            judge.record_check(&bytes);
            bytes.extend(random.bytes(20));
            judge.record_check(&bytes);
        }
    }
}

/// Every byte of a small record takes every other value.
pub fn check_changed(judge: &mut Judge, random: &mut Random) {
    let bytes = generate::record(random, Size::Tiny).encode();
    every_change(&bytes, |changed| judge.record_check(changed));
}

/// Calls with each single-byte change.
pub fn every_change(bytes: &[u8], mut call: impl FnMut(&[u8])) {
    let mut changed = bytes.to_vec();
    for at in 0..bytes.len() {
        for other in 1..=255 {
            changed[at] = bytes[at] ^ other;
            call(&changed);
        }
        changed[at] = bytes[at];
    }
}

/// Every byte of a larger record takes some other values.
pub fn check_changed_large(judge: &mut Judge, random: &mut Random) {
    let size = random.pick(&[Size::Mixed, Size::Mixed, Size::Large]);
    let bytes = generate::record(random, size).encode();
    some_changes(&bytes, random, |changed| judge.record_check(changed));
}

/// Calls with some changes of each byte.
pub fn some_changes(bytes: &[u8], random: &mut Random, mut call: impl FnMut(&[u8])) {
    let mut changed = bytes.to_vec();
    for at in 0..bytes.len() {
        for other in [1, 0x80, 1 + random.below(255) as u8] {
            changed[at] = bytes[at] ^ other;
            call(&changed);
        }
        changed[at] = bytes[at];
    }
}

/// Every shorter length; once more with a broken header, since 12 comes before 5.
pub fn check_cut(judge: &mut Judge, random: &mut Random) {
    for size in [Size::Tiny, Size::Small, Size::Mixed] {
        let mut bytes = generate::record(random, size).encode();
        every_cut(&bytes, |cut| judge.record_check(cut));
        bytes[header::Field::Station.start() + random.below(4)] |= 0x40;
        every_cut(&bytes, |cut| judge.record_check(cut));
    }
}

/// Calls with each length from 0 to all.
pub fn every_cut(bytes: &[u8], mut call: impl FnMut(&[u8])) {
    for length in 0..=bytes.len() {
        call(&bytes[..length]);
    }
}

pub fn check_random(judge: &mut Judge, random: &mut Random) {
    for _ in 0..2_000 {
        let length = random.below(120);
        let mut bytes = random.bytes(length);
        tame(&mut bytes, random);
        judge.record_check(&bytes);
    }
}

/// Two neighbours equal or exchanged, at each place: check and writer.
pub fn order_broken(judge: &mut Judge, random: &mut Random) {
    for _ in 0..5 {
        order_broken_in(judge, &generate::record(random, Size::Mixed));
    }
}

fn order_broken_in(judge: &mut Judge, record: &Record) {
    let (header, values) = (record.header(), record.values());
    let mut broken = |addresses: &[u8]| {
        let mut bytes = record.encode();
        bytes[HEADER..HEADER + addresses.len()].copy_from_slice(addresses);
        judge.record_check(&bytes);
        judge.record_write(&header, addresses, &values, bytes.len());
    };
    let addresses = record.addresses();
    for at in 1..addresses.len() {
        let mut equal = addresses.clone();
        equal[at] = equal[at - 1];
        broken(&equal);
        let mut exchanged = addresses.clone();
        exchanged.swap(at - 1, at);
        broken(&exchanged);
    }
}

/// The writer's arguments.
#[derive(Clone)]
struct Order {
    header: Header,
    addresses: Vec<u8>,
    values: Vec<u8>,
}

impl Order {
    fn random(random: &mut Random, size: Size) -> Order {
        let record = generate::record(random, size);
        Order {
            header: record.header(),
            addresses: record.addresses(),
            values: record.values(),
        }
    }

    fn write(&self, judge: &mut Judge, room: usize) {
        judge.record_write(&self.header, &self.addresses, &self.values, room);
    }

    /// Room around what these header fields ask for, where so much can be had.
    fn write_around(&self, judge: &mut Judge) {
        let exact = self.header.length() as usize;
        for room in [exact - 1, exact, exact + 1, exact + 100] {
            self.write(judge, room.min(MOST_ROOM));
        }
    }
}

pub fn write_well_formed(judge: &mut Judge, random: &mut Random) {
    for _ in 0..400 {
        Order::random(random, Size::Mixed).write_around(judge);
    }
}

/// Any room from none to more than enough.
pub fn write_rooms(judge: &mut Judge, random: &mut Random) {
    for _ in 0..5 {
        let order = Order::random(random, Size::Small);
        for room in 0..order.header.length() as usize + 20 {
            order.write(judge, room);
        }
    }
}

/// Header fields far out of range: none may be cut to its low bits.
pub fn write_fields(judge: &mut Judge, random: &mut Random) {
    for station in STATIONS {
        for kind in KINDS {
            let mut order = Order::random(random, Size::Small);
            order.header.station = station;
            order.header.kind = kind;
            order.write_around(judge);
        }
    }
    for transaction in NUMBERS {
        for commit in NUMBERS {
            let mut order = Order::random(random, Size::Small);
            order.header.transaction = transaction;
            order.header.commit = commit;
            order.write_around(judge);
        }
    }
}

/// Counts at their limits, entries as many as the counts say.
pub fn counts_at_limits(judge: &mut Judge, random: &mut Random) {
    let entries = random.bytes(VALUE * 2 * 65_536);
    for reads in COUNTS {
        for writes in COUNTS {
            let mut header = generate::record(random, Size::Tiny).header();
            (header.reads, header.writes) = (reads, writes);
            // also as many as a sum of 32 bits would say
            for count in [
                header.entries() as usize,
                reads.wrapping_add(writes) as usize,
            ] {
                let addresses = entries[..count.min(2 * 65_536)].to_vec();
                let values = entries[..VALUE * addresses.len()].to_vec();
                let order = Order {
                    header,
                    addresses,
                    values,
                };
                order.write_around(judge);
            }
        }
    }
}

/// Wrong counts over entries that are well-formed.
pub fn write_counts(judge: &mut Judge, random: &mut Random) {
    for _ in 0..300 {
        let mut order = Order::random(random, Size::Small);
        let exact = order.header.length() as usize;
        let (reads, writes) = (order.header.reads, order.header.writes);
        let others = [
            (random.pick(&COUNTS), writes),
            (reads, random.pick(&COUNTS)),
            (random.pick(&COUNTS), random.pick(&COUNTS)),
            (reads + 1, writes - 1),
            (reads + writes, 0),
            (0, reads + writes),
            (reads - 1, writes + 1),
        ];
        for (reads, writes) in others {
            (order.header.reads, order.header.writes) = (reads, writes);
            for room in [exact - 1, exact, exact + ENTRY, 5_000] {
                order.write(judge, room);
            }
        }
    }
}

/// Addresses or values of another length than the counts ask for.
pub fn write_lengths(judge: &mut Judge, random: &mut Random) {
    for _ in 0..20 {
        let good = Order::random(random, Size::Tiny);
        let entries = good.addresses.len();
        let around = |length: usize| [0, length.saturating_sub(1), length, length + 1];
        let bytes = VALUE * entries;
        let other = [bytes + VALUE, bytes.saturating_sub(VALUE), entries];
        for addresses in around(entries).into_iter().chain([bytes]) {
            for values in around(bytes).into_iter().chain(other) {
                let mut order = good.clone();
                order.addresses.resize(addresses, 255);
                order.values.resize(values, 255);
                order.write_around(judge);
            }
        }
    }
}

/// Several arguments wrong at once: which number comes first?
pub fn write_random(judge: &mut Judge, random: &mut Random) {
    for _ in 0..1_000 {
        let mut order = Order::random(random, Size::Tiny);
        let exact = order.header.length() as usize;
        let header = &mut order.header;
        for (field, from) in [
            (&mut header.reads, &COUNTS[..]),
            (&mut header.writes, &COUNTS),
            (&mut header.transaction, &NUMBERS),
            (&mut header.station, &STATIONS),
            (&mut header.kind, &KINDS),
        ] {
            if random.one_in(6) {
                *field = random.pick(from);
            }
        }
        if random.one_in(6) {
            order.addresses.resize(random.below(8), 255);
        }
        if random.one_in(6) {
            order.values.resize(random.below(64), 255);
        }
        if random.one_in(6) {
            order.addresses.reverse();
        }
        order.write(judge, random.pick(&[exact - 1, exact, exact + 5, 600]));
    }
}
