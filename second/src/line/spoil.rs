//! Damage for either end: states changed or of a wrong length, messages of any length, commits with faults.

use super::lent::COMMIT;
use super::little::WORD;
use super::message::{commit_length, record_place, Commit, Field, Up, LENGTH, SHORTEST_COMMIT};
use super::places::{header, Place};
use super::sets::STATIONS;
use super::Kind;
use crate::generate::{self, Size};
use crate::random::Random;
use crate::record::{self, Record, ENTRY, HEADER};

/// One byte is another, of any field.
pub fn byte_changed<F: Place>(random: &mut Random, real: &[u8]) -> Vec<u8> {
    let mut state = real.to_vec();
    let range = random.pick(F::all()).range();
    let at = range.start + random.below(range.len());
    state[at] = match random.below(4) {
        0 => random.byte(),
        1 => state[at] ^ (1 << random.below(8)),
        2 => state[at].wrapping_add(random.pick(&[1, 255])),
        _ => random.pick(&[0, 1, 2, 3, 4, 7, 8, 255]),
    };
    state
}

/// All of one field is another.
pub fn field_changed<F: Place>(random: &mut Random, real: &[u8]) -> Vec<u8> {
    let mut state = real.to_vec();
    let range = random.pick(F::all()).range();
    match random.below(3) {
        0 => state[range].fill(random.pick(&[0, 1, 255])),
        1 => state[range.clone()].copy_from_slice(&random.bytes(range.len())),
        _ => {
            for byte in &mut state[range] {
                *byte &= random.byte();
            }
        }
    }
    state
}

/// Cut, doubled, or longer by some.
pub fn of_a_wrong_length<F: Place>(random: &mut Random, state: &mut Vec<u8>) {
    let length = F::LENGTH;
    let length = random.pick(&[0, 1, length - 1, length + 1, length + 7, 2 * length, COMMIT]);
    state.resize(length, 0);
}

/// 0 to 5,000 bytes, those that a message may have often.
pub fn of_any_length(random: &mut Random, like: &[u8]) -> Vec<u8> {
    let length = match random.below(4) {
        0 => random.pick(&[
            0,
            1,
            LENGTH - 1,
            LENGTH,
            LENGTH + 1,
            SHORTEST_COMMIT - 1,
            SHORTEST_COMMIT,
            commit_length(1),
        ]),
        1 => random.below(300),
        _ => random.below(5_001),
    };
    let mut bytes = like.to_vec();
    bytes.resize(length, random.pick(&[0, 3, 255]));
    bytes
}

/// A commit of any size, often with a fault or two: numbers 2, 4 and 5.
pub fn commit(random: &mut Random, kinds: &[Kind; STATIONS]) -> Vec<u8> {
    let size = random.pick(&[Size::Tiny, Size::Tiny, Size::Small, Size::Mixed]);
    let record = generate::record(random, size);
    let station = record.station;
    let kind = kinds[station as usize];
    let mut commit = Commit::of(Record {
        commit: 0,
        kind: kind as u8,
        ..record
    });
    if !kind.locks() {
        for version in &mut commit.versions {
            *version = random.below(3) as u32;
        }
    }
    let mut bytes = Up::Commit(Box::new(commit)).encode(station);
    for _ in 0..random.below(3) {
        fault(random, &mut bytes);
    }
    bytes
}

fn fault(random: &mut Random, bytes: &mut Vec<u8>) {
    if bytes.len() < SHORTEST_COMMIT {
        return;
    }
    let record = record_place(bytes.len());
    let of_record = |field: header::Field| record + field as usize;
    let at = match random.below(12) {
        // the page set
        0 => Field::Pages.start() + random.below(WORD),
        1 => LENGTH + random.below((record - LENGTH).max(1)),
        2 => of_record(header::Field::Commit) + random.below(WORD),
        3 => of_record(header::Field::Transaction) + random.below(WORD),
        4 => random.pick(&[Field::Station.start(), of_record(header::Field::Station)]),
        5 => of_record(header::Field::Kind),
        6 => of_record(header::Field::Spare) + random.below(2),
        7 => return break_order(random, bytes),
        8 => return one_too_many(random, bytes),
        9 => record + random.below(4),
        10 => return bytes.truncate(random.below(bytes.len())),
        // a field of the message that it does not name
        _ => random.pick(&[
            Field::PageOrRequester.start(),
            Field::ObjectOrCause.start(),
            Field::Commit.start(),
            Field::Sets.start(),
            Field::Sets.start() + 1,
            Field::Values.start() - 1,
            Field::Values.start(),
            Field::Versions.start(),
            LENGTH - 1,
        ]),
    };
    bytes[at] = match random.below(3) {
        0 => random.byte(),
        1 => bytes[at].wrapping_add(1),
        _ => bytes[at] ^ (1 << random.below(8)),
    };
}

/// Two neighbours equal or exchanged, or an address of another page.
fn break_order(random: &mut Random, bytes: &mut [u8]) {
    let addresses = record_place(bytes.len()) + HEADER;
    let entries = (bytes.len() - addresses) / ENTRY;
    if entries < 2 {
        return;
    }
    let at = addresses + random.below(entries - 1);
    match random.below(3) {
        0 => bytes[at + 1] = bytes[at],
        1 => bytes.swap(at, at + 1),
        _ => bytes[at] = bytes[at].wrapping_add(8),
    }
}

/// "n = 257: number 5", and document 02's n = 49, the length fitting.
fn one_too_many(random: &mut Random, bytes: &mut Vec<u8>) {
    let mut record = bytes.split_off(record_place(bytes.len()));
    let size = random
        .pick(&[header::Field::Reads, header::Field::Writes])
        .start();
    let count: u16 = random.pick(&[49, 257]);
    record[size..size + 2].copy_from_slice(&count.to_le_bytes());
    let claimed = record::claimed_length(&record).unwrap_or(HEADER);
    record.resize(claimed, 0);
    bytes.resize(LENGTH + WORD * ((claimed - HEADER) / ENTRY), 0);
    bytes.extend(record);
}
