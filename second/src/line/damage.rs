//! Raw messages that no rule-keeping end would send, or not now: stale, changed, of a wrong length, or invented.

use super::call::Call;
use super::message::{self, Commit, Down, Grant, PageMessage, Up};
use super::message::{commit_length, record_place, LENGTH, SHORTEST_COMMIT};
use super::places::Place;
use super::sets::{self, object_bit, page_bit, page_of, Addresses, PAGES, STATIONS};
use super::world::World;
use super::{Cause, Kind};
use crate::random::Random;
use crate::record::Record;

/// Messages seen on the lines, the last ones only.
#[derive(Default)]
pub struct History {
    messages: Vec<Vec<u8>>,
    oldest: usize,
}

const REMEMBERED: usize = 48;

impl History {
    pub fn note(&mut self, message: &[u8]) {
        if self.messages.len() < REMEMBERED {
            self.messages.push(message.to_vec());
        } else {
            self.messages[self.oldest] = message.to_vec();
            self.oldest = (self.oldest + 1) % REMEMBERED;
        }
    }

    fn any(&self, random: &mut Random) -> Vec<u8> {
        if self.messages.is_empty() {
            return random.bytes(LENGTH);
        }
        self.messages[random.below(self.messages.len())].clone()
    }
}

/// The addresses and stations that a run works on.
pub struct Field<'a> {
    pub stations: &'a [u8],
    pub addresses: &'a [u8],
}

/// A raw call on either end.
pub fn call(random: &mut Random, history: &History, field: &Field, world: &World) -> Call {
    let stale = history.any(random);
    let bytes = match random.below(10) {
        0..=2 => stale,
        3..=5 => changed(random, stale),
        6 => wrong_length(random, stale),
        7 => noise(random),
        _ => invented(random, field, world),
    };
    let goes_up = bytes.first().is_none_or(|kind| *kind < 16);
    // now and then to the end that does not take the kind
    if goes_up != random.one_in(12) {
        return Call::ServerRaw(bytes);
    }
    let named = bytes
        .get(message::Field::Station.start())
        .copied()
        .filter(|station| *station < 8);
    match named {
        Some(station) if !random.one_in(8) => Call::StationRaw(station, bytes),
        _ => Call::StationRaw(random.pick(field.stations), bytes),
    }
}

/// One field, byte or bit is another.
pub fn changed(random: &mut Random, mut bytes: Vec<u8>) -> Vec<u8> {
    if bytes.is_empty() {
        return bytes;
    }
    let head = bytes.len().min(message::Field::Sets.start());
    match random.below(6) {
        0 => {
            let at = random.below(bytes.len());
            bytes[at] ^= 1 << random.below(8);
        }
        1 => {
            let at = random.below(head);
            bytes[at] = random.byte();
        }
        2 => {
            let at = random.below(head);
            bytes[at] = bytes[at].wrapping_add(random.pick(&[1, 255]));
        }
        3 => {
            bytes[message::Field::Kind.start()] = random.pick(&[
                0, 1, 2, 4, 5, 6, 7, 8, 9, 15, 16, 17, 18, 19, 20, 21, 22, 23, 24,
            ])
        }
        4 => record_changed(random, &mut bytes),
        _ => {
            let at = random.below(bytes.len());
            bytes[at] = random.pick(&[0, 1, 2, 7, 8, 32, 255]);
        }
    }
    bytes
}

/// A commit's versions, or its record's header and addresses.
fn record_changed(random: &mut Random, bytes: &mut [u8]) {
    if bytes.len() < SHORTEST_COMMIT {
        return;
    }
    let record = record_place(bytes.len());
    let at = if random.one_in(4) && record > LENGTH {
        LENGTH + random.below(record - LENGTH)
    } else {
        record + random.below((bytes.len() - record).min(24))
    };
    bytes[at] = bytes[at].wrapping_add(random.pick(&[1, 255, 8]));
}

fn wrong_length(random: &mut Random, mut bytes: Vec<u8>) -> Vec<u8> {
    match random.below(4) {
        0 => bytes.truncate(random.below(bytes.len() + 1)),
        1 => bytes.push(random.byte()),
        2 => bytes.extend(vec![0; random.below(160)]),
        _ => drop(bytes.pop()),
    }
    bytes
}

fn noise(random: &mut Random) -> Vec<u8> {
    let length = random.pick(&[
        0,
        1,
        LENGTH - 1,
        LENGTH,
        LENGTH,
        LENGTH + 1,
        SHORTEST_COMMIT - 1,
        SHORTEST_COMMIT,
        commit_length(1),
        400,
    ]);
    let mut bytes = random.bytes(length);
    if let Some(kind) = bytes.first_mut() {
        *kind = random.pick(&[0, 1, 3, 3, 5, 8, 9, 16, 20, 23, 24, 255]);
    }
    bytes
}

/// A message with every field in its range, near what is going on.
fn invented(random: &mut Random, field: &Field, world: &World) -> Vec<u8> {
    let station = random.pick(field.stations);
    let other = random.pick(field.stations);
    let own = near(random, world, station);
    let others = near(random, world, other);
    if random.one_in(2) {
        up(random, field, (station, own), (other, others), world).encode(station)
    } else {
        down(random, field, own, (other, others)).encode(station)
    }
}

/// A transaction number next to the station's latest, never 0.
fn near(random: &mut Random, world: &World, station: u8) -> u32 {
    let latest = world.stations[station as usize].latest();
    let number = match random.below(6) {
        0 => latest.wrapping_sub(1),
        1 => latest.wrapping_add(1),
        _ => latest,
    };
    number.max(1)
}

fn up(
    random: &mut Random,
    field: &Field,
    (station, transaction): (u8, u32),
    (requester, requesters): (u8, u32),
    world: &World,
) -> Up {
    let address = random.pick(field.addresses);
    let page = page_of(address);
    match random.below(8) {
        0 => Up::Read {
            address,
            transaction,
        },
        1 => Up::Write {
            page,
            objects: object_bit(address) | random.byte() & random.pick(&[0, 0, 1, 15, 255]),
            transaction,
        },
        2 => {
            let kind = world.kinds[station as usize];
            Up::Commit(Box::new(commit(random, field, station, kind, transaction)))
        }
        3 => Up::Abort { transaction },
        4 => Up::Purge { page },
        5 => Up::Busy {
            requester,
            transaction: requesters,
        },
        6 => Up::Done {
            requester,
            transaction: requesters,
            dropped: random.pick(&[0, page_bit(page), u32::MAX]),
        },
        _ => Up::WrittenSet {
            page,
            transaction,
            written: random.byte() & random.byte(),
        },
    }
}

fn commit(random: &mut Random, field: &Field, station: u8, kind: Kind, transaction: u32) -> Commit {
    let mut commit = Commit::of(Record {
        reads: entries(random, field),
        writes: entries(random, field),
        commit: 0,
        transaction,
        station,
        kind: kind as u8,
    });
    if !kind.locks() && random.one_in(3) {
        if let Some(version) = commit.versions.last_mut() {
            *version = random.below(4) as u32;
        }
    }
    commit
}

fn entries(random: &mut Random, field: &Field) -> Vec<(u8, u64)> {
    let mut addresses: Vec<u8> = (0..random.below(3))
        .map(|_| random.pick(field.addresses))
        .collect();
    addresses.sort_unstable();
    addresses.dedup();
    addresses
        .into_iter()
        .map(|address| (address, random.number()))
        .collect()
}

fn down(
    random: &mut Random,
    field: &Field,
    transaction: u32,
    (requester, requesters): (u8, u32),
) -> Down {
    let address = random.pick(field.addresses);
    let page = page_of(address);
    match random.below(8) {
        grant @ 0..=2 => Down::Page(PageMessage {
            grant: [Grant::Page, Grant::Object, Grant::Whole][grant],
            // 17 and 18 name no object
            address: match grant {
                0 => address,
                _ => sets::address(page, 0),
            },
            transaction,
            versions: std::array::from_fn(|_| random.below(4) as u32),
            unavailable: random.byte() & random.byte(),
            values: std::array::from_fn(|_| random.number()),
        }),
        3 => Down::DeEscalate { page, transaction },
        4 => Down::Callback {
            requester,
            transaction: requesters,
            objects: (0..random.below(4))
                .map(|_| random.pick(field.addresses))
                .collect::<Addresses>(),
        },
        5 => Down::Committed {
            transaction,
            commit: 1 + random.below(9) as u32,
        },
        6 => Down::Aborted {
            transaction,
            cause: random.pick(&[Cause::Cycle, Cause::Version, Cause::Locked, Cause::Spent]),
        },
        _ => Down::Invalidate {
            objects: random.pick(&[
                Addresses::default(),
                Addresses::one(address),
                Addresses([255; PAGES]),
            ]),
        },
    }
}

/// All eight stations.
pub const ALL: [u8; STATIONS] = [0, 1, 2, 3, 4, 5, 6, 7];
