//! Messages for damaged cases: what a state's stations may send now, that changed, and any.

use second::generate;
use second::line::call::Call;
use second::line::crossing::Crossing;
use second::line::damage;
use second::line::message::{Commit, Up};
use second::line::places::Place;
use second::line::server::state::{kind_of, Field};
use second::line::sets::{object_bit, page_of, PAGES, STATIONS};
use second::line::spoil;
use second::line::world::World;
use second::line::{Kind, LIMIT};
use second::random::Random;
use second::record::Record;

/// A message, for this state or for any, and of what sort. The state has the right length.
pub fn any(
    random: &mut Random,
    crossing: &mut Crossing,
    world: &World,
    state: &[u8],
) -> (&'static str, Vec<u8>) {
    let raw = match crossing.raw(world) {
        Call::ServerRaw(bytes) | Call::StationRaw(_, bytes) => bytes,
        _ => Vec::new(),
    };
    match random.below(16) {
        0..=2 => ("raw message", raw),
        3 => ("message of any length", spoil::of_any_length(random, &raw)),
        4 => ("commit", spoil::commit(random, &world.kinds)),
        5 | 6 => {
            let fitting = fitting(random, state);
            let changed = damage::changed(random, fitting);
            ("fitting message changed", changed)
        }
        _ => ("fitting message", fitting(random, state)),
    }
}

/// A message that fits these bytes of a state as far as one can, whatever they say.
fn fitting(random: &mut Random, state: &[u8]) -> Vec<u8> {
    let from = random.below(STATIONS);
    let transaction = next_transaction(random, state, from);
    let address = some_object(random, state);
    let page = page_of(address);
    let requester = some_waiter(random, state);
    let requesters = latest_mostly(random, state, requester.into());
    let message = match random.below(12) {
        0 | 1 => Up::Read {
            address,
            transaction,
        },
        2 | 3 => Up::Write {
            page,
            objects: object_bit(address) | random.byte() & random.pick(&[0, 0, 7, 255]),
            transaction,
        },
        4..=6 => Up::Commit(Box::new(commit(random, state, from, transaction))),
        7 => Up::Abort { transaction },
        8 => Up::Purge { page },
        9 => Up::Busy {
            requester,
            transaction: requesters,
        },
        10 => Up::Done {
            requester,
            transaction: requesters,
            dropped: Field::Listed.word(state, from) & random.pick(&[0, 1 << page, u32::MAX]),
        },
        _ => Up::WrittenSet {
            page: some_whole_page(random, state, from).unwrap_or(page),
            transaction: match random.one_in(3) {
                true => transaction,
                false => latest_mostly(random, state, from),
            },
            written: random.byte(),
        },
    };
    message.encode(from as u8)
}

/// The unfinished one, or the next; now and then another.
fn next_transaction(random: &mut Random, state: &[u8], from: usize) -> u32 {
    let latest = Field::Latest.word(state, from);
    let unfinished = Field::Unfinished.byte_of(state, from) != 0;
    let other = random.one_in(10);
    let number = match unfinished != other {
        true => latest,
        false => latest.wrapping_add(1),
    };
    number.max(1)
}

/// The latest one; now and then its neighbour.
fn latest_mostly(random: &mut Random, state: &[u8], station: usize) -> u32 {
    let latest = Field::Latest.word(state, station);
    let number = match random.below(8) {
        0 => latest.wrapping_add(1),
        1 => latest.wrapping_sub(1),
        _ => latest,
    };
    number.max(1)
}

/// One that is locked, requested or wanted, or any.
fn some_object(random: &mut Random, state: &[u8]) -> u8 {
    let start = random.byte();
    let mut from_there = (0..=u8::MAX).map(|i| start.wrapping_add(i));
    let station = random.below(STATIONS);
    let found = match random.below(4) {
        0 => Some(Field::Request.byte_of(state, station)),
        1 => from_there.find(|address| Field::Lock.byte_of(state, (*address).into()) != 0),
        2 => from_there.find(|address| Field::WrittenSet.sets(state, station).has(*address)),
        _ => None,
    };
    found.unwrap_or(start)
}

/// One that waits, if any does.
fn some_waiter(random: &mut Random, state: &[u8]) -> u8 {
    let start = random.below(STATIONS);
    let mut from_there = (0..STATIONS).map(|i| (start + i) % STATIONS);
    let waiter = from_there.find(|station| Field::Want.byte_of(state, *station) != 0);
    waiter.unwrap_or(start) as u8
}

/// A page that the station holds whole.
fn some_whole_page(random: &mut Random, state: &[u8], station: usize) -> Option<u8> {
    let start = random.below(PAGES);
    let mut from_there = (0..PAGES).map(|i| (start + i) % PAGES);
    let holds = |page: &usize| usize::from(Field::Whole.byte_of(state, *page)) == station + 1;
    from_there.find(holds).map(|page| page as u8)
}

/// A commit with the versions that the state has, mostly; a locking station's writes what it has locked.
fn commit(random: &mut Random, state: &[u8], from: usize, transaction: u32) -> Commit {
    let kind = kind_of(state, from);
    let locks = kind.is_some_and(Kind::locks);
    let own = |address: &u8| {
        let holders = [
            Field::Lock.byte_of(state, (*address).into()),
            Field::Whole.byte_of(state, page_of(*address).into()),
        ];
        holders.map(usize::from).contains(&(from + 1))
    };
    let sizes = [0, 1, 1, 2, 3, 8, LIMIT, LIMIT + 1, 256];
    let mut addresses = || {
        let count = random.pick(&sizes);
        let mut addresses: Vec<u8> = match count {
            ..=8 => (0..count).map(|_| some_object(random, state)).collect(),
            _ => (0..count).map(|address| address as u8).collect(),
        };
        addresses.sort_unstable();
        addresses.dedup();
        addresses
    };
    let reads = addresses();
    let mut writes = addresses();
    if locks && !random.one_in(8) {
        writes = (0..=u8::MAX).filter(own).collect();
        // mostly no more than a transaction may have
        if !random.one_in(8) {
            writes.truncate(LIMIT);
        }
    }
    let mut entries = |addresses: Vec<u8>| {
        let valued = addresses.into_iter();
        valued.map(|a| (a, generate::value(random))).collect()
    };
    let mut commit = Commit::of(Record {
        reads: entries(reads),
        writes: entries(writes),
        commit: 0,
        transaction,
        station: from as u8,
        kind: kind.map_or(0, |kind| kind as u8),
    });
    if !locks {
        let current = |(address, _)| Field::Version.word(state, usize::from(address));
        commit.versions = commit.versioned().map(current).collect();
    }
    commit
}
