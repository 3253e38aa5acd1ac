//! The server's states for damaged cases: real ones changed, random ones, and those that make a step do the most.

use crate::judge::Judge;
use second::buffers::{Agreed, Room};
use second::line::message::Up;
use second::line::places::Place;
use second::line::server::state::{kind_of, Field, COUNTERS_END, LENGTH};
use second::line::sets::{address as first_of, page_bit, page_of, Addresses};
use second::line::sets::{ADDRESSES, OBJECTS, PAGES, STATIONS};
use second::line::spoil;
use second::line::{Kind, LIMIT};
use second::random::Random;
use std::array;

/// A state like this real one, or not, and of what sort; its length is right.
pub fn damaged(random: &mut Random, real: &[u8]) -> (&'static str, Vec<u8>) {
    match random.below(16) {
        0..=3 => ("as it is", real.to_vec()),
        4..=6 => ("a byte changed", spoil::byte_changed::<Field>(random, real)),
        7 => (
            "a field changed",
            spoil::field_changed::<Field>(random, real),
        ),
        8 => ("at its limits", at_limits(random, real)),
        9..=12 => ("random that is taken", taken(random)),
        13 | 14 => ("random, some fields beside", beside(random)),
        _ => ("random", random.bytes(LENGTH)),
    }
}

/// Counters and the last commit number near their ends.
fn at_limits(random: &mut Random, real: &[u8]) -> Vec<u8> {
    let mut state = real.to_vec();
    for counter in [Field::NextAge, Field::NextArrival] {
        let near = random.pick(&[2, 1, 0]);
        if random.one_in(2) {
            counter.put_long(&mut state, 0, COUNTERS_END - near);
        }
    }
    let last = u32::MAX - random.below(3) as u32;
    Field::Last.put_word(&mut state, 0, last);
    state
}

/// How much of a set there is.
#[derive(Clone, Copy)]
enum Density {
    Nothing,
    Some,
    Half,
}

impl Density {
    fn any(random: &mut Random) -> Density {
        random.pick(&[
            Density::Nothing,
            Density::Some,
            Density::Some,
            Density::Half,
        ])
    }

    fn here(self, random: &mut Random) -> bool {
        match self {
            Density::Nothing => false,
            Density::Some => random.one_in(12),
            Density::Half => random.one_in(2),
        }
    }
}

/// What number 1 takes, and little that a run could not reach.
fn taken(random: &mut Random) -> Vec<u8> {
    let mut state = random.bytes(LENGTH);
    for (field, most) in Field::RANGES {
        for byte in &mut state[field.range()] {
            *byte %= most + 1;
        }
    }
    for station in 0..STATIONS {
        let latest = random.pick(&[1, 2, 3, u32::MAX - 1, u32::MAX]);
        Field::Latest.put_word(&mut state, station, latest);
    }
    let last = match random.below(8) {
        0 => u32::MAX - random.below(3) as u32,
        _ => random.below(1_000) as u32,
    };
    Field::Last.put_word(&mut state, 0, last);
    for page in 0..PAGES {
        let version = random.below(last as usize + 1) as u32;
        Field::Version.put_word(&mut state, page, version);
    }
    number(random, Field::Age, Field::NextAge, &mut state);
    number(random, Field::Arrival, Field::NextArrival, &mut state);
    lock(random, &mut state);
    list(random, &mut state);
    for station in 0..STATIONS {
        enter(random, station, &mut state);
    }
    for station in 0..STATIONS {
        call_back(random, station, &mut state);
    }
    state
}

/// Different ages or arrivals below the next one.
fn number(random: &mut Random, field: Field, next: Field, state: &mut [u8]) {
    let first = match random.below(12) {
        0 => COUNTERS_END - 1 - STATIONS as u64,
        _ => random.below(1_000) as u64,
    };
    let turn = random.below(STATIONS);
    for station in 0..STATIONS {
        let place = (3 * station + turn) % STATIONS;
        field.put_long(state, station, first + place as u64);
    }
    next.put_long(state, 0, first + STATIONS as u64);
}

/// Locks of stations whose transactions are unfinished, and whole ones of keeping stations.
fn lock(random: &mut Random, state: &mut [u8]) {
    let (objects, pages) = (Density::any(random), Density::any(random));
    let working = holders(state, |_, works| works);
    let keeping = holders(state, |kind, works| works || kind.keeps());
    let mut asked = 0;
    for page in 0..PAGES {
        let mut holder = |density: Density, of: &[u8]| match density.here(random) {
            true if !of.is_empty() => random.pick(of),
            _ => 0,
        };
        let whole = holder(pages, &keeping);
        Field::Whole.put_byte_of(state, page, whole);
        for object in 0..OBJECTS {
            let lock = holder(objects, &working);
            // beside a whole lock only its holder's
            let beside = whole != 0 && lock != 0;
            let own = if working.contains(&whole) { whole } else { 0 };
            let lock = if beside { own } else { lock };
            Field::Lock.put_byte_of(state, page * OBJECTS + object, lock);
        }
        give(random, page, state);
        if whole != 0 && random.one_in(2) {
            asked |= page_bit(page as u8);
        }
    }
    Field::Asked.put_word(state, 0, asked);
}

/// The locking and keeping stations of which this holds, as a lock says them.
fn holders(state: &[u8], may: impl Fn(Kind, bool) -> bool) -> Vec<u8> {
    let holds = |station: &usize| {
        let works = Field::Unfinished.byte_of(state, *station) == 1;
        kind_of(state, *station).is_some_and(|kind| kind.locks() && may(kind, works))
    };
    (0..STATIONS).filter(holds).map(|i| i as u8 + 1).collect()
}

/// Which transaction a page's whole lock is for.
fn give(random: &mut Random, page: usize, state: &mut [u8]) {
    let holder = usize::from(Field::Whole.byte_of(state, page)).checked_sub(1);
    let given = holder.map_or(0, |station| {
        let latest = Field::Latest.word(state, station);
        match kind_of(state, station) {
            Some(Kind::Keeping) => random.pick(&[1, 1 + latest / 2, latest]),
            _ => latest,
        }
    });
    Field::WholeFor.put_word(state, page, given);
}

fn list(random: &mut Random, state: &mut [u8]) {
    for station in 0..STATIONS {
        let [any, other] = [random.number(), random.number()].map(|number| number as u32);
        let listed = random.pick(&[0, any, any & other]);
        Field::Listed.put_word(state, station, listed);
    }
}

/// A station's entry in the waiting list, or that it has none.
fn enter(random: &mut Random, station: usize, state: &mut [u8]) {
    let unfinished = Field::Unfinished.byte_of(state, station) != 0;
    let want = match kind_of(state, station) {
        _ if !unfinished => 0,
        Some(kind) if kind.locks() => random.below(3) as u8,
        _ => random.pick(&[0, 3]),
    };
    Field::Want.put_byte_of(state, station, want);
    let few = Addresses(array::from_fn(|_| {
        random.byte() & random.byte() & random.byte()
    }))
    .lowest(LIMIT);
    let any = random.byte();
    let address = random.pick(&[8, 9, 10, 16, any]);
    let one = Addresses::one(address);
    let mut set = one;
    set.join(page_of(address), random.byte() & random.pick(&[0, 3, 255]));
    let nothing = Addresses::default();
    let [reads, writes] = match want {
        0 => [nothing, nothing],
        1 => [one, nothing],
        2 => [nothing, set],
        _ => random.pick(&[[one, one], [few, nothing], [few, few], [nothing, one]]),
    };
    Field::ReadSet.put_sets(state, station, &reads);
    Field::WrittenSet.put_sets(state, station, &writes);
    let requested = match want {
        1 => address,
        // its page's first
        2 => first_of(page_of(address), 0),
        _ => 0,
    };
    Field::Request.put_byte_of(state, station, requested);
    if want == 0 {
        Field::Arrival.put_long(state, station, 0);
    }
    let transaction = Field::Latest.word(state, station);
    Field::Work.put_word(state, station, transaction);
    for address in 0..ADDRESSES {
        for field in [Field::ReadVersion, Field::WrittenVersion] {
            let changed = random.one_in(200);
            let version = Field::Version
                .word(state, address)
                .wrapping_add(changed.into());
            field.put_word(state, ADDRESSES * station + address, version);
        }
    }
}

/// What other, locking stations owe a waiter.
fn call_back(random: &mut Random, station: usize, state: &mut [u8]) {
    let called = Field::Want.byte_of(state, station) > 1 && random.one_in(2);
    let locking =
        |other: &usize| *other != station && kind_of(state, *other).is_some_and(Kind::locks);
    let others = (0..STATIONS)
        .filter(locking)
        .fold(0, |set, other| set | 1 << other);
    let [any, other] = [random.byte(), random.byte()];
    let owed = others & random.pick(&[0, any, any & other]);
    let owed = if called { owed } else { 0 };
    Field::Called.put_byte_of(state, station, called.into());
    Field::Pend.put_byte_of(state, station, owed);
    Field::Busy.put_byte_of(state, station, owed & random.byte());
}

/// Nearly so: fields that do not count have something, or a request and its sets differ.
fn beside(random: &mut Random) -> Vec<u8> {
    let mut state = taken(random);
    for _ in 0..1 + random.below(4) {
        let station = random.below(STATIONS);
        let byte = random.byte();
        match random.below(11) {
            8 => Field::AgeKept.put_byte_of(&mut state, station, byte & 1),
            9 => Field::Kind.put_byte_of(&mut state, station, byte % 4),
            10 => Field::WholeFor.put_word(&mut state, random.below(PAGES), (byte & 3).into()),
            0 => Field::Called.put_byte_of(&mut state, station, byte & 1),
            1 => Field::Unfinished.put_byte_of(&mut state, station, byte & 1),
            2 => Field::Request.put_byte_of(&mut state, station, byte),
            3 => Field::Pend.put_byte_of(&mut state, station, byte),
            4 => Field::Busy.put_byte_of(&mut state, station, byte),
            5 => Field::Asked.put_word(&mut state, 0, random.number() as u32),
            more => {
                let field = [Field::ReadSet, Field::WrittenSet][more - 6];
                let sets = Addresses(array::from_fn(|_| random.byte() & random.byte()));
                field.put_sets(&mut state, station, &sets);
            }
        }
    }
    state
}

/// Steps that do the most: eight installs of 48 reads and writes, 74 messages, and 39 to one station; the last two with pages
/// that are locked whole by locking and by keeping stations.
pub fn limits(judge: &mut Judge) -> Agreed<()> {
    let mut random = Random::new(1);
    let [many, to_one] = [many_messages(&mut random), many_to_one(&mut random)];
    let states = [
        (eight_installs(&mut random), 0),
        (kept(&many), 0),
        (kept(&to_one), 1),
        (many, 0),
        (to_one, 1),
    ];
    for (state, station) in states {
        let room = Room::enough::<Field>(&mut random);
        judge.step(&Up::Purge { page: 0 }.encode(station), &state, room)?;
    }
    Ok(())
}

/// As many objects as one transaction may have: three on each of sixteen pages.
fn most() -> Addresses {
    Addresses([0b1000_0011; PAGES]).lowest(LIMIT)
}

/// Stations in their first transaction, of which those of a set wait with a commit.
fn committing(random: &mut Random, waiting: impl Fn(usize) -> bool) -> Vec<u8> {
    let mut state = vec![0; LENGTH];
    for counter in [Field::NextAge, Field::NextArrival] {
        counter.put_long(&mut state, 0, STATIONS as u64);
    }
    for station in 0..STATIONS {
        Field::Latest.put_word(&mut state, station, 1);
        Field::Unfinished.put_byte_of(&mut state, station, 1);
        Field::Age.put_long(&mut state, station, station as u64);
        if waiting(station) {
            Field::Want.put_byte_of(&mut state, station, 3);
            Field::Kind.put_byte_of(&mut state, station, 1);
            Field::Work.put_word(&mut state, station, 1);
            Field::Arrival.put_long(&mut state, station, station as u64);
            Field::ReadSet.put_sets(&mut state, station, &most());
        }
    }
    for field in [Field::ReadValue, Field::WrittenValue] {
        let range = field.range();
        state[range.clone()].copy_from_slice(&random.bytes(range.len()));
    }
    state
}

/// Each has the versions that the one before it leaves: 7,040 bytes of records.
fn eight_installs(random: &mut Random) -> Vec<u8> {
    let mut state = committing(random, |_| true);
    for station in 0..STATIONS {
        Field::WrittenSet.put_sets(&mut state, station, &most());
        Field::Listed.put_word(&mut state, station, u32::MAX);
        for place in (0..ADDRESSES).map(|address| ADDRESSES * station + address) {
            Field::ReadVersion.put_word(&mut state, place, station as u32);
            Field::WrittenVersion.put_word(&mut state, place, station as u32);
        }
    }
    state
}

/// The same of keeping stations, in a later transaction than their locks are of.
fn kept(state: &[u8]) -> Vec<u8> {
    let mut state = state.to_vec();
    for station in 0..STATIONS {
        if kind_of(&state, station) == Some(Kind::Locking) {
            Field::Kind.put_byte_of(&mut state, station, Kind::Keeping as u8);
            Field::Latest.put_word(&mut state, station, 2);
        }
    }
    state
}

/// A page's whole lock, of a station in its first transaction.
fn lock_whole(state: &mut [u8], page: usize, holder: usize) {
    Field::Whole.put_byte_of(state, page, holder as u8 + 1);
    Field::WholeFor.put_word(state, page, 1);
}

/// Station 0 has read on every page, and each is locked whole by one of the others: 32 of kind 19. Each of those wants to
/// write on a page of its own, which all have: six of kind 20 for each.
fn many_messages(random: &mut Random) -> Vec<u8> {
    let mut state = committing(random, |station| station == 0);
    Field::ReadSet.put_sets(&mut state, 0, &Addresses([0x80; PAGES]));
    for page in 0..PAGES {
        let holder = if page < STATIONS { page } else { 1 + page % 7 };
        lock_whole(&mut state, page, holder.max(1));
    }
    for station in 1..STATIONS {
        let address = (OBJECTS * station) as u8;
        Field::Want.put_byte_of(&mut state, station, 2);
        Field::Arrival.put_long(&mut state, station, station as u64);
        Field::Request.put_byte_of(&mut state, station, address);
        Field::WrittenSet.put_sets(&mut state, station, &Addresses::one(address));
        Field::Listed.put_word(&mut state, station, u32::MAX);
    }
    state
}

/// Station 0 has all pages but the last locked whole, and station 2 has read on them: 31 of kind 19. Stations 0 and 1 want to write
/// one object of the last page, which 1 has in use: station 0, the youngest, gets a 22. And all others want to write on that page,
/// which station 0 has: seven of kind 20.
fn many_to_one(random: &mut Random) -> Vec<u8> {
    let mut state = committing(random, |station| station == 2);
    let last = PAGES - 1;
    let mut reads = Addresses([0x80; PAGES]);
    reads.0[last] = 0;
    Field::ReadSet.put_sets(&mut state, 2, &reads);
    Field::Age.put_long(&mut state, 0, STATIONS as u64);
    Field::NextAge.put_long(&mut state, 0, STATIONS as u64 + 1);
    for page in 0..last {
        lock_whole(&mut state, page, 0);
    }
    for station in 0..STATIONS {
        let address = (OBJECTS * last + station.max(1) - 1) as u8;
        Field::WrittenSet.put_sets(&mut state, station, &Addresses::one(address));
        Field::Listed.put_word(&mut state, station, u32::MAX);
        if station != 2 {
            Field::Want.put_byte_of(&mut state, station, 2);
            Field::Arrival.put_long(&mut state, station, station as u64);
            Field::Request.put_byte_of(&mut state, station, (OBJECTS * last) as u8);
        }
    }
    Field::Called.put_byte_of(&mut state, 0, 1);
    Field::Pend.put_byte_of(&mut state, 0, 2);
    Field::Busy.put_byte_of(&mut state, 0, 2);
    state
}

#[cfg(test)]
mod tests {
    use super::*;
    use second::line::server::state::valid;

    #[test]
    fn random_states_are_taken() {
        let mut random = Random::new(1);
        for _ in 0..1_000 {
            assert!(valid(&taken(&mut random)));
        }
        for state in [many_messages(&mut random), many_to_one(&mut random)] {
            assert!(valid(&state) && valid(&kept(&state)));
        }
        let states: Vec<Vec<u8>> = (0..1_000).map(|_| beside(&mut random)).collect();
        assert!(states.iter().any(|state| valid(state)));
        assert!(states.iter().any(|state| !valid(state)));
    }
}
