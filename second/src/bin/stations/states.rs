//! States for damaged cases: real ones changed, and random ones.

use second::line::little::{LONG, WORD};
use second::line::places::Place;
use second::line::sets::{address, object_bit, page_bit, page_of, rising, Addresses};
use second::line::sets::{OBJECTS, PAGES, STATIONS};
use second::line::spoil;
use second::line::station::state::{kind_of, Field, LENGTH};
use second::line::{Kind, LIMIT};
use second::random::Random;
use std::array;

/// A state like this real one, or not, and of what sort; its length is right.
pub fn damaged(random: &mut Random, real: &[u8]) -> (&'static str, Vec<u8>) {
    match random.below(16) {
        0..=4 => ("as it is", real.to_vec()),
        5..=8 => ("a byte changed", spoil::byte_changed::<Field>(random, real)),
        9 | 10 => (
            "a field changed",
            spoil::field_changed::<Field>(random, real),
        ),
        11 | 12 => ("random by the rules", by_the_rules(random)),
        13 => ("random that decodes", decoded(random)),
        14 => ("random in range", in_range(random)),
        _ => ("random", random.bytes(LENGTH)),
    }
}

/// Every field at random within its range, now and then beside it.
fn in_range(random: &mut Random) -> Vec<u8> {
    let mut state = random.bytes(LENGTH);
    for (field, bound) in [
        (Field::Station, STATIONS as u8),
        (Field::Kind, Kind::ALL.len() as u8),
        (Field::Open, 2),
        (Field::Wait, 4),
    ] {
        let byte = field.byte(&state) % bound;
        let beside = if random.one_in(60) { bound } else { byte };
        field.put_byte(&mut state, beside);
    }
    let station = Field::Station.byte(&state) as usize % STATIONS;
    if !random.one_in(60) {
        Field::Kept.put_word(&mut state, station, 0);
    }
    if random.one_in(40) {
        Field::Number.put_word(&mut state, 0, random.pick(&[0, u32::MAX]));
    }
    state
}

/// Nothing that this implementation cannot hold.
fn decoded(random: &mut Random) -> Vec<u8> {
    let mut state = in_range(random);
    for field in [Field::ReadSet, Field::WrittenSet, Field::Locks] {
        thin(random, field, 0, &mut state);
    }
    for requester in 0..STATIONS {
        thin(random, Field::Named, requester, &mut state);
        if random.one_in(2) {
            Field::Kept.put_word(&mut state, requester, 0);
        }
    }
    for field in [Field::ReadSet, Field::WrittenSet] {
        let most = LIMIT - 1 + random.pick(&[0, 0, 0, 1, 1, 2]);
        let few = field.sets(&state, 0).lowest(most);
        field.put_sets(&mut state, 0, &few);
    }
    if Field::Open.byte(&state) == 0 {
        clear(&Field::OF_TRANSACTION, &mut state);
    }
    let whole = Field::Whole.word(&state, 0);
    if Field::Open.byte(&state) == 0 || !locks(&state) {
        clear(&Field::OF_LOCKS, &mut state);
    }
    if kind_of(&state).is_some_and(Kind::keeps) {
        // often few, as at the end of a transaction
        let few = whole & random.pick(&[0, 7, u32::MAX]);
        Field::Whole.put_word(&mut state, 0, few);
    }
    ask_once(&mut state);
    ask_a_set(random, &mut state);
    let mut cached = random.number() as u32 | random.pick(&[0, 0x5555_5555, u32::MAX]);
    if locks(&state) {
        cached |= locked(&state);
    }
    cache_only(cached, &mut state);
    copy_written(&mut state);
    state
}

/// Fewer members, more like those of a run.
fn thin(random: &mut Random, field: Field, i: usize, state: &mut [u8]) {
    let mut sets = field.sets(state, i);
    match random.below(4) {
        0 => (),
        1 => sets = Addresses::default(),
        _ => {
            let kept: [u8; PAGES] = array::from_fn(|_| random.byte() & random.byte());
            let on = random.number() as u32 & random.number() as u32;
            for (page, set) in (0..).zip(&mut sets.0) {
                *set &= kept[page as usize];
                if on & page_bit(page) == 0 {
                    *set = 0;
                }
            }
        }
    }
    field.put_sets(state, i, &sets);
}

fn clear(fields: &[Field], state: &mut [u8]) {
    for field in fields {
        state[field.range()].fill(0);
    }
}

fn locks(state: &[u8]) -> bool {
    kind_of(state).is_some_and(Kind::locks)
}

/// Pages with a lock.
fn locked(state: &[u8]) -> u32 {
    Field::Locks.sets(state, 0).pages() | Field::Whole.word(state, 0)
}

/// Own values stand in the copies.
fn copy_written(state: &mut [u8]) {
    let written = Field::WrittenSet.sets(state, 0);
    let cached = Field::Cached.word(state, 0);
    for address in (0..=u8::MAX).filter(|address| written.has(*address)) {
        if cached & page_bit(page_of(address)) != 0 {
            let from = Field::WrittenValue.start() + LONG * usize::from(address);
            let to = Field::Copy.start() + LONG * usize::from(address);
            state.copy_within(from..from + LONG, to);
        }
    }
}

/// These pages are cached, and others leave nothing.
fn cache_only(pages: u32, state: &mut [u8]) {
    Field::Cached.put_word(state, 0, pages);
    for page in rising(!pages).map(usize::from) {
        let values = Field::Copy.start() + LONG * OBJECTS * page;
        state[values..values + LONG * OBJECTS].fill(0);
        state[Field::Unavailable.start() + page] = 0;
        let versions = Field::Version.start() + WORD * OBJECTS * page;
        state[versions..versions + WORD * OBJECTS].fill(0);
    }
}

/// What `Station::keeps_rules` asks for.
fn by_the_rules(random: &mut Random) -> Vec<u8> {
    let mut state = decoded(random);
    if Field::Open.byte(&state) == 1 {
        if locks(&state) {
            lock_written(&mut state);
        }
        cache_held(&mut state);
        copy_written(&mut state);
    }
    state
}

/// A read that is out is of an object not yet seen.
fn ask_once(state: &mut [u8]) {
    let requested = Field::Address.byte(state);
    let asked = Field::Wait.byte(state) == 1;
    for field in [Field::ReadSet, Field::WrittenSet] {
        let mut sets = field.sets(state, 0);
        if asked && sets.has(requested) {
            sets.0[page_of(requested) as usize] ^= object_bit(requested);
        }
        field.put_sets(state, 0, &sets);
    }
}

/// A write that is out is of objects of a page; now and then of too many, or of none.
fn ask_a_set(random: &mut Random, state: &mut [u8]) {
    if Field::Wait.byte(state) != 2 {
        return;
    }
    if !random.one_in(20) {
        let page = page_of(Field::Address.byte(state));
        Field::Address.put_byte(state, address(page, 0));
    }
    let one = 1 << random.below(OBJECTS);
    let set = match random.below(20) {
        0 => 0,
        1..=9 => one,
        10..=14 => random.byte() & random.byte() | one,
        _ => random.byte() | one,
    };
    Field::WaitingSet.put_byte(state, set);
}

fn lock_written(state: &mut [u8]) {
    let written = Field::WrittenSet.sets(state, 0);
    let locks = Field::Locks.sets(state, 0).with(&written);
    Field::Locks.put_sets(state, 0, &locks);
}

/// What is used or locked is cached.
fn cache_held(state: &mut [u8]) {
    let used = [Field::ReadSet, Field::WrittenSet];
    let used = used.map(|field| field.sets(state, 0).pages());
    let cached = Field::Cached.word(state, 0) | locked(state);
    cache_only(used[0] | used[1] | cached, state);
}

#[cfg(test)]
mod tests {
    use super::*;
    use second::line::station::state::{decode, valid};

    #[test]
    fn random_states_decode() {
        let mut random = Random::new(1);
        for _ in 0..2_000 {
            let state = decoded(&mut random);
            assert_eq!(decode(&state).is_some(), valid(&state));
            let state = by_the_rules(&mut random);
            let keeps = decode(&state).is_some_and(|station| station.keeps_rules());
            assert_eq!(keeps, valid(&state));
        }
    }
}
