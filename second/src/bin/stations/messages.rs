//! Messages for damaged cases that fit what a state waits for.

use second::generate;
use second::line::message::{Down, Grant, PageMessage};
use second::line::places::Place;
use second::line::sets::{address, page_of, rising, Addresses};
use second::line::station::state::{kind_of, Field};
use second::line::{Cause, Kind};
use second::random::Random;
use std::array;

/// A message that fits these bytes of a state as far as one can, whatever they say.
pub fn fitting(random: &mut Random, state: &[u8]) -> Vec<u8> {
    let station = Field::Station.byte(state);
    let transaction = Field::Number.word(state, 0).max(1);
    let wait = Field::Wait.byte(state);
    let message = match random.below(8) {
        0..=3 if wait == 1 || wait == 2 => Down::Page(page(random, state, transaction)),
        0..=2 if wait == 3 => Down::Committed {
            transaction,
            commit: generate::number(random),
        },
        0..=4 if wait > 0 => Down::Aborted {
            transaction,
            cause: random.pick(&[Cause::Cycle, Cause::Version, Cause::Locked, Cause::Spent]),
        },
        0 | 5 => Down::DeEscalate {
            page: some_page(random, state),
            transaction: match random.one_in(3) {
                true => generate::number(random).max(1),
                false => transaction,
            },
        },
        1 | 2 | 6 => Down::Callback {
            requester: (station % 8 + 1 + random.below(7) as u8) % 8,
            transaction: generate::number(random),
            objects: objects(random, state),
        },
        3 => Down::Page(page(random, state, transaction)),
        _ => Down::Invalidate {
            objects: objects(random, state),
        },
    };
    message.encode(station)
}

fn page(random: &mut Random, state: &[u8], transaction: u32) -> PageMessage {
    let kind = kind_of(state);
    let locks = Field::Wait.byte(state) == 2 && kind.is_some_and(Kind::locks);
    // now and then the other grant
    let locks = locks != random.one_in(8);
    PageMessage {
        grant: match locks {
            true => random.pick(&[Grant::Object, Grant::Whole]),
            false => Grant::Page,
        },
        address: named(random, state, locks),
        transaction,
        versions: array::from_fn(|_| random.number() as u32 & random.pick(&[0, 3, u32::MAX])),
        unavailable: random.byte() & random.byte(),
        values: array::from_fn(|_| generate::value(random)),
    }
}

/// What a page that comes names: 17 and 18 no object, a 16 the one read or one of those that are to be written.
fn named(random: &mut Random, state: &[u8], locks: bool) -> u8 {
    let requested = Field::Address.byte(state);
    let objects: Vec<u8> = rising(Field::WaitingSet.byte(state)).collect();
    match random.below(16) {
        0 => requested,
        _ if locks => address(page_of(requested), 0),
        _ if Field::Wait.byte(state) == 2 && !objects.is_empty() => {
            address(page_of(requested), random.pick(&objects))
        }
        _ => requested,
    }
}

/// One that is locked whole, if there is such, or of some object.
fn some_page(random: &mut Random, state: &[u8]) -> u8 {
    let whole: Vec<u8> = rising(Field::Whole.word(state, 0)).collect();
    match whole.is_empty() || random.one_in(2) {
        true => page_of(some_object(random, state)),
        false => random.pick(&whole),
    }
}

/// One that was read, written, locked or requested, or any.
fn some_object(random: &mut Random, state: &[u8]) -> u8 {
    let field = random.pick(&[Field::ReadSet, Field::WrittenSet, Field::Locks]);
    let set = field.sets(state, 0);
    let start = random.byte();
    let mut from_there = (0..=u8::MAX).map(|i| start.wrapping_add(i));
    let member = from_there.find(|address| set.has(*address));
    match random.below(6) {
        0 => start,
        1 => Field::Address.byte(state),
        _ => member.unwrap_or(start),
    }
}

fn objects(random: &mut Random, state: &[u8]) -> Addresses {
    match random.below(8) {
        0 => Addresses(array::from_fn(|_| random.byte())),
        1 => Addresses(array::from_fn(|_| {
            random.byte() & random.byte() & random.byte()
        })),
        2 => Addresses::default(),
        many => (0..many).map(|_| some_object(random, state)).collect(),
    }
}
