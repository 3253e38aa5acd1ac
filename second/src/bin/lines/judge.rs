//! Gives a damaged case to the compiled server and compares number and every byte lent with what this implementation says.

use crate::tally::Tallies;
use second::buffers::{show_state, Agreed, Difference, Lends, Pair, Room};
use second::ffi::server as proved;
use second::line::lent::BUFFER;
use second::line::message::{self, Down, LENGTH as MESSAGE};
use second::line::places::Place;
use second::line::server::state::{self, kind_of, Field, COUNTERS_END};
use second::line::sets::STATIONS;
use second::line::Kind;
use second::numbers::OK;
use second::random::Random;
use second::record::Record;
use second::show::hex;

/// Damaged states may be twice as long as one.
const LONGEST: usize = 2 * state::LENGTH;

pub struct Judge {
    pub tallies: Tallies,
    show: bool,
    lent: Pair<Field>,
}

impl Judge {
    pub fn new(show: bool) -> Judge {
        Judge {
            tallies: Tallies::default(),
            show,
            lent: Pair::new(0, LONGEST),
        }
    }

    /// A line begins; buffers are filled anew from this seed on.
    pub fn begin(&mut self, seed: u64) {
        self.tallies.counts.runs += 1;
        self.lent.seed(seed);
    }

    /// A step on these bytes, compared in full; and what it leaves and sends is looked at, whatever the two agree on.
    pub fn step(&mut self, message: &[u8], state: &[u8], room: Room) -> Agreed<()> {
        if self.show {
            println!("step {} on {}, {room:?}", hex(message), sort(state));
        }
        self.lent.lend(state, room);
        let number = proved::step(message, &mut self.lent.given.lent());
        let expected = self.expect(message);
        let sent = self.lent.given.sent();
        self.tallies.stepped(message, number, sent);
        let closed = number != OK || self.is_closed(state);
        if number != expected || !self.lent.same() || !closed {
            return Err(self.differ(message, state, room, [expected, number]));
        }
        Ok(())
    }

    /// The number; lays what is to be left into the buffers expected.
    fn expect(&mut self, message: &[u8]) -> u32 {
        let mut lent = self.lent.expected.lent();
        if !lent.fits() {
            return BUFFER;
        }
        let mut server = state::decode(lent.state).expect("a valid state");
        lent.step(message, &mut server)
    }

    /// "Whatever message comes, the state left is taken again, unless the next age or the next arrival has come to 2^63; and
    /// what is sent is taken by its station up to number 4, and fits its kind": not too much for any one; and records are the next.
    fn is_closed(&self, before: &[u8]) -> bool {
        let after = self.lent.given.state();
        let last = |state: &[u8]| Field::Last.word(state, 0);
        (state::valid(after) || counters_spent(after))
            && self.lent.given.sent().is_some_and(|(messages, records)| {
                messages
                    .chunks(MESSAGE)
                    .all(|message| taken_below(message, before))
                    && few_to_each(messages, before)
                    && next_records(last(before), records) == Some(last(after))
            })
    }

    fn differ(&self, message: &[u8], state: &[u8], room: Room, numbers: [u32; 2]) -> Difference {
        let [expected, given] = numbers;
        let mut text = format!(
            "step {}\nlent: {room:?}\nsecond: number {expected}\nproved: number {given}\n",
            hex(message)
        );
        text += &self.lent.differences();
        let shown = show_state::<Field>(state);
        text += &format!("state before ({}):\n{shown}", sort(state));
        Difference(text)
    }
}

/// The next age or arrival is out of range from now on.
fn counters_spent(state: &[u8]) -> bool {
    let counters = [Field::NextAge, Field::NextArrival];
    counters
        .iter()
        .any(|counter| counter.long(state, 0) == COUNTERS_END)
}

/// The station that a message names takes it, but for number 6 of its wait: 17 to 20 a locking one, 23 a validating one.
fn taken_below(message: &[u8], state: &[u8]) -> bool {
    let named = message::Field::Station.byte(message);
    let locking = locks(state, named.into());
    let kind_fits = match message::Field::Kind.byte(message) {
        17..=20 => locking,
        23 => !locking,
        _ => true,
    };
    kind_fits && Down::decode(message, named).is_ok_and(|(station, _)| station == named)
}

fn locks(state: &[u8], station: usize) -> bool {
    kind_of(state, station).is_some_and(Kind::locks)
}

/// How many of these messages go to each station.
pub fn to_each(messages: &[u8]) -> [usize; STATIONS] {
    let mut counts = [0; STATIONS];
    for message in messages.chunks(MESSAGE) {
        counts[usize::from(message::Field::Station.byte(message))] += 1;
    }
    counts
}

/// A step sends a locking station 40 messages at most: an answer, a 20 for each other station's request, a 19 for each page; and a
/// validating one 8: an answer, a 23 for each other station's commit.
fn few_to_each(messages: &[u8], state: &[u8]) -> bool {
    let most = |station| match locks(state, station) {
        true => 40,
        false => 8,
    };
    let counts = to_each(messages);
    (0..STATIONS).all(|station| counts[station] <= most(station))
}

/// The last number, if these are well-formed records one behind the other with the numbers behind this one.
fn next_records(mut last: u32, mut bytes: &[u8]) -> Option<u32> {
    while !bytes.is_empty() {
        let record = Record::decode(bytes).ok()?;
        last = last.checked_add(1).filter(|next| *next == record.commit)?;
        bytes = &bytes[record.encode().len()..];
    }
    Some(last)
}

/// What this implementation makes of a state.
pub const SORTS: [&str; 2] = ["valid", "not valid"];

pub fn sort(state: &[u8]) -> &'static str {
    SORTS[usize::from(!state::valid(state))]
}

/// Mostly enough; else one of them is too short, or all.
pub fn room<F: Lends>(random: &mut Random) -> (&'static str, Room) {
    match random.one_in(12) {
        true => ("short", Room::short::<F>(random)),
        false => ("enough", Room::enough::<F>(random)),
    }
}
