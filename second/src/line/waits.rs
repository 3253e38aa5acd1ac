//! Document 02's wish 4, "nobody waits for ever on a ring": the waits-for edges as document 01 says them, read from the
//! bytes of the server's state, and what is claimed of them. Nothing of the server's own reckoning is used.

use super::checks::Failure;
use super::message::Field as Message;
use super::places::Place;
use super::server::state::Field;
use super::server::{Victim, WaitsFor};
use super::sets::{rising, station_bit, Addresses, StationSet, STATIONS};
use super::world::Outcome;
use super::Cause;

/// "A waits-for edge runs from a waiter to a lock's holder that blocks it, an earlier waiter that blocks it, and a station
/// that sent 6 to it and not yet 7; none to the holder of a whole lock while 8 is awaited."
pub fn edges(state: &[u8]) -> WaitsFor {
    let entries: Vec<Entry> = rising(entries(state))
        .map(|i| Entry::of(state, i))
        .collect();
    let mut edges = [0; STATIONS];
    for entry in &entries {
        let earlier = entries.iter().filter(|other| entry.is_behind(other));
        let earlier = earlier.fold(0, |set, other| set | station_bit(other.station));
        let sent_6 = Field::Busy.byte_of(state, entry.station.into());
        edges[usize::from(entry.station)] = entry.holders(state) | earlier | sent_6;
    }
    edges
}

/// Stations with an entry in the waiting list.
pub fn entries(state: &[u8]) -> StationSet {
    let waits = |station: &u8| Field::Want.byte_of(state, (*station).into()) != 0;
    (0..STATIONS as u8)
        .filter(waits)
        .fold(0, |set, station| set | station_bit(station))
}

/// Stations whose owners wait.
pub fn owners<T>(stations: &[T; STATIONS], waits: impl Fn(&T) -> bool) -> StationSet {
    (0..STATIONS as u8)
        .filter(|station| waits(&stations[usize::from(*station)]))
        .fold(0, |set, station| set | station_bit(station))
}

/// A waiting request: "what its request wants to read", "what its request wants to write".
struct Entry {
    station: u8,
    arrival: u64,
    reads: Addresses,
    writes: Addresses,
}

impl Entry {
    fn of(state: &[u8], station: u8) -> Entry {
        let at = usize::from(station);
        Entry {
            station,
            arrival: Field::Arrival.long(state, at),
            reads: Field::ReadSet.sets(state, at),
            writes: Field::WrittenSet.sets(state, at),
        }
    }

    /// "another holds a lock on an object wanted"
    fn holders(&self, state: &[u8]) -> StationSet {
        let wanted = self.wants();
        // "0 for none, i + 1 for station i"
        let holder = |address: u8| Field::Lock.byte_of(state, address.into()).checked_sub(1);
        (0..=u8::MAX)
            .filter(|address| wanted.has(*address))
            .filter_map(holder)
            .filter(|holder| *holder != self.station)
            .fold(0, |set, holder| set | station_bit(holder))
    }

    /// "an earlier waiter wants it and one of the two writes"
    fn is_behind(&self, other: &Entry) -> bool {
        other.arrival < self.arrival
            && (self.writes.meets(&other.wants()) || other.writes.meets(&self.wants()))
    }

    /// "a commit wants all that it read or wrote"
    fn wants(&self) -> Addresses {
        self.reads.with(&self.writes)
    }
}

/// The stations that one leads to along edges, in one step or more.
pub fn led_to(edges: &WaitsFor, from: u8) -> StationSet {
    let mut led = 0;
    let mut next = edges[usize::from(from)];
    while next & !led != 0 {
        led |= next;
        next = rising(led).fold(0, |set, station| set | edges[usize::from(station)]);
    }
    led
}

/// The stations on a cycle: those that lead to themselves.
pub fn on_a_ring(edges: &WaitsFor) -> StationSet {
    (0..STATIONS as u8)
        .filter(|station| led_to(edges, *station) & station_bit(*station) != 0)
        .fold(0, |set, station| set | station_bit(station))
}

/// The edges between these stations alone.
fn among(edges: &WaitsFor, stations: StationSet) -> WaitsFor {
    std::array::from_fn(|i| match stations >> i & 1 {
        1 => edges[i] & stations,
        _ => 0,
    })
}

fn failed<T>(check: &'static str, detail: String) -> Result<T, Failure> {
    Err(Failure { check, detail })
}

/// Behind every step of the server, refused or not: "the waits-for edges have no cycle".
pub fn no_ring(state: &[u8]) -> Result<(), Failure> {
    let edges = edges(state);
    match on_a_ring(&edges) {
        0 => Ok(()),
        _ => failed(
            "no ring of waiting stations is left",
            format!("{edges:02x?}"),
        ),
    }
}

/// "when no message is under way, every waiting station leads along edges to a station that isn't waiting"; whose owner
/// waits has its entry at the server, and the other way round.
pub fn leads_out(state: &[u8], owners: StationSet) -> Result<(), Failure> {
    let entries = entries(state);
    if owners != entries {
        let detail = format!("{owners:08b} wait, {entries:08b} are in the list");
        return failed("whoever waits is in the waiting list", detail);
    }
    let edges = edges(state);
    match rising(owners).find(|station| led_to(&edges, *station) & !owners == 0) {
        None => Ok(()),
        Some(station) => failed(
            "whoever waits leads out",
            format!("station {station}: {edges:02x?}"),
        ),
    }
}

/// "only a member of a cycle is ever aborted for cause 1, and never the oldest station on the cycle", of an accepted step
/// that left this state: each such 22 has its victim, and no cycle that the victim is on, at that moment, is of younger ones
/// alone. Ages do not change behind the message's own effect.
pub fn victims(state: &[u8], outcome: &Outcome) -> Result<(), Failure> {
    let for_a_ring = |message: &&Vec<u8>| {
        Message::Kind.byte(message) == 22
            && Message::ObjectOrCause.byte(message) == Cause::Cycle as u8
    };
    let told = outcome.sent.iter().filter(for_a_ring);
    let told: Vec<u8> = told.map(|message| Message::Station.byte(message)).collect();
    let chosen: Vec<u8> = outcome
        .victims
        .iter()
        .map(|victim| victim.station)
        .collect();
    if told != chosen {
        return failed(
            "cause 1 is for victims alone",
            format!("{told:?}, {chosen:?}"),
        );
    }
    let age = |station: u8| Field::Age.long(state, station.into());
    match outcome.victims.iter().find(|victim| !fits(victim, age)) {
        None => Ok(()),
        Some(victim) => failed(
            "a victim is on a ring and not its oldest",
            format!("{victim:?}"),
        ),
    }
}

/// Of a victim: it is on a cycle, and on none once those older than it are taken out. "Young means the server saw its
/// transaction's first message later": the higher age.
pub fn fits(victim: &Victim, age: impl Fn(u8) -> u64) -> bool {
    let Victim { station, waits_for } = victim;
    let older = (0..STATIONS as u8)
        .filter(|other| age(*other) < age(*station))
        .fold(0, |set, other| set | station_bit(other));
    let ring = |edges: &WaitsFor| led_to(edges, *station) & station_bit(*station) != 0;
    ring(waits_for) && !ring(&among(waits_for, !older))
}
