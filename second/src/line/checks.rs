//! A line under watch: every call is checked as it is made, and the whole line when it is drained.

use super::call::Call;
use super::counts::Counts;
use super::message::{Down, Field, Up};
use super::places::Place;
use super::server::{state, Server, Step, Victim, WaitsFor};
use super::sets::{page_bit, rising, StationSet, STATIONS};
use super::station::Station;
use super::truth::{self, Ended};
use super::waits;
use super::world::{Outcome, Reply, World};
use super::{Kind, Number};

/// "128 messages ... (server), 8 messages ... (station)"; the readings count 104. Document 02: "the server's record buffer
/// 7,040" (wish 1), a commit "at most 1,408, the station's buffer too" (wish 6).
const MOST_BY_SERVER: usize = 104;
const MOST_RECORDS: usize = 8;
const MOST_BY_STATION: usize = 8;
const MOST_COMMIT_BYTES: usize = 1_408;
const MOST_RECORD_BYTES: usize = 7_040;

/// A check that failed.
#[derive(Clone, Debug, PartialEq, Eq)]
pub struct Failure {
    pub check: &'static str,
    pub detail: String,
}

fn failed<T>(check: &'static str, detail: impl Into<String>) -> Result<T, Failure> {
    Err(Failure {
        check,
        detail: detail.into(),
    })
}

/// How closely a run is watched.
#[derive(Clone, Copy, Debug, PartialEq, Eq)]
pub enum Watch {
    Plain,
    /// The end called is compared before and after each refusal.
    Compare,
}

pub struct Watched<'a> {
    pub world: World,
    pub counts: &'a mut Counts,
    watch: Watch,
    /// No raw message was accepted: both ends kept the rules.
    honest: bool,
    first_messages: FirstMessages,
    /// The server's state as bytes.
    state: Vec<u8>,
}

/// The end that a call is made at, as it was before.
#[allow(clippy::large_enum_variant)]
enum Before {
    NotKept,
    Server(Server),
    Station(Station),
}

/// "the server saw its transaction's first message later": by station, its latest transaction and that order, which
/// it keeps once it is beaten, until an end that is reported.
#[derive(Clone, Default)]
struct FirstMessages {
    by_station: [(u32, u64); STATIONS],
    beaten: [bool; STATIONS],
    seen: u64,
}

impl FirstMessages {
    /// A message that the server took in this state.
    fn note(&mut self, message: &[u8], state: &[u8]) {
        let station = Field::Station.byte(message) as usize;
        let transaction = Field::Transaction.word(message, 0);
        let (latest, order) = &mut self.by_station[station];
        let meets = match Field::Kind.byte(message) {
            1..=4 => *latest != transaction,
            8 => *latest < transaction && gives_up_kept(message, state),
            _ => false,
        };
        if meets {
            if !self.beaten[station] {
                self.seen += 1;
                *order = self.seen;
            }
            *latest = transaction;
        }
    }

    /// The ends that a step reports: its own message's, if that is a 4, and those of the 21s and 22s that it sends.
    fn note_ends(&mut self, message: &[u8], sent: &[Vec<u8>]) {
        if Field::Kind.byte(message) == 4 {
            self.beaten[Field::Station.byte(message) as usize] = false;
        }
        for told in sent {
            if let 21 | 22 = Field::Kind.byte(told) {
                // 21 names no cause
                let beaten = Field::ObjectOrCause.byte(told) == 1;
                self.beaten[Field::Station.byte(told) as usize] = beaten;
            }
        }
    }

    fn youngest(&self, stations: StationSet) -> Option<u8> {
        rising(stations).max_by_key(|station| self.by_station[*station as usize].1)
    }
}

impl<'a> Watched<'a> {
    pub fn new(kinds: [Kind; STATIONS], watch: Watch, counts: &'a mut Counts) -> Watched<'a> {
        counts.runs += 1;
        Watched {
            world: World::fresh(kinds),
            counts,
            watch,
            honest: true,
            first_messages: FirstMessages::default(),
            state: vec![0; state::LENGTH],
        }
    }

    /// The same line again, to be driven elsewhere.
    pub fn copy(&mut self) -> Watched<'_> {
        Watched {
            world: self.world.clone(),
            counts: self.counts,
            watch: self.watch,
            honest: self.honest,
            first_messages: self.first_messages.clone(),
            state: self.state.clone(),
        }
    }

    pub fn honest(&self) -> bool {
        self.honest
    }

    /// One call, with all its checks.
    pub fn make(&mut self, call: &Call) -> Result<Reply, Failure> {
        let before = self.before(call);
        let taken = self.world.message_of(call).map(<[u8]>::to_vec);
        let latest = self.world.server.latest();
        let reply = self.world.call(call);
        self.counts
            .note(call, taken.as_deref(), &reply, &self.world, latest);
        match &reply {
            Reply::Refused(number) => self.refused(call, *number, before)?,
            Reply::Accepted(outcome) => {
                self.sent_fits(call, outcome)?;
                if let Call::Server(_) | Call::ServerRaw(_) = call {
                    let taken = taken.unwrap_or_default();
                    self.first_messages.note(&taken, &self.state);
                    self.server_stepped(outcome)?;
                    self.first_messages.note_ends(&taken, &outcome.sent);
                }
                self.honest &= !matches!(call, Call::ServerRaw(_) | Call::StationRaw(..));
            }
            Reply::Ready | Reply::Misplaced | Reply::Empty => (),
        }
        self.nobody_on_a_ring(call, &reply)?;
        Ok(reply)
    }

    /// Wish 4, on every call.
    fn nobody_on_a_ring(&mut self, call: &Call, reply: &Reply) -> Result<(), Failure> {
        if let Call::Server(_) | Call::ServerRaw(_) = call {
            state::lay(&self.world.server, &mut self.state);
            waits::no_ring(&self.state)?;
            if waits::edges(&self.state) != self.world.server.waits_for() {
                return failed("edges are those of document 01", call.to_string());
            }
            if let Reply::Accepted(outcome) = reply {
                waits::victims(&self.state, outcome)?;
            }
        }
        match self.honest && self.world.lines_are_empty() {
            true => {
                self.counts.quiet += 1;
                let owners = waits::owners(&self.world.stations, Station::waits);
                waits::leads_out(&self.state, owners)
            }
            false => Ok(()),
        }
    }

    fn before(&self, call: &Call) -> Before {
        if self.watch == Watch::Plain {
            return Before::NotKept;
        }
        match call {
            Call::Server(_) | Call::ServerRaw(_) => Before::Server(self.world.server.clone()),
            _ => call.station().map_or(Before::NotKept, |station| {
                Before::Station(self.world.stations[station as usize].clone())
            }),
        }
    }

    /// "Refused calls answer the number, send nothing and change no state".
    fn refused(&self, call: &Call, number: Number, before: Before) -> Result<(), Failure> {
        let same = match before {
            Before::NotKept => true,
            Before::Server(server) => server == self.world.server,
            Before::Station(station) => call
                .station()
                .is_some_and(|number| station == self.world.stations[number as usize]),
        };
        if !same {
            return failed("a refusal changes nothing", call.to_string());
        }
        if !may_refuse(call).contains(&(number as u8)) {
            return failed(
                "a refusal's number is in range",
                format!("{call}: {number:?}"),
            );
        }
        let from_line = matches!(call, Call::Server(_) | Call::Station(_));
        if self.honest && from_line {
            return failed(
                "no message between rule-keeping ends is refused",
                format!("{call}: {number:?}, {:02x?}", self.world.message_of(call)),
            );
        }
        Ok(())
    }

    /// How much is sent, and that each message passes the other end's numbers 2 to 5.
    fn sent_fits(&self, call: &Call, outcome: &Outcome) -> Result<(), Failure> {
        let by_server = matches!(call, Call::Server(_) | Call::ServerRaw(_));
        let most = if by_server {
            MOST_BY_SERVER
        } else {
            MOST_BY_STATION
        };
        if outcome.sent.len() > most || outcome.records.len() > MOST_RECORDS {
            let detail = format!("{} and {}", outcome.sent.len(), outcome.records.len());
            return failed("a step sends no more than its buffers hold", detail);
        }
        let records: usize = outcome.records.iter().map(Vec::len).sum();
        let longest = outcome.sent.iter().map(Vec::len).max().unwrap_or(0);
        if records > MOST_RECORD_BYTES || longest > MOST_COMMIT_BYTES {
            let detail = format!("{records} and {longest} bytes");
            return failed("a step fills no more than its buffers hold", detail);
        }
        for message in &outcome.sent {
            let named = Field::Station.byte(message);
            let decoded = if by_server {
                Down::decode(message, named).map(|(station, _)| station)
            } else {
                Up::decode(message, &self.world.kinds).map(|(station, _)| station)
            };
            if decoded != Ok(named) {
                let detail = format!("{decoded:?}: {message:02x?}");
                return failed("every message sent decodes at the other end", detail);
            }
        }
        Ok(())
    }

    fn server_stepped(&self, outcome: &Outcome) -> Result<(), Failure> {
        for victim in &outcome.victims {
            self.victim_fits(victim)?;
        }
        let waits_for = self.world.server.waits_for();
        if on_cycles(&waits_for) != 0 {
            let detail = format!("{waits_for:02x?}");
            return failed("no waits-for cycle is left", detail);
        }
        match self.watch {
            Watch::Plain => Ok(()),
            Watch::Compare => self.pass_rests(),
        }
    }

    /// "repeated until nothing changes": a message that says nothing then does nothing.
    fn pass_rests(&self) -> Result<(), Failure> {
        let Some(station) = self.world.kinds.iter().position(|kind| kind.locks()) else {
            return Ok(());
        };
        // reading 3: a 6 that names its own sender answers no open 20
        let idle = Up::Busy {
            requester: station as u8,
            transaction: 1,
        };
        let mut again = self.world.server.clone();
        match again.step(&idle.encode(station as u8)) {
            Ok(step) if step == Step::default() && again == self.world.server => Ok(()),
            other => failed("the pass rests", format!("{other:?}")),
        }
    }

    /// "the youngest in any cycle gets 22"; so it is never the oldest.
    fn victim_fits(&self, victim: &Victim) -> Result<(), Failure> {
        let on_cycles = on_cycles(&victim.waits_for);
        let youngest = self.first_messages.youngest(on_cycles) == Some(victim.station);
        if youngest && on_cycles.count_ones() > 1 {
            return Ok(());
        }
        let detail = format!("{victim:?} of {on_cycles:08b}");
        failed("a victim is the youngest on a cycle, and not alone", detail)
    }

    /// With every line empty both ends agree, and nobody waits for what can be served.
    pub fn at_rest(&self) -> Result<(), Failure> {
        let server = &self.world.server;
        let waits_for = server.waits_for();
        for (number, station) in self.world.stations.iter().enumerate() {
            let waiting = server.waiters() >> number & 1 == 1;
            if station.waits() != waiting || !self.ends_agree(number as u8, station) {
                let detail = format!("station {number}'s wait, locks or pages");
                return failed("both ends agree at rest", detail);
            }
            if waiting && waits_for[number] == 0 {
                let detail = format!("station {number} waits behind nobody");
                return failed("everything drains", detail);
            }
        }
        Ok(())
    }

    /// Locks are the same; a locking station is listed for just what it has, a validating one at least for that.
    fn ends_agree(&self, number: u8, station: &Station) -> bool {
        let server = &self.world.server;
        let listed = server.listed(number);
        let cached = station.cached();
        let pages_agree = match station.kind().locks() {
            true => cached == listed,
            false => cached & !listed == 0,
        };
        station.locks() == server.locks(number) && pages_agree
    }

    /// Everybody's transaction is over and every line is empty.
    pub fn at_end(&mut self) -> Result<(), Failure> {
        self.nothing_left()?;
        let world = &self.world;
        let ended = Ended {
            kinds: world.kinds,
            started_after: world.started_after,
            owners: &world.owners,
            archive: &world.archive,
            values: world.server.values(),
            versions: world.server.versions(),
        };
        if let Err(detail) = truth::check(&ended) {
            return failed("demand 3", detail);
        }
        self.copies_are_current()?;
        self.counts.claimed += 1;
        Ok(())
    }

    fn nothing_left(&self) -> Result<(), Failure> {
        let world = &self.world;
        let waits = |station: &Station| station.waits() || station.is_open() || station.has_kept();
        if let Some(number) = world.stations.iter().position(waits) {
            let detail = format!("station {number} still waits or keeps a callback");
            return failed("everything drains", detail);
        }
        Ok(())
    }

    /// What a station would read locally is what the server has.
    fn copies_are_current(&self) -> Result<(), Failure> {
        let server = &self.world.server;
        for (number, station) in self.world.stations.iter().enumerate() {
            let validating = !station.kind().locks();
            for (address, version, value) in station.copies() {
                let current = server.versions()[address as usize];
                let stale = validating && version != current;
                if value != server.values()[address as usize] || stale {
                    let detail = format!("station {number}, address {address}: {value}");
                    return failed("an available copy is the server's value", detail);
                }
            }
        }
        Ok(())
    }
}

/// An 8 that answers the open 19 of a keeping station.
fn gives_up_kept(message: &[u8], state: &[u8]) -> bool {
    use state::Field as State;
    let station = Field::Station.byte(message);
    let page = Field::PageOrRequester.byte(message);
    state::kind_of(state, station.into()).is_some_and(Kind::keeps)
        && State::Whole.byte_of(state, page.into()) == station + 1
        && State::Asked.word(state, 0) & page_bit(page) != 0
}

/// The numbers that document 01's list gives each call.
fn may_refuse(call: &Call) -> &'static [u8] {
    match call {
        Call::Begin(_) => &[7, 9, 11],
        Call::Read(..) | Call::Write(..) => &[7, 8, 15],
        Call::WriteSet(..) => &[4, 7, 8, 15],
        Call::Commit(_) | Call::Abort(_) => &[7, 8],
        Call::Purge(..) => &[4, 7, 10],
        Call::Server(_) | Call::ServerRaw(_) => &[2, 3, 4, 5, 6],
        Call::Station(_) | Call::StationRaw(..) => &[2, 3, 4, 6],
        Call::Fresh(_) | Call::Numbers(..) => &[],
    }
}

/// Stations on a cycle, from the transitive closure.
fn on_cycles(edges: &WaitsFor) -> StationSet {
    let mut reach = *edges;
    for middle in 0..STATIONS {
        for from in 0..STATIONS {
            if reach[from] >> middle & 1 == 1 {
                reach[from] |= reach[middle];
            }
        }
    }
    (0..STATIONS).fold(0, |set, station| set | (reach[station] & 1 << station))
}
