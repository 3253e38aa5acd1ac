//! A whole line: server, eight stations, sixteen lines between them, the archive, and what owners were told.

use super::call::Call;
use super::lent::Operation;
use super::message::Field;
use super::owner::{Asked, Owner};
use super::places::Place;
use super::server::{Server, Step, Victim};
use super::sets::STATIONS;
use super::station::{Done, Station};
use super::{Answer, Kind, Number};
use std::collections::VecDeque;

type Line = VecDeque<Vec<u8>>;

/// The server's end of a line: this implementation's, or another that does the same.
pub trait ServerEnd {
    /// A fresh one, but for the last commit number and the stations' latest transactions.
    fn fresh(kinds: [Kind; STATIONS], last: u32, latest: [u32; STATIONS]) -> Self;
    fn step(&mut self, message: &[u8]) -> Result<Step, Number>;
}

/// A station's end of it.
pub trait StationEnd {
    fn fresh(number: u8, kind: Kind, latest: u32) -> Self;
    fn call(&mut self, operation: &Operation) -> Result<Done, Number>;
}

impl ServerEnd for Server {
    fn fresh(kinds: [Kind; STATIONS], last: u32, latest: [u32; STATIONS]) -> Server {
        Server::fresh(kinds, last, latest)
    }

    fn step(&mut self, message: &[u8]) -> Result<Step, Number> {
        Server::step(self, message)
    }
}

impl StationEnd for Station {
    fn fresh(number: u8, kind: Kind, latest: u32) -> Station {
        Station::fresh(number, kind, latest)
    }

    fn call(&mut self, operation: &Operation) -> Result<Done, Number> {
        operation.on(self)
    }
}

#[derive(Clone, Debug, PartialEq, Eq)]
pub struct World<S = Server, T = Station> {
    pub server: S,
    pub stations: [T; STATIONS],
    pub owners: [Owner; STATIONS],
    /// Records in the order archived.
    pub archive: Vec<Vec<u8>>,
    pub kinds: [Kind; STATIONS],
    /// The last commit number at the start: 0, or as `numbers` said.
    pub started_after: u32,
    up: [Line; STATIONS],
    down: [Line; STATIONS],
    untouched: bool,
}

/// What a call comes to.
#[derive(Clone, Debug, PartialEq, Eq)]
pub enum Reply {
    /// `fresh` and `numbers`
    Ready,
    /// The call does not fit here.
    Misplaced,
    /// No message in that line.
    Empty,
    Refused(Number),
    Accepted(Outcome),
}

#[derive(Clone, Debug, PartialEq, Eq)]
pub struct Outcome {
    pub answer: Answer,
    pub sent: Vec<Vec<u8>>,
    pub records: Vec<Vec<u8>>,
    pub victims: Vec<Victim>,
}

impl From<Done> for Outcome {
    fn from(done: Done) -> Outcome {
        Outcome {
            answer: done.answer,
            sent: done.sent,
            records: Vec::new(),
            victims: Vec::new(),
        }
    }
}

impl World {
    /// Of this implementation's ends.
    pub fn fresh(kinds: [Kind; STATIONS]) -> World {
        World::with_ends(kinds)
    }
}

impl<S: ServerEnd, T: StationEnd> World<S, T> {
    /// "A fresh line has every value, version and last number 0, nothing open, cached, listed, locked or under way, and
    /// an empty archive."
    pub fn with_ends(kinds: [Kind; STATIONS]) -> World<S, T> {
        World::starting(kinds, 0, [0; STATIONS])
    }

    fn starting(kinds: [Kind; STATIONS], last: u32, latest: [u32; STATIONS]) -> World<S, T> {
        World {
            server: S::fresh(kinds, last, latest),
            stations: std::array::from_fn(|i| T::fresh(i as u8, kinds[i], latest[i])),
            owners: Default::default(),
            archive: Vec::new(),
            kinds,
            started_after: last,
            up: Default::default(),
            down: Default::default(),
            untouched: true,
        }
    }

    pub fn call(&mut self, call: &Call) -> Reply {
        let untouched = std::mem::replace(&mut self.untouched, false);
        match call {
            Call::Fresh(kinds) => {
                *self = World::with_ends(*kinds);
                Reply::Ready
            }
            Call::Numbers(last, latest) if untouched => {
                *self = World::starting(self.kinds, *last, *latest);
                self.untouched = false;
                Reply::Ready
            }
            Call::Numbers(..) => Reply::Misplaced,
            Call::Server(station) => self.server_takes(*station),
            Call::ServerRaw(bytes) => self.server_step(bytes),
            _ => self.station_call(call),
        }
    }

    /// "an accepted step takes the first message of its line, a refused call moves none"
    fn server_takes(&mut self, station: u8) -> Reply {
        let Some(bytes) = self.up[station as usize].pop_front() else {
            return Reply::Empty;
        };
        let reply = self.server_step(&bytes);
        if let Reply::Refused(_) = reply {
            self.up[station as usize].push_front(bytes);
        }
        reply
    }

    fn server_step(&mut self, bytes: &[u8]) -> Reply {
        match self.server.step(bytes) {
            Err(number) => Reply::Refused(number),
            Ok(step) => {
                // "records the end of the archive"
                self.archive.extend(step.records.iter().cloned());
                for message in &step.sent {
                    self.down[Field::Station.byte(message) as usize].push_back(message.clone());
                }
                Reply::Accepted(Outcome {
                    answer: Answer::Nothing,
                    sent: step.sent,
                    records: step.records,
                    victims: step.victims,
                })
            }
        }
    }

    /// An owner's operation, or a step on the first message of the line or on a raw one.
    fn station_call(&mut self, call: &Call) -> Reply {
        let (Some(station), Some(operation)) = (call.station(), Operation::of(call, self)) else {
            return Reply::Empty;
        };
        let number = station as usize;
        match self.stations[number].call(&operation) {
            Err(number) => Reply::Refused(number),
            Ok(done) => {
                if let Call::Station(_) = call {
                    self.down[number].pop_front();
                }
                self.owners[number].told_by(Asked::of(call), done.answer);
                // "Messages sent join the back of their station's up or down line".
                self.up[number].extend(done.sent.iter().cloned());
                Reply::Accepted(Outcome::from(done))
            }
        }
    }
}

impl<S, T> World<S, T> {
    /// The message that a step is given: the first of its line, or a raw one.
    pub fn message_of<'a>(&'a self, call: &'a Call) -> Option<&'a [u8]> {
        match call {
            Call::Server(station) => self.first_up(*station),
            Call::Station(station) => self.first_down(*station),
            Call::ServerRaw(bytes) | Call::StationRaw(_, bytes) => Some(bytes),
            _ => None,
        }
    }

    pub fn up_length(&self, station: u8) -> usize {
        self.up[station as usize].len()
    }

    pub fn down_length(&self, station: u8) -> usize {
        self.down[station as usize].len()
    }

    /// The first message of a line up.
    pub fn first_up(&self, station: u8) -> Option<&[u8]> {
        self.up[station as usize].front().map(Vec::as_slice)
    }

    /// The first message of a line down.
    pub fn first_down(&self, station: u8) -> Option<&[u8]> {
        self.down[station as usize].front().map(Vec::as_slice)
    }

    /// Nothing is under way.
    pub fn lines_are_empty(&self) -> bool {
        self.up.iter().chain(&self.down).all(VecDeque::is_empty)
    }
}
