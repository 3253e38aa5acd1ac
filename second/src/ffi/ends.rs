//! The compiled server and the compiled stations as ends of a line. Each call is lent noise between guards, and must
//! leave it alone: a refused one everything, an accepted one all but its results.

use super::{server, stations};
use crate::buffers::{Lends, Pair};
use crate::line::lent::Operation;
use crate::line::message::LENGTH as MESSAGE;
use crate::line::places::Place;
use crate::line::server::{state as server_state, Step};
use crate::line::sets::STATIONS;
use crate::line::station::{state as station_state, Done};
use crate::line::world::{ServerEnd, StationEnd};
use crate::line::{Kind, Number};
use crate::numbers::OK;
use crate::random::Random;
use crate::record;

/// A state and what is lent beside it.
struct End<F> {
    state: Vec<u8>,
    lent: Pair<F>,
}

impl<F: Lends> End<F> {
    /// The bytes that `fresh` makes of any, which it must accept.
    fn fresh(seed: u64, fresh: impl FnOnce(&mut [u8]) -> u32) -> End<F> {
        let mut state = Random::new(seed).bytes(F::LENGTH);
        assert_eq!(fresh(&mut state), OK, "a fresh state");
        let lent = Pair::new(seed, F::LENGTH);
        End { state, lent }
    }

    /// Makes a call; Ok if it was accepted.
    fn call(&mut self, call: impl FnOnce(&mut F::Lent<'_>) -> u32) -> Result<(), Number> {
        let room = self.lent.room();
        self.lent.lend(&self.state, room);
        let number = call(&mut self.lent.given.lent());
        if number == OK {
            self.lent.take();
        }
        let lent = &self.lent;
        assert!(lent.same(), "number {number}: {}", lent.differences());
        self.state.copy_from_slice(self.lent.given.state());
        match number {
            OK => Ok(()),
            _ => Err(Number::of(number).unwrap_or_else(|| panic!("number {number}"))),
        }
    }

    /// The messages and the other bytes sent.
    fn sent(&self) -> (Vec<Vec<u8>>, &[u8]) {
        let (messages, bytes) = self.lent.given.sent().expect("what a call may send");
        let messages = messages.chunks(MESSAGE).map(<[u8]>::to_vec).collect();
        (messages, bytes)
    }
}

/// The compiled server.
pub struct Server(End<server_state::Field>);

impl Server {
    pub fn state(&self) -> &[u8] {
        &self.0.state
    }
}

impl ServerEnd for Server {
    fn fresh(kinds: [Kind; STATIONS], last: u32, latest: [u32; STATIONS]) -> Server {
        let kinds = kinds.map(|kind| kind as u8);
        let mut end = End::fresh(last.into(), |state| server::fresh(&kinds, state));
        server_state::Field::Last.put_word(&mut end.state, 0, last);
        for (station, latest) in latest.into_iter().enumerate() {
            server_state::Field::Latest.put_word(&mut end.state, station, latest);
        }
        Server(end)
    }

    /// Whom it chose as victims is not told beside their 22s.
    fn step(&mut self, message: &[u8]) -> Result<Step, Number> {
        self.0.call(|lent| server::step(message, lent))?;
        let (sent, records) = self.0.sent();
        Ok(Step {
            sent,
            records: records_of(records),
            victims: Vec::new(),
        })
    }
}

/// Records one behind the other; what is none is left as it is.
fn records_of(mut bytes: &[u8]) -> Vec<Vec<u8>> {
    let mut records = Vec::new();
    while !bytes.is_empty() {
        let length = record::claimed_length(bytes).unwrap_or(bytes.len());
        let (record, rest) = bytes.split_at(length.min(bytes.len()));
        records.push(record.to_vec());
        bytes = rest;
    }
    records
}

/// A compiled station.
pub struct Station(End<station_state::Field>);

impl Station {
    pub fn state(&self) -> &[u8] {
        &self.0.state
    }
}

impl StationEnd for Station {
    fn fresh(number: u8, kind: Kind, latest: u32) -> Station {
        let mut end = End::fresh(number.into(), |state| {
            stations::fresh(number.into(), kind as u32, state)
        });
        station_state::Field::Number.put_word(&mut end.state, 0, latest);
        Station(end)
    }

    fn call(&mut self, operation: &Operation) -> Result<Done, Number> {
        self.0.call(|lent| stations::call(operation, lent))?;
        let (mut sent, commit) = self.0.sent();
        if !commit.is_empty() {
            sent.push(commit.to_vec());
        }
        let told = self.0.lent.given.numbers();
        let answer = stations::answer(told).unwrap_or_else(|| panic!("told {told:?}"));
        Ok(Done { answer, sent })
    }
}
