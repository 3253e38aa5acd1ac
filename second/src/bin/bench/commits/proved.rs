//! The proved library's server and stations, and a host that carries their messages and keeps their archive.

use super::Counts;
use second::archive::Playback;
use second::ffi::{self, server, stations};
use second::line::lent::{self, Lent};
use second::line::message::{Field, LENGTH as MESSAGE};
use second::line::places::Place;
use second::line::server::state::LENGTH as SERVER;
use second::line::sets::{ObjectSet, OBJECTS, STATIONS};
use second::line::station::state::LENGTH as STATION;
use second::line::{served, Answer, Kind};
use second::numbers::OK;
use std::ops::Range;

pub struct Line {
    server: Vec<u8>,
    stations: [Vec<u8>; STATIONS],
    /// Lent to the server's step, and to a station's calls.
    served: served::Results,
    given: lent::Results,
    up: Queue,
    archive: Vec<u8>,
    told: Answer,
    messages: u64,
}

/// What was sent to the server, in order; its room is kept.
#[derive(Default)]
struct Queue {
    bytes: Vec<u8>,
    ends: Vec<usize>,
    taken: usize,
}

impl Queue {
    fn push(&mut self, message: &[u8]) {
        self.bytes.extend_from_slice(message);
        self.ends.push(self.bytes.len());
    }

    /// Where the next one stands; the room is free again behind the last.
    fn next(&mut self) -> Option<Range<usize>> {
        let Some(&end) = self.ends.get(self.taken) else {
            self.bytes.clear();
            self.ends.clear();
            self.taken = 0;
            return None;
        };
        let start = self
            .taken
            .checked_sub(1)
            .map_or(0, |before| self.ends[before]);
        self.taken += 1;
        Some(start..end)
    }
}

impl Line {
    /// A fresh line of eight stations of one kind.
    pub fn new(kind: Kind) -> Line {
        let mut line = Line {
            server: vec![0; SERVER],
            stations: std::array::from_fn(|_| vec![0; STATION]),
            served: Default::default(),
            given: Default::default(),
            up: Queue::default(),
            archive: Vec::new(),
            told: Answer::Nothing,
            messages: 0,
        };
        let kinds = [kind as u8; STATIONS];
        assert_eq!(server::fresh(&kinds, &mut line.server), OK);
        for (i, state) in line.stations.iter_mut().enumerate() {
            assert_eq!(stations::fresh(i as u32, kind as u32, state), OK);
        }
        line
    }

    /// An owner's call and all that follows from it; what the owner is told in the end.
    fn call(&mut self, station: u8, call: impl FnOnce(&mut Lent) -> u32) -> Answer {
        let state = &mut self.stations[station as usize];
        assert_eq!(call(&mut self.given.lent(state)), OK);
        self.sent();
        while let Some(message) = self.up.next() {
            self.serve(message);
        }
        self.told
    }

    /// The server takes a message, then the stations what it sends.
    fn serve(&mut self, message: Range<usize>) {
        let lent = &mut self.served.lent(&mut self.server);
        assert_eq!(server::step(&self.up.bytes[message], lent), OK);
        let [messages, records] = self.served.served.map(|number| number as usize);
        self.archive
            .extend_from_slice(&self.served.records[..records]);
        self.messages += messages as u64;
        for k in 0..messages {
            let message = &self.served.messages[k * MESSAGE..(k + 1) * MESSAGE];
            let state = &mut self.stations[Field::Station.byte(message) as usize];
            assert_eq!(stations::step(message, &mut self.given.lent(state)), OK);
            self.sent();
        }
    }

    /// What a station's call told and sent.
    fn sent(&mut self) {
        let answer = stations::answer(&self.given.told).expect("an answer");
        if answer != Answer::Nothing {
            self.told = answer;
        }
        let [_, _, messages, commit] = self.given.told.map(|number| number as usize);
        for message in self.given.messages.chunks(MESSAGE).take(messages) {
            self.up.push(message);
        }
        if commit > 0 {
            self.up.push(&self.given.commit[..commit]);
        }
        self.messages += messages as u64 + u64::from(commit > 0);
    }

    pub fn server(&self) -> &[u8] {
        &self.server
    }

    pub fn stations(&self) -> &[Vec<u8>; STATIONS] {
        &self.stations
    }

    pub fn archive(&self) -> &[u8] {
        &self.archive
    }

    /// Sent so far, both ways.
    pub fn messages(&self) -> u64 {
        self.messages
    }

    /// The values and the last commit number that the archive comes to.
    pub fn played(&self) -> Playback {
        let mut playback = Playback::FRESH;
        assert_eq!(ffi::archive_replay(&self.archive, &mut playback), OK);
        playback
    }
}

impl Counts for Line {
    fn begin(&mut self, station: u8) {
        let told = self.call(station, stations::begin);
        assert!(matches!(told, Answer::Begun(_)));
    }

    fn read(&mut self, station: u8, address: u8) -> u64 {
        match self.call(station, |lent| stations::read(address.into(), lent)) {
            Answer::Value(value) => value,
            other => panic!("{other:?} for a read"),
        }
    }

    fn write(&mut self, station: u8, address: u8, value: u64) {
        let told = self.call(station, |lent| stations::write(address.into(), value, lent));
        assert_eq!(told, Answer::Written);
    }

    fn write_set(&mut self, station: u8, page: u8, set: ObjectSet, values: &[u64; OBJECTS]) {
        let told = self.call(station, |lent| {
            stations::write_set(page.into(), set.into(), values, lent)
        });
        assert_eq!(told, Answer::Written);
    }

    fn commit(&mut self, station: u8) {
        let told = self.call(station, stations::commit);
        assert!(matches!(told, Answer::Committed(_)));
    }
}
