//! The same line of the second implementation. It works on structs, so beside each call it checks the bytes of a state of that
//! line, as the proved library does with those that it is lent.

use super::{proved, Counts};
use second::line::message::Field;
use second::line::places::Place;
use second::line::server::{self, Server};
use second::line::sets::{ObjectSet, OBJECTS, STATIONS};
use second::line::station::{self, Done, Station};
use second::line::{Answer, Kind, Number};
use std::collections::VecDeque;
use std::hint::black_box;

pub struct Line {
    server: Server,
    stations: [Station; STATIONS],
    /// States that are checked.
    server_bytes: Vec<u8>,
    station_bytes: [Vec<u8>; STATIONS],
    up: VecDeque<Vec<u8>>,
    archive: Vec<u8>,
    told: Answer,
}

impl Line {
    pub fn new(kind: Kind) -> Line {
        let server = Server::fresh([kind; STATIONS], 0, [0; STATIONS]);
        let stations = std::array::from_fn(|i| Station::fresh(i as u8, kind, 0));
        Line {
            server_bytes: server::state::encode(&server),
            station_bytes: stations.each_ref().map(station::state::encode),
            server,
            stations,
            up: VecDeque::new(),
            archive: Vec::new(),
            told: Answer::Nothing,
        }
    }

    /// From now on these states are the ones that are checked.
    pub fn look(&mut self) {
        server::state::lay(&self.server, &mut self.server_bytes);
        for (station, bytes) in self.stations.iter().zip(&mut self.station_bytes) {
            station::state::lay(station, bytes);
        }
    }

    /// An owner's call and all that follows from it; what the owner is told in the end.
    fn call(
        &mut self,
        station: u8,
        call: impl FnOnce(&mut Station) -> Result<Done, Number>,
    ) -> Answer {
        self.at(station, call);
        while let Some(message) = self.up.pop_front() {
            self.serve(&message);
        }
        self.told
    }

    fn at(&mut self, station: u8, call: impl FnOnce(&mut Station) -> Result<Done, Number>) {
        assert!(station::state::valid(black_box(
            &self.station_bytes[station as usize]
        )));
        let done = call(&mut self.stations[station as usize]).expect("an accepted call");
        if done.answer != Answer::Nothing {
            self.told = done.answer;
        }
        self.up.extend(done.sent);
    }

    /// The server takes a message, then the stations what it sends.
    fn serve(&mut self, message: &[u8]) {
        assert!(server::state::valid(black_box(&self.server_bytes)));
        let step = self.server.step(message).expect("an accepted step");
        for record in &step.records {
            self.archive.extend_from_slice(record);
        }
        for message in &step.sent {
            self.at(Field::Station.byte(message), |station| {
                station.step(message)
            });
        }
    }

    /// Both lines did the same.
    pub fn assert_same(&self, proved: &proved::Line) {
        assert!(self.archive == proved.archive(), "archives differ");
        let server = server::state::decode(proved.server());
        assert!(server.as_ref() == Some(&self.server), "servers differ");
        for (bytes, station) in proved.stations().iter().zip(&self.stations) {
            let decoded = station::state::decode(bytes);
            assert!(decoded.as_ref() == Some(station), "stations differ");
        }
    }
}

impl Counts for Line {
    fn begin(&mut self, station: u8) {
        let told = self.call(station, Station::begin);
        assert!(matches!(told, Answer::Begun(_)));
    }

    fn read(&mut self, station: u8, address: u8) -> u64 {
        match self.call(station, |end| end.read(address)) {
            Answer::Value(value) => value,
            other => panic!("{other:?} for a read"),
        }
    }

    fn write(&mut self, station: u8, address: u8, value: u64) {
        let told = self.call(station, |end| end.write(address, value));
        assert_eq!(told, Answer::Written);
    }

    fn write_set(&mut self, station: u8, page: u8, set: ObjectSet, values: &[u64; OBJECTS]) {
        let told = self.call(station, |end| {
            end.write_set(page.into(), set.into(), values)
        });
        assert_eq!(told, Answer::Written);
    }

    fn commit(&mut self, station: u8) {
        let told = self.call(station, Station::commit);
        assert!(matches!(told, Answer::Committed(_)));
    }
}
