//! The host of a line: the compiled server and stations, the sixteen lines between them, and the archive.

use crate::window::Window;
use second::ffi::{server, stations};
use second::line::call::Call;
use second::line::lent::{self, Lent};
use second::line::message::LENGTH as MESSAGE;
use second::line::places::Place;
use second::line::sets::STATIONS;
use second::line::station::state::LENGTH as STATION;
use second::line::{served, server::state as server_state, Answer, Kind};
use second::numbers::OK;
use std::collections::VecDeque;
use std::fmt::{self, Display, Formatter};
use std::io::{self, Write};

type Messages = VecDeque<Vec<u8>>;

pub struct Line<W> {
    server: Vec<u8>,
    stations: [Vec<u8>; STATIONS],
    /// Of the stations that are driven by registers.
    windows: [Option<Window>; STATIONS],
    up: [Messages; STATIONS],
    down: [Messages; STATIONS],
    /// Of all lines up, and of all lines down: the most messages that were under way on one.
    pub longest: [usize; 2],
    /// What is lent beside a state; nothing in it is kept from call to call.
    of_server: served::Results,
    of_station: lent::Results,
    archive: W,
}

/// What an accepted call left.
pub struct Done {
    pub answer: Answer,
    pub sent: Vec<Vec<u8>>,
    /// Records that went to the archive.
    pub records: Vec<u8>,
}

#[derive(Debug)]
pub enum Fault {
    /// By document 01's number.
    Refused(u32),
    /// No message in that line.
    Empty,
    Archive(io::Error),
    /// A window's registers do not show what was told.
    Registers,
}

impl Display for Fault {
    fn fmt(&self, f: &mut Formatter<'_>) -> fmt::Result {
        match self {
            Fault::Refused(number) => write!(f, "refused {number}"),
            Fault::Empty => f.write_str("there is no message"),
            Fault::Archive(error) => write!(f, "the archive cannot be written: {error}"),
            Fault::Registers => f.write_str("the registers show something else"),
        }
    }
}

impl<W: Write> Line<W> {
    /// A fresh line, whose records go to this archive.
    pub fn fresh(kinds: [Kind; STATIONS], archive: W) -> Line<W> {
        let mut state = vec![0; server_state::LENGTH];
        let number = server::fresh(&kinds.map(|kind| kind as u8), &mut state);
        assert_eq!(number, OK, "a fresh server");
        Line {
            server: state,
            stations: std::array::from_fn(|station| fresh_station(station, kinds[station])),
            windows: Default::default(),
            up: Default::default(),
            down: Default::default(),
            longest: [0; 2],
            of_server: served::Results::default(),
            of_station: lent::Results::default(),
            archive,
        }
    }

    /// From now on this station, a validating one, is driven by registers.
    pub fn put_behind_window(&mut self, station: usize) {
        self.windows[station] = Some(Window::default());
    }

    pub fn window(&self, station: usize) -> Option<&Window> {
        self.windows[station].as_ref()
    }

    /// Makes a call, and carries what it leaves.
    pub fn call(&mut self, call: &Call) -> Result<Done, Fault> {
        match *call {
            Call::Server(station) => self.serve(station.into()),
            Call::Station(station) => self.deliver(station.into()),
            Call::Begin(station)
            | Call::Read(station, _)
            | Call::Write(station, ..)
            | Call::Commit(station)
            | Call::Abort(station)
                if self.windows[usize::from(station)].is_some() =>
            {
                self.ask_by_registers(station.into(), call)
            }
            Call::Begin(station) => self.ask(station, stations::begin),
            Call::Read(station, address) => {
                self.ask(station, |lent| stations::read(address.into(), lent))
            }
            Call::Write(station, address, value) => {
                self.ask(station, |lent| stations::write(address.into(), value, lent))
            }
            Call::WriteSet(station, page, set, values) => self.ask(station, |lent| {
                stations::write_set(page, set.into(), &values, lent)
            }),
            Call::Commit(station) => self.ask(station, stations::commit),
            Call::Abort(station) => self.ask(station, stations::abort),
            Call::Purge(station, page) => self.ask(station, |lent| stations::purge(page, lent)),
            _ => unreachable!("no owner and no line makes `{call}`"),
        }
    }

    /// The server takes the first message of a station's line. A "committed" says that its record is in the archive, so
    /// the records are written before any message is carried.
    fn serve(&mut self, station: usize) -> Result<Done, Fault> {
        let message = self.up[station].front().ok_or(Fault::Empty)?;
        accepted(server::step(
            message,
            &mut self.of_server.lent(&mut self.server),
        ))?;
        self.up[station].pop_front();
        let (messages, records) = left_by_step(&self.of_server);
        if !records.is_empty() {
            self.archive.write_all(records).map_err(Fault::Archive)?;
        }
        let done = Done {
            answer: Answer::Nothing,
            sent: messages.chunks(MESSAGE).map(<[u8]>::to_vec).collect(),
            records: records.to_vec(),
        };
        for message in &done.sent {
            let line = &mut self.down[usize::from(message[1])];
            line.push_back(message.clone());
            self.longest[1] = self.longest[1].max(line.len());
        }
        Ok(done)
    }

    /// A station takes the first message of its line.
    fn deliver(&mut self, station: usize) -> Result<Done, Fault> {
        let message = self.down[station].front().ok_or(Fault::Empty)?;
        let state = &mut self.stations[station];
        match &mut self.windows[station] {
            Some(window) => window.step(message, &mut self.of_station, state)?,
            None => accepted(stations::step(message, &mut self.of_station.lent(state)))?,
        }
        self.down[station].pop_front();
        Ok(self.carry_up(station))
    }

    /// An owner's call at a station behind a window.
    fn ask_by_registers(&mut self, station: usize, call: &Call) -> Result<Done, Fault> {
        let state = &mut self.stations[station];
        let window = self.windows[station].as_mut().expect("a window");
        window.call(call, &mut self.of_station, state)?;
        Ok(self.carry_up(station))
    }

    /// An owner's call at its station.
    fn ask(&mut self, station: u8, call: impl FnOnce(&mut Lent) -> u32) -> Result<Done, Fault> {
        let station = usize::from(station);
        let mut lent = self.of_station.lent(&mut self.stations[station]);
        accepted(call(&mut lent))?;
        Ok(self.carry_up(station))
    }

    fn carry_up(&mut self, station: usize) -> Done {
        let done = left_by_call(&self.of_station);
        let line = &mut self.up[station];
        line.extend(done.sent.iter().cloned());
        self.longest[0] = self.longest[0].max(line.len());
        done
    }

    /// The server's value of a counter (docs/STATE.md).
    pub fn value(&self, address: u8) -> u64 {
        server_state::Field::Value.long(&self.server, address.into())
    }

    pub fn archive(&self) -> &W {
        &self.archive
    }

    /// Is there a message from this station, and one for it?
    pub fn under_way(&self, station: usize) -> (bool, bool) {
        (!self.up[station].is_empty(), !self.down[station].is_empty())
    }
}

fn fresh_station(station: usize, kind: Kind) -> Vec<u8> {
    let mut state = vec![0; STATION];
    let number = stations::fresh(station as u32, kind as u32, &mut state);
    assert_eq!(number, OK, "a fresh station");
    state
}

fn accepted(number: u32) -> Result<(), Fault> {
    match number {
        OK => Ok(()),
        _ => Err(Fault::Refused(number)),
    }
}

/// The messages and the records that a server's step left.
fn left_by_step(results: &served::Results) -> (&[u8], &[u8]) {
    let [messages, records] = results.served.map(|number| number as usize);
    (
        &results.messages[..messages * MESSAGE],
        &results.records[..records],
    )
}

/// What a station's call left: what it tells, and messages or a commit.
fn left_by_call(results: &lent::Results) -> Done {
    let [_, _, messages, commit] = results.told.map(|number| number as usize);
    let messages = results.messages[..messages * MESSAGE].chunks(MESSAGE);
    let commit = Some(&results.commit[..commit]).filter(|bytes| !bytes.is_empty());
    Done {
        answer: stations::answer(&results.told).expect("an answer of the C interface"),
        sent: messages.chain(commit).map(<[u8]>::to_vec).collect(),
        records: Vec::new(),
    }
}
