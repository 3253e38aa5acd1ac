//! One line four times over: this implementation's, the library's, and each end with the other's other end. Every call is
//! made on all four, and what wish 4 claims is looked for in the bytes of the library's own line.

use crate::tally::Tallies;
use second::buffers::{Agreed, Difference};
use second::ffi::ends;
use second::line::call::Call;
use second::line::checks::Failure;
use second::line::draining::Driven;
use second::line::places::Place;
use second::line::server::{state as server_state, Server};
use second::line::sets::STATIONS;
use second::line::station::{state as station_state, Station};
use second::line::waits;
use second::line::world::{Outcome, Reply, World};
use second::line::Kind;

pub struct Line {
    pub world: World,
    /// What the bytes of a compiled server and of compiled stations must be.
    pub server: Vec<u8>,
    stations: [Vec<u8>; STATIONS],
    proved: World<ends::Server, ends::Station>,
    proved_server: World<ends::Server, Station>,
    proved_stations: World<Server, ends::Station>,
    /// No raw message was accepted: both ends kept the rules.
    honest: bool,
}

/// A line, and what is told of its calls.
pub struct Told<'a> {
    pub line: &'a mut Line,
    pub tallies: &'a mut Tallies,
    pub made: &'a mut Vec<Call>,
}

impl Driven for Told<'_> {
    type Failure = Difference;

    fn world(&self) -> &World {
        &self.line.world
    }

    fn make(&mut self, call: Call) -> Agreed<Reply> {
        self.made.push(call);
        self.line
            .make(&self.made[self.made.len() - 1], self.tallies)
    }
}

impl Line {
    pub fn fresh(kinds: [Kind; STATIONS]) -> Agreed<Line> {
        let world = World::fresh(kinds);
        let line = Line {
            server: server_state::encode(&world.server),
            stations: world.stations.each_ref().map(station_state::encode),
            world,
            proved: World::with_ends(kinds),
            proved_server: World::with_ends(kinds),
            proved_stations: World::with_ends(kinds),
            honest: true,
        };
        line.server_agrees()?;
        (0..STATIONS).try_for_each(|station| line.station_agrees(station))?;
        Ok(line)
    }

    pub fn honest(&self) -> bool {
        self.honest
    }

    /// The records of the library's own line, one behind the other.
    pub fn archive(&self) -> Vec<u8> {
        self.proved.archive.concat()
    }

    /// What owners of the library's stations were told is what this implementation told them.
    pub fn owners_agree(&self) -> bool {
        self.proved.owners == self.world.owners
    }

    /// One call, on all four.
    pub fn make(&mut self, call: &Call, tallies: &mut Tallies) -> Agreed<Reply> {
        let message = self.world.message_of(call).map(<[u8]>::to_vec);
        let latest = self.world.server.latest();
        let reply = self.world.call(call);
        let counts = &mut tallies.counts;
        counts.note(call, message.as_deref(), &reply, &self.world, latest);
        self.lay(call, message.as_deref(), &reply);
        let given = [
            ("server and stations", self.proved.call(call)),
            ("server", self.proved_server.call(call)),
            ("stations", self.proved_stations.call(call)),
        ];
        for (proved, given) in &given {
            if !same(&reply, given) {
                let text = format!("{call}\nsecond: {reply}\nproved {proved}: {given}");
                return Err(Difference(text));
            }
        }
        self.states_agree(call)
            .map_err(|Difference(text)| Difference(format!("{call}\n{text}")))?;
        let raw = matches!(call, Call::ServerRaw(_) | Call::StationRaw(..));
        self.honest &= !(raw && matches!(reply, Reply::Accepted(_)));
        self.nobody_on_a_ring(call, &reply, tallies)
            .map_err(|failure| Difference(format!("{call}\n{}", Difference::from(failure).0)))?;
        if let Reply::Accepted(_) | Reply::Refused(_) = reply {
            tallies.on_lines += 2;
        }
        Ok(reply)
    }

    /// Wish 4, from the library's bytes.
    fn nobody_on_a_ring(
        &self,
        call: &Call,
        reply: &Reply,
        tallies: &mut Tallies,
    ) -> Result<(), Failure> {
        let state = self.proved.server.state();
        match (reply, call) {
            (Reply::Refused(number), Call::Server(_) | Call::Station(_)) if self.honest => {
                return Err(Failure {
                    check: "no message between rule-keeping ends is refused",
                    detail: format!("{number:?}"),
                })
            }
            (Reply::Accepted(outcome), Call::Server(_) | Call::ServerRaw(_)) => {
                waits::victims(state, outcome)?;
                waits::no_ring(state)?;
            }
            (Reply::Refused(_), Call::Server(_) | Call::ServerRaw(_)) => waits::no_ring(state)?,
            _ => (),
        }
        if !self.honest || !self.world.lines_are_empty() {
            return Ok(());
        }
        tallies.counts.quiet += 1;
        let waits = |station: &ends::Station| station_state::Field::Wait.byte(station.state()) != 0;
        waits::leads_out(state, waits::owners(&self.proved.stations, waits))
    }

    /// What an accepted call leaves in the bytes of its end.
    fn lay(&mut self, call: &Call, message: Option<&[u8]>, reply: &Reply) {
        match (reply, call.station(), message) {
            (Reply::Ready, ..) => {
                self.server = server_state::encode(&self.world.server);
                self.stations = self.world.stations.each_ref().map(station_state::encode);
            }
            (Reply::Accepted(_), Some(number), _) => {
                let number = usize::from(number);
                station_state::lay(&self.world.stations[number], &mut self.stations[number]);
            }
            (Reply::Accepted(_), None, Some(message)) => {
                server_state::lay_step(message, &self.world.server, &mut self.server);
            }
            _ => (),
        }
    }

    fn states_agree(&self, call: &Call) -> Agreed<()> {
        match call.station() {
            Some(station) => self.station_agrees(station.into()),
            None => self.server_agrees(),
        }
    }

    fn server_agrees(&self) -> Agreed<()> {
        if self.proved_stations.server != self.world.server {
            let text = "this implementation's server differs beside compiled stations";
            return Err(Difference(String::from(text)));
        }
        let states = [&self.proved.server, &self.proved_server.server].map(ends::Server::state);
        bytes_agree::<server_state::Field>(&self.server, states)
    }

    fn station_agrees(&self, number: usize) -> Agreed<()> {
        if self.proved_server.stations[number] != self.world.stations[number] {
            let text = "this implementation's station differs beside a compiled server";
            return Err(Difference(String::from(text)));
        }
        let stations = [&self.proved.stations, &self.proved_stations.stations];
        let states = stations.map(|stations| stations[number].state());
        bytes_agree::<station_state::Field>(&self.stations[number], states)
    }
}

fn bytes_agree<F: second::line::places::Place>(expected: &[u8], given: [&[u8]; 2]) -> Agreed<()> {
    for given in given {
        if given != expected {
            let at = expected.iter().zip(given).position(|(a, b)| a != b);
            let at = at.unwrap_or(expected.len());
            let text = format!(
                "state, byte {at} ({:?}): {:?} expected, {:?} given",
                F::of(at),
                expected.get(at),
                given.get(at)
            );
            return Err(Difference(text));
        }
    }
    Ok(())
}

/// Whom the server chose is not told beside the 22s.
fn same(expected: &Reply, given: &Reply) -> bool {
    let without_victims = |outcome: &Outcome| {
        let Outcome {
            answer,
            sent,
            records,
            ..
        } = outcome.clone();
        (answer, sent, records)
    };
    match (expected, given) {
        (Reply::Accepted(expected), Reply::Accepted(given)) => {
            without_victims(expected) == without_victims(given)
        }
        _ => expected == given,
    }
}
