//! Wish 4: edges from the bytes of the server's state, rings, victims, and what a line drains to.

use second::line::call::Call;
use second::line::checks::{Watch, Watched};
use second::line::counts::Counts;
use second::line::draining::{can_act, most_deliveries};
use second::line::places::Place;
use second::line::server::state::{encode, Field, LENGTH};
use second::line::server::{Victim, WaitsFor};
use second::line::sets::STATIONS;
use second::line::station::Station;
use second::line::waits;
use second::line::world::{Outcome, Reply, World};
use second::line::Kind;

/// Locking stations, but for station 1.
struct Line(World);

impl Line {
    fn fresh() -> Line {
        let mut kinds = [Kind::Locking; STATIONS];
        kinds[1] = Kind::Validating;
        Line(World::fresh(kinds))
    }

    /// Commands of the text protocol; what the last one came to.
    fn run(&mut self, commands: &str) -> Outcome {
        let mut last = None;
        for command in commands.split(", ") {
            match self.0.call(&Call::parse(command).expect(command)) {
                Reply::Accepted(outcome) => last = Some(outcome),
                other => panic!("{command}: {other:?}"),
            }
        }
        last.expect("a command")
    }

    /// Everything is delivered, lower stations first.
    fn settle(&mut self) {
        while !self.0.lines_are_empty() {
            for station in 0..STATIONS as u8 {
                for call in [Call::Server(station), Call::Station(station)] {
                    assert!(!matches!(self.0.call(&call), Reply::Refused(_)), "{call}");
                }
            }
        }
    }

    fn edges(&self) -> WaitsFor {
        waits::edges(&encode(&self.0.server))
    }

    fn leads_out(&self) -> bool {
        let owners = waits::owners(&self.0.stations, Station::waits);
        waits::leads_out(&encode(&self.0.server), owners).is_ok()
    }
}

/// The edges of one station alone.
fn edges(of: &[(usize, u8)]) -> WaitsFor {
    let mut edges = [0; STATIONS];
    for (station, set) in of {
        edges[*station] = *set;
    }
    edges
}

/// C5: "2 has read 8: 6; 0 waits until 2 ends."
#[test]
fn behind_one_that_sent_6() {
    let mut line = Line::fresh();
    line.run("begin 0, read 0 8, begin 2, read 2 8");
    line.settle();
    line.run("write 0 8 5, server 0, station 2");
    // the 6 is still under way
    assert_eq!(line.edges(), edges(&[]));
    line.run("server 2");
    assert_eq!(line.edges(), edges(&[(0, 1 << 2)]));
    assert!(line.leads_out());
    assert!(can_act(&line.0, 2) && !can_act(&line.0, 0));
    line.run("abort 2");
    line.settle();
    assert_eq!(line.edges(), edges(&[]));
    assert!(can_act(&line.0, 0));
}

/// C6: "0, then 2, read 8, and both write it: 2 gets cause 1."
#[test]
fn the_younger_of_two() {
    let mut line = Line::fresh();
    line.run("begin 0, begin 2, read 0 8, read 2 8");
    line.settle();
    line.run("write 0 8 5, write 2 8 6, server 0, server 2, station 2");
    assert_eq!(line.edges(), edges(&[(2, 1 << 0)]));
    let outcome = line.run("server 2");
    let ring = edges(&[(0, 1 << 2), (2, 1 << 0)]);
    let victim = Victim {
        station: 2,
        waits_for: ring,
    };
    assert_eq!(outcome.victims, [victim]);
    assert_eq!(waits::on_a_ring(&ring), 0b101);
    let state = encode(&line.0.server);
    assert_eq!(waits::victims(&state, &outcome), Ok(()));
    assert_eq!(waits::no_ring(&state), Ok(()));
    line.settle();
    assert!(line.leads_out());
}

/// "none to the holder of a whole lock while 8 is awaited"; then to the holder of the object.
#[test]
fn behind_a_whole_lock() {
    let mut line = Line::fresh();
    line.run("begin 0, write 0 8 5");
    line.settle();
    line.run("begin 2, read 2 8, server 2");
    assert_eq!(line.edges(), edges(&[]));
    line.settle();
    assert_eq!(line.edges(), edges(&[(2, 1 << 0)]));
    assert!(line.leads_out());
}

/// A reader of what an earlier one writes, and a commit behind both.
#[test]
fn behind_earlier_waiters() {
    let mut line = Line::fresh();
    line.run("begin 0, write 0 8 5");
    line.settle();
    line.run("begin 2, write 2 8 6");
    line.settle();
    line.run("begin 3, read 3 8");
    line.settle();
    assert_eq!(line.edges(), edges(&[(2, 1 << 0), (3, 1 << 0 | 1 << 2)]));
    assert_eq!(waits::led_to(&line.edges(), 3), 0b101);
    assert!(line.leads_out());
    // it reads the page as it was, and its commit finds the object locked
    line.run("begin 1, read 1 8");
    line.settle();
    line.run("commit 1");
    line.settle();
    assert_eq!(line.edges()[1], 1 << 0 | 1 << 2);
    assert!(line.leads_out());
}

/// On a ring of three: the oldest is none, and neither is one outside.
#[test]
fn not_the_oldest() {
    let ring = edges(&[(0, 1 << 1), (1, 1 << 2), (2, 1 << 0), (3, 1 << 0)]);
    let ages = [7, 9, 8, 20, 0, 0, 0, 0];
    let fits = |station| {
        let waits_for = ring;
        waits::fits(&Victim { station, waits_for }, |i| ages[usize::from(i)])
    };
    assert_eq!([0, 1, 2, 3].map(fits), [false, true, true, false]);
    assert_eq!(waits::on_a_ring(&ring), 0b111);
    // on two rings, of one of which it is the oldest
    let two = edges(&[(0, 1 << 1), (1, 1 << 0 | 1 << 2), (2, 1 << 1)]);
    let victim = Victim {
        station: 1,
        waits_for: two,
    };
    assert!(!waits::fits(&victim, |i| [1, 2, 3, 0, 0, 0, 0, 0][usize::from(i)]));
}

/// States that no run reaches: each waits for an object that the other has locked; an owner waits without an entry; nobody
/// who waits leads out.
#[test]
fn what_is_denied() {
    let mut state = vec![0; LENGTH];
    for station in [0, 1] {
        Field::Want.put_byte_of(&mut state, station, 1);
        Field::ReadSet.put_byte_of(&mut state, 32 * station, 1 << station);
        Field::Lock.put_byte_of(&mut state, 1 - station, station as u8 + 1);
    }
    assert_eq!(waits::edges(&state), edges(&[(0, 1 << 1), (1, 1 << 0)]));
    let check = |result: Result<(), second::line::checks::Failure>| result.unwrap_err().check;
    assert_eq!(
        check(waits::no_ring(&state)),
        "no ring of waiting stations is left"
    );
    assert_eq!(
        check(waits::leads_out(&state, 0b11)),
        "whoever waits leads out"
    );
    let listed = "whoever waits is in the waiting list";
    assert_eq!(check(waits::leads_out(&state, 0b1)), listed);
    assert_eq!(check(waits::leads_out(&state, 0b111)), listed);
}

/// 376 where nothing is under way, 28 more for each message up, 3 for each down.
#[test]
fn the_bound() {
    let mut line = Line::fresh();
    assert_eq!(most_deliveries(&line.0), 376);
    line.run("begin 0, begin 2, read 0 8, read 2 8");
    assert_eq!(most_deliveries(&line.0), 376 + 2 * 28);
    line.run("server 0");
    assert_eq!(most_deliveries(&line.0), 376 + 28 + 3);
}

/// A copy goes its own way.
#[test]
fn a_copy() {
    let mut counts = Counts::default();
    let mut watched = Watched::new([Kind::Locking; STATIONS], Watch::Compare, &mut counts);
    watched.make(&Call::Begin(0)).unwrap();
    watched.copy().make(&Call::Abort(0)).unwrap();
    assert!(watched.world.stations[0].is_open());
}
