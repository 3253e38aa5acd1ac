//! Whole commits of counters: a line's stations read, add one and commit, all messages both ways; SQLite does the same.

mod proved;
mod second_line;
pub mod sqlite;

use crate::measure::{time, Times};
use second::line::sets::{address, object_bit, ObjectSet, OBJECTS, STATIONS};
use second::line::Kind;
use sqlite::{Database, Library};

/// Commits of a timed turn, by the eight stations one after the other.
pub const COMMITS: usize = 400;

/// The page of a hot counter; a private one's has its station's number.
const HOT: u8 = 31;
const ONE: &[u8] = &[0];
const THREE: &[u8] = &[0, 2, 5];

/// What counts. A call returns when nothing that follows from it is under way.
pub trait Counts {
    fn begin(&mut self, station: u8);
    fn read(&mut self, station: u8, address: u8) -> u64;
    fn write(&mut self, station: u8, address: u8, value: u64);
    /// Values by object.
    fn write_set(&mut self, station: u8, page: u8, set: ObjectSet, values: &[u64; OBJECTS]);
    fn commit(&mut self, station: u8);
}

/// Whose counters, and how they are written.
pub struct Work {
    pub kind: Kind,
    pub counters: &'static str,
    hot: bool,
    /// Of the page.
    objects: &'static [u8],
    as_set: bool,
}

/// What a row of the table has.
pub struct Timed {
    pub times: Times,
    /// Of one commit, both ways.
    pub messages: f64,
}

/// Each kind, with one counter and with three; validating stations ask for no locks, so for no set.
pub fn works() -> Vec<Work> {
    let of = |kind: Kind| {
        [
            ("one, private", false, ONE, false),
            ("one, hot", true, ONE, false),
            ("three, private", false, THREE, false),
            ("three, hot", true, THREE, false),
            ("three as a set, private", false, THREE, true),
            ("three as a set, hot", true, THREE, true),
        ]
        .into_iter()
        .filter(move |(_, _, _, as_set)| kind.locks() || !as_set)
        .map(move |(counters, hot, objects, as_set)| Work {
            kind,
            counters,
            hot,
            objects,
            as_set,
        })
    };
    Kind::ALL.into_iter().flat_map(of).collect()
}

impl Work {
    pub fn name(&self) -> String {
        format!("{}, {}", self.kind.name(), self.counters)
    }

    /// One is added to the station's counters.
    fn commit(&self, station: u8, counts: &mut impl Counts) {
        let page = if self.hot { HOT } else { station };
        let mut values = [0; OBJECTS];
        counts.begin(station);
        for &object in self.objects {
            values[object as usize] = counts.read(station, address(page, object)) + 1;
        }
        if self.as_set {
            counts.write_set(station, page, self.set(), &values);
        } else {
            for &object in self.objects {
                counts.write(station, address(page, object), values[object as usize]);
            }
        }
        counts.commit(station);
    }

    fn set(&self) -> ObjectSet {
        self.objects
            .iter()
            .fold(0, |set, &object| set | object_bit(object))
    }

    fn turn(&self, counts: &mut impl Counts) {
        for i in 0..COMMITS {
            self.commit((i % STATIONS) as u8, counts);
        }
    }

    /// Each station's first commit brings its pages.
    fn settle(&self, counts: &mut impl Counts) {
        for station in 0..STATIONS {
            self.commit(station as u8, counts);
        }
    }

    /// Without SQLite the third job does nothing.
    pub fn time(&self, rounds: usize, library: Option<&Library>) -> Timed {
        let mut proved = proved::Line::new(self.kind);
        let mut second = second_line::Line::new(self.kind);
        let mut database = library.map(Database::new);
        self.settle(&mut proved);
        self.settle(&mut second);
        second.look();
        if let Some(database) = &mut database {
            self.settle(database);
        }
        let before = proved.messages();
        let times = time(
            rounds,
            &|| (),
            [
                &mut || self.turn(&mut second),
                &mut || self.turn(&mut proved),
                &mut || {
                    if let Some(database) = &mut database {
                        self.turn(database);
                    }
                },
            ],
        );
        second.assert_same(&proved);
        if let Some(database) = &database {
            database.assert_same(&proved.played());
        }
        // the first round is dropped, not left out
        let commits = (rounds + 1) * COMMITS;
        Timed {
            times,
            messages: (proved.messages() - before) as f64 / commits as f64,
        }
    }
}
