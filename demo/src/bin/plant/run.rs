//! Minutes of the plant, by a clock: bottles pass by chance, each message is under way for the same time, ends act at
//! once.

use crate::bottles::{work, Bottle};
use crate::settings::Settings;
use demo::line::{Done, Line};
use demo::owner::{Came, Owner};
use second::line::call::Call;
use second::line::sets::{ADDRESSES, STATIONS};
use second::line::Kind;
use second::random::Random;
use std::cmp::Reverse;
use std::collections::{BinaryHeap, VecDeque};

/// Half of the stations of each kind.
pub const KINDS: [Kind; STATIONS] = {
    use Kind::{Locking as L, Validating as V};
    [L, L, L, L, V, V, V, V]
};
/// In microseconds.
pub const SECOND: u64 = 1_000_000;
const MINUTE: u64 = 60 * SECOND;
const HOUR: u64 = 60 * MINUTE;
/// How long bottles may wait behind the last one.
const BEHIND: u64 = HOUR;

#[derive(Clone, Copy, PartialEq, Eq, PartialOrd, Ord)]
enum Event {
    Bottle(usize),
    Up(usize),
    Down(usize),
}

/// A station's owner, and the bottles that it has seen and not yet begun.
struct Head {
    owner: Owner,
    seen: VecDeque<Bottle>,
    /// In the transaction that is tried.
    now: Vec<Bottle>,
}

pub struct Run {
    line: Line<Vec<u8>>,
    heads: [Head; STATIONS],
    /// By time, and by the order in which they were made.
    events: BinaryHeap<Reverse<(u64, u64, Event)>>,
    made: u64,
    carriage: u64,
    /// Bottles in a transaction, at most.
    gather: usize,
    random: Random,
    /// Messages for the server under way, by station; and all that it took, in its order.
    up: [VecDeque<Vec<u8>>; STATIONS],
    pub taken: Vec<Vec<u8>>,
    pub sent_down: u64,
    pub commits: u64,
    /// Transactions begun, by station.
    pub begun: [u64; STATIONS],
    /// Aborted ones, by cause.
    pub aborts: [u64; 5],
    /// Microseconds from a bottle to its commit.
    pub took: Vec<u64>,
    /// Bottles that are not committed at the end.
    pub left: u64,
    /// Of commits that were told.
    pub counted: [u64; ADDRESSES],
}

impl Run {
    pub fn of(settings: &Settings) -> Result<Run, String> {
        let mut run = Run::fresh(settings);
        let length = settings.minutes * MINUTE;
        let bottles = length * settings.bottles / HOUR;
        for _ in 0..bottles {
            let time = run.random.below(length as usize);
            let station = run.random.below(STATIONS);
            run.happens(time as u64, Event::Bottle(station));
        }
        while let Some(Reverse((now, _, event))) = run.events.pop() {
            if now > length + BEHIND {
                break;
            }
            run.event(now, event)?;
        }
        run.left = bottles - run.took.len() as u64;
        match run.commits {
            0 => Err(String::from("no bottle is counted")),
            _ => Ok(run),
        }
    }

    fn fresh(settings: &Settings) -> Run {
        Run {
            line: Line::fresh(KINDS, Vec::new()),
            heads: std::array::from_fn(|station| Head {
                owner: Owner::new(station as u8),
                seen: VecDeque::new(),
                now: Vec::new(),
            }),
            events: BinaryHeap::new(),
            made: 0,
            carriage: settings.carriage,
            gather: settings.gather as usize,
            random: Random::new(settings.seed),
            up: Default::default(),
            taken: Vec::new(),
            sent_down: 0,
            commits: 0,
            begun: [0; STATIONS],
            aborts: [0; 5],
            took: Vec::new(),
            left: 0,
            counted: [0; ADDRESSES],
        }
    }

    fn happens(&mut self, time: u64, event: Event) {
        self.made += 1;
        self.events.push(Reverse((time, self.made, event)));
    }

    fn event(&mut self, now: u64, event: Event) -> Result<(), String> {
        match event {
            Event::Bottle(station) => {
                let bottle = Bottle::by_chance(now, station, &mut self.random);
                self.heads[station].seen.push_back(bottle);
                self.act(now, station)
            }
            Event::Up(station) => self.serve(now, station),
            Event::Down(station) => {
                self.at_station(now, station, &Call::Station(station as u8))?;
                self.act(now, station)
            }
        }
    }

    /// The server takes a message as it comes.
    fn serve(&mut self, now: u64, station: usize) -> Result<(), String> {
        self.taken.extend(self.up[station].pop_front());
        let done = self.made_of(&Call::Server(station as u8))?;
        self.sent_down += done.sent.len() as u64;
        for message in &done.sent {
            self.happens(now + self.carriage, Event::Down(message[1].into()));
        }
        Ok(())
    }

    /// The owner calls until it waits, or has counted every bottle that it has seen.
    fn act(&mut self, now: u64, station: usize) -> Result<(), String> {
        loop {
            let head = &mut self.heads[station];
            if head.owner.waits() {
                return Ok(());
            }
            if head.owner.is_idle() {
                let next = head.seen.len().min(self.gather);
                if next == 0 {
                    return Ok(());
                }
                head.now = head.seen.drain(..next).collect();
                head.owner.start(work(&head.now));
            }
            let call = head.owner.call();
            self.begun[station] += u64::from(matches!(call, Call::Begin(_)));
            self.at_station(now, station, &call)?;
        }
    }

    /// A call at a station: what it sends is under way, what it tells is told.
    fn at_station(&mut self, now: u64, station: usize, call: &Call) -> Result<(), String> {
        let done = self.made_of(call)?;
        for message in done.sent {
            self.up[station].push_back(message);
            self.happens(now + self.carriage, Event::Up(station));
        }
        match self.heads[station].owner.told(done.answer) {
            Came::Further => (),
            Came::Aborted(cause) => self.aborts[usize::from(cause)] += 1,
            Came::Committed(_) => self.committed(now, station),
        }
        Ok(())
    }

    fn committed(&mut self, now: u64, station: usize) {
        self.commits += 1;
        for bottle in self.heads[station].now.drain(..) {
            self.took.push(now - bottle.seen);
            for address in bottle.counters {
                self.counted[usize::from(address)] += 1;
            }
        }
    }

    fn made_of(&mut self, call: &Call) -> Result<Done, String> {
        let made = self.line.call(call);
        made.map_err(|fault| format!("`{call}`: {fault}"))
    }

    /// So much of all, for each commit.
    pub fn each(&self, all: u64) -> f64 {
        all as f64 / self.commits as f64
    }

    /// Bytes of archive for each commit.
    pub fn bytes(&self) -> f64 {
        self.each(self.archive().len() as u64)
    }

    /// Microseconds within which half of the bottles, and all of them, are committed.
    pub fn waits(&self) -> (u64, u64) {
        let mut took = self.took.clone();
        took.sort_unstable();
        (took[took.len() / 2], took[took.len() - 1])
    }

    pub fn archive(&self) -> &[u8] {
        self.line.archive()
    }

    /// The server's counters.
    pub fn values(&self) -> [u64; ADDRESSES] {
        std::array::from_fn(|address| self.line.value(address as u8))
    }
}
