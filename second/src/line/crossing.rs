//! Random crossings: which call comes next.

use super::call::Call;
use super::damage::{self, Field, History};
use super::sets::{address, object_bit, page_of, rising, ObjectSet, OBJECTS, PAGES, STATIONS};
use super::world::{Reply, World};
use super::Kind;
use crate::random::Random;

/// A run's setting and its luck.
pub struct Crossing {
    random: Random,
    calls_left: usize,
    pub kinds: [Kind; STATIONS],
    pub numbers: Option<(u32, [u32; STATIONS])>,
    stations: Vec<u8>,
    addresses: Vec<u8>,
    habits: Habits,
    /// Lines whose messages are kept waiting.
    held: Vec<Line>,
    /// Owners that hold their transaction for long.
    idle: Vec<u8>,
    history: History,
    values_used: u64,
}

/// A line by its station.
#[derive(Clone, Copy, PartialEq, Eq)]
enum Line {
    Up(u8),
    Down(u8),
}

/// Of so many seeds one makes long transactions.
const LONG_ONE_IN: u64 = 16;

/// How often what is done.
struct Habits {
    /// Of eight calls so many are owners'.
    owners: usize,
    /// How much sooner a message up is taken than one down, and the other way.
    up: usize,
    down: usize,
    /// One in so many acts is a commit, or an abort.
    commit: usize,
    abort: usize,
    purge: usize,
    /// Of ten accesses so many write.
    writes: usize,
    /// One in so many writes is of a set, mostly of two to four objects; 0 for none.
    sets: usize,
    /// One in so many calls holds or frees a line, or makes an owner idle or not.
    hold: usize,
    idle: usize,
    /// One in so many calls is raw; 0 for none.
    raw: usize,
}

impl Crossing {
    pub fn new(seed: u64, calls: usize) -> Crossing {
        let crossing = Crossing::drawn(seed, calls, true);
        match seed.is_multiple_of(LONG_ONE_IN) {
            true => crossing.made_long(),
            false => crossing,
        }
    }

    /// With keeping stations and sets, or without: then drawn as version 1.0.0 drew it.
    fn drawn(seed: u64, calls: usize, all: bool) -> Crossing {
        let mut random = Random::new(seed);
        let kinds = match all {
            true => kinds(&mut random),
            false => two_kinds(&mut random),
        };
        let habits = habits(&mut random, all);
        Crossing {
            calls_left: calls,
            kinds,
            numbers: numbers(&mut random),
            stations: stations(&mut random),
            addresses: addresses(&mut random),
            habits,
            held: Vec::new(),
            idle: Vec::new(),
            history: History::default(),
            values_used: 0,
            random,
        }
    }

    /// Two stations at work on many objects, and few ends: transactions come to the limit.
    fn made_long(mut self) -> Crossing {
        self.stations.truncate(2);
        self.addresses = (0..64).collect();
        self.habits = Habits {
            owners: 4,
            commit: 200,
            abort: 400,
            purge: 100_000,
            writes: self.random.pick(&[1, 9]),
            hold: 100_000,
            idle: 100_000,
            ..self.habits
        };
        self
    }

    /// All eight stations of a fresh line, and no raw messages.
    pub fn of_eight(seed: u64, calls: usize) -> Crossing {
        Crossing::new(seed, calls).with_eight()
    }

    /// The same without keeping stations and sets.
    pub fn of_eight_plain(seed: u64, calls: usize) -> Crossing {
        Crossing::drawn(seed, calls, false).with_eight()
    }

    fn with_eight(self) -> Crossing {
        Crossing {
            numbers: None,
            stations: damage::ALL.to_vec(),
            habits: Habits {
                raw: 0,
                ..self.habits
            },
            ..self
        }
    }

    /// Calls still to be made.
    pub fn calls(&self) -> usize {
        self.calls_left
    }

    /// Raw messages are among the calls.
    pub fn damages(&self) -> bool {
        self.habits.raw != 0
    }

    /// What was sent may be sent again later; a line whose first message is refused is left alone for a while.
    pub fn saw(&mut self, call: &Call, reply: &Reply) {
        match (reply, call) {
            (Reply::Accepted(outcome), _) => {
                for message in &outcome.sent {
                    self.history.note(message);
                }
            }
            (Reply::Refused(_), Call::Server(station)) => self.stuck(Line::Up(*station)),
            (Reply::Refused(_), Call::Station(station)) => self.stuck(Line::Down(*station)),
            _ => (),
        }
    }

    /// Only after raw messages; a line that is stuck in too many places is given up.
    fn stuck(&mut self, line: Line) {
        self.held.push(line);
        self.calls_left = self.calls_left.saturating_sub(8);
    }

    /// The next call; None when all are made.
    pub fn next(&mut self, world: &World) -> Option<Call> {
        self.calls_left = self.calls_left.checked_sub(1)?;
        self.change_moods();
        if self.damages() && self.random.one_in(self.habits.raw) {
            return Some(self.raw(world));
        }
        if self.random.below(8) < self.habits.owners {
            return Some(self.owner_call(world));
        }
        let delivery = self.delivery(world);
        Some(delivery.unwrap_or_else(|| self.owner_call(world)))
    }

    fn change_moods(&mut self) {
        if self.random.one_in(self.habits.hold) {
            let line = match self.random.one_in(2) {
                true => Line::Up(self.station()),
                false => Line::Down(self.station()),
            };
            change_mood(&mut self.random, &mut self.held, line);
        }
        if self.random.one_in(self.habits.idle) {
            let station = self.station();
            change_mood(&mut self.random, &mut self.idle, station);
        }
    }

    /// A raw message to one of the ends.
    pub fn raw(&mut self, world: &World) -> Call {
        let field = Field {
            stations: &self.stations,
            addresses: &self.addresses,
        };
        damage::call(&mut self.random, &self.history, &field, world)
    }

    /// The first message of a line that is not held.
    fn delivery(&mut self, world: &World) -> Option<Call> {
        let up = (0..self.habits.up).flat_map(|_| self.ready(world, Line::Up));
        let down = (0..self.habits.down).flat_map(|_| self.ready(world, Line::Down));
        let ready: Vec<Line> = up.chain(down).collect();
        if ready.is_empty() {
            return None;
        }
        Some(match self.random.pick(&ready) {
            Line::Up(station) => Call::Server(station),
            Line::Down(station) => Call::Station(station),
        })
    }

    fn ready<'a>(
        &'a self,
        world: &'a World,
        line: fn(u8) -> Line,
    ) -> impl Iterator<Item = Line> + 'a {
        let free = |line: &Line| world_length(world, *line) > 0 && !self.held.contains(line);
        self.stations.iter().map(move |s| line(*s)).filter(free)
    }

    fn station(&mut self) -> u8 {
        self.random.pick(&self.stations)
    }

    fn owner_call(&mut self, world: &World) -> Call {
        let number = self.station();
        let station = &world.stations[number as usize];
        if self.random.one_in(40) {
            return self.any_call(number, world);
        }
        if station.waits() {
            return self.call_while_waiting(number, world);
        }
        if !station.is_open() {
            return self.call_between(number, world);
        }
        if self.idle.contains(&number) && !self.random.one_in(20) {
            return self.delivery(world).unwrap_or(Call::Server(number));
        }
        self.act(number, world)
    }

    fn purges(&mut self, number: u8, world: &World) -> bool {
        let station = &world.stations[number as usize];
        let some_unused = station.cached() & !station.used() != 0;
        let one_in = if some_unused { 1 } else { 12 };
        self.random.one_in(one_in * self.habits.purge)
    }

    /// Between two transactions.
    fn call_between(&mut self, number: u8, world: &World) -> Call {
        let station = &world.stations[number as usize];
        if self.purges(number, world) {
            return self.purge(number, world);
        }
        if station.latest() == u32::MAX && !self.random.one_in(10) {
            return self.delivery(world).unwrap_or(Call::Begin(number));
        }
        Call::Begin(number)
    }

    /// An owner that waits may purge, or call in vain.
    fn call_while_waiting(&mut self, number: u8, world: &World) -> Call {
        match self.random.below(24) {
            0 => self.any_call(number, world),
            1 => self.purge(number, world),
            _ => self.delivery(world).unwrap_or(Call::Station(number)),
        }
    }

    fn act(&mut self, number: u8, world: &World) -> Call {
        if self.random.one_in(self.habits.commit) {
            Call::Commit(number)
        } else if self.random.one_in(self.habits.abort) {
            Call::Abort(number)
        } else if self.purges(number, world) {
            self.purge(number, world)
        } else {
            self.access(number, world)
        }
    }

    fn access(&mut self, number: u8, world: &World) -> Call {
        let address = self.random.pick(&self.addresses);
        if self.random.below(10) >= self.habits.writes {
            return Call::Read(number, address);
        }
        match self.habits.sets != 0 && self.random.one_in(self.habits.sets) {
            true => self.write_set(number, address, world),
            false => Call::Write(number, address, self.new_value()),
        }
    }

    /// Objects of this one's page, this one among them.
    fn write_set(&mut self, number: u8, address: u8, world: &World) -> Call {
        let several = world.kinds[number as usize].locks() || self.random.one_in(8);
        let more = match several {
            true => 1 + self.random.below(3),
            false => 0,
        };
        let page = page_of(address);
        let mut set = object_bit(address);
        for _ in 0..more {
            set |= self.neighbour(page);
        }
        self.writing(number, page.into(), set)
    }

    /// Mostly one that others write too.
    fn neighbour(&mut self, page: u8) -> ObjectSet {
        let address = self.random.pick(&self.addresses);
        match page_of(address) == page && !self.random.one_in(4) {
            true => object_bit(address),
            false => 1 << self.random.below(OBJECTS),
        }
    }

    fn writing(&mut self, number: u8, page: u32, set: ObjectSet) -> Call {
        let mut values = [0; OBJECTS];
        for object in rising(set) {
            values[object as usize] = self.new_value();
        }
        Call::WriteSet(number, page, set, values)
    }

    /// Any page and set, no such page and the empty set among them.
    fn any_set(&mut self, number: u8) -> Call {
        let page = self.random.pick(&[0, 1, 31, 32, u32::MAX]);
        let set = self.random.byte() & self.random.pick(&[0, 3, 255]);
        self.writing(number, page, set)
    }

    /// Each value is written once, so that a read tells whose write it saw.
    fn new_value(&mut self) -> u64 {
        self.values_used += 1;
        self.values_used.wrapping_mul(0x9E37_79B9_7F4A_7C15)
    }

    /// Mostly of a page that is there and not used.
    fn purge(&mut self, number: u8, world: &World) -> Call {
        let station = &world.stations[number as usize];
        let unused: Vec<u8> = rising(station.cached() & !station.used()).collect();
        let page = match self.random.below(30) {
            0 => self.random.below(300) as u32,
            1..=27 if !unused.is_empty() => self.random.pick(&unused).into(),
            _ => page_of(self.random.pick(&self.addresses)).into(),
        };
        Call::Purge(number, page)
    }

    /// A call that may not fit at all.
    fn any_call(&mut self, number: u8, world: &World) -> Call {
        let sets = self.habits.sets != 0;
        match self.random.below(8 + usize::from(sets)) {
            0 => Call::Begin(number),
            1 => Call::Commit(number),
            2 => Call::Abort(number),
            3 => self.purge(number, world),
            4 => Call::Server(number),
            5 => Call::Station(number),
            6 if sets => self.any_set(number),
            _ => self.access(number, world),
        }
    }
}

fn world_length(world: &World, line: Line) -> usize {
    match line {
        Line::Up(station) => world.up_length(station),
        Line::Down(station) => world.down_length(station),
    }
}

/// One more in a mood, or one of those in it out of it.
fn change_mood<T: PartialEq>(random: &mut Random, in_mood: &mut Vec<T>, one: T) {
    if !in_mood.is_empty() && random.below(4) < in_mood.len() {
        in_mood.swap_remove(random.below(in_mood.len()));
    } else if !in_mood.contains(&one) {
        in_mood.push(one);
    }
}

/// Of eight stations so many validate, in the mean.
const VALIDATING: [usize; 10] = [0, 1, 2, 3, 3, 4, 4, 5, 6, 8];

/// Locking and validating ones.
fn two_kinds(random: &mut Random) -> [Kind; STATIONS] {
    let validating = random.pick(&VALIDATING);
    std::array::from_fn(|_| match random.below(8) < validating {
        true => Kind::Validating,
        false => Kind::Locking,
    })
}

/// Mostly mixed, now and then all of one kind.
fn kinds(random: &mut Random) -> [Kind; STATIONS] {
    let validating = random.pick(&VALIDATING);
    let keeping = random.pick(&[0, 2, 4, 4, 6, 8]);
    std::array::from_fn(|_| {
        if random.below(8) < validating {
            Kind::Validating
        } else if random.below(8) < keeping {
            Kind::Keeping
        } else {
            Kind::Locking
        }
    })
}

/// "lines next to the last commit number 4,294,967,295 and last transaction numbers"
fn numbers(random: &mut Random) -> Option<(u32, [u32; STATIONS])> {
    if !random.one_in(6) {
        return None;
    }
    let last = match random.below(3) {
        0 => random.number() as u32,
        _ => u32::MAX - random.below(24) as u32,
    };
    let latest = std::array::from_fn(|_| match random.below(4) {
        0 => 0,
        1 => random.number() as u32,
        _ => u32::MAX - random.below(30) as u32,
    });
    Some((last, latest))
}

/// Two to eight of them.
fn stations(random: &mut Random) -> Vec<u8> {
    let mut stations = damage::ALL.to_vec();
    let many = random.pick(&[2, 3, 3, 3, 4, 4, 5, 6, 7, 8]);
    while stations.len() > many {
        stations.remove(random.below(stations.len()));
    }
    stations
}

/// Few pages and objects mostly, so that conflicts are common.
fn addresses(random: &mut Random) -> Vec<u8> {
    let (pages, objects) = match random.below(16) {
        0 => (PAGES, 8),
        1 => (PAGES, 1),
        2 => (8, 8),
        3..=5 => (1, 1 + random.below(8)),
        _ => (1 + random.below(4), 1 + random.below(4)),
    };
    let first_page = random.below(PAGES + 1 - pages);
    let first_object = random.below(9 - objects);
    let on = |page: usize| {
        (first_object..first_object + objects).map(move |object| address(page as u8, object as u8))
    };
    (first_page..first_page + pages).flat_map(on).collect()
}

fn habits(random: &mut Random, sets: bool) -> Habits {
    Habits {
        owners: random.pick(&[1, 2, 3, 4, 6]),
        up: random.pick(&[1, 1, 2, 4]),
        down: random.pick(&[1, 1, 2, 4]),
        commit: random.pick(&[3, 5, 8, 16, 40]),
        abort: random.pick(&[8, 20, 60]),
        purge: random.pick(&[2, 4, 12, 40]),
        writes: random.pick(&[2, 4, 6, 8]),
        sets: match sets {
            true => random.pick(&[1, 2, 4, 16, 100_000]),
            false => 0,
        },
        hold: random.pick(&[6, 12, 40, 100_000]),
        idle: random.pick(&[30, 100, 100_000]),
        raw: random.pick(&[0, 0, 0, 0, 0, 0, 8, 40]),
    }
}
