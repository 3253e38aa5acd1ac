//! Makes each access on both sides and compares the number and every byte lent.

use second::buffers::{Pair, Room, GUARD};
use second::ffi::windows as proved;
use second::line::lent::TOLD;
use second::line::message::LENGTH as MESSAGE;
use second::line::station::state::{Field, LENGTH};
use second::line::station::Station;
use second::line::window::{self, Lent};
use second::numbers::OK;
use second::random::Random;
use second::show::hex;
use second::tally::Tally;
use std::process;

/// Damaged states may be twice as long as one.
const LONGEST: usize = 2 * LENGTH;

/// A write or a delivery.
#[derive(Clone, Debug)]
pub enum Access {
    Write(u32, u8),
    Step(Vec<u8>),
}

/// What the host of a window keeps.
#[derive(Clone, Debug, PartialEq, Eq)]
pub struct Kept {
    pub registers: Vec<u8>,
    pub state: Vec<u8>,
}

pub struct Judge {
    pub accesses: u64,
    seed: u64,
    lent: Pair<Field>,
    random: Random,
    numbers: Tally<u32>,
    answers: Tally<u64>,
    refusals: Tally<u8>,
    levels: Tally<u8>,
}

/// Registers between guards.
fn guarded(registers: &[u8], random: &mut Random) -> Vec<u8> {
    let mut all = random.bytes(registers.len() + 2 * GUARD);
    all[GUARD..][..registers.len()].copy_from_slice(registers);
    all
}

fn between(all: &mut [u8]) -> &mut [u8] {
    let length = all.len() - 2 * GUARD;
    &mut all[GUARD..][..length]
}

impl Judge {
    pub fn new(seed: u64) -> Judge {
        Judge {
            accesses: 0,
            seed,
            lent: Pair::new(0, LONGEST),
            random: Random::new(seed),
            numbers: Tally::default(),
            answers: Tally::default(),
            refusals: Tally::default(),
            levels: Tally::default(),
        }
    }

    pub fn begin(&mut self, seed: u64) {
        self.seed = seed;
        self.lent.seed(seed);
        self.random = Random::new(seed);
    }

    pub fn room(&mut self) -> Room {
        self.lent.room()
    }

    /// The access on both sides; the number. Where it is 0 `kept` is what it left, and what was told is given back.
    pub fn access(
        &mut self,
        access: &Access,
        kept: &mut Kept,
        room: Room,
        station: &mut Station,
    ) -> Result<[u64; TOLD], u32> {
        self.accesses += 1;
        self.lent.lend(&kept.state, room);
        let mut given = guarded(&kept.registers, &mut self.random);
        let mut expected = given.clone();
        let number = {
            let mut lent = Lent {
                registers: between(&mut given),
                station: self.lent.given.lent(),
            };
            match access {
                Access::Write(offset, byte) => proved::write(*offset, *byte, &mut lent),
                Access::Step(message) => proved::step(message, &mut lent),
            }
        };
        let said = {
            let mut lent = Lent {
                registers: between(&mut expected),
                station: self.lent.expected.lent(),
            };
            match access {
                Access::Write(offset, byte) => lent.write(*offset, *byte, station),
                Access::Step(message) => lent.step(message, station),
            }
        };
        if number != said || given != expected || !self.lent.same() {
            let text = format!(
                "{access:?}\nregisters {}\nsecond: number {said}, registers {}\nproved: number {number}, registers {}\n{}",
                hex(&kept.registers),
                hex(between(&mut expected)),
                hex(between(&mut given)),
                self.lent.differences()
            );
            self.differ(&text);
        }
        self.numbers.count(number);
        if number != OK {
            return Err(number);
        }
        kept.registers = between(&mut given).to_vec();
        kept.state.copy_from_slice(self.lent.given.state());
        let told = *self
            .lent
            .given
            .numbers()
            .first_chunk()
            .expect("four numbers");
        self.answers.count(told[0]);
        if let Access::Write(2, 1..=5) = access {
            self.refusals.count(kept.registers[3]);
        }
        Ok(told)
    }

    /// What the last accepted access sent.
    pub fn sent(&self) -> Vec<Vec<u8>> {
        let (messages, commit) = self.lent.given.sent().expect("what a call may send");
        let messages = messages.chunks(MESSAGE).map(<[u8]>::to_vec);
        let commit = (!commit.is_empty()).then(|| commit.to_vec());
        messages.chain(commit).collect()
    }

    /// A register read on both sides.
    pub fn read(&mut self, offset: u32, kept: &Kept) -> Result<u8, u32> {
        self.peek("read", kept, |byte, proved| match proved {
            true => proved::read(offset, &kept.registers, &kept.state, byte),
            false => window::read(offset, &kept.registers, &kept.state, byte),
        })
    }

    /// Whether the interrupt is up, on both sides.
    pub fn interrupt(&mut self, kept: &Kept) -> Result<u8, u32> {
        let level = self.peek("interrupt", kept, |byte, proved| match proved {
            true => proved::interrupt(&kept.registers, &kept.state, byte),
            false => window::interrupt(&kept.registers, &kept.state, byte),
        });
        if let Ok(level) = level {
            self.levels.count(level);
        }
        level
    }

    fn peek(
        &mut self,
        name: &str,
        kept: &Kept,
        call: impl Fn(&mut u8, bool) -> u32,
    ) -> Result<u8, u32> {
        self.accesses += 1;
        let noise = self.random.byte();
        let [mut given, mut expected] = [noise; 2];
        let number = call(&mut given, true);
        let said = call(&mut expected, false);
        if number != said || given != expected {
            let registers = hex(&kept.registers);
            self.differ(&format!(
                "{name}, registers {registers}\nsecond: number {said}, {expected}\nproved: number {number}, {given}"
            ));
        }
        self.numbers.count(number);
        if number == OK {
            Ok(given)
        } else {
            Err(number)
        }
    }

    /// Reports a difference and ends the program.
    pub fn differ(&self, text: &str) -> ! {
        println!(
            "DIFFERENCE, again by: windows --seed {} --accesses 1",
            self.seed
        );
        println!("{text}");
        process::exit(1)
    }

    pub fn print(&self) {
        println!("accesses by number: {}", self.numbers);
        println!("commands by register 3: {}", self.refusals);
        println!("accepted ones by what is told: {}", self.answers);
        println!("interrupt by level: {}", self.levels);
    }

    /// What a long run must have reached and has not.
    pub fn missing(&self) -> Option<String> {
        let number = [0, 1, 2, 3, 4, 6, 16].iter().find(|n| !self.numbers.has(n));
        let refusal = [0, 4, 7, 8, 9, 11].iter().find(|n| !self.refusals.has(n));
        let answer = [1, 2, 3, 4, 5, 6, 8].iter().find(|n| !self.answers.has(n));
        let level = [0, 1].iter().find(|n| !self.levels.has(n));
        let named = |name: &str, n: u64| format!("{name} {n}");
        number
            .map(|n| named("number", u64::from(*n)))
            .or_else(|| refusal.map(|n| named("register 3", u64::from(*n))))
            .or_else(|| answer.map(|n| named("told", *n)))
            .or_else(|| level.map(|n| named("level", u64::from(*n))))
    }
}
