//! Gives each call to both implementations and compares answer and every byte of the buffers afterwards.

use second::archive::Playback;
use second::record::{self, Header, ENTRY, HEADER};
use second::show::hex;
use second::{ffi, numbers};
use std::collections::BTreeMap;
use std::fmt::Debug;
use std::process;

/// Elements before and behind a lent buffer that must stay as they are.
const GUARD: usize = 16;
/// Bytes that are lent to the writer at most.
pub const MOST_ROOM: usize = HEADER + ENTRY * 2 * 65_536;
/// Whose answers are compared.
pub const SIDES: [&str; 2] = ["second", "proved"];

pub struct Judge {
    seed: u64,
    round: u64,
    kind: &'static str,
    counts: Vec<(&'static str, u64)>,
    answers: BTreeMap<u32, u64>,
    /// What lent buffers hold before a call.
    bytes: Vec<u8>,
    words: Vec<u64>,
}

/// What a call gave: its number, playback's last commit number, the lent buffer.
#[derive(PartialEq)]
struct Answer<'a, T> {
    number: u32,
    last: Option<u32>,
    buffer: &'a [T],
}

impl Judge {
    pub fn new(seed: u64) -> Judge {
        Judge {
            seed,
            round: 0,
            kind: "",
            counts: Vec::new(),
            answers: BTreeMap::new(),
            bytes: (0..GUARD + MOST_ROOM + GUARD).map(pattern).collect(),
            words: (0..GUARD + 100 + GUARD)
                .map(|at| u64::from_le_bytes([pattern(at); 8]))
                .collect(),
        }
    }

    /// The cases that follow are of this round and kind.
    pub fn begin(&mut self, round: u64, kind: &'static str) {
        self.round = round;
        self.kind = kind;
        if self.counts.iter().all(|(known, _)| *known != kind) {
            self.counts.push((kind, 0));
        }
    }

    pub fn counts(&self) -> &[(&'static str, u64)] {
        &self.counts
    }

    /// How often each number was the answer.
    pub fn answers(&self) -> &BTreeMap<u32, u64> {
        &self.answers
    }

    pub fn total(&self) -> u64 {
        self.counts.iter().map(|(_, count)| count).sum()
    }

    pub fn record_check(&mut self, bytes: &[u8]) {
        let second = numbers::record_check(bytes);
        let proved = ffi::record_check(bytes);
        self.agree_on_numbers(second, proved, || {
            format!("record_check\nbytes: {}", hex(bytes))
        });
    }

    /// The writer, with so many bytes lent for the record.
    pub fn record_write(&mut self, header: &Header, addresses: &[u8], values: &[u8], room: usize) {
        let call = |write: fn(&Header, &[u8], &[u8], &mut [u8]) -> u32| {
            lend(&self.bytes, room, |out| {
                write(header, addresses, values, out)
            })
        };
        let second = call(numbers::record_write);
        let proved = call(ffi::record_write);
        self.agree_on_buffers(second, proved, || {
            format!(
                "record_write, {room} bytes of room\n{header:?}\naddresses: {}\nvalues: {}",
                hex(addresses),
                hex(values)
            )
        });
    }

    /// The reader, with so many fields lent.
    pub fn archive_read(&mut self, archive: &[u8], at: usize, last: u32, room: usize) {
        let call = |read: fn(&[u8], usize, u32, &mut [u64]) -> u32| {
            lend(&self.words, room, |fields| read(archive, at, last, fields))
        };
        let second = call(numbers::archive_read);
        let proved = call(ffi::archive_read);
        self.agree_on_buffers(second, proved, || {
            format!(
                "archive_read at {at}, last {last}, {room} fields of room\narchive: {}",
                hex(archive)
            )
        });
    }

    pub fn archive_entry(&mut self, archive: &[u8], at: usize, entries: u32, i: u32, room: usize) {
        let call = |entry: fn(&[u8], usize, u32, u32, &mut [u64]) -> u32| {
            lend(&self.words, room, |out| entry(archive, at, entries, i, out))
        };
        let second = call(numbers::archive_entry);
        let proved = call(ffi::archive_entry);
        self.agree_on_buffers(second, proved, || {
            format!(
                "archive_entry at {at}, entries {entries}, i {i}, {room} numbers of room\narchive: {}",
                hex(archive)
            )
        });
    }

    /// Plays an archive; gives the answer and what it left.
    pub fn archive_replay(&mut self, archive: &[u8], start: &Playback) -> (u32, Playback) {
        let call = |replay: fn(&[u8], &mut Playback) -> u32| {
            let mut playback = start.clone();
            (replay(archive, &mut playback), playback)
        };
        let second = call(numbers::archive_replay);
        let proved = call(ffi::archive_replay);
        self.agree_on_playback(&second, &proved, || {
            format!("archive_replay\n{}\narchive: {}", show(start), hex(archive))
        });
        proved
    }

    /// Plays the first record of these bytes; gives the answer and what it left.
    pub fn playback_record(&mut self, record: &[u8], start: &Playback) -> (u32, Playback) {
        let call = |play: fn(&mut Playback, &[u8]) -> u32| {
            let mut playback = start.clone();
            (play(&mut playback, record), playback)
        };
        let second = call(numbers::playback_record);
        let proved = call(ffi::playback_record);
        self.agree_on_playback(&second, &proved, || {
            format!("playback_record\n{}\nbytes: {}", show(start), hex(record))
        });
        proved
    }

    /// Record by record must come to the same as the whole archive at once.
    pub fn play_through(&mut self, archive: &[u8], start: &Playback) {
        let whole = self.archive_replay(archive, start);
        let mut stepped = (numbers::OK, start.clone());
        let mut rest = archive;
        while stepped.0 == numbers::OK && !rest.is_empty() {
            stepped = self.playback_record(rest, &stepped.1);
            let length = record::claimed_length(rest).unwrap_or(0);
            rest = rest.get(length..).unwrap_or(&[]);
        }
        let answers = [Answer::playback(&stepped), Answer::playback(&whole)];
        self.agree(["record by record", "at once"], answers, || {
            format!(
                "proved playback\n{}\narchive: {}",
                show(start),
                hex(archive)
            )
        });
    }

    fn agree_on_numbers(&mut self, second: u32, proved: u32, call: impl FnOnce() -> String) {
        let answers = [second, proved].map(Answer::<u8>::number);
        self.agree(SIDES, answers, call);
    }

    fn agree_on_buffers<T: PartialEq + Debug>(
        &mut self,
        second: (u32, Vec<T>),
        proved: (u32, Vec<T>),
        call: impl FnOnce() -> String,
    ) {
        let answers = [&second, &proved].map(Answer::buffer);
        self.agree(SIDES, answers, call);
    }

    fn agree_on_playback(
        &mut self,
        second: &(u32, Playback),
        proved: &(u32, Playback),
        call: impl FnOnce() -> String,
    ) {
        let answers = [second, proved].map(Answer::playback);
        self.agree(SIDES, answers, call);
    }

    fn agree<T: PartialEq + Debug>(
        &mut self,
        sides: [&str; 2],
        answers: [Answer<T>; 2],
        call: impl FnOnce() -> String,
    ) {
        self.count();
        let [one, other] = &answers;
        *self.answers.entry(one.number).or_default() += 1;
        if one != other {
            let at = one.first_difference(other);
            self.differ(&call(), sides, answers.map(|answer| answer.show(at)));
        }
    }

    /// One case more of the present kind.
    pub fn count(&mut self) {
        let of_kind = self.counts.iter_mut().find(|(kind, _)| *kind == self.kind);
        of_kind.expect("a kind was begun").1 += 1;
    }

    /// Reports a difference and ends the program.
    pub fn differ(&self, call: &str, sides: [&str; 2], answers: [String; 2]) -> ! {
        println!("DIFFERENCE, seed {}, round {}", self.seed, self.round);
        println!("kind: {}\ncall: {call}", self.kind);
        for (side, answer) in sides.into_iter().zip(answers) {
            println!("{side}: {answer}");
        }
        process::exit(1)
    }
}

impl<'a, T: PartialEq + Debug> Answer<'a, T> {
    fn number(number: u32) -> Answer<'a, T> {
        Answer {
            number,
            last: None,
            buffer: &[],
        }
    }

    fn buffer((number, buffer): &'a (u32, Vec<T>)) -> Answer<'a, T> {
        Answer {
            number: *number,
            last: None,
            buffer,
        }
    }

    fn first_difference(&self, other: &Answer<T>) -> Option<usize> {
        self.buffer
            .iter()
            .zip(other.buffer)
            .position(|(a, b)| a != b)
    }

    fn show(&self, at: Option<usize>) -> String {
        let mut text = format!("number {}", self.number);
        if let Some(last) = self.last {
            text += &format!(", last {last}");
        }
        if let Some(at) = at {
            text += &format!(", lent buffer at {}: {:?}", self.place(at), self.buffer[at]);
        }
        text
    }

    /// The place as the caller counts it; playback's values have no guard before them.
    fn place(&self, at: usize) -> isize {
        let guard = if self.last.is_some() { 0 } else { GUARD };
        at as isize - guard as isize
    }
}

impl<'a> Answer<'a, u64> {
    fn playback((number, playback): &'a (u32, Playback)) -> Answer<'a, u64> {
        Answer {
            number: *number,
            last: Some(playback.last),
            buffer: &playback.values,
        }
    }
}

/// Lends a buffer with guards on both sides; gives the answer and all of it afterwards.
fn lend<T: Clone>(pattern: &[T], room: usize, call: impl FnOnce(&mut [T]) -> u32) -> (u32, Vec<T>) {
    let mut buffer = pattern[..GUARD + room + GUARD].to_vec();
    let number = call(&mut buffer[GUARD..GUARD + room]);
    (number, buffer)
}

/// Differs from place to place, and is never 0, which a stray write would most likely store.
fn pattern(at: usize) -> u8 {
    (at % 251) as u8 + 3
}

fn show(start: &Playback) -> String {
    let values = &start.values;
    let fresh = values.iter().all(|value| *value == 0);
    let values = if fresh { "zero" } else { "not zero" };
    format!("from last {}, values {values}", start.last)
}
