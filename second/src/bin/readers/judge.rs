//! One call on both sides, compared with all that was lent.

use second::archive::Playback;
use second::counts as wanted;
use second::ffi::counts as proved;
use second::random::Random;
use second::record;
use second::show::hex;
use second::tally::Tally;
use std::process;

pub struct Judge {
    seed: u64,
    pub calls: u64,
    pub answers: Tally<u32>,
    pub hidden: u64,
    pub shown: u64,
}

impl Judge {
    pub fn new(seed: u64) -> Judge {
        Judge {
            seed,
            calls: 0,
            answers: Tally::default(),
            hidden: 0,
            shown: 0,
        }
    }

    /// Both readers at every commit, one behind the last, one far behind it and 0; then record by record.
    pub fn archive(&mut self, random: &mut Random, archive: &[u8], commits: usize) {
        let last = commits as u32;
        for commit in (0..=last + 1).chain([u32::MAX]) {
            self.at(random, archive, commit);
        }
        self.walk(random, archive);
    }

    fn at(&mut self, random: &mut Random, archive: &[u8], commit: u32) {
        let out = noise(random, wanted::LONGEST);
        let counts = self.both(archive, commit, &out, wanted::counts_at, proved::counts_at);
        let out = numbers(random, wanted::SERVICE_FIELDS);
        let service = self.both(
            archive,
            commit,
            &out,
            wanted::service_at,
            proved::service_at,
        );
        if counts != 1 && service != 1 && counts != service {
            self.fail("the readers' numbers", archive, commit);
        }
    }

    fn both<T: Copy + Eq>(
        &mut self,
        archive: &[u8],
        commit: u32,
        out: &[T],
        wanted: fn(&[u8], u32, &mut [T]) -> u32,
        proved: fn(&[u8], u32, &mut [T]) -> u32,
    ) -> u32 {
        let [mut expected, mut given] = [out.to_vec(), out.to_vec()];
        let number = wanted(archive, commit, &mut expected);
        let answer = proved(archive, commit, &mut given);
        if (number, expected) != (answer, given) {
            self.fail("a reader", archive, commit);
        }
        self.count(number)
    }

    /// Record by record, with the playback that is lent.
    fn walk(&mut self, random: &mut Random, archive: &[u8]) {
        let mut playback = Playback::FRESH;
        let mut at = 0;
        loop {
            let out = noise(random, wanted::LONGEST);
            let fields = numbers(random, wanted::SERVICE_FIELDS);
            let part = &archive[at..];
            let counts = self.record(
                part,
                &playback,
                &out,
                wanted::counts_record,
                proved::counts_record,
            );
            let service = self.record(
                part,
                &playback,
                &fields,
                wanted::service_record,
                proved::service_record,
            );
            if counts.0 != 1 && service.0 != 1 && counts != service {
                self.fail("the readers' numbers", part, playback.last);
            }
            if playback.record(part).is_err() {
                return;
            }
            at += record::claimed_length(part).unwrap_or(0);
        }
    }

    fn record<T: Copy + Eq>(
        &mut self,
        part: &[u8],
        playback: &Playback,
        out: &[T],
        wanted: fn(&[u8], &mut Playback, &mut [T]) -> u32,
        proved: fn(&[u8], &mut Playback, &mut [T]) -> u32,
    ) -> (u32, Playback) {
        let [mut expected, mut given] = [out.to_vec(), out.to_vec()];
        let [mut left, mut right] = [playback.clone(), playback.clone()];
        let number = wanted(part, &mut left, &mut expected);
        let answer = proved(part, &mut right, &mut given);
        if (number, expected, &left) != (answer, given, &right) {
            self.fail("a reader of a record", part, playback.last);
        }
        (self.count(number), left)
    }

    /// A counts file from its start to its end, every write and one behind the last.
    pub fn file(&mut self, random: &mut Random, file: &[u8]) {
        let (mut at, mut last) = (0, 0);
        loop {
            let out = numbers(random, wanted::COUNTS_FIELDS);
            let [mut expected, mut given] = [out.clone(), out];
            let number = wanted::counts_read(file, at, last, &mut expected);
            let answer = proved::counts_read(file, at, last, &mut given);
            if (number, &expected) != (answer, &given) {
                self.fail("the counts file's reader", file, last);
            }
            match self.count(number) {
                0 => {}
                // the buffer was short: again
                1 => continue,
                _ => return,
            }
            let writes = expected[1] as u32;
            for i in 0..=writes {
                self.entry(random, file, at, writes, i);
            }
            let more = writes + 1 + random.below(70_000) as u32;
            self.entry(random, file, at, more, 0);
            at = expected[0] as usize;
            last = expected[2] as u32;
        }
    }

    fn entry(&mut self, random: &mut Random, file: &[u8], at: usize, writes: u32, i: u32) {
        let out = numbers(random, 2);
        let [mut expected, mut given] = [out.clone(), out];
        let number = wanted::counts_entry(file, at, writes, i, &mut expected);
        let answer = proved::counts_entry(file, at, writes, i, &mut given);
        if (number, expected) != (answer, given) {
            self.fail("a write of a counts file", file, i);
        }
        self.count(number);
    }

    fn count(&mut self, number: u32) -> u32 {
        self.calls += 1;
        self.answers.count(number);
        number
    }

    pub fn fail(&self, what: &str, bytes: &[u8], at: u32) -> ! {
        println!("{what} differs at {at}, seed {}\n{}", self.seed, hex(bytes));
        process::exit(1)
    }
}

/// A buffer of noise, of this length or a little more, now and then less.
fn noise(random: &mut Random, length: usize) -> Vec<u8> {
    let length = some(random, length);
    random.bytes(length)
}

fn numbers(random: &mut Random, length: usize) -> Vec<u64> {
    (0..some(random, length)).map(|_| random.number()).collect()
}

fn some(random: &mut Random, length: usize) -> usize {
    match random.below(12) {
        0 => random.below(length),
        1 => length + random.below(40),
        _ => length,
    }
}
