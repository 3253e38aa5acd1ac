//! The program: an archive to blocks and back, in pieces and damaged, against the second implementation.

use second::block::{self, COUNTS, RECORDS};
use second::generate::{self, Size};
use second::random::Random;
use second::record::{View, ENTRY, HEADER};
use second::Refusal;
use std::io::Write;
use std::process::{self, Command, Stdio};
use std::thread;

/// What the program writes, what it says, and its exit status.
#[derive(PartialEq)]
struct Said {
    out: Vec<u8>,
    words: String,
    status: i32,
}

impl Said {
    fn all(out: Vec<u8>) -> Said {
        Said {
            out,
            words: String::new(),
            status: 0,
        }
    }

    fn refused(out: Vec<u8>, refusal: Refusal, at: usize) -> Said {
        let why = match refusal {
            Refusal::Short => "the archive ends inside a record",
            Refusal::Block => "no block of 1 to 64 records whose counts agree",
            _ => "a record is not laid out as one",
        };
        Said {
            out,
            words: format!("block: byte {at}: refused {}, {why}\n", refusal.number()),
            status: 1,
        }
    }
}

/// What the program must do with an archive.
fn blocks_of(archive: &[u8]) -> Said {
    let (mut out, mut from, mut at, mut count) = (Vec::new(), 0, 0, 0);
    let mut refused = None;
    let mut flush = |from: usize, at: usize| {
        if from < at {
            let start = out.len();
            out.resize(start + at - from + COUNTS, 0);
            block::write(&archive[from..at], &mut out[start..]).unwrap();
        }
    };
    while at < archive.len() {
        match View::first(&archive[at..]) {
            Ok(record) => at += record.length(),
            Err(refusal) => {
                refused = Some(refusal);
                break;
            }
        }
        count += 1;
        if count == RECORDS {
            flush(from, at);
            (from, count) = (at, 0);
        }
    }
    flush(from, at);
    match refused {
        Some(refusal) => Said::refused(out, refusal, at),
        None => Said::all(out),
    }
}

/// The same for blocks.
fn archive_of(blocks: &[u8]) -> Said {
    let (mut out, mut at) = (Vec::new(), 0);
    while at < blocks.len() {
        let rest = &blocks[at..];
        let length = match *rest {
            [c0, c1, t0, t1, ..] => {
                let [count, total] =
                    [[c0, c1], [t0, t1]].map(|two| usize::from(u16::from_le_bytes(two)));
                COUNTS + HEADER * count + ENTRY * total
            }
            _ => rest.len(),
        };
        let block = &rest[..length.min(rest.len())];
        let start = out.len();
        out.resize(start + block.len().saturating_sub(COUNTS), 0);
        if let Err(refusal) = block::read(block, &mut out[start..]) {
            out.truncate(start);
            return Said::refused(out, refusal, at);
        }
        at += block.len();
    }
    Said::all(out)
}

/// Runs the program with its input in pieces of so many bytes.
fn run(program: &str, words: &[&str], input: &[u8], piece: usize) -> Said {
    let mut child = Command::new(program)
        .args(words)
        .stdin(Stdio::piped())
        .stdout(Stdio::piped())
        .stderr(Stdio::piped())
        .spawn()
        .unwrap_or_else(|e| panic!("{program}: {e}"));
    let mut pipe = child.stdin.take().unwrap();
    let input = input.to_vec();
    let writer = thread::spawn(move || {
        for part in input.chunks(piece) {
            // it may have stopped reading
            if pipe.write_all(part).is_err() {
                return;
            }
        }
    });
    let output = child.wait_with_output().unwrap();
    writer.join().unwrap();
    Said {
        out: output.stdout,
        words: String::from_utf8(output.stderr).unwrap(),
        status: output.status.code().unwrap_or(-1),
    }
}

/// The program beside what it must do.
struct Judge<'a> {
    program: &'a str,
    seed: u64,
    refused: usize,
}

impl Judge<'_> {
    fn same(&mut self, what: &str, words: &[&str], input: &[u8], piece: usize, expected: &Said) {
        let given = run(self.program, words, input, piece);
        self.refused += usize::from(expected.status != 0);
        if given != *expected {
            let [given, expected] = [&given, expected].map(|said| {
                format!(
                    "{} bytes, {:?}, {}",
                    said.out.len(),
                    said.words,
                    said.status
                )
            });
            println!(
                "the program differs (seed {}, {what}): {expected} expected, {given} given",
                self.seed
            );
            process::exit(1);
        }
    }

    fn there(&mut self, what: &str, archive: &[u8], piece: usize) -> Vec<u8> {
        let expected = blocks_of(archive);
        self.same(what, &[], archive, piece, &expected);
        expected.out
    }

    fn back(&mut self, what: &str, blocks: &[u8], piece: usize) {
        self.same(what, &["--back"], blocks, piece, &archive_of(blocks));
    }
}

/// Changes a bit, and cuts.
fn wound(random: &mut Random, bytes: &mut Vec<u8>, bit: bool, cut: bool) {
    if bit && !bytes.is_empty() {
        generate::change_a_bit(random, bytes);
    }
    if cut {
        bytes.truncate(random.below(bytes.len() + 1));
    }
}

/// The most that the program must hold: 63 of the longest records, and behind them one that claims the most.
fn at_the_limit(judge: &mut Judge, random: &mut Random) {
    let mut archive = Vec::new();
    for _ in 0..RECORDS - 1 {
        archive.extend(generate::record(random, Size::Large).encode());
    }
    archive.extend([255, 255, 255, 255, 1, 0, 0, 0, 1, 0, 0, 0, 0, 0, 0, 0]);
    archive.extend(random.bytes(ENTRY * 2 * 65_535 - 1));
    judge.there("a claim cut by a byte", &archive, 65_536);
    archive.push(0);
    judge.there("a claim that ends there", &archive, 65_536);
    archive.extend(random.bytes(500_000));
    judge.there("a claim with bytes behind it", &archive, 65_536);
    let mut block = vec![1, 0, 255, 255, 255, 255, 0, 0];
    block.extend([1, 0, 0, 0, 1, 0, 0, 0, 0, 0, 0, 0]);
    block.extend(random.bytes(ENTRY * 65_535));
    judge.back("a block that claims the most", &block, 65_536);
}

pub fn compare(program: &str, seed: u64) {
    const CASES: usize = 120;
    let random = &mut Random::new(seed);
    let mut judge = Judge {
        program,
        seed,
        refused: 0,
    };
    at_the_limit(&mut judge, random);
    for case in 0..CASES {
        let size = random.pick(&[Size::Tiny, Size::Small, Size::Mixed, Size::Large]);
        let length = random.pick(&[0, 1, 2_000, 50_000, 1_500_000, 3_000_000]);
        let mut archive = match length {
            0 => Vec::new(),
            _ => generate::archive_of_length(random, size, length),
        };
        wound(random, &mut archive, case % 3 == 1, case % 5 == 2);
        let piece = random.pick(&[1_000, 65_536, 1 << 20]);
        let mut blocks = judge.there(&format!("to blocks, case {case}"), &archive, piece);
        wound(random, &mut blocks, case % 4 == 1, case % 7 == 3);
        judge.back(&format!("back, case {case}"), &blocks, piece);
    }
    println!(
        "the program: {CASES} archives to blocks and back, {} refused, no difference",
        judge.refused
    );
}
