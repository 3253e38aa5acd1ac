//! Compares the proved library with the second implementation on many inputs; the first difference ends it.

mod archives;
mod judge;
mod programs;
mod records;

use judge::Judge;
use programs::Program;
use second::options::Options;
use second::random::Random;
use std::process;

const USAGE: &str = "compare [--seed N|random] [--cases N] [--playback PROGRAM]
  --cases     at least so many cases of the library
  --playback  compare the program's text too";

type Cases = fn(&mut Judge, &mut Random);

/// Tables that are run once.
const ONCE: [(&str, Cases); 2] = [
    ("check: sizes at their limits", records::sizes_at_limits),
    ("writer: counts at their limits", records::counts_at_limits),
];

/// Kinds of cases that each round has.
const KINDS: &[(&str, Cases)] = &[
    ("check: well-formed", records::check_well_formed),
    ("check: every byte changed", records::check_changed),
    ("check: larger, bytes changed", records::check_changed_large),
    ("check: cut at every length", records::check_cut),
    ("check: random bytes", records::check_random),
    ("check and writer: order broken", records::order_broken),
    ("writer: well-formed", records::write_well_formed),
    ("writer: every room", records::write_rooms),
    ("writer: fields at their limits", records::write_fields),
    ("writer: wrong counts", records::write_counts),
    ("writer: wrong lengths", records::write_lengths),
    ("writer: several faults", records::write_random),
    ("read: every position", archives::read_positions),
    ("read: records", archives::read_records),
    ("read: every byte changed", archives::read_changed),
    ("read: random bytes", archives::read_random),
    ("entry: near and outside", archives::entries),
    ("entry: far outside", archives::entries_far),
    ("replay: well-formed", archives::replay_well_formed),
    ("replay: another start", archives::replay_other_start),
    ("replay: every byte changed", archives::replay_changed),
    (
        "replay: larger, bytes changed",
        archives::replay_changed_large,
    ),
    ("replay: cut at every length", archives::replay_cut),
    ("replay: two faults", archives::replay_two_faults),
    ("replay: wrong read", archives::replay_wrong_read),
    ("replay: own write read", archives::replay_own_write),
    ("replay: wrong number", archives::replay_wrong_number),
    ("replay: random bytes", archives::replay_random),
    ("playback: record by record", archives::play_through),
];

fn main() {
    let options = Options::read(USAGE, &["--seed", "--cases", "--playback"], &[]).without_words();
    let seed = options.seed("--seed", 20_250_101);
    println!("seed {seed}");
    let mut judge = Judge::new(seed);
    library(&mut judge, seed, options.number("--cases", 10_000_000));
    if let Some(program) = options.text("--playback") {
        let outcome = Program::new(&mut judge, program).compare(&mut Random::new(seed));
        if let Err(error) = outcome {
            eprintln!("compare: {program}: {error}");
            process::exit(2)
        }
    }
    print(&judge);
}

fn library(judge: &mut Judge, seed: u64, cases: u64) {
    let random = &mut Random::new(seed);
    run(judge, random, 0, &ONCE);
    let mut round = 1;
    while judge.total() < cases {
        run(judge, random, round, KINDS);
        round += 1;
    }
}

fn run(judge: &mut Judge, random: &mut Random, round: u64, kinds: &[(&'static str, Cases)]) {
    for (kind, cases) in kinds {
        judge.begin(round, kind);
        cases(judge, random);
    }
}

fn print(judge: &Judge) {
    for (kind, count) in judge.counts() {
        println!("{count:>10}  {kind}");
    }
    let answers = judge.answers().iter();
    let answers: Vec<String> = answers.map(|(n, count)| format!("{n}: {count}")).collect();
    println!("answers by number: {}", answers.join(", "));
    println!("{} cases, no difference", judge.total());
}
