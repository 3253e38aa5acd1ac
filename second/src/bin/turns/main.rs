//! Compares the proved turn-giver with the second implementation: runs of random marks and shares, and damaged lines.
//! Checks on each run what document 02's wish 12 promises; the first difference ends it.

mod judge;
mod watch;

use judge::Judge;
use second::options::Options;
use second::random::Random;
use second::turns::{Line, IDLE, LINES, SHARE, STATE};
use std::process;
use watch::Watch;

const USAGE: &str = "turns [--seed N|random] [--turns N]
  --turns  at least so many turns, by default 3000000";

/// Turns of one run, between which marks change.
const RUN: usize = 500;
/// Damaged cases for each run.
const DAMAGED: usize = 500;
/// Document 02: a line that waits is given a turn within so many.
const WITHIN: u64 = 57;

fn main() {
    let options = Options::read(USAGE, &["--seed", "--turns"], &[]).without_words();
    let seed = options.seed("--seed", 1);
    println!("seed {seed}");
    let mut judge = Judge::new(seed);
    let mut random = Random::new(seed);
    let mut longest = worst(&mut judge);
    while judge.total() < options.number("--turns", 3_000_000) {
        longest = longest.max(run(&mut judge, &mut random));
        for _ in 0..DAMAGED {
            damaged(&mut judge, &mut random);
        }
    }
    report(&judge, longest);
}

/// The run that needs 57 turns: line 7 has used its share, then all wait.
fn worst(judge: &mut Judge) -> u64 {
    let mut lines = [Line {
        share: 4,
        given: 0,
        waiting: 0,
    }; LINES];
    let mut watch = Watch::new(&lines);
    lines[7].waiting = 1;
    for _ in 0..4 {
        watch.turn(judge, &mut lines);
    }
    lines[7].waiting = 0;
    watch.marked(&lines);
    lines.iter_mut().for_each(|line| line.waiting = 1);
    for _ in 0..WITHIN {
        watch.turn(judge, &mut lines);
    }
    watch.longest
}

/// Random shares; before each turn some marks change. How often they do is drawn for each line, so some lines hardly ever rest.
fn run(judge: &mut Judge, random: &mut Random) -> u64 {
    let mut lines: [Line; LINES] = std::array::from_fn(|_| Line {
        share: 1 + random.below(4) as u8,
        given: 0,
        waiting: random.below(2) as u8,
    });
    let rests: [usize; LINES] = std::array::from_fn(|_| 1 << random.below(7));
    let mut watch = Watch::new(&lines);
    for _ in 0..RUN {
        for (line, rests) in lines.iter_mut().zip(rests) {
            line.waiting = match line.waiting {
                0 => u8::from(random.one_in(3)),
                _ => u8::from(!random.one_in(rests)),
            };
        }
        watch.turn(judge, &mut lines);
    }
    watch.longest
}

/// Any number of lines, most fields in range and some of any byte.
fn damaged(judge: &mut Judge, random: &mut Random) {
    let count = match random.one_in(4) {
        true => random.below(12),
        false => LINES,
    };
    let damage = 1 << random.below(8);
    let lines: Vec<Line> = (0..count)
        .map(|_| {
            let mut field = |range: usize| match random.one_in(damage) {
                true => random.byte(),
                false => random.below(range) as u8,
            };
            let share = field(4).wrapping_add(1);
            Line {
                share,
                given: field(usize::from(share) + 1),
                waiting: field(2),
            }
        })
        .collect();
    let line = random.number() as usize;
    judge.compare(&mut lines.clone(), line);
}

fn report(judge: &Judge, longest: u64) {
    println!("answers by number: {}", judge.answers);
    println!(
        "{} rounds begun, {} turns, no difference",
        judge.rounds,
        judge.total()
    );
    println!("a line that waited was given a turn within {longest} turns");
    let reached = [0, STATE, SHARE, IDLE]
        .iter()
        .all(|number| judge.answers.has(number));
    if !reached || judge.rounds == 0 || longest != WITHIN {
        eprintln!("turns: not everything was reached");
        process::exit(1)
    }
}
