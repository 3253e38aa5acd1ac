//! Drives the compiled server and the compiled stations through the C interface, call by call, in whole random lines:
//! together, and each with this implementation's other end; the first difference ends it.

mod cases;
mod judge;
mod line;
mod long;
mod messages;
mod runs;
mod states;
mod tally;

use judge::Judge;
use second::buffers::Difference;
use second::options::Options;
use std::panic;
use std::process;
use std::sync::atomic::{AtomicU64, Ordering};
use std::time::{Duration, Instant};

const USAGE: &str =
    "lines [--seed N|random] [--calls N] [--seconds N] [--long N] [--playback PROGRAM] [--show]
  --seed      of the first line; each next line's is one more
  --calls     at least so many calls of the library, 1000000 if nothing is said; with --seconds no end but the time's
  --seconds   stop after so long
  --long      calls of each line of eight stations that is run for long, 20000 if nothing is said
  --playback  their archives are played back by this program, and its text is compared
  --show      print each damaged case before it is made";

/// With so many calls everything must be reached.
const MANY: u64 = 300_000;
/// So many lines are run for long.
const LONG_LINES: u64 = 4;

/// Of the line under way, for a fault that cannot be shown as a difference.
static SEED: AtomicU64 = AtomicU64::new(0);

struct Settings {
    seed: u64,
    calls: u64,
    time: Duration,
    long: u64,
    playback: Option<String>,
    show: bool,
}

fn main() {
    let settings = settings();
    println!("seed {}", settings.seed);
    let start = Instant::now();
    let mut judge = Judge::new(settings.show);
    panic::set_hook(Box::new(|cause| {
        println!("FAULT, --seed {}: {cause}", SEED.load(Ordering::Relaxed));
        process::exit(1)
    }));
    settings.limits(&mut judge);
    settings.long_lines(&mut judge);
    settings.random_lines(start, &mut judge);
    print(&judge, start.elapsed().as_secs_f64());
}

fn settings() -> Settings {
    let options = Options::read(
        USAGE,
        &["--seed", "--calls", "--seconds", "--long", "--playback"],
        &["--show"],
    )
    .without_words();
    let timed = options.has("--seconds");
    Settings {
        seed: options.seed("--seed", 1),
        calls: options.number("--calls", if timed { u64::MAX } else { 1_000_000 }),
        time: Duration::from_secs(options.number("--seconds", u64::MAX)),
        long: options.number("--long", 20_000),
        playback: options.text("--playback").map(str::to_string),
        show: options.has("--show"),
    }
}

impl Settings {
    /// The damaged cases that do the most.
    fn limits(&self, judge: &mut Judge) {
        let agreed = states::limits(judge);
        agreed.unwrap_or_else(|difference| self.report(&difference, self.seed, ""));
    }

    fn long_lines(&self, judge: &mut Judge) {
        for seed in (0..LONG_LINES).map(|i| self.seed.wrapping_add(i)) {
            SEED.store(seed, Ordering::Relaxed);
            let agreed = long::run(seed, self.long as usize, self.playback.as_deref(), judge);
            agreed.unwrap_or_else(|difference| self.report(&difference, seed, ""));
        }
    }

    fn random_lines(&self, start: Instant, judge: &mut Judge) {
        let mut seed = self.seed;
        loop {
            SEED.store(seed, Ordering::Relaxed);
            if let Err(failed) = runs::run(seed, judge) {
                let script = failed.script(&mut Judge::new(false));
                self.report(&failed.difference, seed, &script);
            }
            if judge.tallies.calls() >= self.calls || start.elapsed() >= self.time {
                return;
            }
            seed = seed.wrapping_add(1);
        }
    }

    /// Reports a difference and ends the program.
    fn report(&self, difference: &Difference, seed: u64, script: &str) -> ! {
        let long = self.long;
        println!("DIFFERENCE, again by: lines --seed {seed} --long {long} --calls 1");
        println!("{}", difference.0);
        if !script.is_empty() {
            println!("the line's calls, shortened:\n{script}");
        }
        process::exit(1)
    }
}

fn print(judge: &Judge, seconds: f64) {
    let tallies = &judge.tallies;
    println!("{tallies}");
    let many = tallies.calls() >= MANY;
    if let Some(missing) = tallies.missing().filter(|_| many) {
        println!("not reached: {missing}");
        process::exit(1)
    }
    println!(
        "{} calls of the library on {} lines in {seconds:.1} s, no difference",
        tallies.calls(),
        tallies.counts.runs
    );
}
