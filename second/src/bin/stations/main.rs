//! Drives the compiled stations through the C interface, call by call, in whole random lines, beside this implementation's
//! own stations and with its server; the first difference ends it.

mod cases;
mod judge;
mod line;
mod messages;
mod runs;
mod states;
mod tally;

use judge::Judge;
use runs::Failed;
use second::options::Options;
use std::process;
use std::time::Instant;

const USAGE: &str = "stations [--seed N|random] [--calls N] [--show]
  --seed   of the first line; each next line's is one more
  --calls  at least so many calls of the compiled stations, 1000000 if nothing is said
  --show   print each call before it is made";

/// With so many calls everything must be reached.
const MANY: u64 = 200_000;

fn main() {
    let options = Options::read(USAGE, &["--seed", "--calls"], &["--show"]);
    let options = options.without_words();
    let first = options.seed("--seed", 1);
    let calls = options.number("--calls", 1_000_000);
    println!("seed {first}");
    let start = Instant::now();
    let mut judge = Judge::new(options.has("--show"));
    if let Err(failed) = runs::limits(&mut judge) {
        report(&failed, first);
    }
    let mut seed = first;
    loop {
        if let Err(failed) = runs::run(seed, &mut judge) {
            report(&failed, seed);
        }
        if judge.tallies.calls >= calls {
            break;
        }
        seed = seed.wrapping_add(1);
    }
    print(&judge, start.elapsed().as_secs_f64());
}

fn print(judge: &Judge, seconds: f64) {
    let tallies = &judge.tallies;
    println!("{tallies}");
    if let Some(missing) = tallies.missing().filter(|_| tallies.calls >= MANY) {
        println!("not reached: {missing}");
        process::exit(1)
    }
    println!(
        "{} calls on {} lines in {seconds:.1} s, no difference",
        tallies.calls, tallies.lines
    );
}

/// Reports a difference and ends the program.
fn report(failed: &Failed, seed: u64) -> ! {
    println!("DIFFERENCE, again by: stations --seed {seed} --calls 1");
    println!("{}", failed.difference.0);
    let script = failed.script(seed, &mut Judge::new(false));
    if !script.is_empty() {
        println!("the line's calls, shortened:\n{script}");
    }
    process::exit(1)
}
