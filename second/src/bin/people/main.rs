//! Gives the playback program whole and damaged archives with each argument, and compares what it prints, standard error
//! too, with the second implementation; the first difference ends it.

mod cases;
mod judge;
mod long;
mod tally;
mod wounds;

use cases::Case;
use judge::Judge;
use second::options::Options;
use second::random::Random;
use std::time::Instant;
use std::{fs, io, process};

const USAGE: &str =
    "people --playback PROGRAM [--statuses] [--seed N|random] [--cases N] [--keep FILE]
       people --playback PROGRAM --long BYTES
  --statuses  PROGRAM is the command with its exit statuses
  --seed   of the first case; each next case's is one more
  --cases  how many, 3000 if nothing is said
  --keep   write the archive of a difference there
  --long   measure memory and time on an archive of so many bytes";

/// With so many cases everything must be reached.
const MANY: u64 = 3_000;

fn main() {
    let with_value = ["--playback", "--seed", "--cases", "--keep", "--long"];
    let options = Options::read(USAGE, &with_value, &["--statuses"]).without_words();
    let path = options.text("--playback");
    let path = path.unwrap_or_else(|| options.misused());
    let outcome = match options.has("--long") {
        true => long::run(path, options.number("--long", 0) as usize),
        false => compare(path, &options),
    };
    match outcome {
        Ok(true) => {}
        Ok(false) => process::exit(1),
        Err(error) => {
            eprintln!("people: {path}: {error}");
            process::exit(2)
        }
    }
}

/// Whether there is no difference, and everything was reached.
fn compare(path: &str, options: &Options) -> io::Result<bool> {
    let (first, count) = (options.seed("--seed", 1), options.number("--cases", MANY));
    println!("seed {first}");
    let start = Instant::now();
    let mut judge = Judge::new(path, options.has("--statuses"))?;
    let failures = judge.unreadable();
    let failures = failures.and_then(|()| judge.unwritable());
    if let Err(difference) = failures.and_then(|()| judge.unread()) {
        println!("DIFFERENCE\n{difference}");
        return Ok(false);
    }
    let seeds = (0..count).map(|i| first.wrapping_add(i));
    let random = seeds.map(|seed| (seed, Case::random(&mut Random::new(seed))));
    let early = cases::early().into_iter().map(|case| (first, case));
    for (seed, case) in early.chain(random) {
        if let Err(difference) = judge.run(&case) {
            println!("DIFFERENCE, again by: --seed {seed} --cases 1");
            println!("{}\n{difference}", case.show());
            return keep(&case, options.text("--keep"));
        }
    }
    Ok(reached(&judge, count, start))
}

/// Prints what was reached; whether it was all.
fn reached(judge: &Judge, count: u64, start: Instant) -> bool {
    println!("{}", judge.tallies);
    let missing = judge.tallies.missing().filter(|_| count >= MANY);
    match &missing {
        Some(missing) => println!("not reached: {missing}"),
        None => {
            let seconds = start.elapsed().as_secs_f64();
            println!("{count} cases in {seconds:.1} s, no difference");
        }
    }
    missing.is_none()
}

/// A difference's archive, for a look at it by hand.
fn keep(case: &Case, file: Option<&str>) -> io::Result<bool> {
    file.map_or(Ok(()), |file| fs::write(file, &case.archive))?;
    Ok(false)
}
