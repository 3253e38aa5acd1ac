//! Compares the proved register window with the second implementation's, access by access and byte by byte: in whole
//! random lines each validating station is driven through a window, and must do what its owner's own calls do; in
//! between, accesses that no controller should make. The first difference ends it.

mod behind;
mod cases;
mod judge;
mod line;

use judge::Judge;
use second::line::crossing::Crossing;
use second::line::Kind;
use second::options::Options;
use second::random::Random;
use std::process;

const USAGE: &str = "windows [--seed N|random] [--accesses N]
  --seed      of the first line; each next line's is one more
  --accesses  at least so many accesses, 1000000 if nothing is said";

/// With so many accesses everything must be reached.
const MANY: u64 = 200_000;

fn main() {
    let options = Options::read(USAGE, &["--seed", "--accesses"], &[]).without_words();
    let first = options.seed("--seed", 1);
    let accesses = options.number("--accesses", 1_000_000);
    println!("seed {first}");
    let mut judge = Judge::new(first);
    let mut seed = first;
    while judge.accesses < accesses {
        run(seed, &mut judge);
        seed = seed.wrapping_add(1);
    }
    judge.print();
    if let Some(missing) = judge.missing().filter(|_| judge.accesses >= MANY) {
        println!("not reached: {missing}");
        process::exit(1)
    }
    println!(
        "{} accesses on {} lines, no difference",
        judge.accesses,
        seed - first
    );
}

/// The run of one seed.
fn run(seed: u64, judge: &mut Judge) {
    let mut random = Random::new(seed ^ 0x0DD5_7A7E);
    let mut crossing = Crossing::new(seed, random.pick(&[60, 300, 300, 1_500]));
    // a line of locking stations alone has no window
    crossing.kinds[random.below(crossing.kinds.len())] = Kind::Validating;
    judge.begin(seed);
    let mut line = line::Line::fresh(crossing.kinds, random.number());
    while let Some(call) = crossing.next(&line.world) {
        let reply = line.make(&call, judge);
        crossing.saw(&call, &reply);
        for _ in 0..random.below(4) {
            cases::make(&mut random, &mut line, &mut crossing, judge);
        }
    }
}
