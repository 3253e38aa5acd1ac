//! Compares the proved library's blocks with the second implementation's; the first difference ends it.

mod cases;
mod judge;
mod program;

use judge::Judge;
use second::options::Options;
use second::random::Random;

const USAGE: &str = "blocks [--seed N|random] [--cases N] [--block PROGRAM]
  --cases   at least so many calls
  --block   compare the program too: archives to blocks and back, damaged ones among them";

fn main() {
    let options = Options::read(USAGE, &["--seed", "--cases", "--block"], &[]).without_words();
    let seed = options.seed("--seed", 1);
    let mut judge = Judge::new(seed);
    let mut random = Random::new(seed);
    let cases = options.number("--cases", 1_000_000);
    while judge.calls() < cases {
        cases::round(&mut judge, &mut random);
    }
    judge.report();
    if let Some(program) = options.text("--block") {
        program::compare(program, seed);
    }
}
