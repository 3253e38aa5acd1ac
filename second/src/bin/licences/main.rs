//! Compares the counting licence of the proved library, and the fees program, with the second implementation.

mod cases;
mod programs;

use cases::Case;
use second::ffi;
use second::licence;
use second::options::Options;
use second::random::Random;
use second::show::hex;
use second::tally::Run;
use std::fmt;
use std::process;

const USAGE: &str = "licences [--seed N|random] [--cases N] [--seconds N] [--fees PROGRAM]
  --cases    so many calls of the library
  --seconds  instead for so long
  --fees     compare the program's text too";
/// From so many cases on everything must have been reached.
const ENOUGH: u64 = 100_000;
/// What the two lent numbers hold before a call.
const NOISE: (i64, i64) = (0x5A5A_5A5A_5A5A_5A5A, -0x2B2B_2B2B_2B2B_2B2C);

fn main() {
    let options =
        Options::read(USAGE, &["--seed", "--cases", "--seconds", "--fees"], &[]).without_words();
    let seed = options.seed("--seed", 20_270_101);
    let mut judge = Judge(Run::new("licences", seed));
    let random = &mut Random::new(seed);
    let limit = options.limit(1_000_000);
    while limit.goes_on(judge.0.count) {
        for (case, what) in cases::round(random) {
            judge.call(&case, what);
        }
    }
    judge.0.print(ENOUGH, wanted());
    let compare = |program: &str| programs::compare(program, random);
    judge.0.program(options.text("--fees"), compare);
}

/// What was answered, and what else was reached.
#[derive(Clone, Debug, PartialEq, Eq, PartialOrd, Ord)]
enum Reached {
    Number(u32),
    Negative,
    Half,
    HighestFee,
    LowestFee,
    HighestSum,
    LowestSum,
    Steps16,
}

impl fmt::Display for Reached {
    fn fmt(&self, f: &mut fmt::Formatter<'_>) -> fmt::Result {
        match self {
            Reached::Number(number) => write!(f, "number {number}"),
            other => write!(f, "{other:?}"),
        }
    }
}

struct Judge(Run<Reached>);

impl Judge {
    fn call(&mut self, case: &Case, what: &'static str) {
        let second = licence::bill(&case.archive, &case.table, case.stretch, case.address);
        let one = licence::bill_one(&case.archive, &case.table, case.stretch, case.address);
        assert_eq!(second, one, "the second implementation's two ways");
        let (mut frames, mut fee) = NOISE;
        let number = ffi::licence::fee(
            &case.archive,
            &case.table,
            case.stretch,
            case.address,
            &mut frames,
            &mut fee,
        );
        let proved = (number, frames, fee);
        let expected = match second {
            Ok((frames, fee)) => (0, frames, fee),
            Err(number) => (number, NOISE.0, NOISE.1),
        };
        self.0.count += 1;
        if proved != expected {
            self.differ(case, what, expected, proved);
        }
        self.reach(case, expected);
    }

    fn differ(
        &self,
        case: &Case,
        what: &str,
        second: (u32, i64, i64),
        proved: (u32, i64, i64),
    ) -> ! {
        eprintln!(
            "licences: seed {}, case {}, {what}",
            self.0.seed, self.0.count
        );
        eprintln!("commits {:?}, address {}", case.stretch, case.address);
        eprintln!(
            "table: {}\narchive: {}",
            hex(&case.table),
            hex(&case.archive)
        );
        eprintln!("second {second:?}\nproved {proved:?}");
        process::exit(1)
    }

    fn reach(&mut self, case: &Case, (number, frames, fee): (u32, i64, i64)) {
        self.0.tally.count(Reached::Number(number));
        if number != 0 {
            return;
        }
        let mut reach = |reached, is| {
            if is {
                self.0.tally.count(reached);
            }
        };
        reach(Reached::Negative, fee < 0);
        reach(Reached::HighestFee, fee == i64::MAX);
        reach(Reached::LowestFee, fee == -i64::MAX);
        reach(Reached::HighestSum, frames == i64::MAX);
        reach(Reached::LowestSum, frames == -i64::MAX);
        reach(
            Reached::Steps16,
            case.table.len() == licence::STEP * licence::MOST_STEPS,
        );
        let steps = licence::tariff(&case.table).expect("accepted");
        let half = |n| licence::cost(&steps, n) % 100_000 == 50_000;
        reach(Reached::Half, half(u128::from(frames.unsigned_abs())));
    }
}

fn wanted() -> impl Iterator<Item = Reached> {
    use Reached::*;
    let others = [
        Negative, Half, HighestFee, LowestFee, HighestSum, LowestSum, Steps16,
    ];
    let numbers = [0, 5, 12, 13, 14, 17, 18].map(Number);
    numbers.into_iter().chain(others)
}
