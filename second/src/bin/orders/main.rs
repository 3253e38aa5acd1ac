//! Compares the comparison of two archives by the proved library, and the program for people, with the second implementation.

mod pairs;
mod programs;

use pairs::Pair;
use second::ffi;
use second::options::Options;
use second::order::{order, order_of_bytes, Order};
use second::random::Random;
use second::show::hex;
use second::tally::Run;
use std::fmt;
use std::process;

const USAGE: &str = "orders [--seed N|random] [--cases N] [--seconds N] [--compare PROGRAM]
  --cases    so many calls of the library
  --seconds  instead for so long
  --compare  compare the program's text too";
/// From so many cases on everything must have been reached.
const ENOUGH: u64 = 20_000;
/// What the two lent numbers hold before a call.
const NOISE: (u32, u32) = (0x5A5A_5A5A, 0x2B2B_2B2B);

fn main() {
    let options =
        Options::read(USAGE, &["--seed", "--cases", "--seconds", "--compare"], &[]).without_words();
    let seed = options.seed("--seed", 20_270_101);
    let mut judge = Judge(Run::new("orders", seed));
    let random = &mut Random::new(seed);
    let limit = options.limit(200_000);
    while limit.goes_on(judge.0.count) {
        for pair in pairs::round(random) {
            judge.call(&pair);
            judge.call(&pair.turned());
        }
    }
    judge.0.print(ENOUGH, wanted());
    let compare = |program: &str| programs::compare(program, random);
    judge.0.program(options.text("--compare"), compare);
}

/// What was answered, for which pairs, and the fields where they parted.
#[derive(Clone, Debug, PartialEq, Eq, PartialOrd, Ord)]
enum Reached {
    Number(u32),
    Order(u32),
    Field(&'static str),
}

impl fmt::Display for Reached {
    fn fmt(&self, f: &mut fmt::Formatter<'_>) -> fmt::Result {
        match self {
            Reached::Number(number) => write!(f, "number {number}"),
            Reached::Order(order) => write!(f, "order {order}"),
            Reached::Field(what) => write!(f, "parted by {what}"),
        }
    }
}

struct Judge(Run<Reached>);

impl Judge {
    fn call(&mut self, pair: &Pair) {
        let second = order(&pair.first, &pair.second);
        let bytes = order_of_bytes(&pair.first, &pair.second);
        assert_eq!(second, bytes, "the second implementation's two ways");
        let (mut order, mut commit) = NOISE;
        let number = ffi::order::compare(&pair.first, &pair.second, &mut order, &mut commit);
        let proved = (number, order, commit);
        let expected = match second {
            Ok(order) => (0, order.told().0, order.told().1),
            Err(refusal) => (refusal.number(), NOISE.0, NOISE.1),
        };
        self.0.count += 1;
        if proved != expected {
            eprintln!(
                "orders: seed {}, case {}, {}",
                self.0.seed, self.0.count, pair.what
            );
            eprintln!("first: {}\nsecond: {}", hex(&pair.first), hex(&pair.second));
            eprintln!("second {expected:?}\nproved {proved:?}");
            process::exit(1)
        }
        self.0.tally.count(Reached::Number(number));
        if let Ok(order) = second {
            self.0.tally.count(Reached::Order(order.told().0));
            if matches!(order, Order::Part(_)) {
                self.0.tally.count(Reached::Field(pair.what));
            }
        }
    }
}

fn wanted() -> impl Iterator<Item = Reached> {
    let numbers = [0, 5, 12, 13, 14].map(Reached::Number);
    let orders = [0, 1, 2, 3].map(Reached::Order);
    let fields = pairs::FIELDS.map(Reached::Field);
    numbers.into_iter().chain(orders).chain(fields)
}
