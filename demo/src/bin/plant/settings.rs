//! The command line.

use crate::bottles::GATHERED;
use second::options::Options;
use std::process;

/// tools/plant shows it too, before anything is built.
const USAGE: &str = include_str!("usage.txt").trim_ascii_end();

const VALUES: [&str; 8] = [
    "--bottles",
    "--minutes",
    "--carriage",
    "--gather",
    "--seed",
    "--days",
    "--hours",
    "--seasons",
];

pub struct Settings {
    /// Bottles an hour.
    pub bottles: u64,
    pub minutes: u64,
    /// Microseconds.
    pub carriage: u64,
    /// Bottles in a transaction, at most.
    pub gather: u64,
    pub seed: u64,
    pub days: u64,
    pub hours: u64,
    pub seasons: u64,
    /// Times are measured too.
    pub timed: bool,
}

impl Settings {
    /// The program's own; a wrong one ends it with its usage.
    pub fn read() -> Settings {
        let options = Options::read(USAGE, &VALUES, &["--counts", "--help"]).without_words();
        if options.has("--help") {
            println!("usage: {USAGE}");
            process::exit(0);
        }
        Settings {
            bottles: within(&options, "--bottles", 72_000, 720_000),
            minutes: within(&options, "--minutes", 10, 24 * 60),
            carriage: within(&options, "--carriage", 1000, 1_000_000),
            gather: within(&options, "--gather", 1, GATHERED as u64),
            seed: options.seed("--seed", 1),
            days: within(&options, "--days", 365, 365),
            hours: within(&options, "--hours", 24, 24),
            seasons: within(&options, "--seasons", 30, 1000),
            timed: !options.has("--counts"),
        }
    }
}

/// 1 to `most`.
fn within(options: &Options, name: &str, default: u64, most: u64) -> u64 {
    match options.number(name, default) {
        number if (1..=most).contains(&number) => number,
        number => options.unclear(&format!("{name} {number}"), &format!("is not 1 to {most}")),
    }
}
