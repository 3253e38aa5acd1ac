//! The command line.

use crate::shift::PACE;
use crate::staff::{kinds_of, PANEL};
use crate::stretch::CALLS;
use crate::turns::{shares_of, Shares};
use second::line::sets::STATIONS;
use second::line::Kind;
use second::options::Options;
use std::process;

/// tools/demo shows it too, before anything is built.
const USAGE: &str = include_str!("../usage.txt").trim_ascii_end();

/// Frames, unless the command line says so.
const FRAMES: u64 = 200_000;

/// Options with a value.
const VALUES: [&str; 10] = [
    "--frames",
    "--seed",
    "--pace",
    "--kinds",
    "--shares",
    "--archive",
    "--playback",
    "--chart",
    "--chart-from",
    "--chart-calls",
];

pub struct Settings {
    pub frames: u64,
    pub seed: u64,
    pub pace: usize,
    /// Of the stations, where they are said.
    pub kinds: Option<[Kind; STATIONS]>,
    pub shares: Option<Shares>,
    /// The panel is driven by registers.
    pub window: bool,
    /// Locking heads write sets.
    pub sets: bool,
    pub archive: String,
    pub playback: String,
    pub chart: Option<Chart>,
}

pub struct Chart {
    pub path: String,
    pub from: Option<usize>,
    pub calls: usize,
}

impl Settings {
    /// The program's own; a wrong one ends it with its usage.
    pub fn read() -> Settings {
        let options =
            Options::read(USAGE, &VALUES, &["--window", "--sets", "--help"]).without_words();
        if options.has("--help") {
            println!("usage: {USAGE}");
            process::exit(0);
        }
        let text = |name: &str, default: &str| options.text(name).unwrap_or(default).to_string();
        Settings {
            frames: at_least_one(&options, "--frames", FRAMES),
            seed: options.seed("--seed", 1),
            pace: at_least_one(&options, "--pace", PACE as u64) as usize,
            kinds: kinds(&options),
            shares: shares(&options),
            window: options.has("--window"),
            sets: options.has("--sets"),
            archive: text("--archive", "target/demo/shift.archive"),
            playback: text("--playback", "target/bin/playback"),
            chart: chart(&options),
        }
    }
}

/// A panel behind a window is validating.
fn kinds(options: &Options) -> Option<[Kind; STATIONS]> {
    let text = options.text("--kinds")?;
    let wants = "wants eight digits of 0 to 2, station 6 with --window a 1";
    let kinds = kinds_of(text).filter(|kinds| !options.has("--window") || !kinds[PANEL].locks());
    Some(kinds.unwrap_or_else(|| options.unclear("--kinds", wants)))
}

fn shares(options: &Options) -> Option<Shares> {
    let text = options.text("--shares")?;
    Some(
        shares_of(text)
            .unwrap_or_else(|| options.unclear("--shares", "wants eight shares of 1 to 4")),
    )
}

fn chart(options: &Options) -> Option<Chart> {
    let Some(path) = options.text("--chart") else {
        for name in ["--chart-from", "--chart-calls"] {
            if options.has(name) {
                options.unclear(name, "wants --chart FILE too")
            }
        }
        return None;
    };
    let from = options.has("--chart-from");
    Some(Chart {
        path: path.to_string(),
        from: from.then(|| at_least_one(options, "--chart-from", 1) as usize),
        calls: at_least_one(options, "--chart-calls", CALLS as u64) as usize,
    })
}

fn at_least_one(options: &Options, name: &str, default: u64) -> u64 {
    match options.number(name, default) {
        0 => options.unclear(&format!("{name} 0"), "is too small: at least 1"),
        number => number,
    }
}

#[cfg(test)]
mod tests {
    use super::*;

    #[test]
    fn the_usage_names_options_and_defaults() {
        for name in VALUES.into_iter().chain(["--window", "--sets"]) {
            assert!(USAGE.contains(&format!("\n  {name} ")), "{name}");
        }
        assert!(USAGE.contains(&format!("frames to count, by default {FRAMES}\n")));
        assert!(USAGE.contains(&format!("turns to a frame, by default {PACE};")));
        assert!(USAGE.contains(&format!("how many calls it shows, by default {CALLS}\n")));
    }
}
