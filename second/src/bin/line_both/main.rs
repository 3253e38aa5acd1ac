//! Gives two programs of the text protocol the same random and damaged scripts, and compares every reply with what this
//! implementation replies itself; the first difference ends it.

mod program;
mod script;

use program::Program;
use script::Script;
use second::line::counts::Counts;
use second::options::Options;
use std::process;
use std::time::{Duration, Instant};

const USAGE: &str = "line_both PROGRAM PROGRAM [--seed N|random] [--runs N] [--seconds N]
  --seed     of the first script; each next one's is one more
  --runs     how many scripts, 2000 if nothing is said; with --seconds no end but the time's
  --seconds  stop after so long";

/// With so many scripts everything must be reached.
const MANY: u64 = 1_000;

/// What the scripts reached.
#[derive(Default)]
struct Reached {
    counts: Counts,
    commands: u64,
    /// Commands that are none, or do not fit there.
    errors: u64,
    empty: u64,
}

fn main() {
    let options = Options::read(USAGE, &["--seed", "--runs", "--seconds"], &[]);
    let [first, second] = options.words() else {
        options.misused()
    };
    let mut programs = [first, second].map(|path| Program::start(path));
    let seed = options.seed("--seed", 1);
    let timed = options.has("--seconds");
    let runs = options.number("--runs", if timed { u64::MAX } else { 2_000 });
    let time = Duration::from_secs(options.number("--seconds", u64::MAX));
    let start = Instant::now();
    let mut reached = Reached::default();
    for run in 0..runs {
        if start.elapsed() >= time {
            break;
        }
        let script = Script::new(seed.wrapping_add(run), &mut reached);
        for program in &mut programs {
            compare(program, &script);
        }
    }
    print(&reached, start.elapsed().as_secs_f64());
}

fn compare(program: &mut Program, script: &Script) {
    let replies = program.replies(&script.commands);
    for (i, expected) in script.replies.iter().enumerate() {
        let given = replies.get(i).map_or("(it ended)", String::as_str);
        if given != expected {
            println!(
                "DIFFERENCE, again by: --seed {} --runs 1\n{} to command {}: {}\nexpected: {expected}\ngiven: {given}\nthe script so far:",
                script.seed, program.path, i + 1, script.commands[i]
            );
            println!("{}", script.commands[..=i].join("\n"));
            process::exit(1)
        }
    }
}

fn print(reached: &Reached, seconds: f64) {
    let Reached {
        counts,
        commands,
        errors,
        empty,
    } = reached;
    println!("{counts}\nmalformed or misplaced: {errors}, empty lines: {empty}");
    let missing = match (errors, empty) {
        (0, _) => Some(String::from("a malformed command")),
        (_, 0) => Some(String::from("an empty line")),
        _ => counts.missing(),
    };
    if let Some(missing) = missing.filter(|_| counts.runs >= MANY) {
        println!("not reached: {missing}");
        process::exit(1)
    }
    println!(
        "{commands} commands of {} scripts to each program in {seconds:.1} s, no difference",
        counts.runs
    );
}
