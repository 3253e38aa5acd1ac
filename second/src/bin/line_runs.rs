//! Random crossings on whole lines, each call checked, and demand 3 at the end of each.

use second::line::counts::Counts;
use second::line::hot::{self, Hot};
use second::line::keeps::{self, Place};
use second::line::neighbours::{self, Tally};
use second::line::rejects::{self, Habit};
use second::line::runs::{self, Failed};
use second::line::Kind;
use second::options::Options;
use std::panic;
use std::process;
use std::sync::atomic::{AtomicU64, Ordering};
use std::time::{Duration, Instant};

const USAGE: &str = "line_runs [--seed N|random] [--runs N] [--seconds N] [--calls N] [--hot | --neighbours | --rejects | --kinds]
  --seed     of the first run; each next run's is one more
  --runs     how many, 10000 if nothing is said; with --seconds no end but the time's
  --seconds  stop after so long
  --calls    calls of a run before it is drained, 300 if nothing is said
  --hot      instead, hot counters: how often the same station is beaten in a row, without and with kept ages;
             100 runs of 20000 calls if nothing is said
  --neighbours  instead, validating heads on neighbouring objects: aborts, messages and bytes for each commit, with versions
             of pages and of objects; as many runs and calls
  --rejects  instead, locking heads that touch three counters of one page: how often they lose, with a request for each counter
             and with one for the set; as many runs and calls
  --kinds    instead, heads of each kind on pages of their own and on shared ones: messages for each commit; as many runs and calls";

/// Of the run being made.
static SEED: AtomicU64 = AtomicU64::new(0);

struct Settings {
    seed: u64,
    runs: u64,
    time: Duration,
    calls: usize,
    figures: Option<fn(&Settings)>,
}

fn main() {
    let settings = settings();
    if let Some(figures) = settings.figures {
        return figures(&settings);
    }
    let start = Instant::now();
    let mut counts = Counts::default();
    panic::set_hook(Box::new(|cause| panicked(&cause.to_string())));
    for run in 0..settings.runs {
        if start.elapsed() >= settings.time {
            break;
        }
        let seed = settings.seed.wrapping_add(run);
        SEED.store(seed, Ordering::Relaxed);
        if let Err(failed) = runs::run(seed, settings.calls, &mut counts) {
            report(run, settings.calls, &failed);
            process::exit(1);
        }
    }
    let seconds = start.elapsed().as_secs_f64();
    let a_second = counts.runs as f64 / seconds;
    println!("{counts}\n{seconds:.1} s, {a_second:.0} runs a second");
}

fn settings() -> Settings {
    let options = Options::read(
        USAGE,
        &["--seed", "--runs", "--seconds", "--calls"],
        &["--hot", "--neighbours", "--rejects", "--kinds"],
    );
    let options = options.without_words();
    let timed = options.has("--seconds");
    let all: [(&str, fn(&Settings)); 4] = [
        ("--hot", hot_counters),
        ("--neighbours", neighbours),
        ("--rejects", rejected_bottles),
        ("--kinds", heads_of_kinds),
    ];
    let asked = all.into_iter().find(|(name, _)| options.has(name));
    let figures = asked.map(|(_, figures)| figures);
    let runs = match (timed, figures.is_some()) {
        (true, _) => u64::MAX,
        (_, true) => 100,
        _ => 10_000,
    };
    let calls = if figures.is_some() { 20_000 } else { 300 };
    Settings {
        seed: options.seed("--seed", 1),
        runs: options.number("--runs", runs),
        time: Duration::from_secs(options.number("--seconds", u64::MAX)),
        calls: options.number("--calls", calls) as usize,
        figures,
    }
}

/// So many runs, each by its seed; tells how many.
fn each_run(settings: &Settings, mut run: impl FnMut(u64)) -> u64 {
    let start = Instant::now();
    let mut runs = 0;
    while runs < settings.runs && start.elapsed() < settings.time {
        run(settings.seed.wrapping_add(runs));
        runs += 1;
    }
    runs
}

/// The same owners and the same chance under both rules.
fn hot_counters(settings: &Settings) {
    let [mut forgotten, mut kept] = [Hot::default(); 2];
    let runs = each_run(settings, |seed| {
        forgotten.join(hot::forgotten(seed, settings.calls));
        kept.join(hot::kept(seed, settings.calls));
    });
    println!("{runs} runs of {} calls", settings.calls);
    println!("without kept ages: {forgotten}");
    println!("with kept ages:    {kept}");
}

/// The same, of two heads and of eight.
fn neighbours(settings: &Settings) {
    for heads in [2, 8] {
        let mut by_page = Tally::default();
        let mut by_object = Tally::default();
        let runs = each_run(settings, |seed| {
            by_page.join(neighbours::by_page(heads, seed, settings.calls));
            by_object.join(neighbours::by_object(heads, seed, settings.calls));
        });
        println!("{heads} heads, {runs} runs of {} calls", settings.calls);
        println!("versions of pages:   {by_page}");
        println!("versions of objects: {by_object}");
    }
}

/// The same of two heads, four and eight, each with and without a set.
fn rejected_bottles(settings: &Settings) {
    for heads in [2, 4, 8] {
        for reads in [false, true] {
            let habit = |as_set: bool| rejects::Tally::of(Habit { reads, as_set });
            let [mut single, mut sets] = [false, true].map(habit);
            let runs = each_run(settings, |seed| {
                single.run(heads, seed, settings.calls);
                sets.run(heads, seed, settings.calls);
            });
            let first = if reads { "read first" } else { "not read" };
            let calls = settings.calls;
            println!("{heads} heads, {runs} runs of {calls} calls, counters {first}");
            println!("a request for each: {single}");
            println!("one for the set:    {sets}");
        }
    }
}

/// Heads of each kind, two and eight, alone and sharing.
fn heads_of_kinds(settings: &Settings) {
    let places = [
        ("alone", Place::Alone),
        ("one transaction in 16 anywhere", Place::Sharing(16)),
        ("one transaction in 4 anywhere", Place::Sharing(4)),
        ("anywhere", Place::Anywhere),
    ];
    for heads in [2, 8] {
        for (name, place) in places {
            println!("{heads} heads, {name}");
            for kind in Kind::ALL {
                let mut tally = keeps::Tally::of(kind, place, heads);
                each_run(settings, |seed| tally.run(seed, settings.calls));
                println!("{kind:?}: {tally}");
            }
        }
    }
}

/// A panic that unwinds is caught and shortened like any failure; one that aborts can only be named.
fn panicked(cause: &str) {
    if cfg!(panic = "abort") {
        println!("seed {}: {cause}", SEED.load(Ordering::Relaxed));
        process::exit(1);
    }
}

fn report(run: u64, calls: usize, failed: &Failed) {
    let Failed { seed, failure, .. } = failed;
    println!(
        "run {} failed: --seed {seed} --runs 1 --calls {calls}",
        run + 1
    );
    println!("check: {}\n{}", failure.check, failure.detail);
    let short = failed.shortened();
    println!("shortened: {}", short.failure.detail);
    print!("{}", short.script());
}
