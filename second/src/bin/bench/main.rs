//! Times the proved library against the second implementation and a plain copy; prints a table for docs/PERFORMANCE.md.

mod blocks;
mod commits;
mod desk;
mod library;
mod measure;
mod program;
mod server;
mod stations;
mod turns;
mod works;

use blocks::PLACE;
use commits::{sqlite, COMMITS};
use measure::{nanoseconds, proved_over, rates, ratios, Job, Spread, Times};
use second::block::RECORDS;
use second::generate::{self, Size};
use second::line::server::state::LENGTH as SERVER_LENGTH;
use second::line::station::state::LENGTH;
use second::options::Options;
use second::random::Random;
use server::STEPS;
use stations::CALLS;
use std::process;
use turns::SETS;
use works::Work;

const USAGE: &str =
    "bench [--megabytes N] [--rounds N] [--seed N] [--gate] [--playback PROGRAM --file FILE]
       bench --stations [--rounds N] [--gate]
       bench --server [--mixed [--plain]] [--rounds N] [--seed N] [--gate]
       bench --commits [--rounds N] [--gate]
       bench --turns [--rounds N] [--seed N] [--gate]
       bench --blocks [--megabytes N] [--rounds N] [--seed N] [--gate]
  --gate      exit 1 if the proved library takes more than 1.3 times as long
  --playback  time the program too, on FILE, which is written anew and then removed
  --stations  time the calls of a station, not the archive
  --server    time the server's step
  --mixed     .. on the mixed line alone, as a profiler wants it
  --plain     .. without keeping stations and sets: the line of version 1.0.0
  --commits   time whole commits of counters, the server and eight stations in one process; SQLite too, where it is installed
  --turns     time the turn-giver
  --blocks    time blocks laid out by column";
const MEGABYTE: usize = 1_000_000;
const PLAYBACK_MEGABYTES: usize = 200;
/// Where the linker puts a loop is worth up to 30 %: only more than that is a fault.
const GATE: f64 = 1.3;
/// A turn of a station's calls is so short that a round has many.
const TURNS: usize = 40;

/// Turns of commits in a round.
const COMMIT_TURNS: usize = 10;

/// Steps of the mixed line, and the parts that are timed by themselves.
const MIXED: usize = 100_000;
const PARTS: usize = 10;

fn main() {
    let options = Options::read(
        USAGE,
        &["--megabytes", "--rounds", "--seed", "--playback", "--file"],
        &[
            "--gate",
            "--stations",
            "--server",
            "--mixed",
            "--plain",
            "--commits",
            "--turns",
            "--blocks",
        ],
    )
    .without_words();
    let bench = Bench {
        length: options.number("--megabytes", 64) as usize * MEGABYTE,
        rounds: options.number("--rounds", 15).max(1) as usize,
        seed: options.seed("--seed", 1),
    };
    let tables = ["--stations", "--server", "--commits", "--turns", "--blocks"];
    let asked: Vec<&str> = tables
        .into_iter()
        .filter(|name| options.has(name))
        .collect();
    let rows = match asked[..] {
        ["--stations"] => bench.stations(),
        ["--server"] if options.has("--mixed") => bench.mixed(options.has("--plain")),
        ["--server"] => bench.server(),
        ["--commits"] => bench.commits(),
        ["--turns"] => bench.turns(),
        ["--blocks"] => bench.blocks(),
        [] => bench.library(),
        _ => options.misused(),
    };
    if let Some(program) = options.text("--playback") {
        let file = options.text("--file").unwrap_or_else(|| options.misused());
        bench.playback(program, file);
    }
    if options.has("--gate") {
        gate(&rows);
    }
}

struct Bench {
    length: usize,
    rounds: usize,
    seed: u64,
}

/// One kind of work on one archive.
struct Row {
    work: &'static str,
    records: &'static str,
    megabytes: f64,
    times: Times,
}

/// What the gate looks at.
struct Timed {
    name: String,
    times: Times,
}

impl Bench {
    fn library(&self) -> Vec<Timed> {
        let small = self.rows("small, 1 to 3 each", Size::Small);
        let large = self.rows("large, 256 each", Size::Large);
        let rows: Vec<Row> = small.into_iter().chain(large).collect();
        self.print(&rows);
        rows.into_iter().map(Row::timed).collect()
    }

    fn blocks(&self) -> Vec<Timed> {
        println!(
            "Medians of {} rounds in one process, the three taking turns, seed {}.\n\
             Ratios are of times in the same round, below 1 where proved is faster; in brackets the middle half of them.\n\
             One call for each block of {RECORDS} records on both sides, none inlined, from one buffer to another; copy is that of\n\
             the bytes handed in. A look-up checks all of its block and gives the record at place {PLACE}.\n",
            self.rounds, self.seed
        );
        print_rates_head();
        let sizes = [
            ("small, 1 to 3 each", Size::Small),
            ("mixed", Size::Mixed),
            ("large, 256 each", Size::Large),
        ];
        let rows = sizes.map(|(records, size)| self.block_rows(records, size));
        rows.into_iter().flatten().map(Row::timed).collect()
    }

    fn block_rows(&self, records: &'static str, size: Size) -> [Row; 3] {
        let bench = blocks::Bench::new(self.seed, size, self.length, self.rounds);
        let megabytes = bench.length() as f64 / MEGABYTE as f64;
        [
            ("write", bench.write()),
            ("read", bench.read()),
            ("look up", bench.record()),
        ]
        .map(|(work, times)| {
            let row = Row {
                work,
                records,
                megabytes,
                times,
            };
            row.print();
            row
        })
    }

    fn rows(&self, records: &'static str, size: Size) -> [Row; 6] {
        let archive = self.archive(size, self.length);
        let megabytes = archive.len() as f64 / MEGABYTE as f64;
        let bench = library::Bench::new(archive, self.rounds);
        [
            ("check", bench.check()),
            ("replay", bench.replay()),
            ("licence", bench.licence()),
            ("compare", bench.compare()),
            ("counts", bench.counts()),
            ("writer", bench.write()),
        ]
        .map(|(work, times)| Row {
            work,
            records,
            megabytes,
            times,
        })
    }

    fn archive(&self, size: Size, length: usize) -> Vec<u8> {
        generate::archive_of_length(&mut Random::new(self.seed), size, length)
    }

    fn print(&self, rows: &[Row]) {
        println!(
            "Medians of {} rounds in one process, the three taking turns, seed {}.\n\
             Ratios are of times in the same round, below 1 where proved is faster; in brackets the middle half of them.\n\
             Check, counts and writer: one call for each record on both sides, none inlined. Replay and licence: one call.\n\
             Compare: one call for the archive and a copy of it; in place of the second implementation stand the library's replays of both.\n\
             Before each timed run the archive was copied once into the output buffer, so no page is met for the first time.\n",
            self.rounds, self.seed
        );
        print_rates_head();
        for row in rows {
            row.print();
        }
    }

    fn stations(&self) -> Vec<Timed> {
        let turns = TURNS * self.rounds;
        println!(
            "Medians of {turns} turns of {CALLS} calls in one process, the three taking turns, in nanoseconds a call.\n\
             Ratios are of times in the same round, below 1 where proved is faster; in brackets the middle half of them.\n\
             Each call has a state of its own, set up anew before the turn and not timed; copy is that of the {LENGTH} bytes.\n\
             Both sides check the state's bytes first: a refused begin does nothing else. The second implementation then works\n\
             on a struct with maps, and allocates each message: it is no measure of how fast Rust could be.\n",
        );
        let row = |work: &Work| row(work.name, CALLS, stations::Bench::new(work).time(turns));
        print_head("call");
        works::stations::works().iter().map(row).collect()
    }

    fn server(&self) -> Vec<Timed> {
        let turns = TURNS * self.rounds;
        println!(
            "Medians of {turns} turns of {STEPS} steps in one process, the three taking turns, in nanoseconds a step.\n\
             Ratios are of times in the same round, below 1 where proved is faster; in brackets the middle half of them.\n\
             Each step has a state of its own, set up anew before the turn and not timed; copy is that of the {SERVER_LENGTH} bytes.\n\
             Both sides check the state's bytes and the message first: a refused 6 does nothing else. The second implementation\n\
             then works on a struct, and allocates each message and record: it is no measure of how fast Rust could be.\n",
        );
        let time = |name: &str, work: &Work| row(name, STEPS, server::Bench::new(work).time(turns));
        print_head("step");
        let works = works::server::works();
        let rows = works.iter().map(|work| time(work.name, work)).collect();
        println!("\nA step that changes nothing, by the number of stations that wait for a 7:\n");
        print_head("waiters");
        for many in 0..=8 {
            time(&many.to_string(), &works::server::waiting(many));
        }
        self.mixed(false);
        rows
    }

    fn commits(&self) -> Vec<Timed> {
        let library = sqlite::Library::load();
        let turns = COMMIT_TURNS * self.rounds;
        print_commits_head(turns, library.as_ref());
        let row = |work: &commits::Work| commits_row(work, turns, library.as_ref());
        commits::works().iter().map(row).collect()
    }

    fn turns(&self) -> Vec<Timed> {
        let turns = TURNS * self.rounds;
        println!(
            "Medians of {turns} turns of {SETS} calls in one process, the three taking turns, in nanoseconds a call, seed {}.\n\
             Ratios are of times in the same round, below 1 where proved is faster; in brackets the middle half of them.\n\
             Each call has eight lines of its own, copied anew in the timed part; copy is that alone. None is inlined.\n",
            self.seed
        );
        print_head("turn");
        let benches = turns::Bench::all(self.seed);
        let time = |bench: &turns::Bench| row(bench.name, SETS, bench.time(turns));
        benches.iter().map(time).collect()
    }

    /// A line of eight stations: its steps in the order in which they came, in ten parts.
    fn mixed(&self, plain: bool) -> Vec<Timed> {
        let mixed = server::Mixed::new(self.seed, MIXED, plain);
        println!(
            "\nThe {MIXED} steps of a line of eight stations with {} commits, one behind the other on one core, seed {}; medians of {} rounds:\n",
            mixed.commits, self.seed, self.rounds
        );
        println!("| steps | second steps/s | proved steps/s | proved / second |");
        println!("|---|---|---|---|");
        let part = MIXED / PARTS;
        for (i, [second, proved]) in mixed.time(self.rounds, PARTS).iter().enumerate() {
            let rates = [second, proved].map(|times| part as f64 / Spread::of(times).median);
            println!(
                "| {} to {} | {:.0} | {:.0} | {} |",
                i * part + 1,
                (i + 1) * part,
                rates[0],
                rates[1],
                ratios(proved, second)
            );
        }
        Vec::new()
    }

    fn playback(&self, program: &str, file: &str) {
        let archive = self.archive(Size::Small, PLAYBACK_MEGABYTES * MEGABYTE);
        match program::playback(self.rounds, &archive, program, file) {
            Ok(times) => print_playback(&times),
            Err(error) => {
                eprintln!("bench: {program} on {file}: {error}");
                process::exit(2)
            }
        }
    }
}

impl Row {
    fn print(&self) {
        let [second, proved, copy] = rates(self.megabytes, &self.times);
        println!(
            "| {} | {} | {:.0} | {second:.0} | {proved:.0} | {copy:.0} | {} | {} |",
            self.work,
            self.records,
            self.megabytes,
            proved_over(&self.times, Job::Second),
            proved_over(&self.times, Job::Copy)
        );
    }

    fn timed(self) -> Timed {
        Timed {
            name: format!("{} of {}", self.work, self.records),
            times: self.times,
        }
    }
}

impl Timed {
    fn too_slow(&self) -> bool {
        proved_over(&self.times, Job::Second).median > GATE
    }
}

fn print_rates_head() {
    println!("| work | records | MB | second MB/s | proved MB/s | copy MB/s | proved / second | proved / copy |");
    println!("|---|---|---|---|---|---|---|---|");
}

fn print_head(what: &str) {
    println!("| {what} | second ns | proved ns | copy ns | proved / second |");
    println!("|---|---|---|---|---|");
}

/// Prints the row of one call.
fn row(name: &str, calls: usize, times: Times) -> Timed {
    let [second, proved, copy] = nanoseconds(calls, &times);
    let ratio = proved_over(&times, Job::Second);
    println!("| {name} | {second:.0} | {proved:.0} | {copy:.0} | {ratio} |");
    Timed {
        name: String::from(name),
        times,
    }
}

fn print_commits_head(turns: usize, library: Option<&sqlite::Library>) {
    println!(
        "Medians of {turns} turns of {COMMITS} commits in one process, the three taking turns, in nanoseconds a commit.\n\
         Ratios are of times in the same round, below 1 where proved is faster; in brackets the middle half of them.\n\
         A commit is begin, a read and a write of each counter and commit, with all messages both ways, at one of eight stations of\n\
         one kind after the other: the next begins when nothing is under way. Private counters are on a page of the station's own, hot\n\
         ones on a page of all eight. The second implementation checks the bytes of a state before each call, works on structs with\n\
         maps, and allocates each message: it is no measure of how fast Rust could be.",
    );
    match library {
        Some(library) => println!(
            "SQLite {}: in memory, one connection, prepared statements: BEGIN, SELECT and UPDATE of each counter, a row of the log, COMMIT.\n",
            library.version()
        ),
        None => println!("SQLite is not installed: apt-get install {}\n", sqlite::PACKAGE),
    }
    println!("| kind | counters | messages | second ns | proved ns | SQLite ns | proved / second | proved / SQLite |");
    println!("|---|---|---|---|---|---|---|---|");
}

/// Prints the row of one kind of commit.
fn commits_row(work: &commits::Work, turns: usize, library: Option<&sqlite::Library>) -> Timed {
    let commits::Timed { times, messages } = work.time(turns, library);
    let [second, proved, other] = nanoseconds(COMMITS, &times);
    let ratio = proved_over(&times, Job::Second);
    let (other, over_other) = match library {
        Some(_) => (
            format!("{other:.0}"),
            proved_over(&times, Job::Sqlite).to_string(),
        ),
        None => (String::from("-"), String::from("-")),
    };
    println!(
        "| {} | {} | {messages} | {second:.0} | {proved:.0} | {other} | {ratio} | {over_other} |",
        work.kind.name(),
        work.counters
    );
    Timed {
        name: work.name(),
        times,
    }
}

fn print_playback(times: &Times) {
    let [second, proved, copy] = rates(PLAYBACK_MEGABYTES as f64, times);
    println!(
        "\nPlayback program on a file of {PLAYBACK_MEGABYTES} MB, small records, in the page cache; all print to /dev/null.\n\
         `cat` reads the same file; the second implementation plays it in the benchmark's own process.\n\n\
         | second MB/s | playback MB/s | cat MB/s | playback / second | playback / cat |\n\
         |---|---|---|---|---|\n\
         | {second:.0} | {proved:.0} | {copy:.0} | {} | {} |",
        proved_over(times, Job::Second),
        proved_over(times, Job::Copy)
    );
}

/// Ends the program with 1 if the proved library is too slow somewhere.
fn gate(rows: &[Timed]) {
    let mut slow = rows.iter().filter(|row| row.too_slow()).peekable();
    if slow.peek().is_none() {
        return;
    }
    for row in slow {
        eprintln!("bench: {}: above {GATE}", row.name);
    }
    process::exit(1)
}
