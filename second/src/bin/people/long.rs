//! A long archive: the program's memory stays small, and the table costs about what the lines do.

use crate::judge::nameless;
use second::generate::{self, Size};
use second::people;
use second::program;
use second::random::Random;
use std::fs::{self, File};
use std::io::{self, Seek, Write};
use std::process::{Child, Command, Stdio};
use std::thread;
use std::time::{Duration, Instant};

/// The most that may be resident, in kB.
const MOST: u64 = 16_000;
/// Times as long as without an argument: what a busy machine may do.
const SLOWEST: f64 = 1.3;
const ROUNDS: usize = 5;

/// Seconds of the fastest round, and the most memory of all.
struct Measured {
    seconds: f64,
    resident: u64,
}

/// Prints a table; answers whether memory and times are as they should be.
pub fn run(path: &str, length: usize) -> io::Result<bool> {
    let archive = generate::archive_of_length(&mut Random::new(1), Size::Small, length);
    let mut file = nameless()?;
    file.write_all(&archive)?;
    let megabytes = archive.len() as f64 / 1e6;
    println!(
        "{megabytes:.0} MB, small records, the fastest of {ROUNDS} rounds; output to /dev/null\n"
    );
    println!("| command | MB/s | time, of that without | most resident, kB |\n|---|---|---|---|");
    let last = people::Play::whole(&archive).playback.last.to_string();
    let mut rows = Vec::new();
    for arguments in [
        &[][..],
        &["--totals"],
        &["--at", &last],
        &["--counter", "8"],
        &["--csv"],
    ] {
        answers(path, arguments, &file, &archive)?;
        rows.push(measure(path, arguments, &file)?);
        let (row, without) = (&rows[rows.len() - 1], rows[0].seconds);
        let (rate, times) = (megabytes / row.seconds, row.seconds / without);
        let command = [&["playback"], arguments].concat().join(" ");
        println!(
            "| `{command}` | {rate:.0} | {times:.2} | {} |",
            row.resident
        );
    }
    Ok(are_fit(&rows))
}

fn are_fit(rows: &[Measured]) -> bool {
    let small = rows.iter().all(|row| row.resident <= MOST);
    let quick = rows
        .iter()
        .all(|row| row.seconds <= SLOWEST * rows[0].seconds);
    if !(small && quick) {
        println!("\nmore than {MOST} kB, or more than {SLOWEST} times as long");
    }
    small && quick
}

/// It must do the work that is timed.
fn answers(path: &str, arguments: &[&str], mut file: &File, archive: &[u8]) -> io::Result<()> {
    file.rewind()?;
    let said = program::read(path, arguments, file)?;
    let expected = people::said(arguments, archive).expect("a play");
    match said.output == expected.output && said.errors == expected.errors {
        true => Ok(()),
        false => Err(io::Error::other("the text differs")),
    }
}

fn measure(path: &str, arguments: &[&str], mut file: &File) -> io::Result<Measured> {
    let mut best = Measured {
        seconds: f64::INFINITY,
        resident: 0,
    };
    for _ in 0..ROUNDS {
        file.rewind()?;
        let start = Instant::now();
        let mut child = Command::new(path)
            .args(arguments)
            .stdin(file.try_clone()?)
            .stdout(Stdio::null())
            .spawn()?;
        let resident = watch(&mut child)?;
        best.seconds = best.seconds.min(start.elapsed().as_secs_f64());
        best.resident = best.resident.max(resident);
    }
    Ok(best)
}

/// Waits for the program's end; the most that was resident, in kB.
fn watch(child: &mut Child) -> io::Result<u64> {
    let status = format!("/proc/{}/status", child.id());
    let mut most = 0;
    while child.try_wait()?.is_none() {
        most = most.max(resident(&fs::read_to_string(&status)?));
        thread::sleep(Duration::from_millis(1));
    }
    match most {
        0 => Err(io::Error::other("ended before its memory was seen")),
        _ => Ok(most),
    }
}

/// A process that has just ended has no such line.
fn resident(status: &str) -> u64 {
    let line = status.lines().find_map(|line| line.strip_prefix("VmHWM:"));
    let number = line.and_then(|line| line.split_whitespace().next());
    number.and_then(|number| number.parse().ok()).unwrap_or(0)
}
