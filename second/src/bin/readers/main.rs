//! Compares the two readers of an archive and the counts file's reader of the proved library with the second implementation, on
//! archives by chance, whole and damaged; and holds the counts reader to document 02's wish 8: archives that differ in hidden fields
//! alone look the same to it, and others do not.

mod judge;
mod pairs;

use judge::Judge;
use second::counts;
use second::generate::{self, Line, Size};
use second::options::Options;
use second::program::{piped, PIECES};
use second::random::Random;
use second::record::Record;
use std::io;
use std::process;

const USAGE: &str = "readers [--seed N|random] [--cases N] [--viewer PROGRAM]
  --cases   at least so many calls, by default 1000000
  --viewer  compare the program's text too";
/// Runs of the program.
const RUNS: usize = 400;

fn main() {
    let options = Options::read(USAGE, &["--seed", "--cases", "--viewer"], &[]).without_words();
    let seed = options.seed("--seed", 8);
    println!("seed {seed}");
    let mut judge = Judge::new(seed);
    let mut random = Random::new(seed);
    let cases = options.number("--cases", 1_000_000);
    while judge.calls < cases {
        let records = records(&mut random);
        let archive = generate::archive(&records);
        judge.archive(&mut random, &archive, records.len());
        let broken = damaged(&mut random, archive);
        judge.archive(&mut random, &broken, records.len());
        pairs::hidden(&mut judge, &mut random, &records);
        pairs::shown(&mut judge, &mut random, &records);
        let (file, _) = counts::file_of(&generate::archive(&records));
        judge.file(&mut random, &file);
        let broken = damaged(&mut random, file);
        judge.file(&mut random, &broken);
    }
    println!("answers by number: {}", judge.answers);
    println!(
        "{} calls, {} pairs that differ in hidden fields alone, {} that differ in a shown one, no difference",
        judge.calls, judge.hidden, judge.shown
    );
    if let Some(program) = options.text("--viewer") {
        if let Err(error) = programs(program, &mut random) {
            eprintln!("readers: {program}: {error}");
            process::exit(1)
        }
    }
    if [0, 1, 5, 12, 13, 14, 255]
        .iter()
        .any(|number| !judge.answers.has(number))
    {
        eprintln!("readers: not everything was reached");
        process::exit(1)
    }
}

/// The program's text, through pipes in pieces, of archives whole and damaged.
fn programs(program: &str, random: &mut Random) -> io::Result<()> {
    for run in 0..RUNS {
        let mut archive = generate::archive(&records(random));
        if run % 2 == 1 {
            archive = damaged(random, archive);
        }
        let asked = random.pick(&["--counts", "--service", "--counts-file"]);
        let said = piped(program, &[asked], &archive, random.pick(&PIECES))?;
        if (said.output, said.errors) != counts::viewed(&archive, asked) {
            return Err(io::Error::other(format!(
                "run {run}, {asked}: another text"
            )));
        }
    }
    println!("{RUNS} runs of the program, no difference");
    Ok(())
}

/// The records of a few commits of a fresh line.
fn records(random: &mut Random) -> Vec<Record> {
    let size = random.pick(&[Size::Tiny, Size::Small, Size::Tiny, Size::Mixed]);
    let mut line = Line::fresh();
    (0..random.below(9))
        .map(|_| line.commit(random, size))
        .collect()
}

/// Cut, with other bits, or with bytes behind it.
fn damaged(random: &mut Random, mut bytes: Vec<u8>) -> Vec<u8> {
    match random.below(3) {
        0 => bytes.truncate(random.below(bytes.len() + 1)),
        1 => {
            let more = random.below(20);
            bytes.extend(random.bytes(more));
        }
        _ => {
            for _ in 0..1 + random.below(3) {
                if !bytes.is_empty() {
                    generate::change_a_bit(random, &mut bytes);
                }
            }
        }
    }
    bytes
}
