//! The text of the program that compares two archive files.

use crate::pairs;
use second::people::order;
use second::program::{not_understood, piped, Said};
use second::random::Random;
use std::collections::BTreeMap;
use std::fs;
use std::io;
use std::process;

/// Runs of the program.
const RUNS: usize = 400;

pub fn compare(program: &str, random: &mut Random) -> io::Result<()> {
    let name = |which| std::env::temp_dir().join(format!("orders-{}-{which}", process::id()));
    let files = [name("first"), name("second")];
    let words = files.each_ref().map(|file| file.to_str().expect("a name"));
    let result = runs(program, random, words);
    for file in &files {
        fs::remove_file(file)?;
    }
    println!("{RUNS} runs of the program, no difference: {:?}", result?);
    others(program)
}

fn runs(
    program: &str,
    random: &mut Random,
    words: [&str; 2],
) -> io::Result<BTreeMap<String, usize>> {
    let mut kinds = BTreeMap::new();
    for run in 0..RUNS {
        let pair = pairs::long(random, run);
        fs::write(words[0], &pair.first)?;
        fs::write(words[1], &pair.second)?;
        let mut said = piped(program, &words, b"", 1)?;
        let expected = order::compared(&pair.first, &pair.second);
        // the program itself has no exit status
        said.status = expected.status;
        if said != expected {
            return Err(io::Error::other(difference(run, &said, &expected)));
        }
        *kinds.entry(kind(&said)).or_insert(0) += 1;
    }
    Ok(kinds)
}

/// The first words of what is said.
fn kind(said: &Said) -> String {
    let text = String::from_utf8_lossy(&said.output);
    text.split_whitespace()
        .take(4)
        .collect::<Vec<_>>()
        .join(" ")
}

fn difference(run: usize, said: &Said, expected: &Said) -> String {
    let text = String::from_utf8_lossy;
    format!(
        "run {run}\nsaid:\n{}{}\nexpected:\n{}{}",
        text(&said.output),
        text(&said.errors),
        text(&expected.output),
        text(&expected.errors)
    )
}

/// Arguments that are not understood, `--help`, and a file that is not there.
fn others(program: &str) -> io::Result<()> {
    let unclear = "compare: two archives are wanted: compare FIRST SECOND; --help says more\n";
    let wrong: [&[&str]; 3] = [&[], &["x"], &["x", "y", "z"]];
    not_understood(program, &wrong, unclear)?;
    let help = piped(program, &["--help"], b"", 1)?;
    let text = String::from_utf8_lossy(&help.output).into_owned();
    if !text.contains("FIRST SECOND") || !help.errors.is_empty() {
        return Err(io::Error::other(format!("--help: {help:?}")));
    }
    let none = piped(program, &["/nonexistent", "/nonexistent"], b"", 1)?;
    if !none.output.is_empty() || !none.errors.starts_with(b"compare: /nonexistent: ") {
        return Err(io::Error::other(format!("no archive: {none:?}")));
    }
    Ok(())
}
