//! The fees program's text, on tariff files and archives, whole and damaged, through pipes in pieces.

use crate::cases;
use second::generate::{self, Size};
use second::licence::{Step, MOST};
use second::people::fees;
use second::program::{not_understood, piped, Said, PIECES};
use second::random::Random;
use std::fs;
use std::io;
use std::process;

/// Runs of the program.
const RUNS: usize = 400;

pub fn compare(program: &str, random: &mut Random) -> io::Result<()> {
    let file = std::env::temp_dir().join(format!("licences-{}", process::id()));
    let path = file.to_str().expect("a name");
    let mut numbers = std::collections::BTreeMap::new();
    for run in 0..RUNS {
        let text = tariff_text(random, run);
        let archive = archive(random, run);
        let stretch = stretch(random, &archive);
        fs::write(path, &text)?;
        let words = [path, &stretch.0.to_string(), &stretch.1.to_string()];
        let said = piped(program, &words, &archive, random.pick(&PIECES))?;
        let expected = fees::fees(&text, stretch, &archive);
        if said != expected {
            fs::remove_file(path)?;
            return Err(io::Error::other(difference(
                run, &text, stretch, &said, &expected,
            )));
        }
        *numbers.entry(kind(&said)).or_insert(0) += 1;
    }
    fs::remove_file(path)?;
    others(program)?;
    println!("{RUNS} runs of the program, no difference: {numbers:?}");
    let all = [
        "refused 12",
        "refused 13",
        "refused 17",
        "refused 5",
        "refused 14",
        "total",
        "total refused",
    ];
    match all.iter().find(|one| !numbers.contains_key(**one)) {
        None => Ok(()),
        Some(one) => Err(io::Error::other(format!("not reached: {one}"))),
    }
}

/// The last line, without what varies.
fn kind(said: &Said) -> &'static str {
    let text = String::from_utf8_lossy(&said.output);
    let last = text.lines().last().unwrap_or("").to_owned();
    let names = [
        "total refused",
        "total",
        "refused 12",
        "refused 13",
        "refused 14",
        "refused 17",
        "refused 5",
    ];
    names
        .into_iter()
        .find(|name| last.starts_with(name))
        .unwrap_or("other")
}

fn difference(
    run: usize,
    tariff: &[u8],
    stretch: (u32, u32),
    said: &Said,
    expected: &Said,
) -> String {
    let text = String::from_utf8_lossy;
    format!(
        "run {run}, commits {stretch:?}\ntariff:\n{}\nsaid:\n{}{}\nexpected:\n{}{}",
        text(tariff),
        text(&said.output),
        text(&said.errors),
        text(&expected.output),
        text(&expected.errors)
    )
}

/// A tariff's lines, in half of the runs damaged.
fn tariff_text(random: &mut Random, run: usize) -> Vec<u8> {
    let many = 1 + random.below(16);
    let mut steps = cases::steps(random, many);
    let damage = if run % 2 == 0 { 0 } else { random.below(8) };
    match damage {
        1 => steps.push(Step {
            upper: MOST,
            price: 1,
        }),
        2 => steps.truncate(steps.len() - 1),
        3 => {
            steps = (0..17 + random.below(2) as u64)
                .map(|upper| Step { upper, price: 7 })
                .collect()
        }
        _ => {}
    }
    let line = |step: &Step| format!("{} {}\n", step.upper, step.price);
    let mut text: Vec<u8> = steps.iter().map(line).collect::<String>().into_bytes();
    match damage {
        4 => generate::change_a_bit(random, &mut text),
        5 => drop(text.pop()),
        6 => text.insert(random.below(text.len()), b'\n'),
        7 => {
            text = random
                .pick(&[
                    &b""[..],
                    b"\n",
                    b"5\n",
                    b" 5\n",
                    b"9223372036854775808 1\n",
                    b"9223372036854775807 4294967296\n",
                    b"0009223372036854775807 01",
                    b"9223372036854775807  1\n",
                    &[b'0'; 5_000],
                ])
                .to_vec()
        }
        _ => {}
    }
    text
}

/// Small archives with known counts, longer ones of any values, some damaged.
fn archive(random: &mut Random, run: usize) -> Vec<u8> {
    let count = random.below(40);
    let above = random.one_in(8);
    let mut archive = match run % 10 {
        0 => generate::archive_of_length(random, Size::Small, 3_000_000),
        1 => generate::archive_of_length(random, Size::Large, 2_000_000),
        _ => generate::archive(&cases::records(random, count, above)),
    };
    if random.one_in(4) && !archive.is_empty() {
        match random.below(3) {
            0 => archive.truncate(random.below(archive.len())),
            _ => generate::change_a_bit(random, &mut archive),
        }
    }
    archive
}

fn stretch(random: &mut Random, archive: &[u8]) -> (u32, u32) {
    let last = fees::commits(archive);
    let any = |random: &mut Random| match random.below(8) {
        0 => random.pick(&[0, 1, last, last.saturating_add(1), u32::MAX]),
        _ => 1 + random.below(last.max(1) as usize) as u32,
    };
    let (a, b) = (any(random), any(random));
    if random.one_in(10) {
        (a, b)
    } else {
        (a.min(b), a.max(b))
    }
}

/// Arguments that are not understood, `--help`, and a file that is not there.
fn others(program: &str) -> io::Result<()> {
    let unclear = "fees: the arguments are not understood; fees --help says which there are\n";
    let wrong: [&[&str]; 6] = [
        &[],
        &["x"],
        &["x", "1"],
        &["x", "1", "y"],
        &["x", "-1", "2"],
        &["x", "1", "2", "3"],
    ];
    not_understood(program, &wrong, unclear)?;
    let help = piped(program, &["--help"], b"", 1)?;
    let text = String::from_utf8_lossy(&help.output).into_owned();
    if !["TARIFF", "FIRST", "LAST", "--help", "total"]
        .iter()
        .all(|word| text.contains(word))
        || !help.errors.is_empty()
    {
        return Err(io::Error::other(format!("--help: {help:?}")));
    }
    let none = piped(program, &["/nonexistent", "1", "1"], b"", 1)?;
    if !none.output.is_empty() || !none.errors.starts_with(b"/nonexistent: ") {
        return Err(io::Error::other(format!("no tariff file: {none:?}")));
    }
    Ok(())
}
