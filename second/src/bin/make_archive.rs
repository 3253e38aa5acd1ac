//! Writes an archive, or what playback prints for it, to standard output.

use second::generate::{self, Size};
use second::options::Options;
use second::random::Random;
use second::{people, samples};
use std::io::{self, Write};
use std::process;

const USAGE: &str = "make_archive NAME [--text|--totals|--words]
       make_archive random [--seed N|random] [--bytes N] [--size tiny|small|mixed|large] [--text|--totals|--words]
  NAME      c12, cut, damaged, layout, longer or sequence, as in samples/
  --bytes   the least length
  --text    the text that playback prints, in place of the archive
  --totals  the same with --totals
  --words   what playback prints to standard error";

fn main() {
    let plain = ["--text", "--totals", "--words"];
    let options = Options::read(USAGE, &["--seed", "--bytes", "--size"], &plain);
    let archive = archive(&options);
    let said = |arguments: &[&str]| people::said(arguments, &archive).expect("a play");
    let bytes = match plain.map(|option| options.has(option)) {
        [false, false, false] => archive,
        [true, false, false] => said(&[]).output,
        [false, true, false] => said(&["--totals"]).output,
        [false, false, true] => said(&[]).errors,
        _ => options.misused(),
    };
    if let Err(error) = io::stdout().write_all(&bytes) {
        eprintln!("make_archive: {error}");
        process::exit(1)
    }
}

fn archive(options: &Options) -> Vec<u8> {
    let [name] = options.words() else {
        options.misused()
    };
    if name == "random" {
        return random(options);
    }
    samples::named(name).unwrap_or_else(|| options.misused())
}

fn random(options: &Options) -> Vec<u8> {
    let size = match options.text("--size") {
        Some("tiny") => Size::Tiny,
        None | Some("small") => Size::Small,
        Some("mixed") => Size::Mixed,
        Some("large") => Size::Large,
        Some(_) => options.misused(),
    };
    let random = &mut Random::new(options.seed("--seed", 1));
    generate::archive_of_length(random, size, options.number("--bytes", 10_000) as usize)
}
