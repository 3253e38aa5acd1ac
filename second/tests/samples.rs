//! The files in `samples/` are what `make_archive` writes, and their texts are what playback prints.

use second::{people, samples};
use std::fs;
use std::path::{Path, PathBuf};

fn folder() -> PathBuf {
    Path::new(env!("CARGO_MANIFEST_DIR")).join("../samples")
}

fn file(name: &str) -> Vec<u8> {
    fs::read(folder().join(name)).unwrap_or_else(|error| panic!("{name}: {error}"))
}

/// A sample's closing line, and its words if it is refused.
fn closed(name: &str, closing: &str, words: Option<&str>) {
    let text = String::from_utf8(file(&format!("{name}.txt"))).expect("plain text");
    assert_eq!(text.lines().last(), Some(closing));
    let kept = folder().join(format!("{name}.words"));
    assert_eq!(fs::read_to_string(kept).ok().as_deref(), words);
}

#[test]
fn all_are_what_the_second_implementation_makes() {
    for name in samples::NAMES {
        let archive = file(&format!("{name}.archive"));
        assert_eq!(samples::named(name), Some(archive.clone()), "{name}");
        let said = people::said(&[], &archive).expect("a play");
        assert_eq!(file(&format!("{name}.txt")), said.output, "{name}");
        if !said.errors.is_empty() {
            assert_eq!(file(&format!("{name}.words")), said.errors, "{name}");
        }
    }
}

#[test]
fn every_archive_has_a_name() {
    let files = fs::read_dir(folder()).expect("the samples");
    let files = files.map(|file| file.expect("a sample").path());
    let archives = files.filter(|file| file.extension().is_some_and(|e| e == "archive"));
    for archive in archives {
        let name = archive.file_stem().and_then(|name| name.to_str());
        assert!(
            name.is_some_and(|name| samples::NAMES.contains(&name)),
            "{archive:?}"
        );
    }
}

#[test]
fn those_that_are_whole() {
    closed("c12", "end 2", None);
    closed("longer", "end 200", None);
}

#[test]
fn those_that_are_refused() {
    let cut = "playback: byte 54, in the record at byte 34: the archive ends here, 20 bytes into a record of 25\n";
    closed("cut", "refused 12 after 1", Some(cut));
    let layout =
        "playback: byte 46, in the record at byte 34: station 9, but stations are 0 to 7\n";
    closed("layout", "refused 5 after 1", Some(layout));
    let sequence = "playback: byte 63, in the record at byte 59: commit 5 behind commit 2, but commits are numbered 1, 2, 3 and on\n";
    closed("sequence", "refused 13 after 2", Some(sequence));
    let damaged = "playback: byte 77, in the record at byte 59: counter 8 is read as 2, but the records before leave 1\n";
    closed("damaged", "refused 14 after 2", Some(damaged));
}

#[test]
fn the_totals_of_one() {
    let totals = people::said(&["--totals"], &file("longer.archive")).expect("a play");
    assert_eq!(file("longer.totals"), totals.output);
}

#[test]
fn the_fees_are_as_written() {
    let file = |name: &str| fs::read(folder().join(name)).expect("a sample");
    let said = people::fees::fees(&file("steps.tariff"), (1, 3), &file("licence.archive"));
    assert_eq!(said.output, file("licence.fees"));
    assert!(said.errors.is_empty());
}
