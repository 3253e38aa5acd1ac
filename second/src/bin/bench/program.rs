//! The playback program on a file, against `cat` and the second implementation.

use crate::measure::{time, Times};
use second::text;
use std::fs::{self, File};
use std::io::{self, Write};
use std::process::{Command, Stdio};

/// Writes the archive to the file, times the program on it, and removes it.
pub fn playback(rounds: usize, archive: &[u8], program: &str, file: &str) -> io::Result<Times> {
    fs::write(file, archive)?;
    let times = measure(rounds, archive, program, file);
    fs::remove_file(file)?;
    times
}

fn measure(rounds: usize, archive: &[u8], program: &str, file: &str) -> io::Result<Times> {
    // it must do the work that is timed
    let printed = Command::new(program).stdin(File::open(file)?).output()?;
    if printed.stdout != text::playback(archive).as_bytes() {
        return Err(io::Error::other("the text differs"));
    }
    // each ran once, so a failure now is not foreseen
    run("cat", file)?;
    let again = "ran before";
    Ok(time(
        rounds,
        &|| (),
        [
            &mut || play_second(file).expect(again),
            &mut || run(program, file).expect(again),
            &mut || run("cat", file).expect(again),
        ],
    ))
}

/// The program reads the file and prints to /dev/null.
fn run(program: &str, file: &str) -> io::Result<()> {
    let mut child = Command::new(program)
        .stdin(File::open(file)?)
        .stdout(Stdio::null())
        .spawn()?;
    child.wait().map(drop)
}

/// The same work by the second implementation, which reads the whole file first.
fn play_second(file: &str) -> io::Result<()> {
    let text = text::playback(&fs::read(file)?);
    File::create("/dev/null")?.write_all(text.as_bytes())
}
