//! The playback program, given an archive through a pipe or as a file.

use std::fs::File;
use std::io::{self, ErrorKind, Write};
use std::process::{Child, Command, Output, Stdio};
use std::thread;
use std::time::{Duration, Instant};

/// How an archive goes into a pipe.
pub const PIECES: [usize; 9] = [7, 16, 33, 1_000, 4_095, 4_096, 4_097, 65_537, 1_000_000];

/// What a run of the program prints.
#[derive(Clone, Debug, PartialEq, Eq)]
pub struct Said {
    pub output: Vec<u8>,
    /// Standard error.
    pub errors: Vec<u8>,
    /// Its exit status; the program itself has none, its front end has.
    pub status: i32,
}

/// What the program prints to standard output for the archive, which it gets in pieces.
pub fn printed(path: &str, archive: &[u8], piece: usize) -> io::Result<Vec<u8>> {
    piped(path, &[], archive, piece).map(|said| said.output)
}

/// What it says with these arguments to an archive that comes through a pipe in pieces.
pub fn piped(path: &str, arguments: &[&str], archive: &[u8], piece: usize) -> io::Result<Said> {
    let mut child = spawn(path, arguments, Stdio::piped())?;
    let pipe = child.stdin.take().expect("piped");
    thread::scope(|scope| {
        let feeding = scope.spawn(|| feed(pipe, archive, piece));
        let said = said(child)?;
        feeding.join().expect("does not panic")?;
        Ok(said)
    })
}

/// That each of these lists of arguments is answered by these words on standard error alone.
pub fn not_understood(path: &str, wrong: &[&[&str]], words: &str) -> io::Result<()> {
    for arguments in wrong {
        let said = piped(path, arguments, b"", 1)?;
        if !said.output.is_empty() || said.errors != words.as_bytes() {
            return Err(io::Error::other(format!("{arguments:?}: {said:?}")));
        }
    }
    Ok(())
}

/// What it says to a file, from where this handle stands on; the handle then stands where the program stopped reading.
pub fn read(path: &str, arguments: &[&str], file: &File) -> io::Result<Said> {
    said(spawn(path, arguments, file.try_clone()?.into())?)
}

/// What it says to standard error where its output goes to this file.
pub fn into(path: &str, arguments: &[&str], input: &File, output: File) -> io::Result<Said> {
    let child = Command::new(path)
        .args(arguments)
        .stdin(input.try_clone()?)
        .stdout(output)
        .stderr(Stdio::piped())
        .spawn()?;
    said(child)
}

/// The exit status where whoever reads the output goes away at once.
pub fn unread(path: &str, input: &File) -> io::Result<Option<i32>> {
    let mut child = Command::new(path)
        .stdin(input.try_clone()?)
        .stdout(Stdio::piped())
        .spawn()?;
    drop(child.stdout.take());
    child.wait().map(|status| status.code())
}

/// What it says to these bytes while the pipe stays open behind them; none if it has not ended in time.
pub fn held(
    path: &str,
    arguments: &[&str],
    bytes: &[u8],
    patience: Duration,
) -> io::Result<Option<Said>> {
    let mut child = spawn(path, arguments, Stdio::piped())?;
    let mut pipe = child.stdin.take().expect("piped");
    thread::scope(|scope| {
        let feeding = scope.spawn(|| feed(&mut pipe, bytes, bytes.len().max(1)));
        let in_time = ends(&mut child, patience)?;
        feeding.join().expect("does not panic")?;
        in_time.then(|| said(child)).transpose()
    })
}

/// Whether it ends by itself; if not in time it is killed.
fn ends(child: &mut Child, patience: Duration) -> io::Result<bool> {
    let start = Instant::now();
    while child.try_wait()?.is_none() {
        if start.elapsed() > patience {
            child.kill()?;
            return child.wait().map(|_| false);
        }
        thread::sleep(Duration::from_millis(1));
    }
    Ok(true)
}

fn spawn(path: &str, arguments: &[&str], input: Stdio) -> io::Result<Child> {
    Command::new(path)
        .args(arguments)
        .stdin(input)
        .stdout(Stdio::piped())
        .stderr(Stdio::piped())
        .spawn()
}

fn said(child: Child) -> io::Result<Said> {
    let Output {
        status,
        stdout,
        stderr,
    } = child.wait_with_output()?;
    match status.code() {
        Some(status) => Ok(Said {
            output: stdout,
            errors: stderr,
            status,
        }),
        None => Err(io::Error::other("ended by a signal")),
    }
}

/// Writes the archive in pieces; a program may end before it has read all.
fn feed(mut pipe: impl Write, archive: &[u8], piece: usize) -> io::Result<()> {
    for piece in archive.chunks(piece) {
        match pipe.write_all(piece) {
            Err(error) if error.kind() == ErrorKind::BrokenPipe => break,
            result => result?,
        }
        // lets the reader meet a pipe that holds one piece only
        thread::yield_now();
    }
    Ok(())
}
