//! Check, replay, licence, compare, counts and writer over one archive: the second implementation, the proved library, a plain copy.

use crate::measure::{time, Times};
use second::archive::Playback;
use second::counts::HEADER;
use second::licence::{self, Step};
use second::record::{self, Header, View, ENTRY};
use second::{ffi, numbers};
use std::cell::RefCell;
use std::hint::black_box;

pub struct Bench {
    archive: Vec<u8>,
    /// As long as the archive, and written before the first round.
    out: RefCell<Vec<u8>>,
    rounds: usize,
}

impl Bench {
    pub fn new(archive: Vec<u8>, rounds: usize) -> Bench {
        let out = RefCell::new(archive.clone());
        Bench {
            archive,
            out,
            rounds,
        }
    }

    pub fn check(&self) -> Times {
        let records = views(&self.archive).len();
        let (mut second, mut proved) = (0, 0);
        let times = self.time(
            &mut || second = walk(black_box(&self.archive), check_second),
            &mut || proved = walk(black_box(&self.archive), ffi::record_check),
        );
        assert_eq!((second, proved), (records, records), "check: records");
        times
    }

    pub fn replay(&self) -> Times {
        let [mut second, mut proved] = [const { (numbers::END, Playback::FRESH) }; 2];
        let times = self.time(
            &mut || second = replay(black_box(&self.archive), numbers::archive_replay),
            &mut || proved = replay(black_box(&self.archive), ffi::archive_replay),
        );
        assert_eq!(second.0, numbers::OK, "replay: accepted");
        assert!(second == proved, "replay: results differ");
        times
    }

    /// Frames and fee of address 8 over the whole archive, in one pass on both sides.
    pub fn licence(&self) -> Times {
        let table = licence::table(
            &[(1_000_000, 250), (licence::MOST, 200)].map(|(upper, price)| Step { upper, price }),
        );
        let stretch = (1, views(&self.archive).len() as u32);
        let (mut second, mut proved) = (Err(0), Err(0));
        let times = self.time(
            &mut || second = licence_second(black_box(&self.archive), &table, stretch),
            &mut || proved = licence_proved(black_box(&self.archive), &table, stretch),
        );
        assert_eq!(second, proved, "licence: results differ");
        times
    }

    /// The archive and a copy of it: the library's own replays of both, and its comparison.
    pub fn compare(&self) -> Times {
        let other = self.archive.clone();
        let (mut plays, mut compared) = ([numbers::END; 2], (numbers::END, 9, 9));
        let times = self.time(
            &mut || {
                plays = [black_box(&self.archive), black_box(&other)]
                    .map(|archive| replay(archive, ffi::archive_replay).0)
            },
            &mut || compared = compare(black_box(&self.archive), black_box(&other)),
        );
        assert_eq!(plays, [numbers::OK; 2], "compare: accepted");
        assert_eq!(compared, (numbers::OK, 0, 0), "compare: the same");
        times
    }

    /// The counts file, a call for each record.
    pub fn counts(&self) -> Times {
        let (mut second, mut proved) = (0, 0);
        let times = self.time(
            &mut || {
                second = counts(
                    black_box(&self.archive),
                    &mut self.out.borrow_mut(),
                    counts_second,
                )
            },
            &mut || {
                proved = counts(
                    black_box(&self.archive),
                    &mut self.out.borrow_mut(),
                    ffi::counts::counts_record,
                )
            },
        );
        assert!(second == proved && second > 0, "counts: lengths differ");
        times
    }

    pub fn write(&self) -> Times {
        let views = views(&self.archive);
        self.assert_writes(&views, write_second);
        self.assert_writes(&views, ffi::record_write);
        self.time(
            &mut || write(black_box(&views), &mut self.out.borrow_mut(), write_second),
            &mut || {
                write(
                    black_box(&views),
                    &mut self.out.borrow_mut(),
                    ffi::record_write,
                )
            },
        )
    }

    fn assert_writes(&self, views: &[View], writer: impl Writer) {
        let mut out = self.out.borrow_mut();
        out.fill(0xA5);
        write(views, &mut out, writer);
        assert!(*out == self.archive, "writer: bytes differ");
    }

    fn time(&self, second: &mut dyn FnMut(), proved: &mut dyn FnMut()) -> Times {
        let mut copy = || plain_copy(black_box(&self.archive), &mut self.out.borrow_mut());
        let settle = || plain_copy(&self.archive, &mut self.out.borrow_mut());
        time(self.rounds, &settle, [second, proved, &mut copy])
    }
}

/// Number, order and commit.
#[inline(never)]
fn compare(first: &[u8], second: &[u8]) -> (u32, u32, u32) {
    let (mut order, mut commit) = (9, 9);
    let number = ffi::order::compare(first, second, &mut order, &mut commit);
    (number, order, commit)
}

/// The records of an accepted archive.
fn views(archive: &[u8]) -> Vec<View<'_>> {
    let mut views = Vec::new();
    let mut rest = archive;
    while let Ok(view) = View::first(rest) {
        views.push(view);
        rest = &rest[view.length()..];
    }
    views
}

#[inline(never)]
fn plain_copy(archive: &[u8], out: &mut [u8]) {
    out.copy_from_slice(archive);
}

/// Checks record behind record; how many were accepted.
#[inline(never)]
fn walk(archive: &[u8], check: impl Fn(&[u8]) -> u32) -> usize {
    let (mut rest, mut accepted) = (archive, 0);
    while let Some(length) = record::claimed_length(rest) {
        if check(rest) != numbers::OK {
            break;
        }
        rest = &rest[length..];
        accepted += 1;
    }
    accepted
}

/// Not inlined: one call for each record, as on the other side.
#[inline(never)]
fn check_second(bytes: &[u8]) -> u32 {
    numbers::record_check(bytes)
}

#[inline(never)]
fn replay(archive: &[u8], replay: impl Fn(&[u8], &mut Playback) -> u32) -> (u32, Playback) {
    let mut playback = Playback::FRESH;
    let answer = replay(archive, &mut playback);
    (answer, playback)
}

#[inline(never)]
fn licence_second(archive: &[u8], table: &[u8], stretch: (u32, u32)) -> Result<(i64, i64), u32> {
    licence::bill_one(archive, table, stretch, 8)
}

#[inline(never)]
fn licence_proved(archive: &[u8], table: &[u8], stretch: (u32, u32)) -> Result<(i64, i64), u32> {
    let (mut frames, mut fee) = (0, 0);
    match ffi::licence::fee(archive, table, stretch, 8, &mut frames, &mut fee) {
        numbers::OK => Ok((frames, fee)),
        number => Err(number),
    }
}

/// Writes the counts of record behind record; how many bytes they are.
#[inline(never)]
fn counts(
    archive: &[u8],
    out: &mut [u8],
    show: impl Fn(&[u8], &mut Playback, &mut [u8]) -> u32,
) -> usize {
    let mut playback = Playback::FRESH;
    let (mut rest, mut length) = (archive, 0);
    while let Some(claimed) = record::claimed_length(rest) {
        if show(rest, &mut playback, &mut out[length..]) != numbers::OK {
            break;
        }
        let writes = u16::from_le_bytes([out[length + 4], out[length + 5]]);
        length += HEADER + ENTRY * usize::from(writes);
        rest = &rest[claimed..];
    }
    length
}

/// Not inlined: one call for each record, as on the other side.
#[inline(never)]
fn counts_second(bytes: &[u8], playback: &mut Playback, out: &mut [u8]) -> u32 {
    second::counts::counts_record(bytes, playback, out)
}

trait Writer: Fn(&Header, &[u8], &[u8], &mut [u8]) -> u32 {}
impl<T: Fn(&Header, &[u8], &[u8], &mut [u8]) -> u32> Writer for T {}

/// Writes record behind record.
#[inline(never)]
fn write(views: &[View], mut out: &mut [u8], writer: impl Writer) {
    for view in views {
        if writer(&view.header, view.addresses, view.values, out) != numbers::OK {
            return;
        }
        out = &mut out[view.length()..];
    }
}

/// Not inlined: one call for each record, as on the other side.
#[inline(never)]
fn write_second(header: &Header, addresses: &[u8], values: &[u8], out: &mut [u8]) -> u32 {
    numbers::record_write(header, addresses, values, out)
}
