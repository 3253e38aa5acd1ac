//! The playback program on archives, given through a pipe in pieces of odd sizes.

use crate::judge::{Judge, SIDES};
use second::archive::Playback;
use second::generate::{self, Size};
use second::program::{printed, PIECES};
use second::random::Random;
use second::record::{ENTRY, HEADER};
use second::show::{from_difference, hex};
use second::text;
use std::io;

pub struct Program<'a> {
    judge: &'a mut Judge,
    path: &'a str,
}

impl Program<'_> {
    pub fn new<'a>(judge: &'a mut Judge, path: &'a str) -> Program<'a> {
        Program { judge, path }
    }

    pub fn compare(&mut self, random: &mut Random) -> io::Result<()> {
        self.judge.begin(0, "playback program: small archives");
        self.small(random)?;
        self.judge.begin(0, "playback program: any archives");
        self.any(random)?;
        self.judge.begin(0, "playback program: over 2 MB");
        self.long(random)
    }

    /// Byte by byte: empty, well-formed, damaged, cut.
    fn small(&mut self, random: &mut Random) -> io::Result<()> {
        self.run(&[], 1)?;
        for _ in 0..40 {
            let count = 1 + random.below(4);
            let archive = fresh(random, Size::Tiny, count);
            self.run(&archive, 1)?;
            self.run(&damaged(random, &archive), 1)?;
            self.run(&archive[..random.below(archive.len())], 1)?;
        }
        Ok(())
    }

    fn any(&mut self, random: &mut Random) -> io::Result<()> {
        for _ in 0..60 {
            let count = 1 + random.below(100);
            let archive = fresh(random, Size::Mixed, count);
            let piece = random.pick(&PIECES);
            self.run(&archive, piece)?;
            self.run(&damaged(random, &archive), piece)?;
            self.run(&archive[..random.below(archive.len())], piece)?;
        }
        Ok(())
    }

    /// Longer than any buffer; near the end a record claims 65,535 reads and writes, and they are there or not.
    fn long(&mut self, random: &mut Random) -> io::Result<()> {
        let claimed = HEADER + ENTRY * 2 * usize::from(u16::MAX);
        for size in [Size::Small, Size::Large] {
            let archive = generate::archive_of_length(random, size, 2_200_000);
            self.run(&archive, random.pick(&PIECES[3..]))?;
            self.run(&archive[..archive.len() - 1], 65_536)?;
            for length in [
                HEADER,
                5_000,
                claimed - 1,
                claimed,
                claimed + 1,
                2 * claimed,
            ] {
                let mut claiming = archive.clone();
                claiming.extend([255; 4]);
                claiming.extend(random.bytes(length - 4));
                self.run(&claiming, random.pick(&PIECES[3..]))?;
            }
        }
        Ok(())
    }

    fn run(&mut self, archive: &[u8], piece: usize) -> io::Result<()> {
        self.judge.count();
        let printed = printed(self.path, archive, piece)?;
        let expected = text::playback(archive).into_bytes();
        if printed != expected {
            let call = format!("{}, pieces of {piece}", self.path);
            let call = format!("{call}\narchive: {}", hex(archive));
            let texts = from_difference([&expected, &printed]);
            self.judge.differ(&call, SIDES, texts);
        }
        Ok(())
    }
}

fn fresh(random: &mut Random, size: Size, count: usize) -> Vec<u8> {
    generate::archive(&generate::commits(random, &Playback::FRESH, size, count))
}

/// One byte changed.
fn damaged(random: &mut Random, archive: &[u8]) -> Vec<u8> {
    let mut archive = archive.to_vec();
    generate::change_a_bit(random, &mut archive);
    archive
}
