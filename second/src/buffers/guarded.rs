//! One lent buffer between its guards, and the noise that it is filled with.

use crate::line::places::Place;
use crate::random::Random;
use std::fmt::LowerHex;
use std::ops::Range;

/// Elements before and behind a lent buffer that must stay as they are.
pub const GUARD: usize = 16;
/// Alignments that bytes are lent at.
const ALIGNMENTS: usize = 8;
/// Numbers of a stock; never more than some are lent.
const WORDS: usize = 4096;

/// One buffer; only what lies between the guards is lent.
#[derive(Default, PartialEq)]
pub struct Guarded<T> {
    all: Vec<T>,
    start: usize,
    length: usize,
}

impl<T: Copy + PartialEq + LowerHex> Guarded<T> {
    pub fn fill(&mut self, noise: &[T], start: usize, length: usize) {
        self.all.clear();
        self.all.extend_from_slice(&noise[..start + length + GUARD]);
        self.start = start;
        self.length = length;
    }

    pub fn copy(&mut self, other: &Guarded<T>) {
        self.fill(&other.all, other.start, other.length);
    }

    pub fn lent(&mut self) -> &mut [T] {
        &mut self.all[self.start..][..self.length]
    }

    pub fn seen(&self) -> &[T] {
        &self.all[self.start..][..self.length]
    }

    /// What stands there as given by another, where that is to be taken as right.
    pub fn take(&mut self, range: Range<usize>, other: &Guarded<T>) {
        self.lent()[range.clone()].copy_from_slice(&other.seen()[range]);
    }

    /// The first place that differs, as the caller counts it, and what stands there.
    pub fn difference(&self, name: &str, given: &Guarded<T>) -> Option<String> {
        self.difference_in(given, |at| format!("{name}, place {at}"))
    }

    fn difference_in(&self, given: &Guarded<T>, named: impl Fn(isize) -> String) -> Option<String> {
        let at = self.all.iter().zip(&given.all).position(|(a, b)| a != b)?;
        let (expected, given) = (self.all[at], given.all[at]);
        let place = at as isize - self.start as isize;
        let outside = match usize::try_from(place) {
            Ok(place) if place < self.length => String::new(),
            _ => format!(" OUTSIDE the {} lent", self.length),
        };
        let named = named(place);
        Some(format!(
            "{named}{outside}: {expected:x} expected, {given:x} given"
        ))
    }
}

impl Guarded<u8> {
    /// With the state's field.
    pub fn difference_of_state<F: Place>(&self, given: &Guarded<u8>) -> Option<String> {
        self.difference_in(given, |at| {
            let field = usize::try_from(at).ok().and_then(F::of);
            let field = field.map_or(String::new(), |field| format!(" ({field:?})"));
            format!("state, byte {at}{field}")
        })
    }
}

/// Fills buffers from a stock of noise: it is drawn once, and lent from a place by chance.
pub struct Stock {
    bytes: Vec<u8>,
    words: Vec<u64>,
    longest: usize,
}

impl Stock {
    /// For buffers of at most so many bytes.
    pub fn new(random: &mut Random, longest: usize) -> Stock {
        let length = 2 * (longest + ALIGNMENTS + 2 * GUARD);
        Stock {
            bytes: random.bytes(length),
            words: (0..WORDS).map(|_| random.number()).collect(),
            longest,
        }
    }

    pub fn fill_bytes(&self, buffer: &mut Guarded<u8>, length: usize, random: &mut Random) {
        let noise = &self.bytes[random.below(self.longest)..];
        buffer.fill(noise, GUARD + random.below(ALIGNMENTS), length);
    }

    pub fn fill_words(&self, buffer: &mut Guarded<u64>, length: usize, random: &mut Random) {
        let noise = &self.words[random.below(WORDS / 2)..];
        buffer.fill(noise, GUARD, length);
    }
}
