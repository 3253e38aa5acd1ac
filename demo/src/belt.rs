//! The belt: frames that pass the heads, by chance from a seed.

use crate::counters::{self, Counts, FAULTS, FRAMES, HEADS, PASSED, REJECTED};
use second::random::Random;

/// One frame in so many has a fault.
const FAULTY: usize = 12;

pub struct Belt {
    frames: u64,
    passed: u64,
    random: Random,
}

/// What a head saw in one frame.
pub struct Frame {
    pub head: usize,
    fault: Option<usize>,
}

impl Belt {
    /// So many frames are to pass.
    pub fn new(seed: u64, frames: u64) -> Belt {
        Belt {
            frames,
            passed: 0,
            random: Random::new(seed),
        }
    }

    pub fn frames(&self) -> u64 {
        self.frames
    }

    pub fn passed(&self) -> u64 {
        self.passed
    }

    pub fn is_over(&self) -> bool {
        self.passed == self.frames
    }

    /// Hours of the shift that are over, of so many equal ones.
    pub fn hours(&self, hours: u64) -> u64 {
        (u128::from(self.passed) * u128::from(hours) / u128::from(self.frames)) as u64
    }

    /// The next frame; none when all have passed.
    pub fn next(&mut self) -> Option<Frame> {
        if self.is_over() {
            return None;
        }
        self.passed += 1;
        let head = self.random.below(HEADS);
        let faulty = self.random.one_in(FAULTY);
        let fault = faulty.then(|| self.random.below(FAULTS));
        Some(Frame { head, fault })
    }
}

impl Frame {
    /// Adds the frame to every counter that it belongs to.
    pub fn count(&self, counts: &mut Counts) {
        let rejected = self.fault.is_some();
        let verdict = if rejected { REJECTED } else { PASSED };
        let lane = counters::of_lane(counters::lane_of(self.head), rejected);
        let fault = self.fault.map(counters::of_fault);
        let always = [FRAMES, verdict, lane, counters::of_head(self.head)];
        for address in always.into_iter().chain(fault) {
            *counts.entry(address).or_default() += 1;
        }
    }
}

#[cfg(test)]
mod tests {
    use super::*;

    #[test]
    fn frames_are_counted_in_every_way() {
        let mut belt = Belt::new(7, 500);
        let mut counts = Counts::new();
        while let Some(frame) = belt.next() {
            frame.count(&mut counts);
            assert!(counters::add_up(&counts));
        }
        assert_eq!(counts[&FRAMES], 500);
        assert_eq!(counts.len(), counters::of_heads().count());
        assert_eq!((belt.passed(), belt.hours(8)), (500, 8));
    }
}
