//! One call on both sides, compared.

use second::ffi::turns as proved;
use second::tally::Tally;
use second::turns::{self, Line};
use std::process;

/// Lines in front of and behind those lent, which no call may touch.
const GUARD: Line = Line {
    share: 0xA5,
    given: 0x5A,
    waiting: 0xC3,
};

pub struct Judge {
    seed: u64,
    total: u64,
    pub answers: Tally<u32>,
    /// Turns that began a round: a line's count fell.
    pub rounds: u64,
}

impl Judge {
    pub fn new(seed: u64) -> Judge {
        Judge {
            seed,
            total: 0,
            answers: Tally::default(),
            rounds: 0,
        }
    }

    pub fn total(&self) -> u64 {
        self.total
    }

    /// The number and the line that both answer; `line` is what is lent for it.
    pub fn compare(&mut self, lines: &mut [Line], line: usize) -> (u32, usize) {
        let before = lines.to_vec();
        let guarded = [&[GUARD], &before[..], &[GUARD]].concat();
        let [mut expected, mut given] = [(before.clone(), line), (guarded, line)];
        let number = turns::turn_next(&mut expected.0, &mut expected.1);
        let last = given.0.len() - 1;
        let answer = proved::turn_next(&mut given.0[1..last], &mut given.1);
        let wanted = [&[GUARD], &expected.0[..], &[GUARD]].concat();
        self.total += 1;
        if (answer, &given.0, given.1) != (number, &wanted, expected.1) {
            println!("lines {before:?}, line {line}");
            println!("second: {number}, line {}, {wanted:?}", expected.1);
            println!("proved: {answer}, line {}, {:?}", given.1, given.0);
            println!("DIFFERENT: turn {} of seed {}", self.total, self.seed);
            process::exit(1)
        }
        if number != 0 && (expected.0 != before || expected.1 != line) {
            self.fault("a refused turn changes something");
        }
        let fell = before
            .iter()
            .zip(&expected.0)
            .any(|(a, b)| b.given < a.given);
        self.rounds += u64::from(fell);
        self.answers.count(number);
        lines.copy_from_slice(&expected.0);
        (number, expected.1)
    }

    pub fn fault(&self, what: &str) -> ! {
        println!("FAULT: {what}, turn {} of seed {}", self.total, self.seed);
        process::exit(1)
    }
}
