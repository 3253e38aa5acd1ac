//! One turn over eight lines: the second implementation, the proved library, a plain copy of the lines.

use crate::measure::{time, Times};
use second::ffi::turns as proved;
use second::random::Random;
use second::turns::{self, Line, LINES};
use std::hint::black_box;

/// Sets of eight lines in a timed turn, each given one turn.
pub const SETS: usize = 1024;

type Lines = [Line; LINES];

pub struct Bench {
    pub name: &'static str,
    sets: Vec<Lines>,
}

impl Bench {
    pub fn all(seed: u64) -> [Bench; 4] {
        let random = &mut Random::new(seed);
        let mut any = |_| {
            std::array::from_fn(|_| {
                let share = 1 + random.below(4) as u8;
                Line {
                    share,
                    given: random.below(usize::from(share) + 1) as u8,
                    waiting: random.below(2) as u8,
                }
            })
        };
        let random = (0..SETS).map(&mut any).collect();
        [
            Bench::new("any marks and counts", random),
            Bench::same("all wait, the first is given it", 4, 0, 1),
            Bench::same("all wait, a round begins", 4, 4, 1),
            Bench::same("no line waits, refused with 20", 4, 0, 0),
        ]
    }

    fn same(name: &'static str, share: u8, given: u8, waiting: u8) -> Bench {
        let line = Line {
            share,
            given,
            waiting,
        };
        Bench::new(name, vec![[line; LINES]; SETS])
    }

    /// Both do the same work.
    fn new(name: &'static str, sets: Vec<Lines>) -> Bench {
        for lines in &sets {
            let [mut second, mut proved] = [(*lines, 0), (*lines, 0)];
            let number = turns::turn_next(&mut second.0, &mut second.1);
            assert_eq!(
                number,
                proved::turn_next(&mut proved.0, &mut proved.1),
                "{name}"
            );
            assert_eq!(second, proved, "{name}");
        }
        Bench { name, sets }
    }

    pub fn time(&self, rounds: usize) -> Times {
        let [mut one, mut other, mut copy] = [(); 3].map(|()| self.sets.clone());
        let sum = |sets: &mut [Lines], turn: fn(&mut [Line], &mut usize) -> u32| {
            let mut line = 0;
            for lines in sets {
                black_box(turn(black_box(lines), &mut line));
            }
            black_box(line);
        };
        time(
            rounds,
            &|| (),
            [
                &mut || {
                    one.copy_from_slice(&self.sets);
                    sum(&mut one, second_turn)
                },
                &mut || {
                    other.copy_from_slice(&self.sets);
                    sum(&mut other, proved_turn)
                },
                &mut || {
                    copy.copy_from_slice(black_box(&self.sets));
                    black_box(&copy);
                },
            ],
        )
    }
}

/// One call on both sides, none inlined.
#[inline(never)]
fn second_turn(lines: &mut [Line], line: &mut usize) -> u32 {
    turns::turn_next(lines, line)
}

#[inline(never)]
fn proved_turn(lines: &mut [Line], line: &mut usize) -> u32 {
    proved::turn_next(lines, line)
}
