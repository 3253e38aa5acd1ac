//! What document 02 promises of a run, counted from the answers and the marks alone.

use crate::judge::Judge;
use crate::WITHIN;
use second::turns::{Line, LINES};

pub struct Watch {
    /// Turns since the mark was set.
    waited: [u64; LINES],
    /// Turns given in the round under way.
    given: [u8; LINES],
    /// The most turns until a waiting line was given one.
    pub longest: u64,
}

impl Watch {
    pub fn new(lines: &[Line; LINES]) -> Watch {
        Watch {
            waited: [0; LINES],
            given: lines.map(|line| line.given),
            longest: 0,
        }
    }

    /// A mark that was cleared counts anew.
    pub fn marked(&mut self, lines: &[Line; LINES]) {
        for (waited, line) in self.waited.iter_mut().zip(lines) {
            if line.waiting == 0 {
                *waited = 0;
            }
        }
    }

    pub fn turn(&mut self, judge: &mut Judge, lines: &mut [Line; LINES]) {
        self.marked(lines);
        let ready = |i: usize| lines[i].waiting == 1 && self.given[i] < lines[i].share;
        let lowest = (0..LINES).find(|i| ready(*i));
        let first_waiting = lines.iter().position(|line| line.waiting == 1);
        let (number, line) = judge.compare(lines, 0);
        if number != 0 {
            if first_waiting.is_some() {
                judge.fault("refused though a line waits");
            }
            return;
        }
        if lowest.is_none() {
            self.given = [0; LINES];
        }
        if Some(line) != lowest.or(first_waiting) {
            judge.fault("not the lowest waiting line with share left");
        }
        self.given[line] += 1;
        if self.given[line] > lines[line].share {
            judge.fault("more than its share in a round");
        }
        self.count(judge, line, lines);
    }

    fn count(&mut self, judge: &Judge, line: usize, lines: &[Line; LINES]) {
        for (i, waited) in self.waited.iter_mut().enumerate() {
            *waited += u64::from(lines[i].waiting);
            if *waited > WITHIN {
                judge.fault("a line waits for more than 57 turns");
            }
        }
        self.longest = self.longest.max(self.waited[line]);
        self.waited[line] = 0;
    }
}
