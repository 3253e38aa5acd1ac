//! Runs: a random line with damaged cases in between, lines at their limits, and a failing run made short.

use crate::cases::Cases;
use crate::judge::Judge;
use crate::line::Line;
use second::buffers::Difference;
use second::line::call::{kinds, script, Call};
use second::line::crossing::Crossing;
use second::line::scripts::{self, BEYOND};
use second::line::shorten::shorten;
use second::line::world::Reply;
use second::line::Kind;
use second::random::Random;

/// A failing run: where it differs, and the line's calls so far.
pub struct Failed {
    pub difference: Difference,
    calls: Vec<Call>,
    /// The last call of the line is the one that differs; else a damaged case behind it.
    on_the_line: bool,
}

/// A line under comparison and the calls made on it.
struct Run<'a> {
    line: Line,
    made: Vec<Call>,
    judge: &'a mut Judge,
}

impl Run<'_> {
    fn new(kinds: [Kind; 8], seed: u64, judge: &mut Judge) -> Result<Run<'_>, Failed> {
        judge.tallies.lines += 1;
        judge.seed(seed);
        let made = vec![Call::Fresh(kinds)];
        match Line::fresh(kinds, seed) {
            Ok(line) => Ok(Run { line, made, judge }),
            Err(difference) => Err(Failed {
                difference,
                calls: made,
                on_the_line: false,
            }),
        }
    }

    fn make(&mut self, call: Call) -> Result<Reply, Failed> {
        let reply = self.line.make(&call, self.judge);
        self.made.push(call);
        reply.map_err(|difference| self.failed(difference, true))
    }

    fn failed(&self, difference: Difference, on_the_line: bool) -> Failed {
        Failed {
            difference,
            calls: self.made.clone(),
            on_the_line,
        }
    }
}

/// The run of one seed.
pub fn run(seed: u64, judge: &mut Judge) -> Result<(), Failed> {
    let mut random = Random::new(seed ^ 0x0DD5_7A7E);
    let mut crossing = Crossing::new(seed, random.pick(&[60, 300, 300, 1_500]));
    let mut cases = Cases::new(random.number());
    let case_in_8 = random.pick(&[0, 2, 4, 6]);
    let mut run = Run::new(crossing.kinds, seed, judge)?;
    if let Some((last, latest)) = crossing.numbers {
        run.make(Call::Numbers(last, latest))?;
    }
    while let Some(call) = crossing.next(&run.line.world) {
        let reply = run.make(call.clone())?;
        crossing.saw(&call, &reply);
        while random.below(8) < case_in_8 {
            let case = cases.make(&run.line, &mut crossing, run.judge);
            case.map_err(|difference| run.failed(difference, false))?;
        }
    }
    Ok(())
}

/// Lines that hold the most: the longest commit of either kind, one read or write more, and every callback kept, done by each of the ends.
pub fn limits(judge: &mut Judge) -> Result<(), Failed> {
    for kinds in ["01010101", "10101010"] {
        let full = scripts::largest_transaction(kinds);
        for end in ["commit 0; purge 0 31", "abort 0; begin 0; read 0 255"] {
            let calls =
                format!("{full}{BEYOND}{end}; server 0; station 0; purge 0 31; begin 0; read 0 8");
            replay(&scripts::calls(&calls), 1, judge)?;
        }
    }
    for end in ["abort 0", "commit 0; server 0; station 0"] {
        let calls = format!("{}{end}", scripts::seven_kept());
        replay(&scripts::calls(&calls), 1, judge)?;
    }
    Ok(())
}

/// Calls made anew; the first one says the kinds.
fn replay(calls: &[Call], seed: u64, judge: &mut Judge) -> Result<(), Failed> {
    let mut run = Run::new(kinds(calls), seed, judge)?;
    for call in &calls[1..] {
        run.make(call.clone())?;
    }
    Ok(())
}

impl Failed {
    /// The line's calls that lead to the difference, as few as were found; a damaged case shows itself.
    pub fn script(&self, seed: u64, judge: &mut Judge) -> String {
        if !self.on_the_line {
            return String::new();
        }
        let head = &self.calls[..1];
        let fails = |rest: &[Call]| replay(&[head, rest].concat(), seed, judge).is_err();
        let rest = shorten(&self.calls[1..], fails);
        script(&[head, &rest].concat())
    }
}
