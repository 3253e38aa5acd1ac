//! Runs: a random line with damaged cases in between, drained at its end, and a failing run made short.

use crate::cases::Cases;
use crate::judge::Judge;
use crate::line::{Line, Told};
use second::buffers::Difference;
use second::line::call::{kinds, script, Call};
use second::line::crossing::Crossing;
use second::line::draining::Draining;
use second::line::shorten::shorten;
use second::random::Random;

/// A failing run: where it differs, and the line's calls, if the last of them is the one that differs.
pub struct Failed {
    pub difference: Difference,
    calls: Vec<Call>,
}

impl From<Difference> for Failed {
    fn from(difference: Difference) -> Failed {
        Failed {
            difference,
            calls: Vec::new(),
        }
    }
}

/// The run of one seed.
pub fn run(seed: u64, judge: &mut Judge) -> Result<(), Failed> {
    let mut random = Random::new(seed ^ 0x0DD5_7A7E);
    let mut crossing = Crossing::new(seed, random.pick(&[60, 300, 300, 1_500]));
    let mut cases = Cases::new(random.number());
    let case_in_8 = random.pick(&[0, 1, 2, 4]);
    judge.begin(seed);
    let mut line = Line::fresh(crossing.kinds)?;
    let mut made = vec![Call::Fresh(crossing.kinds)];
    let mut next = crossing
        .numbers
        .map(|(last, latest)| Call::Numbers(last, latest));
    while let Some(call) = next.or_else(|| crossing.next(&line.world)) {
        next = None;
        made.push(call);
        let call = &made[made.len() - 1];
        match line.make(call, &mut judge.tallies) {
            Ok(reply) => crossing.saw(call, &reply),
            Err(difference) => {
                let calls = made;
                return Err(Failed { difference, calls });
            }
        }
        while random.below(8) < case_in_8 {
            cases.make(&line, &mut crossing, judge)?;
        }
    }
    match drain(&mut line, &mut random, judge, &mut made) {
        Ok(()) => Ok(()),
        Err(difference) => {
            let calls = made;
            Err(Failed { difference, calls })
        }
    }
}

/// Owners begin nothing more; a line that took raw messages is left as it is.
fn drain(
    line: &mut Line,
    random: &mut Random,
    judge: &mut Judge,
    made: &mut Vec<Call>,
) -> Result<(), Difference> {
    if !line.honest() {
        return Ok(());
    }
    let tallies = &mut judge.tallies;
    let mut line = Told {
        line,
        tallies,
        made,
    };
    let mut draining = Draining::new(&mut line, random);
    draining.deliver_all()?;
    let drained = draining.end_all()?;
    line.tallies.counts.note_drained(&drained);
    Ok(())
}

/// Calls made anew; the first one says the kinds.
pub fn replay(calls: &[Call], judge: &mut Judge) -> Result<Line, Difference> {
    let mut line = Line::fresh(kinds(calls))?;
    for call in &calls[1..] {
        line.make(call, &mut judge.tallies)?;
    }
    Ok(line)
}

impl Failed {
    /// The line's calls that lead to the difference, as few as were found; a damaged case shows itself.
    pub fn script(&self, judge: &mut Judge) -> String {
        let Some((head, rest)) = self.calls.split_first() else {
            return String::new();
        };
        let with_head = |rest: &[Call]| [std::slice::from_ref(head), rest].concat();
        let rest = shorten(rest, |rest| replay(&with_head(rest), judge).is_err());
        script(&with_head(&rest))
    }
}
