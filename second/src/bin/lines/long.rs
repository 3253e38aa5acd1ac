//! Lines of eight stations run for long: demand 3 on this implementation's line, the library beside it, and the archive
//! played back.

use crate::judge::Judge;
use crate::runs::replay;
use second::archive::Playback;
use second::buffers::{Agreed, Difference};
use second::line::crossing::Crossing;
use second::line::runs;
use second::{ffi, program, text};

pub fn run(seed: u64, calls: usize, program: Option<&str>, judge: &mut Judge) -> Agreed<()> {
    judge.begin(seed);
    let crossing = Crossing::of_eight(seed, calls);
    let claimed = runs::run_of(crossing, seed, &mut judge.tallies.long);
    let made = claimed.map_err(|failed| Difference::from(failed.failure))?;
    let line = replay(&made, judge)?;
    let archive = line.archive();
    let differs = |what: &str| Err(Difference(format!("seed {seed}, run for long: {what}")));
    if archive != line.world.archive.concat() || !line.owners_agree() {
        return differs("the archive, or what owners were told");
    }
    let mut second = Playback::FRESH;
    let mut proved = Playback::FRESH;
    let answers = (
        second.replay(&archive),
        ffi::archive_replay(&archive, &mut proved),
    );
    if answers != (Ok(()), 0) || second != proved {
        return differs("the archive's replay");
    }
    if second.values != *line.world.server.values() {
        return differs("what the archive leaves is not what the server has");
    }
    if let Some(path) = program {
        let printed = program::printed(path, &archive, 4_096);
        let printed = printed.unwrap_or_else(|error| panic!("{path}: {error}"));
        if printed != text::playback(&archive).into_bytes() {
            return differs("what the playback program prints");
        }
        judge.tallies.played += 1;
    }
    Ok(())
}
