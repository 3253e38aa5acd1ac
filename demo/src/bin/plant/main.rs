//! The plant's figures: a run of the line by a clock, and what a season comes to at its rate.

mod bottles;
mod figures;
mod run;
mod season;
mod settings;
mod times;

use run::Run;
use second::archive::Playback;
use second::ffi;
use second::numbers::OK;
use settings::Settings;
use std::process::ExitCode;
use times::Times;

fn main() -> ExitCode {
    match figures(&Settings::read()) {
        Ok(text) => {
            print!("{text}");
            ExitCode::SUCCESS
        }
        Err(what) => {
            eprintln!("plant: {what}");
            ExitCode::FAILURE
        }
    }
}

fn figures(settings: &Settings) -> Result<String, String> {
    let run = Run::of(settings)?;
    if run.left > 0 {
        return Err(format!(
            "{} bottles are left behind: they come faster than transactions end",
            run.left
        ));
    }
    agrees(&run)?;
    let mut tables = vec![
        figures::of_run(settings, &run),
        figures::of_season(settings, &run),
        figures::of_carriage(settings)?,
    ];
    if settings.timed {
        tables.push(figures::of_machine(settings, &Times::of(&run)));
    }
    Ok(tables.join("\n"))
}

/// Counters of the server, and of the archive played back, are what was counted.
fn agrees(run: &Run) -> Result<(), String> {
    let mut playback = Playback::FRESH;
    match ffi::archive_replay(run.archive(), &mut playback) {
        OK => (),
        number => return Err(format!("the archive is refused with {number}")),
    }
    if run.values() != run.counted || playback.values != run.counted {
        return Err(String::from("a counter is not what was counted"));
    }
    match u64::from(playback.last) == run.commits {
        true => Ok(()),
        false => Err(String::from("a commit is not in the archive")),
    }
}
