//! The demo line: six camera heads, a panel, the shift office and the server, through the C interface.

use demo::alone::Alone;
use demo::archive;
use demo::progress::Progress;
use demo::report::{Played, Report};
use demo::settings::Settings;
use demo::shift::Shift;
use demo::staff::KINDS;
use demo::stretch::Stretch;
use demo::turns::Turns;
use std::fs::File;
use std::io::{self, Write};
use std::path::Path;
use std::process::ExitCode;

fn main() -> ExitCode {
    match run(&Settings::read()) {
        Ok(true) => ExitCode::SUCCESS,
        Ok(false) => ExitCode::FAILURE,
        Err(what) => {
            eprintln!("demo: {what}");
            ExitCode::FAILURE
        }
    }
}

/// True if everything agrees.
fn run(settings: &Settings) -> Result<bool, String> {
    check(settings)?;
    let chart = settings.chart.as_ref();
    let chart_file = chart.map(|chart| create(&chart.path)).transpose()?;
    let archive = create(&settings.archive)?;
    let begun = if settings.window {
        Shift::with_window
    } else {
        Shift::of
    };
    let kinds = settings.kinds.unwrap_or(KINDS);
    let mut shift = begun(kinds, settings.seed, settings.frames, archive);
    shift.pace = settings.pace;
    shift.turns = settings.shares.map(Turns::new);
    if settings.sets {
        shift.write_sets();
    }
    shift.stretch = chart.map(|chart| Stretch::new(shift.kinds, chart.from, chart.calls));
    work(&mut shift, settings)?;
    let played = played(&settings.archive, &settings.playback)?;
    let mut report = Report::of(&shift, &played);
    if settings.kinds.is_some() {
        report.kinds(&shift, &Alone::of_each_kind(settings.seed)?);
    }
    say(&report.text)?;
    if let (Some(chart), Some(file), Some(stretch)) = (chart, chart_file, &shift.stretch) {
        draw(stretch, settings.seed, &chart.path, file)?;
    }
    Ok(report.differences == 0)
}

/// What cannot be done at the end is better known before a long run.
fn check(settings: &Settings) -> Result<(), String> {
    let Settings {
        archive,
        playback,
        chart,
        ..
    } = settings;
    if !Path::new(playback).exists() {
        return Err(format!("there is no playback program {playback}"));
    }
    match chart {
        Some(chart) if chart.path == *archive => {
            Err(format!("{archive} cannot be archive and chart"))
        }
        _ => Ok(()),
    }
}

fn create(path: &str) -> Result<File, String> {
    File::create(path).map_err(|error| cannot("write", path, &error))
}

fn cannot(what: &str, path: &str, error: &io::Error) -> String {
    format!("cannot {what} {path}: {error}")
}

fn work(shift: &mut Shift<File>, settings: &Settings) -> Result<(), String> {
    let mut progress = Progress::begin(settings);
    while shift.turn()? {
        progress.turn(shift);
    }
    progress.finish(shift);
    Ok(())
}

fn played(archive: &str, program: &str) -> Result<Played, String> {
    let open = || File::open(archive).map_err(|error| cannot("read", archive, &error));
    let replayed = archive::play(open()?);
    let (playback, number) = replayed.map_err(|error| cannot("read", archive, &error))?;
    let printed = archive::printed(program, open()?);
    let printed = printed.map_err(|error| format!("{program}: {error}"))?;
    Ok(Played {
        playback,
        number,
        printed,
    })
}

fn say(text: &str) -> Result<(), String> {
    let written = io::stdout().write_all(text.as_bytes());
    written.map_err(|error| cannot("write", "to standard output", &error))
}

fn draw(stretch: &Stretch, seed: u64, path: &str, mut file: File) -> Result<(), String> {
    let drawn = stretch.draw(seed)?;
    let written = file.write_all(drawn.svg.as_bytes());
    written.map_err(|error| cannot("write", path, &error))?;
    let clashes = drawn.clashes;
    if clashes > 0 {
        eprintln!("demo: {clashes} labels of the chart lie on other text; fewer --chart-calls leave more room");
    }
    let (from, last) = stretch.drawn();
    say(&format!(
        "the chart {path} shows calls {from} to {last}; to there the second implementation answers alike\n"
    ))
}
