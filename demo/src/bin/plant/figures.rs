//! The tables.

use crate::bottles::{COUNTERS, GATHERED};
use crate::run::{Run, KINDS, SECOND};
use crate::season::{Season, NUMBERS};
use crate::settings::Settings;
use crate::times::Times;
use second::line::sets::ADDRESSES;
use second::line::{Kind, LIMIT, LONGEST};

/// Microseconds that a message is under way.
const CARRIAGES: [u64; 5] = [100, 1000, 2000, 3000, 5000];

/// What the run was, and what it came to.
pub fn of_run(settings: &Settings, run: &Run) -> String {
    let rows = [inputs(settings, run), outcome(run)].concat();
    table(["the run", ""].map(String::from), &rows)
}

fn inputs(settings: &Settings, run: &Run) -> Vec<[String; 2]> {
    let (bottles, minutes) = (grouped(run.took.len() as u64), settings.minutes);
    let hourly = grouped(settings.bottles);
    let locking = KINDS.iter().filter(|kind| **kind == Kind::Locking).count();
    let validating = KINDS.len() - locking;
    vec![
        row(
            "bottles",
            format!("{bottles} in {minutes} minutes, {hourly} an hour"),
        ),
        row(
            "stations",
            format!("{locking} locking, {validating} validating"),
        ),
        row(
            "a bottle adds to",
            format!("{COUNTERS} of the {ADDRESSES} counters"),
        ),
        row("a message is under way for", duration(settings.carriage)),
    ]
}

fn outcome(run: &Run) -> Vec<[String; 2]> {
    let again = [1, 2, 3].map(|cause| grouped(run.aborts[cause]));
    let messages = [run.taken.len() as u64, run.sent_down];
    let [up, down] = messages.map(|all| decimal(run.each(all)));
    vec![
        row("commits", grouped(run.commits)),
        row("begun again for causes 1, 2, 3", again.join(", ")),
        row("messages for a commit", format!("{up} up, {down} down")),
        row("bytes of archive for a commit", decimal(run.bytes())),
    ]
}

/// What a season comes to at that rate.
pub fn of_season(settings: &Settings, run: &Run) -> String {
    let season = Season::of(settings, run.commits as f64 / run.took.len() as f64);
    let Settings {
        days,
        hours,
        seasons,
        ..
    } = *settings;
    let heading = [
        format!("at {} transactions a second", decimal(season.rate)),
        format!("a season: {days} days of {hours} hours"),
        format!("{seasons} seasons"),
    ];
    let rows = [sizes(&season, seasons, run), numbers(&season, run)].concat();
    table(heading, &rows)
}

fn sizes(season: &Season, seasons: u64, run: &Run) -> Vec<[String; 3]> {
    let sums = |what: &str, each: f64| {
        let sum = season.sum(each);
        [String::from(what), size(sum), size(sum * seasons as f64)]
    };
    let most = format!(
        "the most that they can be, {LONGEST} for a commit of {LIMIT} reads and {LIMIT} writes"
    );
    let all = grouped(season.commits * seasons);
    vec![
        [String::from("commits"), grouped(season.commits), all],
        sums("bytes of archive", run.bytes()),
        sums(&most, LONGEST as f64),
    ]
}

fn numbers(season: &Season, run: &Run) -> Vec<[String; 3]> {
    let all = grouped(NUMBERS);
    let used = |what: String, each: f64| {
        let share = percent(season.of_numbers(each));
        [what, share, String::from("each season anew")]
    };
    let begun = run.begun.iter().max().copied().unwrap_or(0);
    let [what, years] = row(
        "one archive's commit numbers would last, day and night",
        format!("{:.1} years", season.years()),
    );
    vec![
        used(format!("of the archive's {all} commit numbers"), 1.0),
        used(
            format!("of the busiest station's {all} transaction numbers"),
            run.each(begun),
        ),
        [what, years, String::new()],
    ]
}

/// How soon bottles are committed, by the time that a message is under way.
pub fn of_carriage(settings: &Settings) -> Result<String, String> {
    let gathered = format!("up to {GATHERED} in a transaction: begun again");
    let heading = [
        "under way",
        "a bottle in a transaction: begun again",
        "half within",
        "all within",
        &gathered,
        "half within",
        "all within",
    ];
    let rows: Result<Vec<_>, String> = CARRIAGES
        .iter()
        .map(|one| carried(settings, *one))
        .collect();
    Ok(table(heading.map(String::from), &rows?))
}

fn carried(settings: &Settings, carriage: u64) -> Result<[String; 7], String> {
    let of = |gather: u64| -> Result<[String; 3], String> {
        let run = Run::of(&Settings {
            carriage,
            gather,
            ..*settings
        })?;
        let again: u64 = run.aborts.iter().sum();
        let (half, all) = run.waits();
        let all = match run.left {
            0 => duration(all),
            left => format!("{} left behind", grouped(left)),
        };
        Ok([decimal(run.each(again)), duration(half), all])
    };
    let ([again, half, all], [again_9, half_9, all_9]) = (of(1)?, of(GATHERED as u64)?);
    Ok([duration(carriage), again, half, all, again_9, half_9, all_9])
}

/// What depends on the machine.
pub fn of_machine(settings: &Settings, times: &Times) -> String {
    let seconds = (settings.minutes * 60) as f64;
    let share = |spent: f64| format!("{} of one core", percent(spent / seconds));
    let rows = [
        row(
            "the server's steps, one behind the other",
            share(times.warm),
        ),
        row("the same if each found the caches empty", share(times.cold)),
    ];
    table(["on this machine", ""].map(String::from), &rows)
}

fn row(what: &str, value: String) -> [String; 2] {
    [String::from(what), value]
}

fn table<const N: usize>(heading: [String; N], rows: &[[String; N]]) -> String {
    let line = |cells: &[String; N]| format!("| {} |\n", cells.join(" | "));
    let rule = format!("|{}\n", "---|".repeat(N));
    let rows: String = rows.iter().map(line).collect();
    [line(&heading), rule, rows].concat()
}

/// A number with commas.
fn grouped(number: u64) -> String {
    let digits = number.to_string();
    let mut text = String::new();
    for (place, digit) in digits.chars().enumerate() {
        if place > 0 && (digits.len() - place) % 3 == 0 {
            text.push(',');
        }
        text.push(digit);
    }
    text
}

fn duration(microseconds: u64) -> String {
    match microseconds as f64 / SECOND as f64 {
        seconds if seconds < 1.0 => format!("{} ms", decimal(seconds * 1000.0)),
        seconds => format!("{} s", decimal(seconds)),
    }
}

/// One place, if there is anything in it.
fn decimal(number: f64) -> String {
    let text = format!("{number:.1}");
    String::from(text.strip_suffix(".0").unwrap_or(&text))
}

/// Three digits, and as many places as these take.
fn percent(part: f64) -> String {
    let percent = 100.0 * part;
    let places = (2.0 - percent.log10().floor()).clamp(0.0, 6.0) as usize;
    format!("{percent:.places$} %")
}

fn size(bytes: f64) -> String {
    match bytes {
        bytes if bytes >= 1e12 => format!("{} TB", decimal(bytes / 1e12)),
        bytes => format!("{} GB", decimal(bytes / 1e9)),
    }
}

#[cfg(test)]
mod tests {
    use super::*;

    #[test]
    fn numbers_are_written_out() {
        assert_eq!(
            [0, 999, 1000, 4_294_967_295].map(grouped),
            ["0", "999", "1,000", "4,294,967,295"]
        );
        assert_eq!(
            [0.147, 0.0000401, 1.5].map(percent),
            ["14.7 %", "0.00401 %", "150 %"]
        );
        assert_eq!(
            [500, 125_400, 39_463_300].map(duration),
            ["0.5 ms", "125.4 ms", "39.5 s"]
        );
        assert_eq!([66.9e9, 2.01e12].map(size), ["66.9 GB", "2 TB"]);
    }
}
