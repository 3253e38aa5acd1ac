//! Progress on standard error: one line rewritten on a terminal, else a line at each tenth of the frames.

use crate::counters::{FRAMES, REJECTED};
use crate::settings::Settings;
use crate::shift::{Shift, Told};
use std::io::{self, IsTerminal, Write};
use std::time::{Duration, Instant};

/// Turns between two looks at the clock and the count.
const TURNS: u32 = 4096;
/// Between two lines on a terminal.
const PAUSE: Duration = Duration::from_millis(100);

pub struct Progress {
    terminal: bool,
    turns: u32,
    shown: Instant,
    tenths: u64,
}

impl Progress {
    pub fn begin(settings: &Settings) -> Progress {
        let Settings { seed, archive, .. } = settings;
        say(&format!("seed {seed}, archive {archive}\n"));
        Progress {
            terminal: io::stderr().is_terminal(),
            turns: 0,
            shown: Instant::now(),
            tenths: 0,
        }
    }

    /// Shows how far the shift is, if it is time.
    pub fn turn<W: Write>(&mut self, shift: &Shift<W>) {
        self.turns = (self.turns + 1) % TURNS;
        if self.turns > 0 {
            return;
        }
        let tenths = (u128::from(shift.counted()) * 10 / u128::from(shift.belt.frames())) as u64;
        let further = tenths > self.tenths;
        self.tenths = tenths;
        if further || self.terminal && self.shown.elapsed() >= PAUSE {
            self.show(shift);
        }
    }

    fn show<W: Write>(&mut self, shift: &Shift<W>) {
        self.shown = Instant::now();
        let line = line(shift);
        if self.terminal {
            // a line that does not fit is cut, not broken
            say(&format!("\r\x1b[?7l{line}\x1b[K\x1b[?7h"));
        } else {
            say(&format!("{line}\n"));
        }
    }

    /// Shows where the shift ended.
    pub fn finish<W: Write>(&mut self, shift: &Shift<W>) {
        self.show(shift);
        if self.terminal {
            say("\n");
        }
    }
}

/// What cannot be shown is no reason to stop counting.
fn say(text: &str) {
    let _ = io::stderr().write_all(text.as_bytes());
}

fn line<W: Write>(shift: &Shift<W>) -> String {
    let told = shift.all_told();
    let shown = |address: u8| shift.staff.panel.shown.get(&address).copied().unwrap_or(0);
    format!(
        "{} of {} frames, {} commits; the panel shows {}, {} rejected; aborted: {}",
        shift.counted(),
        shift.belt.frames(),
        told.commits,
        shown(FRAMES),
        shown(REJECTED),
        causes(&told)
    )
}

/// Transactions that ended against their owners' will.
pub fn causes(told: &Told) -> String {
    let [_, deadlock, stale, locked, _] = told.aborts;
    format!("{deadlock} deadlock, {stale} stale, {locked} locked")
}
