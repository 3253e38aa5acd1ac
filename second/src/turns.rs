//! Shares of the server's turns, from document 02's wish 12.

/// Lines between which the turns are shared.
pub const LINES: usize = 8;

/// Numbers of a refused turn.
pub const STATE: u32 = 1;
pub const SHARE: u32 = 19;
pub const IDLE: u32 = 20;

/// A line as its host lends it. Any byte may stand in each field.
#[derive(Clone, Copy, Debug, Default, PartialEq, Eq)]
#[repr(C)]
pub struct Line {
    pub share: u8,
    /// Turns in this round.
    pub given: u8,
    /// 1 while a message waits.
    pub waiting: u8,
}

impl Line {
    fn is_ready(&self) -> bool {
        self.waiting == 1 && self.given < self.share
    }
}

/// The line that is given the next turn; a refused turn changes nothing.
pub fn next(lines: &mut [Line]) -> Result<usize, u32> {
    let out_of_range = |line: &Line| line.given > line.share || line.waiting > 1;
    if lines.len() != LINES || lines.iter().any(out_of_range) {
        return Err(STATE);
    }
    if lines.iter().any(|line| !(1..=4).contains(&line.share)) {
        return Err(SHARE);
    }
    if lines.iter().all(|line| line.waiting == 0) {
        return Err(IDLE);
    }
    let next = lines.iter().position(Line::is_ready).unwrap_or_else(|| {
        lines.iter_mut().for_each(|line| line.given = 0);
        let waits = |line: &Line| line.waiting == 1;
        lines.iter().position(waits).expect("a line that waits")
    });
    lines[next].given += 1;
    Ok(next)
}

/// The same in the shape of the C interface.
#[inline]
pub fn turn_next(lines: &mut [Line], line: &mut usize) -> u32 {
    match next(lines) {
        Ok(given) => {
            *line = given;
            0
        }
        Err(number) => number,
    }
}
