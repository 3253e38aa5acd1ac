//! Message charts: a script in the text protocol, run on the line, and drawn as an SVG picture.

mod arrange;
mod geometry;
mod notes;
mod picture;
mod text;
mod trace;
mod words;

pub use trace::Fault;

/// A chart, and how many of its labels lie on another text.
pub struct Drawn {
    pub svg: String,
    pub clashes: usize,
}

/// The chart of a script: time runs down, a row for each call, an arrow for each message from where it was sent to
/// where it was taken. Calls before a line `#>` are made and not drawn.
pub fn draw(script: &str) -> Result<Drawn, Fault> {
    draw_from(script, trace::hidden(script))
}

/// The same from a later call on: so many calls behind `fresh` are made and not drawn. What they sent comes from above
/// to the call that takes it.
pub fn draw_from(script: &str, skipped: usize) -> Result<Drawn, Fault> {
    let trace = trace::run(script, skipped)?;
    let arranged = arrange::arrange(&trace);
    Ok(Drawn {
        svg: arranged.picture.svg(),
        clashes: arranged.clashes,
    })
}
