//! The tables of docs/STATE.md, and the fields that must stand as they say.

use second::line::places::Place;

const PAGE: &str = include_str!("../../../docs/STATE.md");

/// From, bytes and name.
type Row = (usize, usize, String);

/// The section that begins so.
fn section(title: &str) -> &'static str {
    let mut sections = PAGE.split("\n## ");
    sections
        .find(|section| section.starts_with(title))
        .unwrap_or_else(|| panic!("docs/STATE.md has a section {title}"))
}

/// The rows of a section's table of fields.
pub fn rows(title: &str) -> Vec<Row> {
    let cells = |line: &'static str| line.split('|').map(str::trim).collect::<Vec<_>>();
    let row = |cells: Vec<&str>| {
        let [_, from, bytes, name, ..] = cells[..] else {
            return None;
        };
        let factors = bytes
            .split('×')
            .map(|factor| factor.trim().parse::<usize>());
        let bytes = factors.product::<Result<usize, _>>().ok()?;
        Some((from.parse().ok()?, bytes, name.replace(' ', "")))
    };
    section(title).lines().map(cells).filter_map(row).collect()
}

/// The same of the fields as this implementation has them.
pub fn fields<F: Place>() -> Vec<Row> {
    let row = |field: &F| {
        let name = format!("{field:?}").to_lowercase();
        (field.start(), field.range().len(), name)
    };
    F::all().iter().map(row).collect()
}

/// The same bytes with one changed.
pub fn with(bytes: &[u8], at: usize, byte: u8) -> Vec<u8> {
    let mut bytes = bytes.to_vec();
    bytes[at] = byte;
    bytes
}

/// The bytes that are not 0, with their places.
pub fn not_zero(bytes: &[u8]) -> Vec<(usize, u8)> {
    let places = bytes.iter().copied().enumerate();
    places.filter(|(_, byte)| *byte != 0).collect()
}
