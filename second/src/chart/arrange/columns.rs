//! The columns: which ends there are, how wide their boxes are, and the room between them.

use super::{LABEL_SIZE, MARGIN, SIZE};
use crate::chart::text;
use crate::chart::trace::{End, Item, Span, Tone, Trace};
use crate::line::sets::STATIONS;

const NARROWEST: f64 = 560.0;
/// Between two stations at the same side of the server.
const OUTER_GAP: f64 = 46.0;

/// The ends from left to right.
pub struct Columns {
    pub ends: Vec<Column>,
    pub width: f64,
}

#[derive(Clone, Copy)]
pub struct Column {
    pub end: End,
    /// The lifeline, and half the width of the boxes on it.
    pub x: f64,
    pub half: f64,
}

impl Columns {
    pub fn of(trace: &Trace, widest: f64) -> Columns {
        let stations = taking_part(trace);
        // one alone stands on the left; of three, two stand on the right
        let left = (stations.len() / 2).max(1).min(stations.len());
        let mut order: Vec<End> = stations[..left].iter().map(|s| End::Station(*s)).collect();
        order.push(End::Server);
        order.extend(stations[left..].iter().map(|s| End::Station(*s)));
        let halves: Vec<f64> = order.iter().map(|end| half_width(trace, *end)).collect();
        let gaps = gaps(trace, &order, &halves, widest);
        let mut ends = Vec::new();
        let mut x = MARGIN;
        for (i, end) in order.iter().enumerate() {
            x += halves[i];
            ends.push(Column {
                end: *end,
                x,
                half: halves[i],
            });
            x += halves[i] + gaps.get(i).copied().unwrap_or(MARGIN);
        }
        Columns { ends, width: x }
    }

    fn place(&self, end: End) -> usize {
        let found = self.ends.iter().position(|column| column.end == end);
        found.expect("every end that acts has a column")
    }

    pub fn get(&self, end: End) -> Column {
        self.ends[self.place(end)]
    }

    /// 1 if the second end stands on the right of the first, else -1.
    pub fn side(&self, from: End, to: End) -> f64 {
        if self.place(to) > self.place(from) {
            1.0
        } else {
            -1.0
        }
    }
}

fn taking_part(trace: &Trace) -> Vec<u8> {
    let acts = |station: u8| {
        trace.items.iter().any(|item| match item {
            Item::Row(row) => row.actor == End::Station(station),
            Item::Note(_) => false,
        })
    };
    let named = |station: u8| {
        trace
            .messages
            .iter()
            .any(|message| message.station == station)
    };
    (0..STATIONS as u8)
        .filter(|station| acts(*station) || named(*station))
        .collect()
}

fn half_width(trace: &Trace, end: End) -> f64 {
    let widest = trace
        .items
        .iter()
        .filter_map(|item| match item {
            Item::Row(row) if row.actor == end => Some(&row.lines),
            _ => None,
        })
        .flatten()
        .map(|line| line_width(line))
        .fold(66.0, f64::max);
    widest / 2.0 + 6.0
}

fn line_width(line: &[Span]) -> f64 {
    line.iter()
        .map(|span| text::width(&span.text, SIZE, is_bold(span.tone)))
        .sum()
}

pub fn is_bold(tone: Tone) -> bool {
    matches!(tone, Tone::Told | Tone::Aborted | Tone::Refused)
}

/// The room between neighbours: next to the server enough for the labels of all messages at that side, as far as the
/// width allows.
fn gaps(trace: &Trace, order: &[End], halves: &[f64], widest: f64) -> Vec<f64> {
    let server = order
        .iter()
        .position(|end| *end == End::Server)
        .unwrap_or(0);
    let left = longest_label(trace, &order[..server]) + 46.0;
    let right = longest_label(trace, &order[server + 1..]) + 46.0;
    let inner = |i: usize| i + 1 == server || i == server;
    let wanted = |i: usize| if i < server { left } else { right };
    let places = 0..order.len() - 1;
    let boxes: f64 = halves.iter().map(|half| 2.0 * half).sum();
    let outer = OUTER_GAP * places.clone().filter(|i| !inner(*i)).count() as f64;
    let taken = 2.0 * MARGIN + boxes + outer;
    let all: f64 = places.clone().filter(|i| inner(*i)).map(wanted).sum();
    let scale = ((widest - taken) / all).min(((NARROWEST - taken) / all).max(1.0));
    places
        .map(|i| {
            if inner(i) {
                wanted(i) * scale
            } else {
                OUTER_GAP
            }
        })
        .collect()
}

fn longest_label(trace: &Trace, ends: &[End]) -> f64 {
    trace
        .messages
        .iter()
        .filter(|message| ends.contains(&End::Station(message.station)))
        .map(|message| text::width(&message.words, LABEL_SIZE, false))
        .fold(60.0, f64::max)
}
