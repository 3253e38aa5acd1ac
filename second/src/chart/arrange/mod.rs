//! Where everything stands: columns for the ends, a row for each call, an arrow for each message, labels that avoid
//! what is there already.

mod captions;
mod columns;
mod shapes;

use super::geometry::{point, Outline, Point};
use super::picture::Picture;
use super::text;
use super::trace::{End, Item, Row, Trace};
use columns::Columns;

/// A picture, and how many labels in it lie on another text.
pub struct Arranged {
    pub picture: Picture,
    pub clashes: usize,
}

const MARGIN: f64 = 14.0;
const TITLE_SIZE: f64 = 15.0;
const SIZE: f64 = 10.5;
const LABEL_SIZE: f64 = 11.0;
const LABEL_HEIGHT: f64 = 12.5;
/// From one line of text to the next.
const PITCH: f64 = 14.0;
const HEAD_HEIGHT: f64 = 36.0;
/// From one arrow to the next at the same side of a box.
const APART: f64 = 17.0;
/// From a box's top to the arrow that comes in.
const IN: f64 = 11.0;
/// Tried in turn: how wide a chart may be. Many stations need more than a page.
const WIDEST: [f64; 4] = [900.0, 1200.0, 1500.0, 1800.0];
/// Tried in turn: how wide a note may be.
const NOTES: [f64; 4] = [350.0, 260.0, 200.0, 150.0];
/// Tried in turn: the room between two rows.
const AIR: [f64; 5] = [13.0, 16.0, 20.0, 25.0, 31.0];
/// What a text on a text costs, and a line through a text.
const CLASH: f64 = 1000.0;
const CROSSING: f64 = 30.0;

pub fn arrange(trace: &Trace) -> Arranged {
    let arranged = arranged(trace, WIDEST[0]);
    if arranged.clashes == 0 {
        return arranged;
    }
    // too narrow: boxes become higher, and there is more room between them
    let stacked = trace.stacked();
    let tries = WIDEST
        .map(|widest| self::arranged(&stacked, widest))
        .into_iter();
    tries
        .min_by_key(|arranged| arranged.clashes)
        .expect("there are tries")
}

fn arranged(trace: &Trace, widest: f64) -> Arranged {
    let columns = Columns::of(trace, widest);
    let tries = AIR.map(|air| Chart::with_narrow_notes(trace, &columns, air));
    let best = tries
        .into_iter()
        .min_by(|a, b| a.cost().total_cmp(&b.cost()))
        .expect("there are tries");
    Arranged {
        clashes: best.clashes,
        picture: best.picture(),
    }
}

/// A chart with everything in its place.
struct Chart<'a> {
    trace: &'a Trace,
    columns: &'a Columns,
    title: Vec<String>,
    heads: f64,
    places: Vec<Place>,
    bottom: f64,
    arrows: Vec<Arrow>,
    labels: Vec<Label>,
    clashes: usize,
    crossings: usize,
    air: f64,
}

/// Where an item stands.
struct Place {
    left: f64,
    top: f64,
    width: f64,
    height: f64,
    lines: Vec<String>,
}

struct Arrow {
    from: Point,
    to: Point,
    open: bool,
}

impl Arrow {
    /// The arrow with room for a label above it.
    fn with_label(&self) -> Outline {
        let above = LABEL_HEIGHT + 5.0;
        vec![
            point(self.from.x, self.from.y - above),
            point(self.to.x, self.to.y - above),
            self.to,
            self.from,
        ]
    }
}

#[derive(Clone)]
struct Label {
    middle: Point,
    direction: Point,
    width: f64,
    outline: Outline,
}

impl<'a> Chart<'a> {
    fn laid_out(trace: &'a Trace, columns: &'a Columns, air: f64, widths: &[usize]) -> Chart<'a> {
        let mut chart = Chart {
            trace,
            columns,
            title: Vec::new(),
            heads: 0.0,
            places: Vec::new(),
            bottom: 0.0,
            arrows: Vec::new(),
            labels: Vec::new(),
            clashes: 0,
            crossings: 0,
            air,
        };
        chart.place_title();
        chart.place_items(widths);
        chart.draw_arrows();
        chart.place_notes();
        chart.place_labels();
        chart
    }

    fn cost(&self) -> f64 {
        CLASH * self.clashes as f64 + CROSSING * self.crossings as f64 + 2.0 * self.air
    }

    fn place_title(&mut self) {
        let most = self.columns.width - 2.0 * MARGIN;
        let mut lines = self.trace.title.iter();
        let first = lines.next().map_or("", String::as_str);
        // the first line is larger, and bold
        let mut title = text::wrap(first, TITLE_SIZE * 1.12, most);
        self.heads = MARGIN + 20.0 * title.len() as f64;
        for line in lines {
            let wrapped = text::wrap(line, SIZE, most);
            self.heads += 15.0 * wrapped.len() as f64;
            title.extend(wrapped);
        }
        self.heads += 8.0;
        self.title = title;
    }

    fn title_lines(&self) -> usize {
        let most = self.columns.width - 2.0 * MARGIN;
        let first = self.trace.title.first().map_or("", String::as_str);
        text::wrap(first, TITLE_SIZE * 1.12, most).len()
    }

    /// Where messages come from that were sent before: below the columns' heads, with room for a label if there are any.
    fn top(&self) -> f64 {
        let before = self
            .trace
            .messages
            .iter()
            .any(|message| message.sent.is_none());
        self.heads + HEAD_HEIGHT + if before { APART } else { 0.0 }
    }

    fn place_items(&mut self, widths: &[usize]) {
        let mut y = self.top() + 12.0;
        for (item, width) in self.trace.items.iter().zip(widths) {
            let place = match item {
                Item::Row(row) => self.row_place(row, y),
                Item::Note(lines) => {
                    let most = self.columns.width - 2.0 * MARGIN - 20.0;
                    note_place(lines, y, NOTES[*width].min(most))
                }
            };
            y += place.height + self.air;
            self.places.push(place);
        }
        self.bottom = y;
    }

    fn row_place(&self, row: &Row, top: f64) -> Place {
        let column = self.columns.get(row.actor);
        let text_height = row.lines.len() as f64 * PITCH + 7.0;
        let last = self.departures(row).last().copied().unwrap_or(0.0);
        Place {
            left: column.x - column.half,
            top,
            width: 2.0 * column.half,
            height: text_height.max(last + 6.0).max(18.0),
            lines: Vec::new(),
        }
    }

    /// How far below a box's top each of its messages leaves: in the order sent, behind what came in at that side.
    fn departures(&self, row: &Row) -> Vec<f64> {
        let came_from = row.taken.map(|taken| self.side_of(row, taken));
        let mut next_left = IN;
        let mut next_right = IN;
        match came_from {
            Some(side) if side < 0.0 => next_left += APART,
            Some(_) => next_right += APART,
            None => (),
        }
        let mut last = 0.0_f64;
        row.sent
            .iter()
            .map(|sent| {
                let next = if self.side_of(row, *sent) < 0.0 {
                    &mut next_left
                } else {
                    &mut next_right
                };
                last = last.max(*next);
                *next = last + APART;
                last
            })
            .collect()
    }

    /// At which side of the row's box a message comes or goes.
    fn side_of(&self, row: &Row, message: usize) -> f64 {
        let station = End::Station(self.trace.messages[message].station);
        match row.actor {
            End::Server => self.columns.side(End::Server, station),
            End::Station(_) => self.columns.side(row.actor, End::Server),
        }
    }

    /// The x of a box's edge, or of the lifeline where a row has no box.
    fn edge(&self, row: &Row, side: f64) -> f64 {
        let column = self.columns.get(row.actor);
        if row.lines.is_empty() {
            return column.x;
        }
        column.x + side * column.half
    }

    fn row(&self, item: usize) -> &'a Row {
        match &self.trace.items[item] {
            Item::Row(row) => row,
            Item::Note(_) => unreachable!("only rows send and take"),
        }
    }

    fn draw_arrows(&mut self) {
        self.arrows = (0..self.trace.messages.len())
            .map(|message| self.arrow(message))
            .collect();
    }

    fn arrow(&self, number: usize) -> Arrow {
        let message = &self.trace.messages[number];
        let taken = message.taken.map(|item| self.arrival(item, number));
        let sent = message.sent.map(|item| self.departure(item, number));
        let (from, to) = match (sent, taken) {
            (Some(from), Some(to)) => (from, to),
            (Some(from), None) => (
                from,
                self.towards(from, message.receiver(), 0.6, self.bottom),
            ),
            (None, Some(to)) => (self.towards(to, message.sender(), 0.9, self.top()), to),
            (None, None) => unreachable!("a message is drawn from its sending or its taking"),
        };
        Arrow {
            from,
            to,
            open: message.taken.is_none(),
        }
    }

    fn departure(&self, item: usize, message: usize) -> Point {
        let row = self.row(item);
        let place = row.sent.iter().position(|sent| *sent == message);
        point(
            self.edge(row, self.side_of(row, message)),
            self.places[item].top + self.departures(row)[place.unwrap_or(0)],
        )
    }

    fn arrival(&self, item: usize, message: usize) -> Point {
        let row = self.row(item);
        point(
            self.edge(row, self.side_of(row, message)),
            self.places[item].top + IN,
        )
    }

    /// The other end of a message that is under way at the bottom, or at the top: a part of the way to its other side.
    fn towards(&self, from: Point, end: End, part: f64, y: f64) -> Point {
        let to = self.columns.get(end).x;
        point(from.x + (to - from.x) * part, y)
    }
}

/// A note in lines; its place from left to right is found later.
fn note_place(lines: &[String], top: f64, most: f64) -> Place {
    let lines: Vec<String> = lines
        .iter()
        .flat_map(|line| text::wrap_evenly(line, SIZE, most))
        .collect();
    let widest = lines
        .iter()
        .map(|line| text::width(line, SIZE, false))
        .fold(0.0, f64::max);
    Place {
        left: 0.0,
        top,
        width: widest + 14.0,
        height: lines.len() as f64 * PITCH + 5.0,
        lines,
    }
}
