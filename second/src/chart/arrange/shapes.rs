//! The shapes of a chart that is laid out.

use super::columns::{is_bold, Column};
use super::{Chart, Place, HEAD_HEIGHT, LABEL_HEIGHT, LABEL_SIZE, MARGIN, PITCH, SIZE, TITLE_SIZE};
use crate::chart::geometry::point;
use crate::chart::picture::{Anchor, Ink, Picture, Shape, Stroke};
use crate::chart::trace::{End, Item, Row, Span, Tone};

const INK: &str = "#20242a";
const GREY: &str = "#4d5561";
const RED: &str = "#b3201c";
const UP: &str = "#1f5aa6";
const DOWN: &str = "#2a7a46";
const LIFELINE: Stroke = Stroke {
    colour: "#b4bac4",
    width: 1.2,
    dashes: None,
};

/// The shapes.
impl Chart<'_> {
    pub fn picture(&self) -> Picture {
        let mut picture = Picture {
            width: self.columns.width,
            height: self.bottom + 6.0,
            title: self.trace.title.first().cloned().unwrap_or_default(),
            shapes: Vec::new(),
        };
        self.title_shapes(&mut picture.shapes);
        self.lifeline_shapes(&mut picture.shapes);
        self.arrow_shapes(&mut picture.shapes);
        self.label_shapes(&mut picture.shapes);
        self.box_shapes(&mut picture.shapes);
        picture
    }

    fn title_shapes(&self, shapes: &mut Vec<Shape>) {
        let large = self.title_lines();
        let mut y = MARGIN;
        for (i, line) in self.title.iter().enumerate() {
            let (size, step, colour) = if i < large {
                (TITLE_SIZE, 20.0, INK)
            } else {
                (SIZE, 15.0, GREY)
            };
            shapes.push(Shape::Text {
                at: point(MARGIN, y + step / 2.0),
                size,
                anchor: Anchor::Left,
                spans: vec![ink(line, colour, i < large)],
            });
            y += step;
        }
    }

    fn lifeline_shapes(&self, shapes: &mut Vec<Shape>) {
        for column in &self.columns.ends {
            shapes.push(Shape::Line {
                from: point(column.x, self.heads + HEAD_HEIGHT),
                to: point(column.x, self.bottom),
                style: LIFELINE,
            });
            self.head_shapes(column, shapes);
        }
    }

    fn head_shapes(&self, column: &Column, shapes: &mut Vec<Shape>) {
        let (name, kind, fill, stroke) = match column.end {
            End::Server => (String::from("server"), None, "#f3ead2", "#a58b45"),
            End::Station(station) => {
                let kind = self.trace.kinds[station as usize];
                (
                    format!("station {station}"),
                    Some(kind.name()),
                    "#e3ecf8",
                    "#6785b0",
                )
            }
        };
        shapes.push(Shape::Box {
            left: column.x - column.half,
            top: self.heads,
            width: 2.0 * column.half,
            height: HEAD_HEIGHT,
            fill,
            stroke,
        });
        let middle = self.heads + HEAD_HEIGHT / 2.0;
        let first = if kind.is_some() { middle - 7.0 } else { middle };
        shapes.push(Shape::Text {
            at: point(column.x, first),
            size: 12.0,
            anchor: Anchor::Middle,
            spans: vec![ink(&name, INK, true)],
        });
        if let Some(kind) = kind {
            shapes.push(Shape::Text {
                at: point(column.x, middle + 8.0),
                size: SIZE,
                anchor: Anchor::Middle,
                spans: vec![ink(kind, GREY, false)],
            });
        }
    }

    fn arrow_shapes(&self, shapes: &mut Vec<Shape>) {
        for (arrow, message) in self.arrows.iter().zip(&self.trace.messages) {
            shapes.push(Shape::Arrow {
                from: arrow.from,
                to: arrow.to,
                colour: if message.up { UP } else { DOWN },
                open: arrow.open,
            });
        }
    }

    fn label_shapes(&self, shapes: &mut Vec<Shape>) {
        for (label, message) in self.labels.iter().zip(&self.trace.messages) {
            shapes.push(Shape::Label {
                middle: label.middle,
                direction: label.direction,
                width: label.width,
                height: LABEL_HEIGHT,
                size: LABEL_SIZE,
                ink: ink(&message.words, if message.up { UP } else { DOWN }, false),
            });
        }
    }

    fn box_shapes(&self, shapes: &mut Vec<Shape>) {
        for (item, place) in self.trace.items.iter().zip(&self.places) {
            match item {
                Item::Row(row) => self.row_shapes(row, place, shapes),
                Item::Note(_) => note_shapes(place, shapes),
            }
        }
    }

    fn row_shapes(&self, row: &Row, place: &Place, shapes: &mut Vec<Shape>) {
        if row.lines.is_empty() {
            return;
        }
        let (fill, stroke) = match (row.refused, row.actor) {
            (true, _) => ("#fdeceb", RED),
            (false, End::Server) => ("#faf6ea", "#cdbb86"),
            (false, End::Station(_)) => ("#f2f6fc", "#9fb5d4"),
        };
        shapes.push(Shape::Box {
            left: place.left,
            top: place.top,
            width: place.width,
            height: place.height,
            fill,
            stroke,
        });
        let text_height = row.lines.len() as f64 * PITCH;
        let mut y = place.top + (place.height - text_height + PITCH) / 2.0;
        for line in &row.lines {
            shapes.push(Shape::Text {
                at: point(place.left + place.width / 2.0, y),
                size: SIZE,
                anchor: Anchor::Middle,
                spans: line.iter().map(span_ink).collect(),
            });
            y += PITCH;
        }
    }
}

fn note_shapes(place: &Place, shapes: &mut Vec<Shape>) {
    shapes.push(Shape::Box {
        left: place.left,
        top: place.top,
        width: place.width,
        height: place.height,
        fill: "#fff7d6",
        stroke: "#e2d08a",
    });
    for (i, line) in place.lines.iter().enumerate() {
        shapes.push(Shape::Text {
            at: point(
                place.left + place.width / 2.0,
                place.top + 2.5 + PITCH * (i as f64 + 0.5),
            ),
            size: SIZE,
            anchor: Anchor::Middle,
            spans: vec![Ink {
                slanted: true,
                ..ink(line, INK, false)
            }],
        });
    }
}

fn ink(text: &str, colour: &'static str, bold: bool) -> Ink {
    Ink {
        text: text.to_string(),
        colour,
        bold,
        slanted: false,
    }
}

fn span_ink(span: &Span) -> Ink {
    let colour = match span.tone {
        Tone::Plain | Tone::Told => INK,
        Tone::Aborted | Tone::Refused => RED,
        Tone::Changed => GREY,
    };
    ink(&span.text, colour, is_bold(span.tone))
}
