//! Shapes, and their SVG: no scripts, no fonts from elsewhere, a background of its own.

use super::geometry::{point, Point};
use std::fmt::Write;

#[derive(Default)]
pub struct Picture {
    pub width: f64,
    pub height: f64,
    /// For readers that do not see the picture.
    pub title: String,
    pub shapes: Vec<Shape>,
}

pub enum Shape {
    Line {
        from: Point,
        to: Point,
        style: Stroke,
    },
    Arrow {
        from: Point,
        to: Point,
        colour: &'static str,
        /// It never arrives.
        open: bool,
    },
    Box {
        left: f64,
        top: f64,
        width: f64,
        height: f64,
        fill: &'static str,
        stroke: &'static str,
    },
    Text {
        /// Where the middle of the base line is, or its left end.
        at: Point,
        size: f64,
        anchor: Anchor,
        spans: Vec<Ink>,
    },
    /// A text along a direction, on a patch of the background.
    Label {
        middle: Point,
        direction: Point,
        width: f64,
        height: f64,
        size: f64,
        ink: Ink,
    },
}

#[derive(Clone, Copy)]
pub struct Stroke {
    pub colour: &'static str,
    pub width: f64,
    pub dashes: Option<&'static str>,
}

#[derive(Clone, Copy, PartialEq, Eq)]
pub enum Anchor {
    Left,
    Middle,
}

/// A piece of text in one style.
#[derive(Clone)]
pub struct Ink {
    pub text: String,
    pub colour: &'static str,
    pub bold: bool,
    pub slanted: bool,
}

pub const BACKGROUND: &str = "#fdfdfb";
const FONT: &str = "Helvetica, Arial, 'Liberation Sans', 'DejaVu Sans', sans-serif";
/// An arrow's head: its length, and half its width.
const HEAD: (f64, f64) = (9.0, 3.6);
/// The base line of a text lies so far below its middle, in parts of its size.
const BASE: f64 = 0.35;

impl Picture {
    pub fn svg(&self) -> String {
        let (width, height) = (self.width, self.height);
        let mut out = String::new();
        let _ = writeln!(
            out,
            "<svg xmlns=\"http://www.w3.org/2000/svg\" width=\"{width:.0}\" height=\"{height:.0}\" \
             viewBox=\"0 0 {width:.0} {height:.0}\" role=\"img\" font-family=\"{FONT}\">"
        );
        let _ = writeln!(out, "<title>{}</title>", escaped(&self.title));
        let _ = writeln!(
            out,
            "<rect width=\"{width:.0}\" height=\"{height:.0}\" fill=\"{BACKGROUND}\"/>"
        );
        for shape in &self.shapes {
            shape.write(&mut out);
        }
        out.push_str("</svg>\n");
        out
    }
}

impl Shape {
    fn write(&self, out: &mut String) {
        let _ = match self {
            Shape::Line { from, to, style } => line(out, *from, *to, *style),
            Shape::Arrow {
                from,
                to,
                colour,
                open,
            } => arrow(out, *from, *to, colour, *open),
            Shape::Box {
                left,
                top,
                width,
                height,
                fill,
                stroke,
            } => writeln!(
                out,
                "<rect x=\"{left:.1}\" y=\"{top:.1}\" width=\"{width:.1}\" height=\"{height:.1}\" rx=\"3\" \
                 fill=\"{fill}\" stroke=\"{stroke}\"/>"
            ),
            Shape::Text {
                at,
                size,
                anchor,
                spans,
            } => text(out, *at, *size, *anchor, spans),
            Shape::Label {
                middle,
                direction,
                width,
                height,
                size,
                ink,
            } => writeln!(
                out,
                "<g transform=\"matrix({c:.4} {s:.4} {m:.4} {c:.4} {x:.1} {y:.1})\">\
                 <rect x=\"{left:.1}\" y=\"{top:.1}\" width=\"{width:.1}\" height=\"{height:.1}\" \
                 fill=\"{BACKGROUND}\"/><text y=\"{base:.1}\" font-size=\"{size}\" \
                 text-anchor=\"middle\" fill=\"{colour}\">{words}</text></g>",
                c = direction.x,
                s = direction.y,
                m = -direction.y,
                x = middle.x,
                y = middle.y,
                left = -width / 2.0,
                top = -height / 2.0,
                base = size * BASE,
                colour = ink.colour,
                words = escaped(&ink.text),
            ),
        };
    }
}

fn line(out: &mut String, from: Point, to: Point, style: Stroke) -> std::fmt::Result {
    let dashes = style.dashes.map_or(String::new(), |dashes| {
        format!(" stroke-dasharray=\"{dashes}\"")
    });
    writeln!(
        out,
        "<line x1=\"{:.1}\" y1=\"{:.1}\" x2=\"{:.1}\" y2=\"{:.1}\" stroke=\"{}\" stroke-width=\"{}\"{dashes}/>",
        from.x, from.y, to.x, to.y, style.colour, style.width
    )
}

fn arrow(
    out: &mut String,
    from: Point,
    to: Point,
    colour: &'static str,
    open: bool,
) -> std::fmt::Result {
    let style = Stroke {
        colour,
        width: 1.4,
        dashes: open.then_some("5 4"),
    };
    if open {
        return line(out, from, to, style);
    }
    let direction = from.direction(to);
    let back = to.moved(direction, -HEAD.0, 0.0);
    let (left, right) = (
        back.moved(direction, 0.0, -HEAD.1),
        back.moved(direction, 0.0, HEAD.1),
    );
    line(out, from, to.moved(direction, -HEAD.0 / 2.0, 0.0), style)?;
    writeln!(
        out,
        "<path d=\"M{:.1} {:.1} L{:.1} {:.1} L{:.1} {:.1} Z\" fill=\"{colour}\"/>",
        to.x, to.y, left.x, left.y, right.x, right.y
    )
}

fn text(out: &mut String, at: Point, size: f64, anchor: Anchor, spans: &[Ink]) -> std::fmt::Result {
    let anchored = match anchor {
        Anchor::Left => "",
        Anchor::Middle => " text-anchor=\"middle\"",
    };
    let at = point(at.x, at.y + size * BASE);
    write!(
        out,
        "<text x=\"{:.1}\" y=\"{:.1}\" font-size=\"{size}\"{anchored} xml:space=\"preserve\">",
        at.x, at.y
    )?;
    for span in spans {
        let bold = if span.bold {
            " font-weight=\"bold\""
        } else {
            ""
        };
        let slanted = if span.slanted {
            " font-style=\"italic\""
        } else {
            ""
        };
        write!(
            out,
            "<tspan fill=\"{}\"{bold}{slanted}>{}</tspan>",
            span.colour,
            escaped(&span.text)
        )?;
    }
    writeln!(out, "</text>")
}

fn escaped(text: &str) -> String {
    text.replace('&', "&amp;")
        .replace('<', "&lt;")
        .replace('>', "&gt;")
        .replace('"', "&quot;")
}
