//! Notes and labels: each goes where it meets the least.

use super::columns::Columns;
use super::{Arrow, Chart, Label, Place, CLASH, CROSSING, LABEL_HEIGHT, LABEL_SIZE, MARGIN, NOTES};
use crate::chart::geometry::{meet, point, rectangle, upright, Outline, Point};
use crate::chart::text;
use crate::chart::trace::{End, Item, Trace};

/// How much nearer a note must come to be made narrower.
const NARROWER: f64 = 60.0;
/// What is worse than a place farther along the arrow: a line so near that a text could be taken for its own, a text
/// below its arrow.
const NEAR: f64 = 8.0;
const BELOW: f64 = 5.0;

impl<'a> Chart<'a> {
    /// Each note gets the width that lets it stand best.
    pub fn with_narrow_notes(trace: &'a Trace, columns: &'a Columns, air: f64) -> Chart<'a> {
        let mut widths = vec![0; trace.items.len()];
        let mut chart = Chart::laid_out(trace, columns, air, &widths);
        for item in 0..trace.items.len() {
            let mut tried = widths.clone();
            while chart.note_cost(item) > NARROWER && tried[item] + 1 < NOTES.len() {
                tried[item] += 1;
                let next = Chart::laid_out(trace, columns, air, &tried);
                if next.note_cost(item) + NARROWER < chart.note_cost(item) {
                    widths = tried.clone();
                    chart = next;
                }
            }
        }
        chart
    }

    fn note_cost(&self, item: usize) -> f64 {
        match self.trace.items[item] {
            Item::Row(_) => 0.0,
            Item::Note(_) => self.note_cost_at(item, self.places[item].left),
        }
    }

    fn boxes(&self) -> Vec<Outline> {
        let is_box = |item: &Item| match item {
            Item::Row(row) => !row.lines.is_empty(),
            Item::Note(_) => true,
        };
        self.trace
            .items
            .iter()
            .zip(&self.places)
            .filter(|(item, _)| is_box(item))
            .map(|(_, place)| upright(place.left, place.top, place.width, place.height))
            .collect()
    }

    fn segment(&self, arrow: usize) -> [Point; 2] {
        [self.arrows[arrow].from, self.arrows[arrow].to]
    }

    /// Notes go where the fewest arrows pass, near the end that acts next.
    pub fn place_notes(&mut self) {
        for item in 0..self.places.len() {
            if let Item::Note(_) = self.trace.items[item] {
                self.places[item].left = self.note_left(item);
            }
        }
    }

    fn note_left(&self, item: usize) -> f64 {
        let place = &self.places[item];
        let most = (self.columns.width - MARGIN - place.width).max(MARGIN);
        let middle = self.note_middle(item) - place.width / 2.0;
        let steps = ((most - MARGIN) / 6.0) as usize;
        let cost = |left: &f64| self.note_cost_at(item, *left);
        (0..=steps)
            .map(|step| MARGIN + 6.0 * step as f64)
            .chain([middle.clamp(MARGIN, most)])
            .min_by(|a, b| cost(a).total_cmp(&cost(b)))
            .unwrap_or(MARGIN)
    }

    /// Where a note would best have its middle.
    fn note_middle(&self, item: usize) -> f64 {
        let next = self.trace.items[item..].iter().find_map(|item| match item {
            Item::Row(row) => Some(row.actor),
            Item::Note(_) => None,
        });
        self.columns.get(next.unwrap_or(End::Server)).x
    }

    fn note_cost_at(&self, item: usize, left: f64) -> f64 {
        let place = &self.places[item];
        let most = (self.columns.width - MARGIN - place.width).max(MARGIN);
        let middle = (self.note_middle(item) - place.width / 2.0).clamp(MARGIN, most);
        CLASH * self.arrows_at(place, left) as f64 + (left - middle).abs()
    }

    /// Arrows, with their labels, that a note at this place would cover.
    fn arrows_at(&self, place: &Place, left: f64) -> usize {
        let (width, height) = (place.width + 8.0, place.height + 6.0);
        let outline = upright(left - 4.0, place.top - 3.0, width, height);
        self.arrows
            .iter()
            .filter(|arrow| meet(&outline, &arrow.with_label()))
            .count()
    }

    /// Each label goes where it meets the least; then again, since the others have moved.
    pub fn place_labels(&mut self) {
        let boxes = self.boxes();
        self.labels = (0..self.arrows.len())
            .map(|arrow| self.candidates(arrow).swap_remove(0).1)
            .collect();
        for _ in 0..8 {
            for arrow in 0..self.arrows.len() {
                self.labels[arrow] = self.best_label(arrow, &boxes);
            }
        }
        for arrow in 0..self.arrows.len() {
            let label = &self.labels[arrow];
            self.clashes += self.clashes_of(arrow, label, &boxes);
            self.crossings += self.lines_through(arrow, &label.outline);
        }
    }

    fn best_label(&self, arrow: usize, boxes: &[Outline]) -> Label {
        let cost = |(own, label): &(f64, Label)| {
            let clashes = self.clashes_of(arrow, label, boxes) as f64;
            let crossings = self.lines_through(arrow, &label.outline) as f64;
            let near = self.lines_through(arrow, &label.around(6.0)) as f64;
            own + CLASH * clashes + CROSSING * crossings + NEAR * near
        };
        let candidates = self.candidates(arrow).into_iter();
        let priced = candidates.map(|candidate| (cost(&candidate), candidate.1));
        let best = priced.min_by(|a, b| a.0.total_cmp(&b.0));
        best.expect("there is always a place").1
    }

    /// Places along an arrow with their own cost: above it and below it, from its sender on.
    fn candidates(&self, number: usize) -> Vec<(f64, Label)> {
        let Arrow { from, to, .. } = self.arrows[number];
        let width = text::width(&self.trace.messages[number].words, LABEL_SIZE, false) + 4.0;
        let length = from.distance(to);
        let along = from.direction(to);
        let reads = if along.x < 0.0 {
            point(-along.x, -along.y)
        } else {
            along
        };
        let near = width / 2.0 + 7.0;
        let far = (length - width / 2.0 - 11.0).max(near);
        let steps = ((far - near) / 4.0) as usize;
        let off = LABEL_HEIGHT / 2.0 + 1.5;
        let at = |step: usize, across: f64| {
            let on = from.moved(along, near + 4.0 * step as f64, 0.0);
            Label::new(on.moved(reads, 0.0, across), reads, width)
        };
        (0..=steps)
            .flat_map(|step| {
                let own = step as f64 / 10.0;
                [(own, at(step, -off)), (own + BELOW, at(step, off))]
            })
            .collect()
    }

    /// Texts that a label would lie on.
    fn clashes_of(&self, arrow: usize, label: &Label, boxes: &[Outline]) -> usize {
        let labels = self.labels.iter().enumerate();
        let on_labels = labels
            .filter(|(other, _)| *other != arrow)
            .filter(|(_, other)| meet(&label.outline, &other.outline))
            .count();
        let on_boxes = boxes
            .iter()
            .filter(|outline| meet(&label.outline, outline))
            .count();
        on_labels + on_boxes
    }

    /// Other arrows, and lifelines, that pass through an outline.
    fn lines_through(&self, arrow: usize, outline: &Outline) -> usize {
        let arrows = (0..self.arrows.len())
            .filter(|other| *other != arrow)
            .filter(|other| meet(outline, &self.segment(*other)))
            .count();
        let lifelines = self.columns.ends.iter();
        let lifelines = lifelines
            .filter(|column| {
                let lifeline = [point(column.x, 0.0), point(column.x, self.bottom)];
                meet(outline, &lifeline)
            })
            .count();
        arrows + lifelines
    }
}

impl Label {
    fn new(middle: Point, direction: Point, width: f64) -> Label {
        Label {
            middle,
            direction,
            width,
            outline: rectangle(middle, direction, width, LABEL_HEIGHT),
        }
    }

    /// The outline with a border.
    fn around(&self, border: f64) -> Outline {
        let (width, height) = (self.width, LABEL_HEIGHT + 2.0 * border);
        rectangle(self.middle, self.direction, width, height)
    }
}
