//! Points, and whether two convex outlines meet.

#[derive(Clone, Copy, Debug, PartialEq)]
pub struct Point {
    pub x: f64,
    pub y: f64,
}

pub fn point(x: f64, y: f64) -> Point {
    Point { x, y }
}

/// The corners of a convex outline in their order; two of them make a segment.
pub type Outline = Vec<Point>;

impl Point {
    /// The point `along` a direction of length 1 and `across` it, to its right as one looks down the page.
    pub fn moved(self, direction: Point, along: f64, across: f64) -> Point {
        point(
            self.x + direction.x * along - direction.y * across,
            self.y + direction.y * along + direction.x * across,
        )
    }

    pub fn distance(self, other: Point) -> f64 {
        let (x, y) = (other.x - self.x, other.y - self.y);
        (x * x + y * y).sqrt()
    }

    /// The direction to another point, of length 1. Only square roots and quotients: the same bits everywhere.
    pub fn direction(self, other: Point) -> Point {
        let length = self.distance(other);
        point((other.x - self.x) / length, (other.y - self.y) / length)
    }

    fn dot(self, other: Point) -> f64 {
        self.x * other.x + self.y * other.y
    }
}

/// A rectangle around a middle, its length along a direction.
pub fn rectangle(middle: Point, direction: Point, length: f64, height: f64) -> Outline {
    let (half, rise) = (length / 2.0, height / 2.0);
    [(-half, -rise), (half, -rise), (half, rise), (-half, rise)]
        .into_iter()
        .map(|(along, across)| middle.moved(direction, along, across))
        .collect()
}

/// An upright rectangle.
pub fn upright(left: f64, top: f64, width: f64, height: f64) -> Outline {
    vec![
        point(left, top),
        point(left + width, top),
        point(left + width, top + height),
        point(left, top + height),
    ]
}

/// Two convex outlines meet unless some edge's normal keeps them apart.
pub fn meet(a: &[Point], b: &[Point]) -> bool {
    !normals(a).chain(normals(b)).any(|axis| apart(a, b, axis))
}

fn normals(outline: &[Point]) -> impl Iterator<Item = Point> + '_ {
    (0..outline.len()).flat_map(move |i| {
        let (from, to) = (outline[i], outline[(i + 1) % outline.len()]);
        let edge = point(to.x - from.x, to.y - from.y);
        // a segment's own direction parts it from what lies beyond its ends
        let along = (outline.len() == 2).then_some(edge);
        [Some(point(-edge.y, edge.x)), along].into_iter().flatten()
    })
}

fn apart(a: &[Point], b: &[Point], axis: Point) -> bool {
    let (a_from, a_to) = shadow(a, axis);
    let (b_from, b_to) = shadow(b, axis);
    a_to <= b_from || b_to <= a_from
}

fn shadow(outline: &[Point], axis: Point) -> (f64, f64) {
    let places = outline.iter().map(|corner| corner.dot(axis));
    places.fold((f64::INFINITY, f64::NEG_INFINITY), |(from, to), place| {
        (from.min(place), to.max(place))
    })
}

#[cfg(test)]
mod tests {
    use super::*;

    #[test]
    fn outlines_meet() {
        let square = upright(0.0, 0.0, 10.0, 10.0);
        assert!(meet(&square, &upright(9.0, 9.0, 5.0, 5.0)));
        assert!(!meet(&square, &upright(10.0, 0.0, 5.0, 5.0)));
        assert!(meet(&square, &[point(-5.0, 5.0), point(15.0, 5.0)]));
        assert!(!meet(&square, &[point(-5.0, 5.0), point(-1.0, 5.0)]));
        assert!(!meet(&square, &[point(8.0, -4.0), point(14.0, 2.0)]));
        let slanted = rectangle(point(20.0, 5.0), point(0.8, 0.6), 20.0, 4.0);
        assert!(!meet(&square, &slanted));
        let nearer = rectangle(point(15.0, 5.0), point(0.8, 0.6), 20.0, 4.0);
        assert!(meet(&square, &nearer));
    }
}
