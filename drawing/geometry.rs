//! Points, and the curves of arrows.
use std::f64::consts::TAU;

#[derive(Clone, Copy)]
pub struct Point {
    pub x: f64,
    pub y: f64,
}

impl Point {
    /// What lies at a part of the way to another point; beyond it if the part is over 1.
    pub fn toward(self, to: Point, part: f64) -> Point {
        Point { x: self.x + (to.x - self.x) * part, y: self.y + (to.y - self.y) * part }
    }

    pub fn distance(self, to: Point) -> f64 {
        ((to.x - self.x) * (to.x - self.x) + (to.y - self.y) * (to.y - self.y)).sqrt()
    }

    pub fn plus(self, by: Point) -> Point {
        Point { x: self.x + by.x, y: self.y + by.y }
    }
}

/// Cosine and sine by their series: the library's may differ in the last bit from one machine to the next.
pub fn direction(angle: f64) -> (f64, f64) {
    let (mut term, mut sums) = (1.0, [0.0; 4]);
    for k in 0..40 {
        sums[k % 4] += term;
        term *= angle % TAU / (k + 1) as f64;
    }
    (sums[0] - sums[2], sums[1] - sums[3])
}

/// Quadratic, by three points, or cubic, by four points and three more for each further piece.
#[derive(Clone)]
pub enum Curve {
    Bend([Point; 3]),
    Pieces(Vec<Point>),
}

impl Curve {
    /// The point at a part of the curve.
    pub fn at(&self, part: f64) -> Point {
        match self {
            Curve::Bend([from, bend, to]) => from.toward(*bend, part).toward(bend.toward(*to, part), part),
            Curve::Pieces(points) => {
                let along = part * (points.len() / 3) as f64;
                let piece = (along as usize).min(points.len() / 3 - 1);
                cubic(&points[3 * piece..3 * piece + 4], along - piece as f64)
            }
        }
    }

    pub fn shifted(&self, by: Point) -> Curve {
        match self {
            Curve::Bend(points) => Curve::Bend(points.map(|point| point.plus(by))),
            Curve::Pieces(points) => Curve::Pieces(points.iter().map(|point| point.plus(by)).collect()),
        }
    }
}

fn cubic(points: &[Point], part: f64) -> Point {
    let near = points[0].toward(points[1], part).toward(points[1].toward(points[2], part), part);
    let far = points[1].toward(points[2], part).toward(points[2].toward(points[3], part), part);
    near.toward(far, part)
}

/// The first of some spots on an arrow where its label covers neither a node nor an earlier label.
pub fn settle(curve: &Curve, half: Point, taken: &mut Vec<(Point, Point)>) -> Point {
    let apart = |a: Point, b: Point, x: f64, y: f64| (a.x - b.x).abs() > x || (a.y - b.y).abs() > y;
    let free = |spot: &Point| taken.iter().all(|&(p, h)| apart(p, *spot, h.x + half.x, h.y + half.y));
    let parts = [0.5, 0.4, 0.6, 0.3, 0.7, 0.2, 0.8, 0.45, 0.55, 0.35, 0.65, 0.25, 0.75, 0.15, 0.85];
    let spots = parts.map(|part| curve.at(part));
    let spot = spots.into_iter().find(free).unwrap_or(curve.at(0.5));
    taken.push((spot, half));
    spot
}
