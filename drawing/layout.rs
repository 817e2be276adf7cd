//! Where the nodes, arrows and labels of a graph lie in its panel, as seen from the panel's middle.
use crate::geometry::{direction, settle, Curve, Point};
use crate::graph::{largest, width, Graph};
use crate::{dot, layers};
use std::f64::consts::{PI, TAU};

/// Graphs of so many nodes lie on a circle; on a larger one each arrow would run through the middle.
const CIRCLE: usize = 8;
/// Room for an arrow's head between the end of its line and the node.
const HEAD: f64 = 10.0;
/// How far a loop stands out from its node.
const LOOP: f64 = 44.0;

/// Where the nodes are, and what an arrow needs to find its way between them.
pub struct Spots {
    pub spots: Vec<Point>,
    /// For each arrow how far it bends aside before others between the same nodes push it.
    pub lean: Vec<f64>,
    /// For each arrow its curve and its label's place, where they are found already.
    pub found: Vec<Option<(Curve, Option<Point>)>>,
}

pub struct Layout {
    pub spots: Vec<Point>,
    pub start: Option<Curve>,
    pub curves: Vec<Curve>,
    pub labels: Vec<Point>,
    /// Half the width and height of the panel.
    pub half: Point,
}

impl Graph {
    /// Half the width and height of a node.
    pub fn half(&self) -> Point {
        let longest = largest(self.nodes.iter().flat_map(|node| node.holds.iter().map(|line| width(line))));
        let most = self.nodes.iter().map(|node| node.holds.len()).max().unwrap_or(0).max(1);
        let high = 24.0 + 7.5 * (most - 1) as f64;
        if self.is_board { Point { x: longest / 2.0 + 14.0, y: high } } else { Point { x: 20.0, y: 20.0 } }
    }

    pub fn label(&self) -> f64 {
        largest(self.arrows.iter().map(|arrow| width(&arrow.event)))
    }

    fn is_round(&self) -> bool {
        self.nodes.len() <= CIRCLE
    }

    /// The nodes on a circle, the first one left in the drawing and above on a board. The others go to either side in
    /// turn: near numbers stay near each other and the last is opposite the first.
    fn circle(&self) -> Vec<Point> {
        let count = self.nodes.len();
        let (first, air) = if self.is_board { (1.5 * PI, 60.0) } else { (PI, 96.0) };
        let apart = 2.0 * self.half().x + self.label() + air;
        // A single node is off the centre too, so that there is an outside from which its start arrow comes.
        let radius = if count == 1 { 1.0 } else { apart / 2.0 / direction(PI / count as f64).1 };
        let spot = |k: usize| {
            let turns = if k % 2 == 1 { k / 2 + 1 } else { count - k / 2 };
            let (x, y) = direction(first + TAU * turns as f64 / count as f64);
            Point { x: radius * x, y: radius * y }
        };
        (0..count).map(spot).collect()
    }

    fn spots(&self, may_ask_dot: bool) -> Spots {
        if self.is_round() {
            let count = self.arrows.len();
            return Spots { spots: self.circle(), lean: vec![0.0; count], found: vec![None; count] };
        }
        let asked = if may_ask_dot { dot::spots(self) } else { None };
        asked.unwrap_or_else(|| layers::spots(self))
    }

    /// Half the panel of a circle: beyond the nodes there are start arrows, and labels on bent arrows.
    fn round_reach(&self, spots: &[Point]) -> Point {
        let half = self.half();
        let (x, y) = (largest(spots.iter().map(|p| p.x.abs())), largest(spots.iter().map(|p| p.y.abs())));
        let loops = if self.arrows.iter().any(|arrow| arrow.from == arrow.to) { LOOP } else { 0.0 };
        let above = if self.is_board { 40.0 } else { 20.0 };
        Point { x: x + half.x + self.label().max(30.0) + 20.0 + loops, y: y + half.y + above + loops }
    }

    /// The point outside a node, with some air between, where a line from its middle to another point passes.
    fn outside(&self, middle: Point, aim: Point, air: f64) -> Point {
        let (half, length) = (self.half(), middle.distance(aim));
        if length < 1.0 {
            return middle;
        }
        let (x, y) = ((aim.x - middle.x).abs() / length, (aim.y - middle.y).abs() / length);
        let edge = if self.is_board { (half.x / x).min(half.y / y) } else { half.x };
        middle.toward(aim, (edge + air) / length)
    }

    /// The point toward which an arrow bends. Arrows between the same two nodes spread, each direction to its side.
    fn bend(&self, index: usize, at: &Spots) -> Point {
        let (rank, count) = self.rank(index);
        let ends = &self.arrows[index];
        let (from, to) = (at.spots[ends.from.min(ends.to)], at.spots[ends.from.max(ends.to)]);
        let length = from.distance(to).max(1.0);
        let aside = ((rank as f64 - (count - 1) as f64 / 2.0) * 120.0 + at.lean[index]) / length;
        let middle = from.toward(to, 0.5);
        Point { x: middle.x - (to.y - from.y) * aside, y: middle.y + (to.x - from.x) * aside }
    }

    /// Which of the arrows between its two nodes an arrow is, and how many there are.
    fn rank(&self, index: usize) -> (usize, usize) {
        let ends = |k: usize| (self.arrows[k].from, self.arrows[k].to);
        let sorted = |(a, b): (usize, usize)| (a.min(b), a.max(b));
        let (low, high) = sorted(ends(index));
        let mut bundle: Vec<usize> = (0..self.arrows.len()).filter(|&k| sorted(ends(k)) == (low, high)).collect();
        bundle.sort_by_key(|&k| ends(k) == (low, high));
        (bundle.iter().take_while(|&&k| k != index).count(), bundle.len())
    }

    /// A loop stands out from its node, on a circle away from the middle and otherwise upwards.
    fn around(&self, index: usize, middle: Point) -> [Point; 3] {
        let up = Point { y: middle.y - 1000.0, ..middle };
        let aim = if self.is_round() { middle.toward(Point { x: 0.0, y: 0.0 }, -1000.0) } else { up };
        let far = self.outside(middle, aim, 2.0 * LOOP + 24.0 * self.rank(index).0 as f64);
        let side = Point { x: (far.y - middle.y) * 0.5, y: (middle.x - far.x) * 0.5 };
        let ends = [far.plus(side), far.plus(Point { x: -side.x, y: -side.y })];
        [self.outside(middle, ends[0], 2.0), far, self.outside(middle, ends[1], HEAD)]
    }

    /// An arrow's line from node to node, and the shorter one on which its label may lie.
    fn curve(&self, index: usize, at: &Spots) -> (Curve, Curve) {
        let arrow = &self.arrows[index];
        let (from, to) = (at.spots[arrow.from], at.spots[arrow.to]);
        if arrow.from == arrow.to {
            let around = Curve::Bend(self.around(index, from));
            return (around.clone(), around);
        }
        if let Some((curve, _)) = &at.found[index] {
            return (curve.clone(), curve.clone());
        }
        let bend = self.bend(index, at);
        let end = |middle: Point, air: f64| self.outside(middle, bend, air);
        let line = Curve::Bend([end(from, 2.0), bend, end(to, HEAD)]);
        (line, Curve::Bend([end(from, 6.0), bend, end(to, 6.0)]))
    }

    fn start_curve(&self, spots: &[Point]) -> Option<Curve> {
        let start = *spots.get(self.start?)?;
        let left = Point { x: start.x - 1000.0, ..start };
        let aim = if self.is_round() { Point { x: 0.0, y: 0.0 }.toward(start, 2.0) } else { left };
        let (tail, tip) = (self.outside(start, aim, HEAD + 24.0), self.outside(start, aim, HEAD));
        Some(Curve::Bend([tail, tail, tip]))
    }

    pub fn layout(&self, may_ask_dot: bool) -> Layout {
        let at = self.spots(may_ask_dot);
        let mut taken: Vec<(Point, Point)> = at.spots.iter().map(|&spot| (spot, self.half())).collect();
        let (mut curves, mut labels) = (vec![], vec![]);
        for (index, arrow) in self.arrows.iter().enumerate() {
            let (curve, under) = self.curve(index, &at);
            let half = Point { x: width(&arrow.event) / 2.0, y: 10.0 };
            let found = at.found[index].as_ref().and_then(|(_, label)| *label);
            labels.push(found.unwrap_or_else(|| settle(&under, half, &mut taken)));
            curves.push(curve);
        }
        let (start, half) = (self.start_curve(&at.spots), self.round_reach(&at.spots));
        let layout = Layout { spots: at.spots, start, curves, labels, half };
        if self.is_round() { layout } else { layout.centred(self) }
    }
}

impl Layout {
    /// Moved so that all that is drawn lies around the panel's middle, and the panel as large as that asks for.
    fn centred(mut self, graph: &Graph) -> Layout {
        let (node, label) = (graph.half(), Point { x: graph.label() / 2.0, y: 10.0 });
        let nodes = self.spots.iter().map(|&spot| (spot, node));
        let labels = self.labels.iter().map(|&spot| (spot, label));
        let curves = self.curves.iter().chain(&self.start);
        let lines = curves.flat_map(|curve| [0.0, 0.25, 0.5, 0.75].map(|part| (curve.at(part), Point { x: 4.0, y: 4.0 })));
        let (mut low, mut high) = (self.spots[0], self.spots[0]);
        for (spot, half) in nodes.chain(labels).chain(lines) {
            low = Point { x: low.x.min(spot.x - half.x), y: low.y.min(spot.y - half.y) };
            high = Point { x: high.x.max(spot.x + half.x), y: high.y.max(spot.y + half.y) };
        }
        let by = Point { x: -(low.x + high.x) / 2.0, y: -(low.y + high.y) / 2.0 };
        self.spots.iter_mut().chain(&mut self.labels).for_each(|spot| *spot = spot.plus(by));
        self.curves.iter_mut().chain(&mut self.start).for_each(|curve| *curve = curve.shifted(by));
        self.half = Point { x: (high.x - low.x) / 2.0 + 20.0, y: (high.y - low.y) / 2.0 + 20.0 };
        self
    }
}
