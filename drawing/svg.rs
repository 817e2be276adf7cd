//! The elements of the picture. One decimal, so that the file is the same on every machine.
use crate::geometry::{Curve, Point};
use crate::graph::{Graph, Look};
use crate::layout::Layout;

/// Shared events also have thicker lines, for those who do not tell the colours apart. The white rim of a label parts
/// the lines beneath it, in whatever font it is shown.
const STYLE: &str = "<style>
text { font: 15px Helvetica, Arial, sans-serif; fill: #1e293b; text-anchor: middle; }
text.caption { font-weight: bold; }
text.holds { font-size: 12px; fill: #475569; }
text.own, text.shared { paint-order: stroke; stroke: #ffffff; stroke-width: 6px; stroke-linejoin: round; }
text.shared { fill: #c2410c; }
text.legend { text-anchor: start; }
path.own { fill: none; stroke: #475569; stroke-width: 1.5px; marker-end: url(#own); }
path.shared { fill: none; stroke: #c2410c; stroke-width: 2.5px; marker-end: url(#shared); }
#own { fill: #475569; }
#shared { fill: #c2410c; }
.panel { fill: #ffffff; stroke: #cbd5e1; }
.node { fill: #e8eff8; stroke: #475569; stroke-width: 1.5px; }
</style>
";

/// Marks are thick as well as red. The colours of places repeat after ten; the figure in the node does not.
const MARKS: &str = "<style>
text.marked { fill: #dc2626; font-weight: bold; paint-order: stroke; stroke: #ffffff; stroke-width: 6px; stroke-linejoin: round; }
text.words, text.line { text-anchor: start; stroke: none; }
text.line { font-family: monospace; }
text.place { font-size: 11px; fill: #475569; }
path.marked { fill: none; stroke: #dc2626; stroke-width: 3px; marker-end: url(#marked); }
path.stays { stroke-dasharray: 7 5; }
#marked { fill: #dc2626; }
.in0 { fill: #bfdbfe; } .in1 { fill: #fde68a; } .in2 { fill: #bbf7d0; } .in3 { fill: #fbcfe8; } .in4 { fill: #ddd6fe; }
.in5 { fill: #fed7aa; } .in6 { fill: #99f6e4; } .in7 { fill: #e2e8f0; } .in8 { fill: #d9f99d; } .in9 { fill: #f5d0fe; }
.none { fill: #ffffff; }
.source { stroke: #dc2626; stroke-width: 3px; }
.panel.marked { stroke: #dc2626; stroke-width: 3px; }
.node.marked { fill: #fca5a5; stroke: #dc2626; stroke-width: 4px; }
</style>
";

fn escaped(words: &str) -> String {
    words.replace('&', "&amp;").replace('<', "&lt;").replace('>', "&gt;").replace('"', "&quot;")
}

pub fn text(class: &str, at: Point, words: &str) -> String {
    format!("<text class=\"{class}\" x=\"{:.1}\" y=\"{:.1}\">{}</text>\n", at.x, at.y + 5.0, escaped(words))
}

fn path(curve: &Curve) -> String {
    let pair = |point: &Point| format!("{:.1},{:.1}", point.x, point.y);
    match curve {
        Curve::Bend([from, bend, to]) => format!("M{} Q{} {}", pair(from), pair(bend), pair(to)),
        Curve::Pieces(points) => {
            let others: Vec<String> = points[1..].iter().map(pair).collect();
            format!("M{} C{}", pair(&points[0]), others.join(" "))
        }
    }
}

pub fn line(class: &str, curve: &Curve, title: &str) -> String {
    let start = format!("<path class=\"{class}\" d=\"{}\"", path(curve));
    if title.is_empty() { start + "/>\n" } else { format!("{start}><title>{}</title></path>\n", escaped(title)) }
}

pub fn rectangle(class: &str, middle: Point, half: Point) -> String {
    let corner = format!("x=\"{:.1}\" y=\"{:.1}\"", middle.x - half.x, middle.y - half.y);
    let size = format!("width=\"{:.1}\" height=\"{:.1}\"", 2.0 * half.x, 2.0 * half.y);
    format!("<rect class=\"{class}\" {corner} {size} rx=\"10.0\"/>\n")
}

fn head(name: &str) -> String {
    let size = "refX=\"1\" refY=\"4\" markerWidth=\"10\" markerHeight=\"8\" markerUnits=\"userSpaceOnUse\"";
    format!("<marker id=\"{name}\" {size} orient=\"auto\"><path d=\"M0,0 L10,4 L0,8 z\"/></marker>\n")
}

fn below(at: Point, by: f64) -> Point {
    Point { y: at.y + by, ..at }
}

impl Graph {
    fn node(&self, index: usize, middle: Point) -> String {
        let (half, name, node) = (self.half(), index.to_string(), &self.nodes[index]);
        let class = format!("node {}", node.class);
        if self.is_board {
            let top = -7.5 * (node.holds.len().max(1) - 1) as f64;
            let lines = node.holds.iter().enumerate();
            let holds = lines.map(|(row, states)| text("holds", below(middle, top + 10.0 + 15.0 * row as f64), states));
            let words = text("name", below(middle, top - 8.0), &name) + &holds.collect::<String>();
            return rectangle(class.trim_end(), middle, half) + &words;
        }
        let at = format!("cx=\"{:.1}\" cy=\"{:.1}\"", middle.x, middle.y);
        let circle = format!("<circle class=\"{}\" {at} r=\"{:.1}\"/>\n", class.trim_end(), half.x);
        if node.place.is_empty() {
            return circle + &text("name", middle, &name);
        }
        circle + &text("name", below(middle, -5.0), &name) + &text("place", below(middle, 8.0), &node.place)
    }

    /// Nodes and arrows around a centre, labels last so that no line runs over them, and marked arrows over the others.
    pub fn draw(&self, layout: &Layout, centre: Point, is_shared: impl Fn(&str) -> bool) -> String {
        let start = layout.start.as_ref().map(|curve| line("own", &curve.shifted(centre), ""));
        let (mut lines, mut labels) = (start.unwrap_or_default(), String::new());
        let mut order: Vec<usize> = (0..self.arrows.len()).collect();
        order.sort_by_key(|&index| self.arrows[index].look != Look::Plain);
        for index in order {
            let (arrow, curve, label) = (&self.arrows[index], &layout.curves[index], &layout.labels[index]);
            let (class, label_class) = match arrow.look {
                Look::Plain if is_shared(&arrow.event) => ("shared", "shared"),
                Look::Plain => ("own", "own"),
                Look::Marked => ("marked", "marked"),
                Look::Stays => ("marked stays", "marked"),
            };
            lines += &line(class, &curve.shifted(centre), &arrow.title);
            labels += &text(label_class, label.plus(centre), &arrow.event);
        }
        let spots = layout.spots.iter().enumerate();
        let nodes: String = spots.map(|(index, spot)| self.node(index, spot.plus(centre))).collect();
        lines + &nodes + &labels
    }
}

/// The background is the picture's own, so that it can be read on a dark page too.
pub fn frame(width: f64, height: f64, title: &str, is_marked: bool, body: &str) -> String {
    let size = format!("width=\"{width:.1}\" height=\"{height:.1}\"");
    let view = format!("viewBox=\"0 0 {width:.1} {height:.1}\"");
    let (marks, marked) = if is_marked { (MARKS, head("marked")) } else { ("", String::new()) };
    let heads = head("own") + &head("shared") + &marked;
    let ground = format!("<rect {size} rx=\"10.0\" fill=\"#f1f5f9\"/>\n");
    let top = format!("<svg xmlns=\"http://www.w3.org/2000/svg\" {size} {view}>\n");
    let title = format!("<title>{}</title>\n", escaped(title));
    format!("{top}{title}{STYLE}{marks}<defs>\n{heads}</defs>\n{ground}{body}</svg>\n")
}
