//! The whole picture: words, panels, legend.
use crate::geometry::{Curve, Point};
use crate::graph::{largest, width, Graph};
use crate::layout::Layout;
use crate::svg::{frame, line, rectangle, text};
use crate::words::Words;

const GAP: f64 = 20.0;
const CAPTION: f64 = 30.0;
const LEGEND: f64 = 26.0;
/// If all panels side by side are wider, the boards come below the drawing.
const WIDE: f64 = 2200.0;

/// A graph with where its parts lie.
pub struct Panel {
    pub graph: Graph,
    pub layout: Layout,
}

impl Panel {
    fn width(&self) -> f64 {
        (2.0 * self.layout.half.x).max(width(&self.graph.caption) + 2.0 * GAP)
    }
}

fn total(panels: &[Panel]) -> f64 {
    panels.iter().map(|panel| panel.width() + GAP).sum()
}

/// The panels in rows. The drawing has one of its own if they do not all fit into one.
fn rows(panels: &[Panel]) -> Vec<&[Panel]> {
    if total(panels) <= WIDE {
        return vec![panels];
    }
    let wide = panels[0].width().max(WIDE);
    let (mut rows, mut first) = (vec![&panels[..1]], 1);
    for end in 2..=panels.len() {
        if end == panels.len() || total(&panels[first..=end]) > wide {
            rows.push(&panels[first..end]);
            first = end;
        }
    }
    rows
}

fn legend(at: Point, boards: usize) -> String {
    let (end, words) = (Point { x: at.x + 36.0, ..at }, Point { x: at.x + 56.0, ..at });
    let who = if boards == 2 { "both boards" } else { "all boards that have it" };
    line("shared", &Curve::Bend([at, at, end]), "") + &text("legend", words, &format!("shared event: {who} move together"))
}

/// The words above the panels and the room they take. They grow with the picture, so that they can be read where all of it is
/// seen.
fn headline(words: &[Words], wide: f64) -> (String, Point) {
    if words.is_empty() {
        return (String::new(), Point { x: 0.0, y: 0.0 });
    }
    let scale = (wide / WIDE).max(1.0);
    let at = |row: usize| Point { x: GAP, y: GAP + LEGEND * (row as f64 + 0.5) };
    let lines: String = words.iter().enumerate().map(|(row, line)| text(line.class, at(row), &line.words)).collect();
    let longest = largest(words.iter().map(|line| width(&line.words)));
    let room = Point { x: scale * (longest + 3.0 * GAP), y: scale * (LEGEND * words.len() as f64 + GAP / 2.0) };
    (format!("<g transform=\"scale({scale:.2})\">\n{lines}</g>\n"), room)
}

/// A row of panels below a height, its right end, and its lower one.
fn row(panels: &[Panel], top: f64, is_shared: &dyn Fn(&str) -> bool) -> (String, f64, f64) {
    let tall = CAPTION + 2.0 * largest(panels.iter().map(|panel| panel.layout.half.y));
    let (mut left, mut body) = (GAP, String::new());
    for panel in panels {
        let half = Point { x: panel.width() / 2.0, y: tall / 2.0 };
        let middle = Point { x: left + half.x, y: top + half.y };
        let class = if panel.graph.is_marked { "panel marked" } else { "panel" };
        body += &rectangle(class, middle, half);
        body += &text("caption", Point { y: top + CAPTION / 2.0 + 4.0, ..middle }, &panel.graph.caption);
        body += &panel.graph.draw(&panel.layout, Point { y: middle.y + CAPTION / 2.0, ..middle }, is_shared);
        left += 2.0 * half.x + GAP;
    }
    (body, left, top + tall + GAP)
}

/// The drawing comes first, then the boards.
pub fn picture(panels: &[Panel], words: &[Words]) -> String {
    let has = |board: &Panel, event: &str| board.graph.arrows.iter().any(|arrow| arrow.event == event);
    // Of a refused text nothing is known of what boards share.
    let is_shared = |event: &str| words.is_empty() && panels[1..].iter().filter(|board| has(board, event)).count() > 1;
    let rows = rows(panels);
    let (mut body, room) = headline(words, largest(rows.iter().map(|panels| total(panels))));
    let (mut right, mut below) = (room.x, GAP + room.y);
    for panels in rows {
        let (drawn, end, bottom) = row(panels, below, &is_shared);
        (body, right, below) = (body + &drawn, right.max(end), bottom);
    }
    if panels[0].graph.arrows.iter().any(|arrow| is_shared(&arrow.event)) {
        body += &legend(Point { x: GAP + 10.0, y: below + 4.0 }, panels.len() - 1);
        below += LEGEND;
    }
    let refused = words.first().map(|line| format!("The drawing, {}", line.words));
    frame(right, below, &refused.unwrap_or("The drawing and its boards".into()), !words.is_empty(), &body)
}
