//! What a panel shows: the drawing, with states as nodes, or a board, with places.

#[derive(Clone, Copy, PartialEq)]
pub enum Look {
    Plain,
    Marked,
    /// Marked too, and dashed: a step that stays within its place.
    Stays,
}

pub struct Arrow {
    pub from: usize,
    pub to: usize,
    pub event: String,
    pub look: Look,
    /// What a viewer shows at the arrow; nothing if empty.
    pub title: String,
}

#[derive(Clone, Default)]
pub struct Node {
    /// Beside `node`, how it is drawn: empty, or marked, and so on.
    pub class: String,
    /// For a place the states it holds, line by line; for a state nothing.
    pub holds: Vec<String>,
    /// For a state its place in the machine that the refusal names; empty otherwise.
    pub place: String,
}

pub struct Graph {
    pub caption: String,
    pub is_board: bool,
    pub is_marked: bool,
    pub nodes: Vec<Node>,
    pub start: Option<usize>,
    pub arrows: Vec<Arrow>,
}

/// An estimate, rather too wide, as fonts differ.
pub fn width(words: &str) -> f64 {
    8.0 * words.len() as f64
}

pub fn largest(values: impl Iterator<Item = f64>) -> f64 {
    values.fold(0.0, f64::max)
}

const LINE: usize = 30;
const LINES: usize = 6;

/// States as listed, with `3-7` for three or more that follow each other.
fn runs(states: &[usize]) -> Vec<String> {
    let mut runs: Vec<(usize, usize)> = vec![];
    for &state in states {
        match runs.last_mut() {
            Some((_, last)) if last.checked_add(1) == Some(state) => *last = state,
            _ => runs.push((state, state)),
        }
    }
    let words = |(low, high): (usize, usize)| match high - low {
        0 => vec![low.to_string()],
        1 => vec![low.to_string(), high.to_string()],
        _ => vec![format!("{low}-{high}")],
    };
    runs.into_iter().flat_map(words).collect()
}

/// The states of a place as lines of a set; one that is too long for its node ends in dots.
pub fn holds(states: &[usize]) -> Vec<String> {
    let mut lines = vec!["{".to_string()];
    for (index, run) in runs(states).iter().enumerate() {
        let line = lines.last_mut().expect("there is a first line");
        match index {
            0 => *line += run,
            _ if line.len() + run.len() + 2 <= LINE => *line += &format!(", {run}"),
            _ => {
                line.push(',');
                lines.push(run.clone())
            }
        }
    }
    if lines.len() > LINES {
        lines.truncate(LINES);
        lines[LINES - 1] = format!("... {} states", states.len());
    }
    lines.last_mut().expect("there is a first line").push('}');
    lines
}
