//! A large graph in columns by distance from the start. No arrow then leads more than one column to the right.
use crate::geometry::Point;
use crate::graph::Graph;
use crate::layout::Spots;

/// Nodes that the start does not reach stand right of all others, so many to a column.
const UNREACHED: usize = 16;
const SWEEPS: usize = 12;

/// The nodes in columns, each as a breadth-first search finds them.
pub fn columns(graph: &Graph) -> Vec<Vec<usize>> {
    let mut is_found = vec![false; graph.nodes.len()];
    let mut columns = vec![];
    let mut column: Vec<usize> = graph.start.into_iter().collect();
    while !column.is_empty() {
        column.iter().for_each(|&node| is_found[node] = true);
        let mut next = vec![];
        let ends = column.iter().flat_map(|&node| graph.arrows.iter().filter(move |arrow| arrow.from == node));
        ends.filter(|arrow| !is_found[arrow.to]).for_each(|arrow| {
            if !next.contains(&arrow.to) {
                next.push(arrow.to)
            }
        });
        columns.push(std::mem::replace(&mut column, next));
    }
    let others: Vec<usize> = (0..graph.nodes.len()).filter(|&node| !is_found[node]).collect();
    columns.extend(others.chunks(UNREACHED).map(<[usize]>::to_vec));
    columns
}

/// For each node the nodes that an arrow joins it with.
fn neighbours(graph: &Graph) -> Vec<Vec<usize>> {
    let mut neighbours = vec![vec![]; graph.nodes.len()];
    for arrow in graph.arrows.iter().filter(|arrow| arrow.from != arrow.to) {
        neighbours[arrow.from].push(arrow.to);
        neighbours[arrow.to].push(arrow.from);
    }
    neighbours
}

/// Each node's height, with columns around the same middle.
fn heights(columns: &[Vec<usize>], nodes: usize) -> Vec<f64> {
    let mut heights = vec![0.0; nodes];
    for column in columns {
        let middle = (column.len() - 1) as f64 / 2.0;
        column.iter().enumerate().for_each(|(row, &node)| heights[node] = row as f64 - middle);
    }
    heights
}

/// Sorts each column by the middle of what its nodes are joined with, from left to right and back again in turn, so that
/// fewer arrows cross.
fn sweep(columns: &mut [Vec<usize>], neighbours: &[Vec<usize>]) {
    for turn in 0..SWEEPS * columns.len() {
        let (round, place) = (turn / columns.len(), turn % columns.len());
        let column = if round % 2 == 0 { place } else { columns.len() - 1 - place };
        let heights = heights(columns, neighbours.len());
        let middle = |node: usize| match neighbours[node].len() {
            0 => heights[node],
            count => neighbours[node].iter().map(|&other| heights[other]).sum::<f64>() / count as f64,
        };
        columns[column].sort_by(|&a, &b| middle(a).total_cmp(&middle(b)));
    }
}

pub fn spots(graph: &Graph) -> Spots {
    let mut columns = columns(graph);
    sweep(&mut columns, &neighbours(graph));
    let rows = heights(&columns, graph.nodes.len());
    let (half, label) = (graph.half(), graph.label());
    // Room for two labels beside each other, since many arrows share the way between two columns.
    let (wide, high) = (2.0 * half.x + 2.0 * label + 60.0, 2.0 * half.y + 60.0);
    let mut spots = vec![Point { x: 0.0, y: 0.0 }; graph.nodes.len()];
    for (index, column) in columns.iter().enumerate() {
        column.iter().for_each(|&node| spots[node] = Point { x: wide * index as f64, y: high * rows[node] });
    }
    let lean = (0..graph.arrows.len()).map(|index| lean(graph, index, &spots, wide)).collect();
    Spots { spots, lean, found: vec![None; graph.arrows.len()] }
}

/// Arrows within a column, or over several, bend aside, so that they pass the nodes between.
fn lean(graph: &Graph, index: usize, spots: &[Point], wide: f64) -> f64 {
    let arrow = &graph.arrows[index];
    let (from, to) = (spots[arrow.from.min(arrow.to)], spots[arrow.from.max(arrow.to)]);
    let over = ((to.x - from.x).abs() / wide).round();
    let aside = match over {
        0.0 => 40.0 + (to.y - from.y).abs() / 4.0,
        1.0 => return 0.0,
        _ => 40.0 * over,
    };
    // Outwards: right within a column, else to the side where the arrow is already.
    let outward = if over == 0.0 { from.y > to.y } else { (from.y + to.y >= 0.0) == (to.x > from.x) };
    if outward { aside } else { -aside }
}
