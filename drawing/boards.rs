//! The boards: as the sheet has them, or as they were proposed, with what a refusal names marked.
use crate::answer::{Board, Refusal};
use crate::drawing::event_of;
use crate::graph::{holds, Arrow, Graph, Look, Node};
use crate::reading::{place_of, Machine, Text};

/// The places come from the text, the moves from the sheet.
pub fn accepted(index: usize, machine: &Machine, board: &Board) -> Graph {
    let places = machine.len();
    let moves = board.moves.iter().filter(|(_, from, to)| *from < places && *to < places);
    let arrow = |(event, from, to): &(String, usize, usize)| plain(event, *from, *to);
    Graph {
        caption: format!("board {index}"),
        is_board: true,
        is_marked: false,
        nodes: machine.iter().map(|place| Node { holds: holds(place), ..Node::default() }).collect(),
        start: Some(board.start).filter(|&start| start < places),
        arrows: moves.map(arrow).collect(),
    }
}

fn plain(event: &str, from: usize, to: usize) -> Arrow {
    Arrow { from, to, event: event.into(), look: Look::Plain, title: String::new() }
}

/// Each way in which steps of an event lead from place to place, once.
fn ways(text: &Text, machine: &Machine, event: &str) -> Vec<(usize, usize)> {
    let way = |from, to| Some((place_of(machine, from)?, place_of(machine, to)?));
    let mut ways: Vec<(usize, usize)> = text.steps_of(event).filter_map(|step| way(step.from, step.to)).collect();
    ways.sort();
    ways.dedup();
    ways
}

/// The moves of an event: one if all its steps agree on it. If they do not, nothing is drawn, unless that is the refusal.
fn moves(text: &Text, index: usize, event: usize, refusal: &Refusal) -> Vec<Arrow> {
    let ways = ways(text, &text.machines[index], text.event(event));
    let is_uneven = refusal.number == 10 && (refusal.first, refusal.second) == (index, event);
    let is_marked = is_uneven || refusal.number == 12 && event_of(refusal) == Some(event);
    let is_move = ways.len() == 1 && ways[0].0 != ways[0].1;
    let look = |(from, to)| match is_marked {
        true if from == to => Look::Stays,
        true => Look::Marked,
        false => Look::Plain,
    };
    let title = |(from, to)| if is_marked { format!("move {} {from} {to}", text.event(event)) } else { String::new() };
    let arrow = |&way: &(usize, usize)| Arrow { look: look(way), title: title(way), ..plain(text.event(event), way.0, way.1) };
    ways.iter().filter(|_| is_move || is_uneven).map(arrow).collect()
}

/// A place that lists a state twice, or that an event leaves which is not closed.
fn is_marked_place(text: &Text, index: usize, place: &[usize], refusal: &Refusal) -> bool {
    let machine = &text.machines[index];
    match refusal.number {
        8 => refusal.first == index && place.contains(&refusal.second),
        12 => {
            let ways = ways(text, machine, text.event(refusal.first));
            matches!(ways[..], [(from, to)] if from != to && machine[from] == place)
        }
        _ => false,
    }
}

fn caption(index: usize, refusal: &Refusal) -> String {
    match refusal.number {
        8 if refusal.first == index => format!("board {index}: state {} twice", refusal.second),
        9 if refusal.first == index => format!("board {index}: state {} in no place", refusal.second),
        10 if refusal.first == index => format!("board {index}: uneven"),
        _ => format!("board {index}"),
    }
}

pub fn proposed(text: &Text, index: usize, refusal: &Refusal) -> Graph {
    let machine = &text.machines[index];
    let class = |place: &[usize]| if is_marked_place(text, index, place, refusal) { "marked" } else { "" };
    let node = |place: &Vec<usize>| Node { class: class(place).into(), holds: holds(place), place: String::new() };
    Graph {
        caption: caption(index, refusal),
        is_board: true,
        is_marked: (8..=10).contains(&refusal.number) && refusal.first == index,
        nodes: machine.iter().map(node).collect(),
        start: text.start.and_then(|state| place_of(machine, state)),
        arrows: (0..text.events.len()).flat_map(|event| moves(text, index, event, refusal)).collect(),
    }
}
