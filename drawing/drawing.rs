//! The plan as a graph of its states, with what a refusal names marked.
use crate::answer::Refusal;
use crate::graph::{Arrow, Graph, Look, Node};
use crate::reading::{place_of, Machine, Step, Text};

/// The machine whose places the plan shows.
fn partition<'a>(text: &'a Text, refusal: Option<&Refusal>) -> Option<&'a Machine> {
    let refusal = refusal.filter(|refusal| (8..=10).contains(&refusal.number))?;
    text.machines.get(refusal.first)
}

fn is_marked_state(refusal: &Refusal, state: usize) -> bool {
    match refusal.number {
        7 => refusal.first == state,
        8 | 9 | 12 => refusal.second == state,
        _ => false,
    }
}

/// The event that a refusal names.
pub fn event_of(refusal: &Refusal) -> Option<usize> {
    match refusal.number {
        6 | 11 | 12 => Some(refusal.first),
        10 => Some(refusal.second),
        _ => None,
    }
}

fn look(text: &Text, refusal: &Refusal, step: &Step) -> Look {
    let is_named = event_of(refusal).is_some_and(|event| step.is_of(text.event(event)));
    let is_marked = match refusal.number {
        1..=4 => refusal.first == step.line,
        5 => refusal.first == step.line || refusal.second == step.line,
        _ => is_named,
    };
    let stays = partition(text, Some(refusal)).is_some_and(|machine| place_of(machine, step.from) == place_of(machine, step.to));
    match (is_marked, stays) {
        (false, _) => Look::Plain,
        (true, false) => Look::Marked,
        (true, true) => Look::Stays,
    }
}

fn arrow(text: &Text, refusal: Option<&Refusal>, step: &Step) -> Arrow {
    let look = refusal.map_or(Look::Plain, |refusal| look(text, refusal, step));
    let line = format!("line {}: step {} {} {}", step.line, step.from, step.event, step.to);
    let title = if look == Look::Plain { String::new() } else { line };
    Arrow { from: step.from, to: step.to, event: step.event.clone(), look, title }
}

/// The places that list a state, and the colour of the first.
fn in_places(machine: &Machine, state: usize) -> (String, String) {
    let lists = machine.iter().enumerate().filter(|(_, place)| place.contains(&state));
    let places: Vec<String> = lists.map(|(index, _)| index.to_string()).take(3).collect();
    match place_of(machine, state) {
        Some(first) => (format!("in{}", first % 10), places.join(",")),
        None => ("none".into(), "none".into()),
    }
}

fn node(text: &Text, refusal: Option<&Refusal>, state: usize) -> Node {
    let Some(refusal) = refusal else { return Node::default() };
    let (colour, place) = partition(text, Some(refusal)).map_or_else(Default::default, |machine| in_places(machine, state));
    let leaves = |event: usize| text.steps_of(text.event(event)).any(|step| step.from == state);
    let is_source = refusal.number == 12 && leaves(refusal.first);
    let class = match (is_marked_state(refusal, state), is_source) {
        (true, _) => "marked".into(),
        (_, true) => "source".into(),
        _ => colour,
    };
    Node { class, holds: vec![], place }
}

pub fn drawing(text: &Text, refusal: Option<&Refusal>) -> Graph {
    Graph {
        caption: "drawing".into(),
        is_board: false,
        is_marked: false,
        nodes: (0..text.states).map(|state| node(text, refusal, state)).collect(),
        start: text.start,
        arrows: text.steps.iter().map(|step| arrow(text, refusal, step)).collect(),
    }
}
