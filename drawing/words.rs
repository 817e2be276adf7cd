//! What a refusal says, in words, above the picture.
use crate::answer::Refusal;
use crate::reading::{shown, Text};

/// So many bytes of a line are shown.
const SHOWN: usize = 80;

/// A line above the picture, and how it is drawn.
pub struct Words {
    pub class: &'static str,
    pub words: String,
}

fn says(words: impl Into<String>) -> Words {
    Words { class: "words", words: words.into() }
}

fn quoted(text: &Text, line: usize) -> Option<Words> {
    let bytes = text.line(line)?;
    Some(Words { class: "marked line", words: format!("line {line}: {}", shown(bytes, SHOWN)) })
}

/// What a line breaks: refusals 1 to 3.
fn of_line(text: &Text, refusal: &Refusal) -> String {
    let line = refusal.first;
    match (refusal.number, text.line(line)) {
        (2, _) if line == 0 => "oversize: the text has more than 32,768 bytes".into(),
        (1, None) => format!("misformed: the text ends before line {line}"),
        (2, None) => format!("oversize: the text ends before line {line}, and a machine line is missing"),
        (1, _) => format!("misformed: line {line} breaks the text's form"),
        (2, _) => format!("oversize: line {line} breaks a bound"),
        _ => format!("stranger: line {line} has a state not below the count, or an event undeclared or declared twice"),
    }
}

fn because(text: &Text, refusal: &Refusal) -> String {
    let (first, second) = (refusal.first, refusal.second);
    let event = |number: usize| format!("event {number}, {},", text.event(number));
    match refusal.number {
        1..=3 => of_line(text, refusal),
        4 => format!("standstill: the step on line {first} ends where it began"),
        5 => format!("fork: the step on line {first} has the same state and event as the one on line {second}"),
        6 => format!("idle event: {} has no step", event(first)),
        7 => format!("unreached: no steps lead from the start to state {first}"),
        8 => format!("doubled: machine {first} lists state {second} twice"),
        9 => format!("missing: state {second} is in no place of machine {first}"),
        10 => format!("uneven: the steps of {} do not all lead from one place of machine {first} to one other", event(second)),
        11 => format!("unheld: {} is on no machine: no step of it leads from place to place", event(first)),
        12 => format!("open: the machines would run {} in state {second}, where the plan does not", event(first)),
        number => format!("see ./split explain {number}"),
    }
}

fn marked(refusal: &Refusal) -> &'static str {
    match refusal.number {
        2 if refusal.first == 0 => "Drawn is what its first 32,768 bytes hold.",
        1..=3 => "Drawn is what could be read. Red: the line's step, if it has one that can be drawn.",
        4 => "Red: the step.",
        5 => "Red: the two steps.",
        6 => "Nothing is red: the event leads nowhere. Give it a step, or leave it out of line 2.",
        7 => "Red: the state.",
        8 => "Red: the state, and the places that list it. Colour and small figure of a state: its place in that machine.",
        9 => "Red: the state, and the machine's board. Colour and small figure of a state: its place in that machine.",
        10 => "Red: its steps, dashed if they stay within a place. Colour and small figure of a state: its place in that machine.",
        11 => "Red: its steps.",
        12 => "Red: the state. Red rim: the states where the plan runs it. On the boards: its moves and the places they leave.",
        _ => "",
    }
}

pub fn headline(text: &Text, refusal: &Refusal) -> Vec<Words> {
    let title = format!("refused {} {} {}", refusal.number, refusal.first, refusal.second);
    let mut words = vec![Words { class: "marked words", words: format!("{title}, {}", because(text, refusal)) }];
    let lines = match refusal.number {
        1..=4 => vec![refusal.first],
        5 => vec![refusal.second, refusal.first],
        _ => vec![],
    };
    words.extend(lines.into_iter().filter_map(|line| quoted(text, line)));
    words.push(says(marked(refusal)));
    words
}
