//! Draws a text and what the program split answers to it as an SVG picture: the plan on the left or on top, then the boards.
//! Takes the names of the two files; with `--own` before them `dot` is not asked. The status is 0 if the text is accepted,
//! 1 if it is refused and 2 if nothing is drawn.
mod answer;
mod boards;
mod dot;
mod drawing;
mod geometry;
mod graph;
mod layers;
mod layout;
mod picture;
mod reading;
mod svg;
mod words;

use answer::Answer;
use graph::Graph;
use picture::{picture, Panel};
use reading::Text;
use std::io::Write;
use std::process::ExitCode;

fn graphs(text: &Text, answer: &Answer) -> Vec<Graph> {
    match answer {
        Answer::Accepted(boards) => {
            let pairs = text.machines.iter().zip(boards).enumerate();
            let boards = pairs.map(|(index, (machine, board))| boards::accepted(index, machine, board));
            std::iter::once(drawing::drawing(text, None)).chain(boards).collect()
        }
        Answer::Refused(refusal) => {
            // Before 8 no machine was looked at.
            let count = if refusal.number >= 8 { text.machines.len() } else { 0 };
            let boards = (0..count).map(|index| boards::proposed(text, index, refusal));
            std::iter::once(drawing::drawing(text, Some(refusal))).chain(boards).collect()
        }
    }
}

fn panel(graph: Graph, is_own: bool) -> Panel {
    let may_ask_dot = !is_own && !graph.is_board && graph.nodes.len() > dot::FROM;
    Panel { layout: graph.layout(may_ask_dot), graph }
}

fn read(name: &str) -> Result<Vec<u8>, String> {
    std::fs::read(name).map_err(|error| format!("{name}: {error}"))
}

/// The picture, and whether the text is accepted.
fn run(names: &[String]) -> Result<(String, bool), String> {
    let (is_own, names) = match names {
        [first, rest @ ..] if first == "--own" => (true, rest),
        _ => (false, names),
    };
    let [text, answer] = names else { return Err("takes the names of a text and of its answer".into()) };
    let (text, answer) = (Text::read(&read(text)?), String::from_utf8_lossy(&read(answer)?).into_owned());
    let answer = answer::read(&answer).ok_or("split gave no answer, so nothing is drawn")?;
    let words = match &answer {
        Answer::Accepted(_) => vec![],
        Answer::Refused(refusal) => words::headline(&text, refusal),
    };
    if text.states == 0 {
        let lines: Vec<&str> = words.iter().filter(|line| line.class != "words").map(|line| line.words.as_str()).collect();
        return Err(format!("no state can be read, so nothing is drawn: {}", lines.join("; ")));
    }
    let panels: Vec<Panel> = graphs(&text, &answer).into_iter().map(|graph| panel(graph, is_own)).collect();
    Ok((picture(&panels, &words), words.is_empty()))
}

fn main() -> ExitCode {
    let names: Vec<String> = std::env::args_os().skip(1).map(|name| name.to_string_lossy().into_owned()).collect();
    let written = run(&names).and_then(|(svg, is_accepted)| {
        let written = std::io::stdout().write_all(svg.as_bytes()).map_err(|error| format!("cannot write: {error}"));
        written.map(|()| is_accepted)
    });
    match written {
        Ok(is_accepted) => ExitCode::from(u8::from(!is_accepted)),
        Err(why) => {
            eprintln!("draw: {why}");
            ExitCode::from(2)
        }
    }
}
