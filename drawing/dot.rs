//! Positions from graphviz's `dot`, asked for its plain output, so that the picture's style and marks stay our own.
use crate::geometry::{Curve, Point};
use crate::graph::Graph;
use crate::layers::columns;
use crate::layout::Spots;
use std::fmt::Write as _;
use std::io::{Read, Write};
use std::process::{Child, Command, Stdio};
use std::time::{Duration, Instant};

/// Plans of more states are laid out by `dot`.
pub const FROM: usize = 24;
/// With more arrows `dot` may fail, or take minutes, to find room for labels; they are then put on its lines as on our own.
const LABELLED: usize = 256;
const PATIENCE: Duration = Duration::from_secs(10);
/// `dot` counts in inches.
const INCH: f64 = 72.0;

/// The limits keep its search short on large plans.
const HEAD: &str = "digraph plan {
rankdir=LR; nodesep=0.35; nslimit=4; nslimit1=4; mclimit=1;
node [shape=circle fixedsize=true width=0.56 label=\"\"];
edge [fontname=Helvetica fontsize=15 arrowsize=0.8];
start [width=0.3];
";

/// A label is as many letters as the event's name has, since only its width counts. Arrows that lead back do not count for the
/// columns, so that these go by distance from the start, as without `dot`. Loops are drawn without it.
fn question(graph: &Graph) -> String {
    let (columns, is_labelled) = (columns(graph), graph.arrows.len() <= LABELLED);
    let column = |node: usize| columns.iter().position(|column| column.contains(&node));
    let apart = if is_labelled { 0.5 } else { (graph.label() + 60.0) / INCH };
    let start = graph.start.map_or(String::new(), |node| format!("start -> {node};\n"));
    let mut question = format!("{HEAD}{start}ranksep={apart:.2};\n");
    (0..graph.nodes.len()).for_each(|node| _ = writeln!(question, "{node};"));
    for arrow in graph.arrows.iter().filter(|arrow| arrow.from != arrow.to) {
        let label = if is_labelled { "o".repeat(arrow.event.len()) } else { String::new() };
        let leads_on = column(arrow.from) < column(arrow.to);
        _ = writeln!(question, "{} -> {} [label=\"{label}\" constraint={leads_on}];", arrow.from, arrow.to);
    }
    question + "}\n"
}

/// Whether the child ends well in time; one that does not end is ended.
fn ends_in_time(child: &mut Child) -> bool {
    let until = Instant::now() + PATIENCE;
    while Instant::now() < until {
        match child.try_wait() {
            Ok(Some(status)) => return status.success(),
            Ok(None) => std::thread::sleep(Duration::from_millis(10)),
            Err(_) => break,
        }
    }
    _ = child.kill();
    _ = child.wait();
    false
}

fn answer(question: &str) -> Result<String, &'static str> {
    let mut command = Command::new("dot");
    command.arg("-Tplain").env("LC_ALL", "C").stdin(Stdio::piped()).stdout(Stdio::piped()).stderr(Stdio::null());
    let missing = "graphviz's dot is not there; with it a large plan is easier to read (Debian: apt-get install graphviz)";
    let mut child = command.spawn().map_err(|_| missing)?;
    let mut input = child.stdin.take().ok_or("dot takes no input")?;
    let mut output = child.stdout.take().ok_or("dot gives no output")?;
    let reader = std::thread::spawn(move || {
        let mut answer = String::new();
        output.read_to_string(&mut answer).map(|_| answer)
    });
    _ = input.write_all(question.as_bytes());
    drop(input);
    if !ends_in_time(&mut child) {
        return Err("dot gave no layout, so the own one is drawn");
    }
    reader.join().ok().and_then(Result::ok).ok_or("dot's answer cannot be read")
}

fn point(x: &str, y: &str) -> Option<Point> {
    Some(Point { x: x.parse::<f64>().ok()? * INCH, y: -y.parse::<f64>().ok()? * INCH })
}

/// The words from COUNT on of a line `edge TAIL HEAD COUNT X Y ..`, then the label and its X Y if there is one, then style and
/// colour.
fn edge(words: &[&str]) -> Option<(Curve, Option<Point>)> {
    let count: usize = words.first()?.parse().ok()?;
    let (rest, end) = (words.get(1..)?, count.checked_mul(2)?);
    let points: Option<Vec<Point>> = rest.get(..end)?.chunks(2).map(|pair| point(pair[0], pair[1])).collect();
    let label = match rest.get(end..)? {
        [_, x, y, _, _] => point(x, y),
        _ => None,
    };
    let points = points.filter(|points| points.len() >= 4 && points.len() % 3 == 1)?;
    Some((Curve::Pieces(points), label))
}

/// Gives an edge to the first arrow between these nodes that has none. `dot` ends it where its own head would begin.
fn give(spots: &mut Spots, graph: &Graph, words: &[&str]) -> Option<()> {
    let (tail, head): (usize, usize) = (words.get(1)?.parse().ok()?, words.get(2)?.parse().ok()?);
    let joins = |index: usize| (graph.arrows[index].from, graph.arrows[index].to) == (tail, head);
    let index = (0..graph.arrows.len()).find(|&index| joins(index) && spots.found[index].is_none())?;
    spots.found[index] = Some(edge(&words[3..])?);
    Some(())
}

fn read(answer: &str, graph: &Graph) -> Option<Spots> {
    let mut places = vec![None; graph.nodes.len()];
    let count = graph.arrows.len();
    let mut spots = Spots { spots: vec![], lean: vec![0.0; count], found: vec![None; count] };
    for line in answer.lines() {
        let words: Vec<&str> = line.split_whitespace().collect();
        match words[..] {
            ["node", name, x, y, ..] => {
                if let Some(place) = name.parse().ok().and_then(|node: usize| places.get_mut(node)) {
                    *place = point(x, y)
                }
            }
            ["edge", "start", ..] => {}
            ["edge", ..] => give(&mut spots, graph, &words)?,
            _ => {}
        }
    }
    spots.spots = places.into_iter().collect::<Option<Vec<Point>>>()?;
    Some(spots)
}

/// Nothing if `dot` does not help; standard error then says why.
pub fn spots(graph: &Graph) -> Option<Spots> {
    let spots = answer(&question(graph)).and_then(|answer| read(&answer, graph).ok_or("dot's answer cannot be read"));
    spots.map_err(|why| eprintln!("draw: {why}")).ok()
}
