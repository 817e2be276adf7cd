//! What the program split answered: a sheet, or a refusal.
use crate::reading::number;

pub struct Refusal {
    pub number: usize,
    pub first: usize,
    pub second: usize,
}

/// A board's line of the sheet.
#[derive(Default)]
pub struct Board {
    pub start: usize,
    /// The event's name, the place it leaves and the place it enters.
    pub moves: Vec<(String, usize, usize)>,
}

pub enum Answer {
    Accepted(Vec<Board>),
    Refused(Refusal),
}

/// The words after each opening bracket of a line.
fn parts(line: &str) -> Vec<Vec<&str>> {
    line.split('(').skip(1).map(|part| part.trim_end_matches([')', ' ']).split(' ').collect()).collect()
}

fn figure(word: &str) -> usize {
    number(word.as_bytes()).unwrap_or(0)
}

fn board(line: &str) -> Board {
    let mut board = Board::default();
    for part in parts(line) {
        match part[..] {
            ["start", place] => board.start = figure(place),
            ["move", event, from, to] => board.moves.push((event.into(), figure(from), figure(to))),
            _ => {}
        }
    }
    board
}

/// Nothing if the answer is neither: then there was no call.
pub fn read(answer: &str) -> Option<Answer> {
    match parts(answer.lines().next()?).first()?[..] {
        ["accepted", _] => Some(Answer::Accepted(answer.lines().skip(1).map(board).collect())),
        ["refused", number, first, second] => {
            Some(Answer::Refused(Refusal { number: figure(number), first: figure(first), second: figure(second) }))
        }
        _ => None,
    }
}
