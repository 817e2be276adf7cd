//! A call as the command line has it: a service and its words, on a text or a sheet.

use std::ffi::{OsStr, OsString};
use std::os::unix::ffi::OsStrExt;

/// What the system takes as one word, in bytes.
const LONGEST_WORD: usize = 1 << 17;

pub const SERVICES: [&str; 9] = ["check", "steps", "name", "run", "thin", "merge", "quote", "sheet", "board"];

/// Without a service it is check. A lent size is a figure; an event is a figure or a name, for a board any bytes.
#[derive(Clone, PartialEq, Eq, Hash)]
pub struct Call {
    pub words: Vec<String>,
    /// For a board, behind its word: the names as the library takes them, each ended by byte 10.
    pub list: Vec<u8>,
    /// Asked of the library only: no words say it, or many of a kind would take long as processes.
    pub unsaid: bool,
    /// The answer by hand, or from how the text was made. The independent program has to give it too.
    pub known: Option<String>,
}

/// Calls on one text, or one sheet, which the program gets in these pieces, with a pause between them.
#[derive(Clone)]
pub struct Task {
    pub kind: &'static str,
    pub pieces: Vec<Vec<u8>>,
    pub calls: Vec<Call>,
}

fn of(words: Vec<String>) -> Call {
    Call { words, list: Vec::new(), unsaid: false, known: None }
}

/// The words as a line has them.
pub fn call(line: &str) -> Call {
    of(line.split_whitespace().map(str::to_string).collect())
}

/// The service with an argument that may be left out.
pub fn lending(service: &str, lent: Option<String>) -> Call {
    call(&format!("{service} {}", lent.unwrap_or_default()))
}

pub fn run(events: &[impl ToString]) -> Call {
    let words = events.iter().map(|event| event.to_string());
    of(std::iter::once("run".to_string()).chain(words).collect())
}

/// A board with these names. No words say one that is not ended, one with a byte 0, or one that is longer than a word
/// may be.
pub fn board(list: impl Into<Vec<u8>>) -> Call {
    let list = list.into();
    let ended = list.is_empty() || list.ends_with(b"\n");
    let is_word = |name: &[u8]| name.len() < LONGEST_WORD && !name.contains(&0);
    let unsaid = !(ended && list.split(|b| *b == b'\n').all(is_word));
    Call { list, unsaid, ..call("board") }
}

fn is_name(word: &str) -> bool {
    let inner = |b: u8| b.is_ascii_alphanumeric() || b == b'-';
    (1..=16).contains(&word.len()) && word.starts_with(|c: char| c.is_ascii_alphabetic()) && word.bytes().all(inner)
}

/// The names of line 2; none if it is not what it should be.
pub fn names(text: &[u8]) -> Vec<String> {
    let line = text.split(|b| *b == b'\n').nth(1).unwrap_or_default();
    let line = String::from_utf8_lossy(line);
    let listed = line.strip_prefix("(events ").and_then(|rest| rest.strip_suffix(")")).unwrap_or_default();
    let names: Vec<String> = listed.split(' ').map(str::to_string).collect();
    if names.iter().all(|name| is_name(name)) {
        names
    } else {
        Vec::new()
    }
}

impl Call {
    pub fn giving(self, answer: &str) -> Call {
        Call { known: Some(answer.to_string()), ..self }
    }

    pub fn by_library(self) -> Call {
        Call { unsaid: true, ..self }
    }

    /// Whatever answer is known.
    pub fn is_same(&self, other: &Call) -> bool {
        (&self.words, &self.list, self.unsaid) == (&other.words, &other.list, other.unsaid)
    }

    /// The words with those behind board, whatever their bytes.
    pub fn said(&self) -> Vec<OsString> {
        let names = self.list.split_inclusive(|b| *b == b'\n').map(|name| &name[..name.len() - 1]);
        let words = self.words.iter().map(OsString::from);
        words.chain(names.map(|name| OsStr::from_bytes(name).to_os_string())).collect()
    }

    pub fn is_on_sheet(&self) -> bool {
        ["sheet", "board"].contains(&self.service())
    }

    pub fn service(&self) -> &str {
        self.words.first().map_or("check", |word| word)
    }

    pub fn arguments(&self) -> &[String] {
        self.words.get(1..).unwrap_or_default()
    }

    /// The arguments as numbers. What is not declared becomes one that never is, and so does a figure that is too large
    /// to be one; as a lent size that is as good as what it says.
    pub fn numbers(&self, text: &[u8]) -> Vec<usize> {
        let names = names(text);
        let number = |word: &String| match word.as_bytes()[0] {
            b'0'..=b'9' => word.parse().unwrap_or(usize::MAX),
            _ => names.iter().position(|name| name.eq_ignore_ascii_case(word)).unwrap_or(usize::MAX),
        };
        self.arguments().iter().map(number).collect()
    }

    /// To be typed again, if it can be.
    pub fn shown(&self) -> String {
        let names = String::from_utf8_lossy(&self.list).chars().take(400).collect::<String>();
        match (self.unsaid, self.list.is_empty()) {
            (true, _) => format!("{} by the library, of {names:?}", self.words.join(" ")),
            (false, true) => format!("split {}", self.words.join(" ")),
            (false, false) => format!("split {} {}", self.words.join(" "), names.replace('\n', " ")),
        }
    }
}

impl Task {
    pub fn new(kind: &'static str, text: impl Into<Vec<u8>>, calls: Vec<Call>) -> Task {
        Task { kind, pieces: vec![text.into()], calls }
    }

    pub fn text(&self) -> Vec<u8> {
        self.pieces.concat()
    }
}
