//! What can be read of a text, whatever its bytes are. The program split checks the form; here each line counts by its words
//! alone, so that a misformed text still shows most of its plan. Work is bounded by the text's own bounds.

pub const BYTES: usize = 32768;
const STATES: usize = 256;
const EVENTS: usize = 64;
const STEPS: usize = 1024;
const MACHINES: usize = 16;
const PLACES: usize = 64;
/// A name that is longer is no name; the picture shows its beginning.
const NAME: usize = 16;

pub struct Step {
    pub line: usize,
    pub from: usize,
    /// As its line spells it.
    pub event: String,
    pub to: usize,
}

impl Step {
    /// Names that differ only in case are one event.
    pub fn is_of(&self, event: &str) -> bool {
        self.event.eq_ignore_ascii_case(event)
    }
}

/// For each place its states in the order of the text.
pub type Machine = Vec<Vec<usize>>;

pub struct Text {
    pub lines: Vec<Vec<u8>>,
    pub states: usize,
    /// Nothing if line 1 has one that is no state.
    pub start: Option<usize>,
    pub events: Vec<String>,
    pub steps: Vec<Step>,
    pub machines: Vec<Machine>,
}

/// Bytes as printable ASCII, shortened to a count of bytes.
pub fn shown(bytes: &[u8], most: usize) -> String {
    let show = |&byte: &u8| match byte {
        b'\\' => "\\\\".to_string(),
        b' '..=b'~' => char::from(byte).to_string(),
        _ => format!("\\x{byte:02x}"),
    };
    let kept: String = bytes.iter().take(most).map(show).collect();
    if bytes.len() > most { kept + "..." } else { kept }
}

fn words(part: &[u8]) -> Vec<&[u8]> {
    part.split(|byte| b" ()\t\r".contains(byte)).filter(|word| !word.is_empty()).collect()
}

pub fn number(word: &[u8]) -> Option<usize> {
    std::str::from_utf8(word).ok()?.parse().ok()
}

/// The count, or 0 if it is over its bound, and the start.
fn states(words: &[&[u8]]) -> Option<(usize, usize)> {
    let (count, start) = match words {
        [_, count] => (count, 0),
        [_, count, b"start", state] => (count, number(state)?),
        _ => return None,
    };
    Some((number(count).filter(|&count| count <= STATES).unwrap_or(0), start))
}

fn step(line: usize, words: &[&[u8]]) -> Option<Step> {
    let [_, from, event, to] = words else { return None };
    Some(Step { line, from: number(from)?, event: shown(event, NAME), to: number(to)? })
}

fn machine(line: &[u8]) -> Machine {
    let places = line.split(|&byte| byte == b'(').map(|place| words(place).into_iter().filter_map(number).collect());
    places.filter(|place: &Vec<usize>| !place.is_empty()).take(PLACES).collect()
}

impl Text {
    pub fn read(bytes: &[u8]) -> Text {
        // The line that the bound cuts would read as another.
        let cut = bytes.iter().take(BYTES).rposition(|&byte| byte == b'\n').map_or(0, |end| end + 1);
        let bytes = if bytes.len() > BYTES { &bytes[..cut] } else { bytes };
        let mut lines: Vec<Vec<u8>> = bytes.split(|&byte| byte == b'\n').map(<[u8]>::to_vec).collect();
        if lines.last().is_some_and(Vec::is_empty) {
            lines.pop();
        }
        let mut text = Text { lines: vec![], states: 0, start: None, events: vec![], steps: vec![], machines: vec![] };
        for (index, line) in lines.iter().enumerate() {
            text.take_line(index + 1, line);
        }
        text.lines = lines;
        text.settle_states();
        text
    }

    fn take_line(&mut self, line: usize, bytes: &[u8]) {
        let words = words(bytes);
        match words.first() {
            Some(&b"states") if self.states == 0 => {
                if let Some((count, start)) = states(&words) {
                    (self.states, self.start) = (count, Some(start))
                }
            }
            Some(&b"events") if self.events.is_empty() => {
                self.events = words[1..].iter().take(EVENTS).map(|name| shown(name, NAME)).collect()
            }
            Some(&b"step") if self.steps.len() < STEPS => self.steps.extend(step(line, &words)),
            Some(&b"machine") if self.machines.len() < MACHINES => self.machines.push(machine(bytes)),
            _ => {}
        }
    }

    /// Without a count within its bound, the states are those of the steps. Steps to and from states that are not there cannot
    /// be drawn.
    fn settle_states(&mut self) {
        if self.states == 0 {
            let ends = self.steps.iter().map(|step| step.from.max(step.to).saturating_add(1));
            self.states = ends.filter(|&count| count <= STATES).max().unwrap_or(0);
        }
        let states = self.states;
        self.start = Some(self.start.unwrap_or(0)).filter(|&state| state < states);
        self.steps.retain(|step| step.from < states && step.to < states);
    }

    pub fn line(&self, number: usize) -> Option<&[u8]> {
        self.lines.get(number.checked_sub(1)?).map(Vec::as_slice)
    }

    pub fn event(&self, number: usize) -> &str {
        self.events.get(number).map_or("?", String::as_str)
    }

    /// The steps of an event.
    pub fn steps_of<'a>(&'a self, event: &'a str) -> impl Iterator<Item = &'a Step> {
        self.steps.iter().filter(move |step| step.is_of(event))
    }
}

/// The first place that lists a state.
pub fn place_of(machine: &Machine, state: usize) -> Option<usize> {
    machine.iter().position(|place| place.contains(&state))
}
