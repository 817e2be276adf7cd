//! Texts as they are put together, and those that many others are made from.
use crate::dice::Dice;

pub const Y: &str = "(states 4)\n(events ready brake home)\n(step 0 ready 1)\n(step 0 brake 2)\n(step 1 brake 3)\n\
                     (step 2 ready 3)\n(step 3 home 0)\n(machine (0 2) (1 3))\n(machine (0 1) (2 3))\n";
pub const Q: &str = "(states 3)\n(events ready brake)\n(step 0 ready 1)\n(step 0 brake 2)\n\
                     (machine (0 2) (1))\n(machine (0 1) (2))\n";
pub const ONE_STATE: &str = "(states 1)\n(events)\n(machine (0))\n";
/// Every kind of line and of item in few bytes, for the texts that are many.
pub const TINY: &str = "(states 3)\n(events a b-1)\n(step 0 a 1)\n(machine (0 2) (1))\n";

/// Accepted by its third machine, which thinning keeps alone.
pub fn q_with_third() -> String {
    format!("{Q}(machine (0) (1 2))\n")
}

pub fn y_with_first_again() -> String {
    format!("{Y}(machine (0 2) (1 3))\n")
}

pub fn y_from(start: usize) -> String {
    with(Y, "4", &format!("4 start {start}"))
}

/// A system and its machines; nothing of it need be within the bounds.
#[derive(Default)]
pub struct Draft {
    pub states: usize,
    /// As line 1 says it. If it says none, it is state 0.
    pub start: Option<usize>,
    pub events: Vec<String>,
    pub steps: Vec<(usize, String, usize)>,
    pub machines: Vec<Vec<Vec<usize>>>,
}

impl Draft {
    pub fn text(&self) -> String {
        let names: String = self.events.iter().map(|e| format!(" {e}")).collect();
        let start = self.start.map_or(String::new(), |state| format!(" start {state}"));
        let mut text = format!("(states {}{start})\n(events{names})\n", self.states);
        for (from, event, to) in &self.steps {
            text += &format!("(step {from} {event} {to})\n");
        }
        for machine in &self.machines {
            let figures = |place: &Vec<usize>| place.iter().map(usize::to_string).collect::<Vec<_>>().join(" ");
            let places: String = machine.iter().map(|p| format!(" ({})", figures(p))).collect();
            text += &format!("(machine{places})\n");
        }
        text
    }

    /// The start, said or not.
    pub fn first(&self) -> usize {
        self.start.unwrap_or(0)
    }

    /// The same system, in which two states have exchanged their numbers.
    pub fn exchange(&mut self, one: usize, other: usize) {
        let number = |state: usize| match state {
            _ if state == one => other,
            _ if state == other => one,
            _ => state,
        };
        let ends = self.steps.iter_mut().flat_map(|(from, _, to)| [from, to]);
        ends.chain(self.machines.iter_mut().flatten().flatten()).for_each(|state| *state = number(*state));
        self.start = Some(number(self.first())).filter(|state| *state > 0 || self.start.is_some());
    }

    /// The same system: its start has any number, is said to be 0, or is not said.
    pub fn begun(mut self, dice: &mut Dice) -> Draft {
        match dice.below(8) {
            0..=2 => {}
            3 => self.start = Some(self.first()),
            _ => self.exchange(self.first(), dice.below(self.states)),
        }
        self
    }
}

/// The text with its first `from` replaced; a `from` that is not there is a fault of these tests.
pub fn with(text: &str, from: &str, to: &str) -> String {
    assert!(text.contains(from), "no {from:?} in {text:?}");
    text.replacen(from, to, 1)
}

/// Lines parted by bars.
pub fn lines(text: &str) -> String {
    text.replace('|', "\n") + "\n"
}

/// Names that are easily taken for one another: by length, by either half, by their last byte, by a sum of bytes.
pub fn alike() -> Vec<String> {
    let others = "b z ab ba ay c9 a- a0 a9 az aaaaaaab aaaaaaaab aaaaaaaba aaaaaaaaaaaaaaab aaaaaaaabaaaaaaa \
                  aaaaaaabaaaaaaaa baaaaaaaaaaaaaaa bbbbbbbbaaaaaaaa aaaaaaaabbbbbbbb a--------------0 \
                  a---------------";
    let long = [1, 2, 3, 7, 8, 9, 15, 16].map(|n| "a".repeat(n));
    long.into_iter().chain(others.split(' ').map(str::to_string)).collect()
}
