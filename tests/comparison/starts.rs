//! How often an answer is one that a likely fault with line 1's start would change, on texts that have one.
use crate::answer::class;
use crate::RULES;
use reference::Refusal;

/// What line 1 says, and what refuses the plan if its start is ignored and state 0 taken.
pub struct Start {
    count: usize,
    state: usize,
    from_zero: Option<Refusal>,
}

impl Start {
    /// Whether it is a state does not matter, but it has to be figures.
    pub fn of(text: &[u8]) -> Option<Start> {
        let end = text.iter().position(|b| *b == b'\n')?;
        let line = std::str::from_utf8(&text[..end]).ok()?;
        let (before, state) = line.strip_suffix(')')?.split_once(" start ")?;
        let (count, state) = (before.strip_prefix("(states ")?.parse().ok()?, state.parse().ok()?);
        let short = [before.as_bytes(), b")", &text[end..]].concat();
        let from_zero = reference::checked_plan(RULES, &short).err();
        Some(Start { count, state, from_zero })
    }

    pub fn telling(&self, expected: &[u8]) -> Vec<&'static str> {
        let Start { count, state, from_zero } = self;
        let is = |Refusal(n, a, b)| expected == format!("(refused {n} {a} {b})\n").as_bytes();
        let reached = !(1..=7).contains(&class(expected));
        let told = [
            (WRITTEN_ZERO, reached && *state == 0),
            (NO_STATE, is(Refusal(3, 1, 0))),
            (OVERSIZE_TOO, is(Refusal(2, 1, 0)) && state >= count),
            (ZERO_UNREACHED, is(Refusal(7, 0, 0))),
            (UNREACHED, class(expected) == 7 && !from_zero.is_some_and(is)),
            (REACHED, reached && matches!(from_zero, Some(Refusal(7, _, _)))),
        ];
        told.iter().filter(|(_, is)| *is).map(|(label, _)| *label).collect()
    }
}

const WRITTEN_ZERO: &str = "start: written, as state 0";
const NO_STATE: &str = "start: refused 3, no state";
const OVERSIZE_TOO: &str = "start: refused 2 before 3";
const ZERO_UNREACHED: &str = "start: refused 7 for state 0";
const UNREACHED: &str = "start: refused 7, otherwise than from state 0";
const REACHED: &str = "start: all states reached, not so from state 0";

pub const LABELS: [&str; 6] = [WRITTEN_ZERO, NO_STATE, OVERSIZE_TOO, ZERO_UNREACHED, UNREACHED, REACHED];
