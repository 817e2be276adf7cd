//! Every bound at and over it, the longest texts and the longest sheets.
use crate::call::Task;
use crate::dice::Dice;
use crate::draft::{with, Draft, ONE_STATE};
use crate::products::{rings, Product};
use crate::written::{known, open};
use reference::TEXT_BOUND;

fn ring(states: usize) -> Draft {
    rings(&[states]).drawn(&mut Dice::new(1)).0
}

/// The ring without the step and the event that close it: as many places as states, one event less.
pub fn chain(states: usize) -> Draft {
    let mut draft = ring(states);
    let last = draft.events.pop();
    draft.steps.retain(|(_, event, _)| Some(event) != last.as_ref());
    draft
}

fn rename(draft: &mut Draft, event: usize, name: String) {
    let old = std::mem::replace(&mut draft.events[event], name.clone());
    draft.steps.iter_mut().filter(|s| s.1 == old).for_each(|s| s.1 = name.clone());
}

/// 256 states and 1,024 steps with short names, so that there is room for 16 machines: four, again and again. The start
/// is the last state.
fn widest(machines: usize) -> Draft {
    let (mut draft, _) = rings(&[4; 4]).drawn(&mut Dice::new(1));
    for (k, name) in ('a'..='p').enumerate() {
        rename(&mut draft, k, name.to_string());
    }
    draft.exchange(draft.first(), 255);
    draft.machines = draft.machines.into_iter().cycle().take(machines).collect();
    draft
}

/// Each bound over it while the others are kept.
fn over() -> Vec<Task> {
    let one = |name: &str| format!("(states 2)\n(events {name})\n(step 0 {name} 1)\n(machine (0) (1))\n");
    let long = "x".repeat(17);
    let tasks = [
        (with(ONE_STATE, "1", "0"), "(refused 2 1 0)"),
        (with(&widest(1).text(), "256", "257"), "(refused 2 1 0)"),
        (ring(65).text(), "(refused 2 2 0)"),
        (chain(65).text(), "(refused 2 67 0)"),
        (with(&widest(1).text(), "(machine", "(step 0 a 1)\n(machine"), "(refused 2 1027 0)"),
        (one("x") + &"(machine (0 1))\n".repeat(16), "(refused 2 20 0)"),
        (with(&one("x"), "(machine (0) (1))\n", ""), "(refused 2 4 0)"),
        (one(&long), "(refused 1 2 0)"),
        (with(&one("x"), "step 0 x", &format!("step 0 {long}")), "(refused 1 3 0)"),
    ];
    tasks.map(|(text, answer)| known("over a bound", text, answer)).into()
}

/// As many of something as may be. What is not named in the longest sheet is in `widest`.
fn at(dice: &mut Dice) -> Vec<Task> {
    let mut drafts = vec![ring(64), chain(64), widest(4), widest(16)];
    let sizes: [&[usize]; 7] = [&[2], &[16, 16], &[60, 4], &[2; 7], &[3, 3, 3, 3], &[6, 6, 6], &[40, 5]];
    drafts.extend(sizes.map(|sizes| rings(sizes).drawn(dice).0));
    drafts.into_iter().map(|draft| open("at a bound", draft.text())).collect()
}

/// No sheet is longer: 64 events with names of 16 bytes on all of 16 machines with 64 places each. A place with one
/// digit has to be entered, and here that is all, from a place with two.
fn longest_sheet(dice: &mut Dice) -> Draft {
    let events: Vec<String> = (10..74).map(|k| format!("sixteen-bytes-{k}")).collect();
    let mut steps: Vec<_> = (1..64).map(|k| (dice.below(k.min(54)), events[k].clone(), k)).collect();
    steps.push((53, events[0].clone(), 0));
    let machine = |_| {
        let (mut inner, mut last): (Vec<usize>, Vec<usize>) = (0..64).partition(|state| *state < 54);
        dice.shuffle(&mut inner);
        dice.shuffle(&mut last);
        last.into_iter().chain(inner).map(|state| vec![state]).collect()
    };
    let mut draft = Draft { states: 64, start: None, events, steps, machines: (0..16).map(machine).collect() };
    draft.exchange(0, dice.below(54));
    draft
}

/// An accepted text of just this size, by the lengths of its names. Those with many steps make up the most of it, that
/// with two steps an even rest, and those with one step that rest.
pub fn sized(size: usize) -> String {
    let Product { machines, mut events } = rings(&[5, 5, 5, 2]);
    events.push(("two".to_string(), (0..3).map(|m| (m, 0, 3)).collect()));
    events.extend((0..22).map(|k| (format!("one-{k}"), (0..4).map(|m| (m, 0, 1)).collect())));
    let (mut draft, _) = Product { machines, events }.drawn(&mut Dice::new(1));
    let mut left = size - draft.text().len();
    for k in 0..draft.events.len() {
        let name = draft.events[k].clone();
        let each = 1 + draft.steps.iter().filter(|s| s.1 == name).count();
        let longer = if each == 3 { left % 2 } else { (16 - name.len()).min(left / each) };
        rename(&mut draft, k, name + &"x".repeat(longer));
        left -= longer * each;
    }
    draft.text()
}

/// A text of this size with as many of everything as may be.
fn full(dice: &mut Dice, size: usize) -> String {
    let events: Vec<String> = (0..64).map(|k| format!("e{k}")).collect();
    let steps = (0..1024).map(|_| (dice.below(256), dice.one(&events), dice.below(256))).collect();
    let places = |m: usize| (0..64).map(|p| [0, 64, 128].map(|k| (p + k + m * 16) % 256).to_vec()).collect();
    let text = Draft { states: 256, start: Some(255), events, steps, machines: (0..16).map(places).collect() }.text();
    let body = text.strip_suffix("))\n").expect("a machine line");
    let odd = if (size - text.len()) % 2 == 1 { " 10" } else { "" };
    format!("{body}{odd}{}))\n", " 9".repeat((size - text.len() - odd.len()) / 2))
}

/// Texts as long as may be, accepted or refused by their first line, their last or another; then longer ones, of which
/// no line counts.
fn sizes(dice: &mut Dice) -> Vec<Task> {
    let whole = sized(TEXT_BOUND);
    let accepted = [1, 0].map(|less| sized(TEXT_BOUND - less));
    let crowded = [1, 0].map(|less| full(dice, TEXT_BOUND - less));
    let mut tasks: Vec<Task> = [accepted, crowded].concat().into_iter().map(|text| open("text size", text)).collect();
    let doubled = sized(TEXT_BOUND - 2).trim_end_matches("))\n").to_string() + " 0))\n";
    let known_ones = [
        (with(&whole, "states", "stated"), "(refused 1 1 0)"),
        (whole.trim_end().to_string() + ")", "(refused 1 1030 0)"),
        (doubled, "(refused 8 3 0)"),
        (sized(TEXT_BOUND + 1), "(refused 2 0 0)"),
        (full(dice, TEXT_BOUND + 1), "(refused 2 0 0)"),
        (with(&whole, "states", "state-s"), "(refused 2 0 0)"),
        (whole + "\n", "(refused 2 0 0)"),
    ];
    tasks.extend(known_ones.map(|(text, answer)| known("text size", text, answer)));
    tasks
}

pub fn all(dice: &mut Dice) -> Vec<Task> {
    let longest = (0..4).map(|_| open("longest sheet", longest_sheet(dice).text())).collect();
    [over(), at(dice), longest, sizes(dice)].into_iter().flatten().collect()
}
