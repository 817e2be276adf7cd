//! Calls from a seed, as many as are asked for: on texts that are accepted often, and refused by each of 1 to 12 often.
use crate::call::{call, lending, run, Call, Task};
use crate::crowds::crowd;
use crate::damage::damaged;
use crate::defects::{roomy, DEFECTS};
use crate::dice::Dice;
use crate::draft::Draft;
use crate::letters::{self, Stands};
use crate::products::product;
use crate::subject::Subject;
use crate::tiny::{loose, tiny};
use crate::{redundant, wide};
use std::collections::hash_map::DefaultHasher;
use std::collections::HashSet;
use std::hash::{Hash, Hasher};

/// A text, and its sheet if that is known from how the text was made.
struct Made {
    text: Vec<u8>,
    sheet: Option<String>,
}

impl From<String> for Made {
    fn from(text: String) -> Made {
        Made { text: text.into_bytes(), sheet: None }
    }
}

impl From<Draft> for Made {
    fn from(draft: Draft) -> Made {
        draft.text().into()
    }
}

impl Made {
    /// With names in other cases; the sheet has those of the line of events.
    fn respelt(mut self, dice: &mut Dice) -> Made {
        letters::respell_text(dice, &mut self.text);
        self.sheet = self.sheet.map(|sheet| letters::as_declared(&self.text, &sheet));
        self
    }
}

/// The kind of text, how often it is made among all, and how.
const MAKERS: [(&str, usize, fn(&mut Dice) -> Made); 12] = [
    ("product", 12, a_product),
    ("watched product", 8, a_watched_product),
    ("redundant machines", 24, with_redundant_machines),
    ("wires, or many places", 10, to_be_quoted),
    ("one defect", 50, |dice| with_defects(dice, 1)),
    ("two defects", 16, |dice| with_defects(dice, 2)),
    ("tiny system", 40, |dice| tiny(dice).into()),
    ("byte taken for another", 10, with_confused_byte),
    ("damaged", 20, |dice| Made { text: damaged(dice), sheet: None }),
    ("loose lines", 16, |dice| loose(dice).into()),
    ("crowd", 12, |dice| crowd(dice).into()),
    ("wide system", 1, |dice| wide::any(dice).into()),
];

fn a_product(dice: &mut Dice) -> Made {
    let most = dice.one(&[2, 3, 5, 8, 12, 20, 30, 50]);
    let (draft, sheet) = product(dice, most, false).drawn(dice);
    Made { sheet: Some(sheet), ..draft.into() }
}

/// That a machine only looks on is more than a split can say, so closure may fail.
fn a_watched_product(dice: &mut Dice) -> Made {
    let most = dice.one(&[3, 5, 8, 12, 20]);
    product(dice, most, true).drawn(dice).0.into()
}

fn with_redundant_machines(dice: &mut Dice) -> Made {
    let draws = [redundant::divided, redundant::nearly_needed, redundant::repeated, redundant::finer];
    dice.one(&draws)(dice).into()
}

fn to_be_quoted(dice: &mut Dice) -> Made {
    dice.one(&[redundant::wired, redundant::many_placed])(dice).into()
}

fn with_defects(dice: &mut Dice, count: usize) -> Made {
    let mut draft = roomy(dice);
    for _ in 0..count {
        dice.one(&DEFECTS)(dice, &mut draft);
    }
    draft.into()
}

/// In a name: where it is declared or in a step, early or late.
fn with_confused_byte(dice: &mut Dice) -> Made {
    let mut text = product(dice, 8, false).drawn(dice).0.text().into_bytes();
    let so = dice.one(&[Stands::Declared, Stands::InStep, Stands::InStep]);
    let names: Vec<_> = letters::names(&text).into_iter().filter(|name| name.0 == so).map(|name| name.1).collect();
    letters::confuse(dice, &mut text, &names);
    Made { text, sheet: None }
}

fn any(dice: &mut Dice) -> (&'static str, Made) {
    let mut at = dice.below(MAKERS.iter().map(|(_, often, _)| often).sum());
    for (kind, often, maker) in MAKERS {
        if at < often {
            return (kind, maker(dice).respelt(dice));
        }
        at -= often;
    }
    unreachable!("a maker for each number below the sum");
}

/// Check first, as it is, then thin, and on accepted texts merge and quote: these are there even if the rest is cut off.
/// On accepted texts several lists; where all services refuse alike, not all of them.
fn calls(dice: &mut Dice, subject: &Subject) -> Vec<Call> {
    let mut calls = subject.one_of_each(dice);
    match &subject.sheet {
        Ok(_) => {
            calls.extend([(); 3].map(|_| run(&subject.list(dice))));
            calls.extend(["merge", "quote"].map(call));
        }
        Err(refusal) if refusal.0 > 7 => {
            calls.extend([lending("steps", None), call(&format!("name {}", subject.event(dice)))]);
        }
        Err(_) => {
            calls.remove(1 + dice.below(7));
            calls.remove(1 + dice.below(6));
        }
    }
    let turn = |call: &Call| match call.service() {
        "thin" => 0,
        "merge" | "quote" if call.arguments().is_empty() => 1,
        _ => 2,
    };
    calls[1..].sort_by_key(turn);
    if dice.once_in(2) {
        calls[0] = call("");
    }
    calls
}

/// Tasks with so many calls together, each on another text.
pub struct Tasks {
    dice: Dice,
    left: usize,
    seen: HashSet<u64>,
}

impl Tasks {
    pub fn new(seed: u64, count: usize) -> Tasks {
        Tasks { dice: Dice::new(seed), left: count, seen: HashSet::new() }
    }

    fn is_new(&mut self, text: &[u8]) -> bool {
        let mut hasher = DefaultHasher::new();
        text.hash(&mut hasher);
        self.seen.insert(hasher.finish())
    }
}

impl Iterator for Tasks {
    type Item = Task;

    fn next(&mut self) -> Option<Task> {
        if self.left == 0 {
            return None;
        }
        let (kind, made) = loop {
            let (kind, made) = any(&mut self.dice);
            if self.is_new(&made.text) {
                break (kind, made);
            }
        };
        let subject = Subject::new(made.text);
        let mut calls = calls(&mut self.dice, &subject);
        calls[0].known = made.sheet;
        calls.truncate(self.left);
        self.left -= calls.len();
        Some(Task::new(kind, subject.text, calls))
    }
}
