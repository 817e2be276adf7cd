//! Sheets as they are put together, and good ones of their own, which need not be those of any text.
use crate::answer::class;
use crate::call::{board, call, names, Call, Task};
use crate::dice::Dice;
use crate::draft::alike;
use crate::machines::{after, Machine as Loaded, Plan};
use std::collections::BTreeSet;

mod defects;
pub mod fixed;
mod forms;
pub mod generated;
mod lists;
mod spellings;
pub mod spelt;
pub mod telling;
pub mod written;

#[derive(Clone)]
pub struct Machine {
    pub number: usize,
    pub places: usize,
    pub start: usize,
    pub moves: Vec<(String, usize, usize)>,
}

/// Nothing of it need be in order.
#[derive(Clone)]
pub struct Sheet {
    pub count: usize,
    pub machines: Vec<Machine>,
}

impl Machine {
    pub fn line(&self) -> String {
        let Machine { number, places, start, moves } = self;
        let moves: String = moves.iter().map(|(name, pre, post)| format!(" (move {name} {pre} {post})")).collect();
        format!("(machine {number} (places {places}) (start {start}){moves})\n")
    }
}

impl Sheet {
    pub fn text(&self) -> String {
        format!("(accepted {})\n", self.count) + &self.machines.iter().map(Machine::line).collect::<String>()
    }
}

/// Each name with a move of its own, in any order.
fn machine(dice: &mut Dice, number: usize, places: usize, mut names: Vec<String>) -> Machine {
    dice.shuffle(&mut names);
    names.truncate(if places == 1 { 0 } else { names.len() });
    let start = dice.below(places);
    // Moves on from where the last one ended run one after another more often than others.
    let mut at = start;
    let mut moved = |name: String| {
        let pre = if dice.once_in(4) { dice.below(places) } else { at };
        at = (pre + 1 + dice.below(places - 1)) % places;
        (name, pre, at)
    };
    Machine { number, places, start, moves: names.into_iter().map(&mut moved).collect() }
}

/// 64 names of any bytes: wherever a name's bytes come to few numbers, some of them share one.
fn any_names(dice: &mut Dice) -> Vec<String> {
    let mut names = BTreeSet::new();
    while names.len() < 64 {
        let first = dice.one(b"abcdefghijklmnopqrstuvwxyz");
        let rest = (0..dice.below(16)).map(|_| dice.one(b"abcdefghijklmnopqrstuvwxyz0123456789-"));
        names.insert(std::iter::once(first).chain(rest).map(char::from).collect());
    }
    names.into_iter().collect()
}

/// Names that are alike, numbered or any, on one machine or on several each.
pub fn good(dice: &mut Dice) -> Sheet {
    let numbered = (0..64).map(|k| format!("e{k}")).collect();
    let mut names = match dice.below(3) {
        0 => alike(),
        1 => numbered,
        _ => any_names(dice),
    };
    dice.shuffle(&mut names);
    names.truncate(dice.one(&[0, 1, 2, 3, 5, 8, 20, 64]));
    let count = dice.one(&[1, 1, 2, 2, 3, 3, 4, 5, 9, 10, 11, 16]);
    let machines = (0..count).map(|number| {
        let places = dice.one(&[1, 2, 2, 2, 3, 3, 4, 9, 10, 11, 63, 64]);
        let often = dice.one(&[1, 2, 3, count]);
        let own = names.iter().filter(|_| dice.once_in(often)).cloned().collect();
        machine(dice, number, places, own)
    });
    let machines = machines.collect();
    Sheet { count, machines }
}

fn shown(bytes: &[u8]) -> String {
    String::from_utf8_lossy(bytes).into_owned()
}

/// A sheet of an accepted text: it is written again as it is, and the lists of the text's calls run on it, by name. Of
/// these one goes to the program.
fn of_sheet(kind: &'static str, text: &[u8], sheet: &[u8], runs: &[(Call, String)]) -> Task {
    let names = names(text);
    let named = |word: &String| match word.parse::<usize>() {
        Ok(event) => names.get(event).unwrap_or(word).clone() + "\n",
        Err(_) => word.clone() + "\n",
    };
    let mut calls = vec![call("sheet").giving(&shown(sheet))];
    for (run, answer) in runs {
        let call = board(run.arguments().iter().map(named).collect::<String>()).giving(answer);
        let is_first = calls.len() == 1;
        calls.push(if is_first { call } else { call.by_library() });
    }
    Task::new(kind, sheet, calls)
}

/// They run as on the text.
pub fn of_text(text: &[u8], sheet: &[u8], runs: &[(Call, Vec<u8>)]) -> Task {
    let runs: Vec<(Call, String)> = runs.iter().map(|(run, printed)| (run.clone(), shown(printed))).collect();
    of_sheet("sheet of a text", text, sheet, &runs)
}

/// As many of them run as on the text, which the printed answer says; where the machines stand then, and which of them
/// blocks, is said by the moves of the merged sheet.
pub fn of_merged(text: &[u8], sheet: &[u8], runs: &[(Call, Vec<u8>)]) -> Task {
    let machines = Plan::of(text).machines_on(sheet).expect("a sheet");
    let all: Vec<&Loaded> = machines.iter().collect();
    let answer = |(run, printed): &(Call, Vec<u8>)| {
        if class(printed) > 0 {
            return (run.clone(), shown(printed));
        }
        let printed = shown(printed);
        let events = run.numbers(text);
        let blocked = printed.strip_prefix("(blocked ").and_then(|rest| rest.split(' ').next());
        let ran = blocked.map_or(events.len(), |figure| figure.parse().expect("a figure"));
        let mut at: Vec<usize> = all.iter().map(|machine| machine.start).collect();
        events[..ran].iter().for_each(|event| at = after(&all, &at, *event).expect("an event that runs"));
        let blocks = |m: &usize| all[*m].moves[events[ran]].is_some_and(|(pre, _)| pre != at[*m]);
        let places: String = at.iter().map(|place| format!(" {place}")).collect();
        let answer = match blocked {
            None => format!("(whole (places{places}))\n"),
            Some(_) => {
                let machine = (0..all.len()).find(blocks).expect("a machine that blocks");
                format!("(blocked {ran} {machine} (places{places}))\n")
            }
        };
        (run.clone(), answer)
    };
    of_sheet("merged sheet of a text", text, sheet, &runs.iter().map(answer).collect::<Vec<_>>())
}
