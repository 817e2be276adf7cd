//! The calls on sheets that are the same at every run.
use crate::boards::lists::Board;
use crate::boards::written::{self, machines, Y};
use crate::boards::{forms, spellings, Machine, Sheet};
use crate::call::{board, call, lending, Call, Task};
use crate::dice::Dice;
use crate::subject::HUGE;
use reference::TEXT_BOUND;

/// None lent, one byte too few, just enough, more.
fn rooms(sheet: &[u8]) -> Vec<String> {
    let near = [0, sheet.len().saturating_sub(1), sheet.len(), sheet.len() + 1];
    near.iter().map(usize::to_string).chain(HUGE.map(String::from)).collect()
}

/// All lists of up to so many of these names.
fn lists(names: &[&str], size: usize) -> Vec<Call> {
    let longer = |list: &String| names.iter().map(|name| format!("{list}{name}\n")).collect::<Vec<_>>();
    let (mut all, mut longest) = (vec![String::new()], vec![String::new()]);
    for _ in 0..size {
        longest = longest.iter().flat_map(longer).collect();
        all.extend(longest.clone());
    }
    all.into_iter().map(|list| board(list).by_library()).collect()
}

/// No sheet is longer: 64 names of 16 bytes on all of 16 machines with 64 places each, all figures of two digits.
fn longest(dice: &mut Dice) -> Sheet {
    let names: Vec<String> = (10..74).map(|k| format!("sixteen-bytes-{k}")).collect();
    let machine = |number: usize| {
        let (mut own, mut at) = (names.clone(), 10 + dice.below(54));
        dice.shuffle(&mut own);
        let start = at;
        let moved = |name: String| {
            let from = at;
            at = 10 + (at - 9 + dice.below(53)) % 54;
            (name, from, at)
        };
        Machine { number, places: 64, start, moves: own.into_iter().map(moved).collect() }
    };
    Sheet { count: 16, machines: (0..16).map(machine).collect() }
}

fn longest_ones(dice: &mut Dice) -> Vec<Task> {
    let task = |sheet: String, dice: &mut Dice| {
        let names = Board::new(sheet.as_bytes(), true);
        let mut calls = vec![call("sheet")];
        calls.extend(rooms(sheet.as_bytes()).into_iter().map(|room| lending("sheet", Some(room))));
        calls.extend((0..8).map(|_| names.list(dice)));
        Task::new("longest sheet", sheet, calls)
    };
    let numbered = vec![(0..64).map(|k| format!("e{k}")).collect(); 16];
    [longest(dice).text(), longest(dice).text(), machines(&numbered)].map(|sheet| task(sheet, dice)).into()
}

/// As long as a list of the program's words may be, and names whose bytes come close to what its small row holds.
fn long_lists() -> Vec<Task> {
    let names = |n: usize| board(["ready\n", "brake\n", "home\n"].into_iter().cycle().take(n).collect::<String>());
    let long = |n: usize| board("ready\nbrake\nhome\n".repeat(n) + "home\n");
    let odd = |n: usize| board("home\n".repeat(n) + "nobody\n");
    let mut calls: Vec<Call> = (718..=726).chain([4096, 140_000]).map(names).collect();
    calls.extend([1000, 30_000].map(long).into_iter().chain([1000, 30_000, 140_000].map(odd)));
    let longest = |n: usize| ["a\n", "a", "\nready\n"].map(|end| board("x".repeat(n) + end));
    calls.extend([40, 4095, 100_000, 1_000_000].into_iter().flat_map(longest));
    vec![Task::new("long list", Y, calls)]
}

/// A read need not give the whole sheet, and what comes after the bound counts however late.
fn pieces() -> Vec<Task> {
    let in_pieces = |sheet: &str, ends: &[usize], call: Call| {
        let ends = [&[0], ends, &[sheet.len()]].concat();
        let pieces = ends.windows(2).map(|w| sheet.as_bytes()[w[0]..w[1]].to_vec()).collect();
        Task { kind: "sheet in pieces", pieces, calls: vec![call] }
    };
    let over = Y.to_string() + &"x".repeat(TEXT_BOUND + 1 - Y.len());
    let mut tasks: Vec<Task> = [1, 13, Y.len() - 1].map(|end| in_pieces(Y, &[end], call("sheet"))).into();
    tasks.extend([13, 79, Y.len()].map(|end| in_pieces(Y, &[end], board("ready\nhome\n"))));
    tasks.extend([Y.len(), TEXT_BOUND].map(|end| in_pieces(&over, &[end], call("sheet"))));
    tasks
}

/// Both calls on each sheet: one in twelve of either by the program, and all by the library.
fn many(sheets: Vec<Vec<u8>>) -> Vec<Task> {
    let task = |(turn, sheet): (usize, Vec<u8>)| {
        let mut calls = vec![call("sheet"), board(["", "a\n", "a\nb-1\n", "nine-1234\na\n", "a"][turn / 12 % 5])];
        for (k, call) in calls.iter_mut().enumerate() {
            call.unsaid |= turn % 12 != 6 * k;
        }
        Task::new("broken sheet", sheet, calls)
    };
    sheets.into_iter().enumerate().map(task).collect()
}

/// The same with a text in the place of a sheet, and with bytes that are neither.
fn others() -> Vec<Vec<u8>> {
    let sizes = [1, 4096, TEXT_BOUND - 1, TEXT_BOUND, TEXT_BOUND + 1];
    let filled = sizes.into_iter().flat_map(|size| [0, b'\n', b'(', 255].map(|byte| vec![byte; size]));
    [crate::draft::Y, crate::draft::ONE_STATE].map(|text| text.as_bytes().to_vec()).into_iter().chain(filled).collect()
}

pub fn all() -> Vec<Task> {
    let mut dice = Dice::new(1);
    let mut tasks = written::all();
    tasks.extend(longest_ones(&mut dice));
    tasks.push(Task::new("all lists", Y, lists(&["ready", "brake", "home", "nobody"], 5)));
    let each = |room: String| lending("sheet", Some(room));
    tasks.push(Task::new("sheet sizes", Y, rooms(Y.as_bytes()).into_iter().map(each).collect()));
    tasks.extend(long_lists());
    tasks.extend(pieces());
    tasks.extend(spellings::all());
    tasks.extend(many([forms::all(), others()].concat()));
    tasks
}
