//! The calls that are the same at every run: examples, bounds, broken lines, input in pieces.
use crate::call::{call, lending, run, Call, Task};
use crate::dice::Dice;
use crate::draft::{alike, q_with_third, y_from, y_with_first_again, ONE_STATE, Q, TINY, Y};
use crate::subject::Subject;
use crate::{crowds, forms, limits, merged, products, quoted, redundant, spellings, wide, written};
use reference::TEXT_BOUND;
use std::collections::HashMap;

/// The most events of a list.
const MOST: usize = 4096;

// ---- Calls on a text ----------------------------------------------------------------

/// Every room, every event as a figure and as a name, every list of one event.
fn each(subject: &Subject) -> Vec<Call> {
    let mut calls = vec![call(""), call("steps"), call("thin"), call("merge"), call("quote")];
    calls.extend(subject.sheet_rooms().into_iter().map(|room| lending("check", Some(room))));
    calls.extend(subject.step_rooms().into_iter().map(|room| lending("steps", Some(room))));
    calls.extend(subject.merge_rooms().into_iter().map(|room| lending("merge", Some(room))));
    calls.extend(subject.quote_rooms().into_iter().map(|room| lending("quote", Some(room))));
    let figures = (0..subject.names.len()).map(|event| event.to_string());
    let words: Vec<String> = figures.chain(subject.names.clone()).chain(subject.undeclared_figures()).collect();
    calls.extend(words.iter().map(|word| call(&format!("name {word}"))));
    calls.extend(words.iter().map(|word| run(&[word])));
    calls
}

fn all_lists(text: String, size: usize) -> Task {
    let subject = Subject::new(text);
    let calls = subject.each_list(size).iter().map(|list| run(list)).collect();
    Task::new("all lists", subject.text, calls)
}

// ---- Texts that are long, or called with long lists ---------------------------------

/// No events: thinning keeps one of the machines, the lowest.
fn without_events() -> Vec<Task> {
    let text = |machines: usize| ONE_STATE.to_string() + &"(machine (0))\n".repeat(machines - 1);
    (1..=16).map(|machines| all_lists(text(machines), 1)).collect()
}

fn long_lists(dice: &mut Dice) -> Vec<Task> {
    let mut tasks = vec![
        Task::new("long list", q_with_third(), vec![run(&[1; MOST])]),
        Task::new("long list", ONE_STATE, vec![run(&[0; MOST])]),
    ];
    for text in [Y.to_string(), products::rings(&[3, 3]).drawn(dice).0.text()] {
        let subject = Subject::new(text);
        let unknown = [subject.whole(dice, MOST - 1), vec![subject.names.len()]].concat();
        let blocked = [(MOST - 1, 0), (1500, MOST - 1501)].map(|(size, after)| subject.blocked(dice, size, after));
        let lists = [subject.whole(dice, MOST), unknown].into_iter().chain(blocked);
        let calls = lists.map(|list| run(&list)).collect();
        tasks.push(Task::new("long list", subject.text, calls));
    }
    tasks.push(long_words());
    tasks
}

/// Lists of names whose bytes come close to what the program's small row of words holds, and one that goes far past it.
fn long_words() -> Task {
    let list = |n: usize| run(&["ready", "brake", "home"].into_iter().cycle().take(n).collect::<Vec<_>>());
    Task::new("long words", Y, (718..=726).chain([140_000]).map(list).collect())
}

/// Systems with as much of something as may be, with lists that go far.
fn with_long_walks(dice: &mut Dice, task: &Task) -> Task {
    let subject = Subject::new(task.text());
    let mut calls = subject.one_of_each(dice);
    if subject.sheet.is_ok() {
        calls.extend([run(&subject.whole(dice, 300)), run(&subject.blocked(dice, 60, 10))]);
    }
    Task::new(task.kind, subject.text, calls)
}

// ---- The way the program reads ------------------------------------------------------

fn in_pieces(text: &str, ends: &[usize], line: &str) -> Task {
    let ends = [&[0], ends, &[text.len()]].concat();
    let pieces = ends.windows(2).map(|w| text.as_bytes()[w[0]..w[1]].to_vec()).collect();
    Task { kind: "in pieces", pieces, calls: vec![call(line)] }
}

/// A read need not give the whole text, and what comes after the bound counts however late.
fn pieces() -> Vec<Task> {
    let largest = limits::sized(TEXT_BOUND);
    let over = largest.clone() + "x";
    let huge = largest.clone() + &"x".repeat(1_000_000 - TEXT_BOUND);
    let each: Vec<usize> = (1..ONE_STATE.len()).collect();
    let mut tasks: Vec<Task> = [0, 1, 11, 80, Y.len() - 1, Y.len()].map(|end| in_pieces(Y, &[end], "")).into();
    tasks.extend([&[1, 2][..], &[50, 100, 150], &[0, 0, Y.len()]].map(|ends| in_pieces(Y, ends, "run brake 0 2 2")));
    tasks.extend(["steps", "name 2", "thin", "merge", "quote"].map(|line| in_pieces(Y, &[60], line)));
    tasks.extend([9, 15, 17].map(|end| in_pieces(&y_from(3), &[end], "run home")));
    tasks.push(in_pieces(ONE_STATE, &each, "check"));
    tasks.extend([1, 4096, 16_384, TEXT_BOUND - 1, TEXT_BOUND].map(|end| in_pieces(&largest, &[end], "check")));
    tasks.extend([1, TEXT_BOUND - 1, TEXT_BOUND].map(|end| in_pieces(&over, &[end], "steps")));
    tasks.extend([TEXT_BOUND, TEXT_BOUND + 1, 65_536].map(|end| in_pieces(&huge, &[end], "check")));
    tasks
}

/// Inputs that are no texts, of sizes that matter to whoever reads.
fn plain_bytes() -> Vec<Vec<u8>> {
    let sizes = [0, 1, 4095, 4096, 4097, TEXT_BOUND - 1, TEXT_BOUND, TEXT_BOUND + 1, 65_536, 65_537, 1_000_000];
    let filled = |size: usize| [0, b'\n', b'(', 255].map(|byte| vec![byte; size]);
    let behind = |n: usize| (Y.to_string() + &"\n".repeat(n)).into_bytes();
    sizes.into_iter().flat_map(filled).chain([1, 200, 32_000, 999_000].map(behind)).collect()
}

// ---- Texts that are many ------------------------------------------------------------

/// What the broken forms have after their step line, behind a system that passes as far as 7. Whatever is wrong with a
/// machine line is refused by 1 to 3, or not at all by steps and name.
fn machine_sections() -> Vec<Vec<u8>> {
    let before = &TINY.as_bytes()[..TINY.find("(machine").expect("a machine line")];
    let system = Q[..Q.find("(machine").expect("a machine line")].as_bytes();
    let section = |text: Vec<u8>| text.strip_prefix(before).map(|rest| [system, rest].concat());
    forms::all().into_iter().filter_map(section).collect()
}

/// From the root of the repository.
fn example_files() -> Vec<Vec<u8>> {
    let folder = std::fs::read_dir("examples").expect("the folder examples");
    let mut files: Vec<_> = folder.map(|file| file.expect("a file").path()).collect();
    files.retain(|file| file.extension().is_some_and(|ending| ending == "plan"));
    files.sort();
    files.iter().map(|file| std::fs::read(file).expect("an example")).collect()
}

/// Beside check one of the other services, by turns.
fn by_turns(dice: &mut Dice, kind: &'static str, texts: Vec<Vec<u8>>) -> Vec<Task> {
    let task = |(turn, text): (usize, Vec<u8>)| {
        let subject = Subject::new(text);
        let mut calls = subject.one_of_each(dice);
        let other = calls.remove(1 + turn % (calls.len() - 1));
        Task::new(kind, subject.text, vec![other])
    };
    texts.into_iter().enumerate().map(task).collect()
}

fn side_by_side(dice: &mut Dice) -> Vec<Vec<u8>> {
    let sizes: [&[usize]; 8] = [&[1], &[2], &[3, 2], &[2, 2, 2], &[4, 4], &[3, 3, 3], &[64], &[16, 16]];
    sizes.map(|sizes| products::rings(sizes).drawn(dice).0.text().into_bytes()).to_vec()
}

fn many(dice: &mut Dice) -> Vec<Task> {
    let wide = wide::all(dice);
    let kinds = [
        ("wide system", wide.iter().map(Task::text).collect()),
        ("broken form", forms::all()),
        ("crowd", crowds::all().into_iter().map(String::into_bytes).collect()),
        ("plain bytes", plain_bytes()),
        ("side by side", side_by_side(dice)),
        ("machine section", machine_sections()),
    ];
    let tasks = kinds.into_iter().flat_map(|(kind, texts)| by_turns(dice, kind, texts));
    tasks.collect::<Vec<_>>().into_iter().chain(wide).collect()
}

// ---- All ----------------------------------------------------------------------------

/// Those on the same text as one, each call once, check first; and thin and quote on every text that is accepted, and
/// merge unless that takes too long.
fn joined(tasks: Vec<Task>) -> Vec<Task> {
    let mut all: Vec<Task> = Vec::new();
    let mut places = HashMap::new();
    for task in tasks {
        let place = *places.entry(task.pieces.clone()).or_insert(all.len());
        if place == all.len() {
            let subject = Subject::new(task.text());
            let lines = match subject.sheet.is_ok() {
                true if subject.merging_takes() < 40_000_000 => &["check", "thin", "quote", "merge"][..],
                true => &["check", "thin", "quote"],
                false => &["check"],
            };
            all.push(Task { calls: lines.iter().map(|line| call(line)).collect(), ..task });
        }
        for call in task.calls {
            match all[place].calls.iter_mut().find(|c| c.is_same(&call)) {
                None => all[place].calls.push(call),
                Some(same) => same.known = same.known.take().or(call.known),
            }
        }
    }
    all
}

pub fn all() -> Vec<Task> {
    let mut dice = Dice::new(1);
    let by_hand = [written::examples(), written::calls(), written::faults(), merged::known(), quoted::known()];
    let mut tasks = [by_hand.concat(), spellings::written()].concat();
    let limits = limits::all(&mut dice);
    let numbered = (0..64).map(|k| format!("e{k}")).collect();
    let named = [alike(), numbered].map(|names: Vec<String>| forms::with_names(names.clone(), &names));
    let texts = [Y.to_string(), y_from(3), Q.to_string(), q_with_third(), ONE_STATE.to_string()];
    for text in texts.into_iter().chain(merged::texts()).chain(quoted::texts()).chain(named) {
        let subject = Subject::new(text);
        tasks.push(Task::new("example", subject.text.clone(), each(&subject)));
    }
    let sixteen = redundant::sixteen_needed(&mut dice).text().into_bytes();
    let others = [written::faults(), written::examples()].concat().into_iter().map(|task| task.text());
    for text in others.chain(example_files()).chain([sixteen]).chain(spellings::texts()) {
        let subject = Subject::new(text);
        let calls = subject.one_of_each(&mut dice);
        tasks.push(Task::new("example", subject.text, calls));
    }
    tasks.extend(limits.iter().map(|task| with_long_walks(&mut dice, task)));
    tasks.extend(limits);
    tasks.extend([Y.to_string(), q_with_third()].map(|text| all_lists(text, 4)));
    tasks.extend([y_from(3), y_with_first_again()].map(|text| all_lists(text, 3)));
    tasks.extend(without_events());
    tasks.extend(long_lists(&mut dice));
    tasks.extend(pieces());
    tasks.extend(many(&mut dice));
    joined(tasks).into_iter().chain(spellings::many()).collect()
}
