//! What was compared: how often each answer came, how far the walks went, and what differs.
use crate::boards::spelt::LABELS as BOARD_CASE_LABELS;
use crate::boards::telling::LABELS as BOARD_LABELS;
use crate::call::{Call, Task, SERVICES};
use crate::library::Fault;
use crate::merging::LABELS as MERGE_LABELS;
use crate::program::beside;
use crate::quoting::LABELS as QUOTE_LABELS;
use crate::spelt::LABELS as CASE_LABELS;
use crate::starts::LABELS as START_LABELS;
use crate::telling::LABELS;
use std::collections::hash_map::DefaultHasher;
use std::collections::{HashMap, HashSet};
use std::ffi::OsString;
use std::hash::{Hash, Hasher};
use std::os::unix::process::ExitStatusExt;
use std::process::Output;
use std::sync::Mutex;

/// Differences that are shown; the others are only counted.
const SHOWN: usize = 20;

/// Which refusals each service has, in the order of `SERVICES`.
const DUE: [&[usize]; SERVICES.len()] = [
    &[0, 1, 2, 3, 4, 5, 6, 7, 8, 9, 10, 11, 12, 13],
    &[0, 1, 2, 3, 4, 5, 6, 7, 13],
    &[0, 1, 2, 3, 4, 5, 6, 7, 14],
    &[0, 1, 2, 3, 4, 5, 6, 7, 8, 9, 10, 11, 12, 14],
    &[0, 1, 2, 3, 4, 5, 6, 7, 8, 9, 10, 11, 12],
    &[0, 1, 2, 3, 4, 5, 6, 7, 8, 9, 10, 11, 12, 13],
    &[0, 1, 2, 3, 4, 5, 6, 7, 8, 9, 10, 11, 12, 13],
    &[0, 13, 15],
    &[0, 14, 15],
];

fn labels() -> impl Iterator<Item = &'static str> {
    let of_texts = START_LABELS.into_iter().chain(CASE_LABELS).chain(LABELS).chain(MERGE_LABELS).chain(QUOTE_LABELS);
    of_texts.chain(BOARD_LABELS).chain(BOARD_CASE_LABELS)
}

#[derive(Default)]
struct Counts {
    calls: [[usize; 16]; SERVICES.len()],
    /// Of these, how many were asked of the library only.
    unsaid: usize,
    words: usize,
    telling: HashMap<&'static str, usize>,
    /// Texts that were walked, by the class of their check.
    walked: [usize; 16],
    pairs: usize,
    /// Quotations that were held to the sheet, and their lines.
    audited: usize,
    lines: usize,
    seen: HashSet<u64>,
    differ: usize,
    hangs: bool,
}

#[derive(Default)]
pub struct Report(Mutex<Counts>);

/// With a comma after each three digits.
fn grouped(n: usize) -> String {
    let digits = n.to_string();
    let comma = |k: usize| k > 0 && (digits.len() - k) % 3 == 0;
    digits.chars().enumerate().flat_map(|(k, c)| comma(k).then_some(',').into_iter().chain([c])).collect()
}

/// The first line in which they differ, of each.
fn first_difference(expected: &[u8], given: &[u8]) -> (String, String) {
    let [left, right] = [expected, given].map(|bytes| String::from_utf8_lossy(bytes).into_owned());
    let (mut left, mut right) = (left.split_inclusive('\n'), right.split_inclusive('\n'));
    let pairs = std::iter::from_fn(|| Some((left.next(), right.next())).filter(|p| *p != (None, None)));
    let different = pairs.enumerate().find(|(_, (a, b))| a != b);
    different.map_or(("the answer alone".to_string(), "the answer".to_string()), |(line, (wanted, given))| {
        let shown = |part: Option<&str>| format!("line {}: {:?}", line + 1, part.unwrap_or_default());
        (shown(wanted), shown(given))
    })
}

impl Counts {
    fn telling(&self, label: &str) -> usize {
        self.telling.get(label).copied().unwrap_or(0)
    }

    fn differs(&mut self, call: &str, text: &[u8], expected: &str, given: &str) {
        self.differ += 1;
        if self.differ <= SHOWN {
            let file = format!("target/differs-{}.plan", self.differ);
            let cut = |line: &str| line.chars().take(400).collect::<String>();
            println!("{} < {file}\n  expected {}\n  given    {}", cut(call), cut(expected), cut(given));
            std::fs::write(&file, text).unwrap_or_else(|e| panic!("{file}: {e}"));
        }
    }

    /// Whatever is ended by force did not end by itself.
    fn ended(&mut self, done: &Output) {
        self.hangs |= done.status.signal() == Some(9);
    }
}

impl Report {
    fn counts(&self) -> std::sync::MutexGuard<'_, Counts> {
        self.0.lock().expect("a report")
    }

    /// A program that does not end is not called again and again.
    pub fn gives_up(&self) -> bool {
        self.counts().hangs
    }

    pub fn call(&self, call: &Call, expected: &[u8]) {
        let mut counts = self.counts();
        let row = SERVICES.iter().position(|service| *service == call.service()).expect("a service");
        counts.calls[row][crate::answer::class(expected)] += 1;
        counts.unsaid += usize::from(call.unsaid);
    }

    /// A call of the program.
    pub fn program(&self, task: &Task, call: &Call, text: &[u8], expected: &[u8], done: &Output) {
        let mut counts = self.counts();
        counts.ended(done);
        let beside = beside(done);
        if done.stdout != expected || !beside.is_empty() {
            let (wanted, given) = first_difference(expected, &done.stdout);
            counts.differs(&format!("{}: {}", task.kind, call.shown()), text, &wanted, &format!("{given}{beside}"));
        }
    }

    pub fn library(&self, task: &Task, text: &[u8], faults: Vec<Fault>) {
        let mut counts = self.counts();
        for Fault { call, expected, given } in faults {
            counts.differs(&format!("{}: {call}", task.kind), text, &expected, &given);
        }
    }

    pub fn words(&self, words: &[OsString], text: &[u8], due: &str, done: &Output, is: bool) {
        let mut counts = self.counts();
        counts.words += 1;
        counts.ended(done);
        if !is {
            let given = format!("{:?}{}", String::from_utf8_lossy(&done.stdout), beside(done));
            counts.differs(&format!("split with the words {words:?}"), text, due, &given);
        }
    }

    pub fn telling(&self, labels: &[&'static str]) {
        let mut counts = self.counts();
        labels.iter().for_each(|label| *counts.telling.entry(label).or_default() += 1);
    }

    /// Each text is walked once.
    pub fn is_first(&self, text: &[u8]) -> bool {
        let mut hasher = DefaultHasher::new();
        text.hash(&mut hasher);
        self.counts().seen.insert(hasher.finish())
    }

    pub fn walk(&self, text: &[u8], class: usize, walked: Result<usize, String>) {
        let mut counts = self.counts();
        counts.walked[class] += 1;
        match walked {
            Ok(pairs) => counts.pairs += pairs,
            Err(why) => {
                let due = if class == 0 { "the same lists run on both" } else { "a list that runs on one only" };
                counts.differs("a walk of the plan and the machines", text, due, &why);
            }
        }
    }

    pub fn audit(&self, text: &[u8], audited: Result<usize, String>) {
        let mut counts = self.counts();
        counts.audited += 1;
        match audited {
            Ok(lines) => counts.lines += lines,
            Err(why) => counts.differs("an audit of the quotation", text, "what the sheet and thin come to", &why),
        }
    }

    pub fn print(&self) {
        let counts = self.counts();
        let row = |head: &str, cells: &[String]| {
            let cells: String = cells.iter().map(|cell| format!("{cell:>6}")).collect();
            println!("{head:<7}{cells}");
        };
        let figures = |row: &[usize]| row.iter().map(usize::to_string).collect::<Vec<_>>();
        println!("Calls by what refuses them, 0 if nothing does:");
        row("", &[vec!["all".to_string()], (0..16).map(|class| class.to_string()).collect()].concat());
        for (service, classes) in SERVICES.iter().zip(&counts.calls) {
            row(service, &[figures(&[classes.iter().sum()]), figures(classes)].concat());
        }
        println!("{} of them by the library only, of names that no words say or of one more of a kind", counts.unsaid);
        println!("{} more, of words that are no call of a service", counts.words);
        labels().for_each(|label| println!("{:>6} {label}", counts.telling(label)));
        let [accepted, unheld, open] = [0, 11, 12].map(|class| counts.walked[class]);
        let [texts, pairs] = [accepted + unheld + open, counts.pairs].map(grouped);
        let kinds = format!("{accepted} accepted, {unheld} refused by 11, {open} by 12");
        println!("{texts} texts walked ({kinds}), {pairs} pairs of a state and places");
        println!("{} quotations audited, {} lines", grouped(counts.audited), grouped(counts.lines));
    }

    /// Each answer came at least so often, or the calls no longer are what they were made for. Differences come first.
    pub fn demand(&self, fewest: usize) {
        let counts = self.counts();
        if counts.differ > 0 {
            return;
        }
        for (service, (row, due)) in SERVICES.iter().zip(counts.calls.iter().zip(DUE)) {
            let rare = due.iter().find(|class| row[**class] < fewest);
            assert!(rare.is_none(), "too rare: {service} with {}", rare.unwrap());
        }
        assert!(counts.audited >= fewest, "too rare: quotations that are audited");
        let rare = labels().find(|label| counts.telling(label) < fewest);
        assert!(rare.is_none(), "too rare: {}", rare.unwrap());
    }

    /// The last line; whether nothing differs.
    pub fn ends(&self) -> bool {
        let counts = self.counts();
        let calls = counts.calls.iter().flatten().sum::<usize>() + counts.words;
        println!("{} calls, {} differ", grouped(calls), grouped(counts.differ));
        counts.differ == 0
    }
}
