//! The words of the command line that are no calls of a service: help, explain, and whatever is refused for its words
//! alone, before any text counts.
use crate::call::SERVICES;
use crate::draft::{with, ONE_STATE, Q, Y};
use crate::program::Program;
use crate::report::Report;
use crate::subject::HUGE;
use crate::watchdog::Watchdog;
use reference::TEXT_BOUND;
use std::collections::BTreeSet;
use std::ffi::{OsStr, OsString};
use std::os::unix::ffi::OsStrExt;
use std::process::Output;

/// Neither figure nor name, parted by bars.
const NO_EVENTS: &[u8] = b"-1|+1|007|00|01|1.5|0x1|1e3|9x|-|-a|@|READ[|`eady|read{|a_b|a b| ready|ready |ready\n|| |\
    r\xc3\xa9ady|\xd2EADY|a\x10|a\r|\xff|seventeen-letters|SEVENTEEN-LETTERS";

/// Too few words, too many, or not those of any service.
const NO_CALLS: &str =
    "name|name 0 1|name ready ready|name Ready x y|check 5 6|check 300 0|check ready|steps 5 6|steps 5 5|steps ready|\
    explain x y|thin 0|thin ready|sheet 5 6|sheet 300 0|sheet ready|help 1|help run|help Text|help TEXT|help text text|\
    help board|explain|explain 0|explain 16|explain 01|explain x|explain 1x|explain -1|explain Open|explain idle event|\
    explain 1 x|explain open 1 2 3|explain 12 0 02|Check|checks|chec|sheets|Board|BOARD ready|Run|RUN 0|Name 0|STEPS|\
    Thin|Help|Explain 1|merge 5 6|merge 300 0|merge ready|Merge|merges|quote 5 6|quote 300 0|quote ready|Quote|QUOTE 5|\
    quotes|quot|regions 5|ready|READY|0| check|check 0 | check 0|";

/// The refusals by their word, the first of two; the first has number 1.
const REFUSALS: [&str; 15] = [
    "misformed", "oversize", "stranger", "standstill", "fork", "idle", "unreached", "doubled", "missing", "uneven",
    "unheld", "open", "short", "odd", "bad",
];

/// Accepted, refused early or late, empty, too long, not ended, and a sheet: no text makes a difference.
fn texts() -> Vec<Vec<u8>> {
    let texts = [Y.to_string(), Q.to_string(), with(Y, "states", "stated"), String::new(), "x".repeat(TEXT_BOUND + 1)];
    let unended = ONE_STATE.trim_end().to_string();
    texts.into_iter().chain([unended, crate::boards::written::Y.to_string()]).map(String::into_bytes).collect()
}

fn parted(line: &str) -> Vec<OsString> {
    line.split(' ').map(OsString::from).collect()
}

/// Each of what is no event in each position that takes one, or takes a figure.
fn wrong_words() -> Vec<Vec<OsString>> {
    let runs = [&["run"][..], &["run", "0"], &["run", "ready", "300"]];
    let others = [&["name"][..], &["check"], &["steps"], &["merge"], &["quote"], &["sheet"], &["explain"]];
    let mut lists: Vec<Vec<OsString>> = NO_CALLS.split('|').map(parted).collect();
    for wrong in NO_EVENTS.split(|b| *b == b'|') {
        let word = OsStr::from_bytes(wrong);
        let before = runs.iter().chain(&others);
        lists.extend(before.map(|words| words.iter().map(OsStr::new).chain([word]).map(OsString::from).collect()));
        lists.push(vec![OsString::from("run"), word.into(), OsString::from("1")]);
    }
    lists.extend(HUGE.map(|figure| parted(&format!("explain {figure}"))));
    lists.extend([40, 41, 4095, 4096, 4097].map(|n| parted(&format!("run {}", "x".repeat(n)))));
    lists.extend(["~", "!", "\x7f"].map(|word| parted(&format!("thin {word}"))));
    lists
}

fn is_figure(word: &[u8]) -> bool {
    word == b"0" || word.first().is_some_and(|b| *b != b'0') && word.iter().all(u8::is_ascii_digit)
}

fn is_event(word: &[u8]) -> bool {
    let name = |b: &u8| b.is_ascii_alphanumeric() || *b == b'-';
    is_figure(word) || (1..=16).contains(&word.len()) && word[0].is_ascii_alphabetic() && word.iter().all(name)
}

fn is_refusal(word: &[u8]) -> bool {
    (1..=15).any(|n: usize| word == n.to_string().as_bytes() || word == REFUSALS[n - 1].as_bytes())
}

/// The first word that is wrong, counted from 1, or that is missing.
fn wrong(words: &[OsString]) -> usize {
    let words: Vec<&[u8]> = words.iter().map(|word| word.as_bytes()).collect();
    let fits: &dyn Fn(usize, &[u8]) -> bool = match words[0] {
        b"check" | b"steps" | b"merge" | b"quote" | b"sheet" => &|k, word| k == 1 && is_figure(word),
        b"name" => &|k, word| k == 1 && is_event(word),
        b"run" => &|_, word| is_event(word),
        b"thin" => &|_, _| false,
        b"help" => &|k, word| k == 1 && word == b"text",
        b"explain" => &|k, word| if k == 1 { is_refusal(word) } else { k < 4 && is_figure(word) },
        _ => return 1,
    };
    let first = (1..words.len()).find(|&k| !fits(k, words[k]));
    first.unwrap_or(words.len()) + 1
}

/// Nothing on standard output, and one line on standard error, with the wrong word if it can be shown.
fn is_usage(words: &[OsString], done: &Output) -> bool {
    let number = wrong(words);
    let said = match words.get(number - 1).map(|word| word.as_bytes()) {
        None => format!("split: word {number} is missing; usage: "),
        Some(word) if (1..=40).contains(&word.len()) && word.iter().all(u8::is_ascii_graphic) => {
            format!("split: word {number} is wrong: {}; usage: ", String::from_utf8_lossy(word))
        }
        Some(_) => format!("split: word {number} is wrong; usage: "),
    };
    let lines = done.stderr.split_inclusive(|b| *b == b'\n').count();
    let one = lines == 1 && done.stderr.ends_with(b"\n") && done.stderr.starts_with(said.as_bytes());
    done.stdout.is_empty() && one && done.status.code().is_some()
}

/// So many lines of text on standard output, and nothing else.
fn is_text(done: &Output, lines: std::ops::RangeInclusive<usize>) -> bool {
    let whole = done.stdout.ends_with(b"\n") && std::str::from_utf8(&done.stdout).is_ok();
    let count = done.stdout.iter().filter(|b| **b == b'\n').count();
    whole && lines.contains(&count) && done.stderr.is_empty() && done.status.success()
}

fn is_screen(done: &Output) -> bool {
    let narrow = String::from_utf8_lossy(&done.stdout).lines().all(|line| line.chars().count() <= 80);
    is_text(done, 1..=24) && narrow
}

/// A screen of it, with every service and every refusal.
fn is_help(done: &Output) -> bool {
    let help = String::from_utf8_lossy(&done.stdout);
    let words: BTreeSet<&str> = help.split(|c: char| !c.is_ascii_alphanumeric()).collect();
    let numbers = (1..=15).map(|n| n.to_string());
    let named = SERVICES.into_iter().chain(["help", "explain"]).map(String::from).chain(numbers);
    is_screen(done) && named.into_iter().all(|word| words.contains(word.as_str()))
}

/// The first line of each explanation up to its last detail, with the details 70 and 90.
const EXPLAINED: [&str; 15] = [
    "misformed: line 70",
    "oversize: line 70",
    "stranger: line 70",
    "standstill: the step on line 70",
    "fork: the step on line 70 has the same state and event as that on line 90",
    "idle event: no step has event 70",
    "unreached: no steps lead from the start to state 70",
    "doubled: machine 70 lists state 90",
    "missing: machine 70 has no place with state 90",
    "uneven: a place of machine 70 is no region: some steps of event 90",
    "unheld: event 70",
    "open: in state 90 the machines are ready for event 70",
    "short sheet: what was lent is too short for the answer, which needs size 70",
    "odd call: the event at position 70",
    "bad sheet: line 70",
];

/// Of the refusal with this number, with these details in place of A and B.
fn is_explanation(number: usize, details: &[&str], done: &Output) -> bool {
    let text = String::from_utf8_lossy(&done.stdout);
    let mut due = EXPLAINED[number - 1].to_string();
    for (detail, letter) in [("70", "A"), ("90", "B")].into_iter().skip(details.len()) {
        due = due.replace(detail, letter);
    }
    is_text(done, 2..=8) && text.starts_with(&due) && !text.contains(['%', '#'])
}

/// The program with all of these words.
pub fn compare(program: &Program, watchdog: &Watchdog, report: &Report) {
    let texts = texts();
    let held = |words: &[OsString], turn: usize, due: &str, is: &dyn Fn(&Output) -> bool| {
        let text = &texts[turn % texts.len()];
        let done = program.call(words, &[text.clone()], watchdog);
        report.words(words, text, due, &done, is(&done));
    };
    for (k, words) in wrong_words().iter().enumerate() {
        for turn in [k, k + 3] {
            held(words, turn, "one line on standard error that says the wrong word", &|done| is_usage(words, done));
        }
    }
    let many: Vec<OsString> = [vec!["run".into()], vec!["x".repeat(4096).into(); 356]].concat();
    let too_long = b"split: the words are too long to be read; usage: ";
    let is_told = |done: &Output| done.stdout.is_empty() && done.stderr.starts_with(too_long);
    held(&many, 0, "one line on standard error that says that the words are too long", &is_told);
    for turn in 0..texts.len() {
        held(&parted("help"), turn, "at most 24 lines of 80 columns with every service and 1 to 15", &is_help);
        held(&parted("help text"), turn, "at most 24 lines of 80 columns", &|done| is_screen(done));
    }
    for number in 1..=15 {
        for said in [number.to_string(), REFUSALS[number - 1].to_string()] {
            for details in [&[][..], &["70"], &["70", "90"]] {
                let words = parted(&[&["explain", &said], details].concat().join(" "));
                held(&words, number, "an explanation with its details", &|done| is_explanation(number, details, done));
            }
        }
    }
}
