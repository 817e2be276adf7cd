//! Texts with capitals in their names, the same at every run: request 5 by hand, each byte in each place of a name, and
//! pairs of bytes side by side.
use crate::call::{call, Task};
use crate::dice::Dice;
use crate::draft::{lines, y_from, Draft, Y};
use crate::forms::with_names;
use crate::letters::{self, Case, Stands, CASES};
use crate::written::known;

// ---- By hand ------------------------------------------------------------------------

/// Y as drawings may spell it.
const DRAWN: &str = "(states 4)|(events Ready BRAKE home)|(step 0 READY 1)|(step 0 brake 2)|(step 1 Brake 3)|\
                     (step 2 ready 3)|(step 3 hOmE 0)|(machine (0 2) (1 3))|(machine (0 1) (2 3))";

const SHEET: &str = "(accepted 2)|(machine 0 (places 2) (start 0) (move Ready 0 1) (move home 1 0))|\
                     (machine 1 (places 2) (start 0) (move BRAKE 0 1) (move home 1 0))";

/// Calls on it, each with its answer.
const CALLS: &[(&str, &str)] = &[
    ("check", SHEET),
    ("check 145", SHEET),
    ("check 144", "(refused 13 145 0)"),
    ("merge", SHEET),
    ("merge 144", "(refused 13 145 0)"),
    ("thin", "(kept 2 (0 1))"),
    ("quote", "(line machine 0 40028)|(line machine 1 40028)|(line wire home 618)|(total 80674)"),
    ("quote 80", "(refused 13 81 0)"),
    ("steps", "(steps 5)|(step 0 0 1)|(step 0 1 2)|(step 1 1 3)|(step 2 0 3)|(step 3 2 0)"),
    ("name 0", "Ready"),
    ("name 1", "BRAKE"),
    ("name READY", "Ready"),
    ("name ready", "Ready"),
    ("name brake", "BRAKE"),
    ("name HOME", "home"),
    ("name Early", "(refused 14 0 0)"),
    ("name READY-", "(refused 14 0 0)"),
    ("run ready bRAKE HOME Home", "(blocked 3 0 (places 0 0))"),
    ("run READY 1", "(whole (places 1 1))"),
    ("run Ready Brake Early", "(refused 14 2 0)"),
];

fn drawn() -> Task {
    let calls = CALLS.iter().map(|(line, answer)| call(line).giving(&lines(answer))).collect();
    Task::new("spelling", lines(DRAWN), calls)
}

/// The refusal, and the text.
const FAULTS: &[(&str, &str)] = &[
    // One event declared in two cases, side by side or not; 1 and 2 come first on the line.
    ("3 2 0", "(states 2)|(events READY Ready)|(step 0 ready 1)|(machine (0) (1))"),
    ("3 2 0", "(states 2)|(events ready a-1 b Ready)|(step 0 ready 1)|(machine (0) (1))"),
    ("3 2 0", "(states 2)|(events a-1 A-1)|()"),
    ("1 2 0", "(states 2)|(events a A @)|(step 0 a 1)|(machine (0) (1))"),
    // Other events: by a digit, a hyphen, a letter, an end.
    ("3 3 0", "(states 2)|(events Ready)|(step 0 Read 1)|(machine (0) (1))"),
    ("3 3 0", "(states 2)|(events Ready)|(step 0 READY0 1)|(machine (0) (1))"),
    ("3 3 0", "(states 2)|(events Ready-1)|(step 0 READY-2 1)|(machine (0) (1))"),
    ("3 3 0", "(states 2)|(events R-1)|(step 0 RM1 1)|(machine (0) (1))"),
    ("3 3 0", "(states 2)|(events R0)|(step 0 rP 1)|(machine (0) (1))"),
    ("6 1 0", "(states 2)|(events a-1 A1)|(step 0 A-1 1)|(machine (0) (1))"),
    // The same step in two cases is a fork, and one event leads out of a state once.
    ("5 4 3", "(states 2)|(events a)|(step 0 a 1)|(step 0 A 1)|(machine (0) (1))"),
    ("5 4 3", "(states 3)|(events A)|(step 0 a 1)|(step 0 A 2)|(machine (0) (1))"),
    ("4 3 0", "(states 2)|(events a)|(step 0 A 0)|(machine (0) (1))"),
    // A name begins with a letter, and has 16 bytes at most.
    ("1 2 0", "(states 2)|(events 1A)|(step 0 a 1)|(machine (0) (1))"),
    ("1 2 0", "(states 2)|(events -A)|(step 0 a 1)|(machine (0) (1))"),
    ("1 2 0", "(states 2)|(events SEVENTEEN-LETTERS)|(step 0 a 1)|(machine (0) (1))"),
    ("1 3 0", "(states 2)|(events a)|(step 0 SEVENTEEN-LETTERS 1)|(machine (0) (1))"),
    // All that is no name has its small letters.
    ("1 1 0", "(STATES 2)|(events a)|(step 0 a 1)|(machine (0) (1))"),
    ("1 1 0", "(states 2 START 0)|(events a)|(step 0 a 1)|(machine (0) (1))"),
    ("1 2 0", "(states 2)|(Events a)|(step 0 a 1)|(machine (0) (1))"),
    ("1 3 0", "(states 2)|(events a)|(STEP 0 a 1)|(machine (0) (1))"),
    ("1 3 0", "(states 2)|(events a)|(stEp 0 a 1)|(machine (0) (1))"),
    ("1 4 0", "(states 2)|(events a)|(step 0 a 1)|(Machine (0) (1))"),
    ("1 4 0", "(states 2)|(events a)|(step 0 a 1)|(MACHINE (0) (1))"),
];

/// 64 names of 16 capitals; then the first again in place of the last, or behind it.
fn bounds() -> Vec<Task> {
    let names: Vec<String> = (10..74).map(|k| format!("SIXTEEN-BYTES-{k}")).collect();
    let small: Vec<String> = names.iter().map(|name| name.to_lowercase()).collect();
    let again = [&names[..63], &small[..1]].concat();
    let behind = [&names[..], &small[..1]].concat();
    let accepted: String = names.iter().map(|name| format!(" (move {name} 0 1)")).collect();
    let accepted = format!("(accepted 1)|(machine 0 (places 2) (start 0){accepted})");
    // All events from one state to another: the machine is closed.
    let first = (0..64).map(|k| (0, small[k].clone(), 1)).collect();
    let whole = Draft { states: 2, start: None, events: names, steps: first, machines: vec![vec![vec![0], vec![1]]] };
    let texts = [
        (whole.text(), &accepted[..]),
        (with_names(again, &[]), "(refused 3 2 0)"),
        (with_names(behind, &[]), "(refused 2 2 0)"),
    ];
    texts.map(|(text, answer)| known("spelling", text, answer)).into()
}

pub fn written() -> Vec<Task> {
    let faults = FAULTS.iter().map(|(refusal, text)| known("spelling", lines(text), &format!("(refused {refusal})")));
    std::iter::once(drawn()).chain(faults).chain(bounds()).collect()
}

/// Y in every case, for each service.
pub fn texts() -> Vec<Vec<u8>> {
    let mut dice = Dice::new(5);
    let ways = [&[Stands::Declared][..], &[Stands::InStep], &[Stands::Declared, Stands::InStep]];
    let mut texts = vec![lines(DRAWN).into_bytes()];
    for (text, so) in [Y.to_string(), y_from(3)].iter().flat_map(|text| ways.map(|so| (text, so))) {
        for case in CASES {
            let mut text = text.clone().into_bytes();
            so.iter().for_each(|so| letters::respell(&mut dice, &mut text, *so, case));
            texts.push(text);
        }
    }
    texts
}

// ---- By the library only ------------------------------------------------------------

/// An event that is declared so, and so in its one step: in the first step, which much follows, or in the last, behind
/// which there are too few bytes for the way by which most steps are read.
fn naming(declared: &[u8], in_step: &[u8], last: bool) -> Vec<u8> {
    let machine = &b"(machine (0) (1))\n"[..];
    let before = [b"(states 2)\n(events back ", declared, b")\n"].concat();
    let rest = match last {
        true => [b"(step 0 back 1)\n(step 1 ", in_step, b" 0)\n", machine].concat(),
        false => [b"(step 0 ", in_step, b" 1)\n(step 1 back 0)\n", machine, machine].concat(),
    };
    [before, rest].concat()
}

/// Of every kind of byte, and longer than a word.
const NAME: &[u8] = b"aZ5-zA09m";

fn by_library((turn, text): (usize, Vec<u8>)) -> Task {
    let others = ["steps", "name 1", "run 1 0", "thin", "merge", "quote"];
    let calls = ["check", others[turn % others.len()]].map(|line| call(line).by_library());
    Task::new("byte of a name", text, calls.into())
}

/// Each byte in each place of a name: declared, in a step, in the last step.
fn each_byte() -> Vec<Vec<u8>> {
    let mut texts = Vec::new();
    for (k, byte) in (0..NAME.len()).flat_map(|k| (0..=255).map(move |byte| (k, byte))) {
        let mut other = NAME.to_vec();
        other[k] = byte;
        texts.extend([naming(&other, NAME, false), naming(NAME, &other, false), naming(NAME, &other, true)]);
    }
    texts
}

/// Bytes that are taken for others, and such as carry into the next byte of a word.
const ODD: &[u8] = b"\0\r\x10\x19\x1a!-.09:@AZ[`az{\x7f\x80\x8d\x90\xad\xb0\xb9\xc0\xc1\xda\xdb\xe0\xe1\xfa\xfb\xff";

/// Names of every length in two cases, with one odd byte or two side by side in one of them.
fn pairs() -> Vec<Vec<u8>> {
    let mut dice = Dice::new(5);
    let pair = |k: usize| {
        let name: Vec<u8> = (0..1 + k % 16).map(|_| dice.one(b"abkyzABKYZ")).collect();
        let mut other = name.clone();
        letters::spell(&mut dice, Case::Any, &mut other);
        let at = dice.below(other.len());
        for at in at..other.len().min(at + 1 + dice.below(2)) {
            other[at] = dice.one(ODD);
        }
        naming(&name, &other, dice.once_in(4))
    };
    (0..2400).map(pair).collect()
}

pub fn many() -> Vec<Task> {
    each_byte().into_iter().chain(pairs()).enumerate().map(by_library).collect()
}
