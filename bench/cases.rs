//! The texts and sheets, and the calls that are timed on them.
use crate::call::{Call, Programs, Service, Told, SHEET};
use crate::{peer, peer_slips};
use std::collections::BTreeSet;
use std::fs;

/// A text of bench/texts, all of which are accepted.
pub struct Text {
    pub name: String,
    pub bytes: Vec<u8>,
    /// A list of events that runs to its end.
    pub walk: Vec<u8>,
}

pub struct Case {
    pub name: String,
    /// The text or the sheet that this one spells in capitals, if it does.
    pub base: Option<String>,
    pub call: Call,
    /// What all programs tell.
    pub told: Told,
    /// ns a call of each program, sample by sample. A program without the service has no samples.
    pub ns: [Vec<f64>; 3],
}

impl Case {
    /// Whatever the programs do not agree on is not timed.
    pub fn new(programs: &mut Programs, name: &str, text: &[u8], service: Service) -> Case {
        let call = Call { text: text.to_vec(), service };
        let mut all = programs.iter_mut().filter_map(|program| program.tell(&call));
        let told = all.next().expect("what the proved library tells");
        if !all.all(|other| other == told) {
            eprintln!("bench: the programs do not agree on {} ({name})", call.service.word());
            std::process::exit(1);
        }
        Case { name: name.to_string(), base: None, call, told, ns: Default::default() }
    }

    pub fn refusal(&self) -> Option<[usize; 3]> {
        match self.told {
            Told::Refused(refusal) => Some(refusal),
            _ => None,
        }
    }
}

/// By fixed turns the first event that runs, until 256 have run or none does.
fn walk(text: &[u8]) -> Vec<u8> {
    let (mut events, mut turn) = (Vec::new(), 0u8);
    let runs = |events: &[u8]| peer::run(text, events).ran == peer::Ran::Whole;
    while events.len() < 256 {
        let next = (0..64).map(|i| turn.wrapping_mul(7).wrapping_add(i) % 64);
        let Some(event) = next.into_iter().find(|event| runs(&[&events[..], &[*event]].concat())) else { break };
        events.push(event);
        turn = turn.wrapping_add(11);
    }
    events
}

/// The files of bench/texts with this ending, by name.
fn files(ending: &str) -> Vec<(String, Vec<u8>)> {
    let mut files: Vec<_> =
        fs::read_dir("bench/texts").expect("bench/texts").flatten().map(|file| file.path()).collect();
    files.retain(|file| file.extension().is_some_and(|found| found == ending));
    files.sort();
    let name = |file: &std::path::PathBuf| file.file_stem().expect("a name").to_string_lossy().into_owned();
    files.iter().map(|file| (name(file), fs::read(file).expect("a text"))).collect()
}

pub fn texts() -> Vec<Text> {
    files("plan").into_iter().map(|(name, bytes)| Text { name, walk: walk(&bytes), bytes }).collect()
}

/// A good sheet, and names of events that run to their end.
pub struct Sheet {
    pub name: String,
    pub bytes: Vec<u8>,
    pub walk: Vec<u8>,
}

/// As `walk`, by name: at most 256 events, each the next that runs among the names on the sheet.
fn walk_by_name(sheet: &[u8]) -> Vec<u8> {
    let text = String::from_utf8_lossy(sheet);
    let named: BTreeSet<&str> = text.split("(move ").skip(1).filter_map(|rest| rest.split(' ').next()).collect();
    let named: Vec<&str> = named.into_iter().collect();
    let (mut list, mut turn) = (String::new(), 0);
    let runs = |list: &String| peer_slips::board(sheet, list.as_bytes()).ran == peer_slips::Ran::Whole;
    for _ in 0..256 {
        let next = (0..named.len()).map(|i| format!("{list}{}\n", named[(turn * 7 + i) % named.len()]));
        let Some(longer) = next.into_iter().find(runs) else { break };
        list = longer;
        turn += 11;
    }
    list.into_bytes()
}

pub fn sheets() -> Vec<Sheet> {
    files("sheet").into_iter().map(|(name, bytes)| Sheet { name, walk: walk_by_name(&bytes), bytes }).collect()
}

/// Both calls on a sheet.
pub fn loaded(programs: &mut Programs, sheet: &Sheet) -> Vec<Case> {
    let Sheet { name, bytes, walk } = sheet;
    let case = |service| {
        let case = Case::new(programs, name, bytes, service);
        assert!(case.refusal().is_none(), "{name} is refused");
        case
    };
    [Service::Sheet(SHEET), Service::Board(walk.clone())].map(case).into()
}

/// The number of the event that is declared last.
pub fn last_event(text: &[u8]) -> usize {
    let line = text.split(|b| *b == b'\n').nth(1).expect("a line of events");
    line.iter().filter(|b| **b == b' ').count() - 1
}

/// The texts that are there for merging. On them it alone is timed: the peer for the other services reads no start.
pub fn is_for_merging(name: &str) -> bool {
    name.starts_with("merge-")
}

/// Of the other texts merging is timed on the shortest and on the longest.
fn services(Text { name, bytes, walk }: &Text) -> Vec<Service> {
    let last = Service::Name(last_event(bytes));
    let all = [Service::Check(SHEET), Service::Steps, last, Service::Run(walk.clone()), Service::Thin];
    match &name[..] {
        name if is_for_merging(name) => vec![Service::Merge],
        "a-y" | "both-32k" => all.into_iter().chain([Service::Merge, Service::Quote]).collect(),
        _ => all.into_iter().chain([Service::Quote]).collect(),
    }
}

/// The last name is the one that takes longest to find.
pub fn accepted(programs: &mut Programs, text: &Text) -> Vec<Case> {
    let Text { name, bytes, .. } = text;
    let case = |service| {
        let case = Case::new(programs, name, bytes, service);
        assert!(case.refusal().is_none(), "{name} is refused");
        case
    };
    services(text).into_iter().map(case).collect()
}
