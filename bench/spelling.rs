//! Texts and a sheet of about 32 KB again, with their names in capitals: to be answered about as fast as in small
//! letters.
use crate::call::{Programs, Service, SHEET};
use crate::cases::{Case, Sheet, Text};

/// How the names are spelt, and on which lines.
type Way = (&'static str, fn(&str) -> bool);

const OF_TEXTS: [Way; 2] = [("in capitals", |_| true), ("with steps in capitals", |line| line.starts_with("(step "))];

const OF_SHEETS: [Way; 2] = [("in capitals", |_| true), ("with every other machine in capitals", is_odd)];

fn is_odd(line: &str) -> bool {
    let number = line.strip_prefix("(machine ").and_then(|rest| rest.split(' ').next()).unwrap_or_default();
    number.ends_with(['1', '3', '5', '7', '9'])
}

/// The names of a line: those that are declared, that of a step, those of moves.
fn in_capitals(line: &str) -> String {
    let words: Vec<&str> = line.split(' ').collect();
    let is_name = |k: usize| match words[0] {
        "(events" => k > 0,
        "(step" => k == 2,
        _ => k > 0 && words[k - 1] == "(move",
    };
    let spelt = |(k, word): (usize, &&str)| if is_name(k) { word.to_uppercase() } else { word.to_string() };
    words.iter().enumerate().map(spelt).collect::<Vec<_>>().join(" ")
}

fn respelt(bytes: &[u8], is_chosen: fn(&str) -> bool) -> Vec<u8> {
    let text = String::from_utf8_lossy(bytes);
    let spelt = |line: &str| if is_chosen(line) { in_capitals(line) } else { line.to_string() };
    text.split_inclusive('\n').map(spelt).collect::<String>().into_bytes()
}

/// A case to be set beside the same service on the text or the sheet of this name.
fn case(programs: &mut Programs, base: &str, way: &str, text: &[u8], service: Service) -> Case {
    let case = Case::new(programs, &format!("{base} {way}"), text, service);
    assert!(case.refusal().is_none(), "{} is refused", case.name);
    Case { base: Some(base.to_string()), ..case }
}

fn of_text(programs: &mut Programs, Text { name, bytes, walk }: &Text) -> Vec<Case> {
    let mut cases = Vec::new();
    for (way, is_chosen) in OF_TEXTS {
        let text = respelt(bytes, is_chosen);
        for service in [Service::Check(SHEET), Service::Run(walk.clone())] {
            cases.push(case(programs, name, way, &text, service));
        }
    }
    cases
}

/// And as it is, with the names that it is asked for in capitals.
fn of_sheet(programs: &mut Programs, Sheet { name, bytes, walk }: &Sheet) -> Vec<Case> {
    let capitals = walk.to_ascii_uppercase();
    let mut cases = Vec::new();
    for (way, is_chosen) in OF_SHEETS {
        let sheet = respelt(bytes, is_chosen);
        for service in [Service::Sheet(SHEET), Service::Board(capitals.clone())] {
            cases.push(case(programs, name, way, &sheet, service));
        }
    }
    cases.push(case(programs, name, "asked in capitals", bytes, Service::Board(capitals)));
    cases
}

pub fn cases(programs: &mut Programs, texts: &[Text], sheets: &[Sheet]) -> Vec<Case> {
    let large = texts.iter().filter(|text| ["both-32k", "steps-32k"].contains(&&text.name[..]));
    let mut cases: Vec<Case> = large.flat_map(|text| of_text(programs, text)).collect();
    cases.extend(of_sheet(programs, sheets.last().expect("a sheet")));
    cases
}
