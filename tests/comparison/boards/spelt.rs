//! How often an answer is one that a likely fault with the case of names would change, on sheets.
use crate::answer::Told;
use crate::call::Call;
use crate::letters::{is_same, names};
use crate::spelt::{mended, mended_line};
use crate::RULES;
use reference::Refusal;
use std::collections::BTreeSet;

/// The names of a sheet, as they are spelt and in small letters.
pub struct Spelling {
    spelt: BTreeSet<Vec<u8>>,
    events: BTreeSet<Vec<u8>>,
}

/// The line has an event in two cases and none twice in one.
fn is_twice_by_case(sheet: &[u8], line: usize) -> bool {
    let line = sheet.split_inclusive(|b| *b == b'\n').nth(line - 1).unwrap_or_default();
    let named: Vec<&[u8]> = names(line).into_iter().map(|(_, name)| &line[name]).collect();
    let spelt: BTreeSet<&[u8]> = named.iter().copied().collect();
    let events: BTreeSet<Vec<u8>> = named.iter().map(|name| name.to_ascii_lowercase()).collect();
    spelt.len() == named.len() && events.len() < named.len()
}

fn of_bad(sheet: &[u8], line: usize) -> Vec<&'static str> {
    let (faults, whole) = mended_line(sheet, line);
    let again = || matches!(reference::read_sheet(RULES, &whole), Err(Refusal(15, other, _)) if other == line);
    if !faults.is_empty() && !again() {
        return vec![BAD_BYTE];
    }
    if is_twice_by_case(sheet, line) {
        vec![TWICE]
    } else {
        Vec::new()
    }
}

impl Spelling {
    pub fn of(sheet: &[u8]) -> Spelling {
        let spelt: BTreeSet<Vec<u8>> = names(sheet).into_iter().map(|(_, name)| sheet[name].to_vec()).collect();
        let events = spelt.iter().map(|name| name.to_ascii_lowercase()).collect();
        Spelling { spelt, events }
    }

    /// The name is on no move as it is, but it is if a fault takes its bytes for others.
    fn is_taken(&self, name: &[u8]) -> bool {
        let (faults, bytes) = mended(name);
        !faults.is_empty() && self.events.iter().any(|event| is_same(event, &bytes))
    }

    pub fn telling(&self, sheet: &[u8], call: &Call, told: &Told) -> Vec<&'static str> {
        let listed = || call.list.split(|b| *b == b'\n').filter(|name| !name.is_empty());
        let told_so = match told {
            Told::Refused([15, line, _]) if *line > 0 => return of_bad(sheet, *line),
            Told::Refused([14, at, _]) => {
                vec![(ODD_BYTE, call.list.split(|b| *b == b'\n').nth(*at).is_some_and(|name| self.is_taken(name)))]
            }
            Told::Ran(..) => {
                vec![(ASKED, listed().any(|name| !self.spelt.contains(name))), (OVER_64, self.spelt.len() > 64)]
            }
            Told::Sheet(_) => {
                vec![(KEPT, self.spelt.len() > self.events.len()), (OVER_64, self.spelt.len() > 64)]
            }
            _ => Vec::new(),
        };
        told_so.into_iter().filter(|(_, is)| *is).map(|(label, _)| label).collect()
    }
}

const KEPT: &str = "sheet: an event in several cases, written as read";
const OVER_64: &str = "sheet: more than 64 spellings of no more than 64 events";
const TWICE: &str = "sheet: refused 15 for an event in two cases on a machine";
const BAD_BYTE: &str = "sheet: refused 15 for a byte of a name that is taken for another";
const ASKED: &str = "board: run with a name in a case that no move has";
const ODD_BYTE: &str = "board: refused 14 for a byte of a name that is taken for another";

pub const LABELS: [&str; 6] = [KEPT, OVER_64, TWICE, BAD_BYTE, ASKED, ODD_BYTE];
