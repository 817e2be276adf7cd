//! How often an answer is one that a likely fault with the case of names would change, on texts.
use crate::answer::Told;
use crate::call::Call;
use crate::letters::{is_of_name, is_same, names, Stands};
use crate::RULES;
use reference::Refusal;
use std::collections::BTreeSet;

/// The names of a text as they are spelt.
pub struct Spelling {
    declared: Vec<Vec<u8>>,
    has_capitals: bool,
    /// The names that are declared and that some step has in another case, as declared.
    steps_otherwise: Vec<Vec<u8>>,
}

fn has_capital(name: &[u8]) -> bool {
    name.iter().any(u8::is_ascii_uppercase)
}

/// Some name in two cases, and none twice in one.
fn is_twice_by_case(names: &[Vec<u8>]) -> bool {
    let again =
        |same: fn(&[u8], &[u8]) -> bool| (0..names.len()).any(|k| names[..k].iter().any(|n| same(n, &names[k])));
    again(is_same) && !again(|one, other| one == other)
}

/// The byte of a name that another is taken for, and by which fault.
fn taken(byte: u8) -> Option<(&'static str, u8)> {
    match byte {
        b'@' | b'`' => Some((BESIDE, b'a')),
        b'[' | b'{' => Some((BESIDE, b'z')),
        _ if !is_of_name(byte) && (byte ^ 0x20).is_ascii_digit() || byte == b'-' ^ 0x20 => {
            Some((NO_LETTER, byte ^ 0x20))
        }
        128.. if is_of_name(byte ^ 0x80) => Some((HIGHEST_BIT, byte ^ 0x80)),
        _ => None,
    }
}

/// With bytes of names in the place of those that a fault takes for them; and the faults.
pub fn mended(name: &[u8]) -> (Vec<&'static str>, Vec<u8>) {
    let found: Vec<_> = name.iter().map(|byte| taken(*byte).filter(|_| !is_of_name(*byte))).collect();
    let bytes = name.iter().zip(&found).map(|(byte, taken)| taken.map_or(*byte, |(_, other)| other)).collect();
    let mut faults: Vec<&'static str> = found.into_iter().flatten().map(|(fault, _)| fault).collect();
    faults.dedup();
    (faults, bytes)
}

/// The faults on one line of a text or a sheet, and all of it with names mended there.
pub fn mended_line(text: &[u8], line: usize) -> (Vec<&'static str>, Vec<u8>) {
    let (mut faults, mut whole) = (Vec::new(), text.to_vec());
    let mut lines = whole.split_inclusive_mut(|b| *b == b'\n');
    if let Some(line) = lines.nth(line - 1) {
        for (_, name) in names(line) {
            let (found, bytes) = mended(&line[name.clone()]);
            line[name].copy_from_slice(&bytes);
            faults.extend(found);
        }
    }
    faults.sort_unstable();
    faults.dedup();
    (faults, whole)
}

/// A line that is misformed for a byte of a name alone.
fn of_misformed(text: &[u8], line: usize) -> Vec<&'static str> {
    let (faults, whole) = mended_line(text, line);
    let again = || matches!(reference::read(RULES, &whole), Err(Refusal(1, other, _)) if other == line);
    if faults.is_empty() || again() {
        return Vec::new();
    }
    faults
}

impl Spelling {
    pub fn of(text: &[u8]) -> Spelling {
        let all = names(text);
        let so = |so: Stands| all.iter().filter(move |name| name.0 == so).map(|name| &text[name.1.clone()]);
        let declared = so(Stands::Declared).map(<[u8]>::to_vec).collect();
        let has_capitals = all.iter().any(|name| has_capital(&text[name.1.clone()]));
        let mut spelling = Spelling { declared, has_capitals, steps_otherwise: Vec::new() };
        let steps: BTreeSet<&[u8]> = so(Stands::InStep).collect();
        let steps: Vec<&[u8]> = steps.into_iter().filter(|name| spelling.is_otherwise(name)).collect();
        let is_in_step = |known: &&Vec<u8>| steps.iter().any(|name| is_same(known, name));
        spelling.steps_otherwise = spelling.declared.iter().filter(is_in_step).cloned().collect();
        spelling
    }

    fn is_declared(&self, name: &[u8], same: fn(&[u8], &[u8]) -> bool) -> bool {
        self.declared.iter().any(|known| same(known, name))
    }

    /// Declared, in another case.
    fn is_otherwise(&self, name: &[u8]) -> bool {
        self.is_declared(name, is_same) && !self.is_declared(name, |one, other| one == other)
    }

    /// A wire of the quotation has a name that some step has in another case.
    fn is_wired(&self, told: &Told) -> bool {
        let Told::Quoted(printed) = told else { return false };
        let printed = String::from_utf8_lossy(printed);
        let is_printed = |name: &[u8]| printed.contains(&format!("(line wire {} ", String::from_utf8_lossy(name)));
        self.steps_otherwise.iter().any(|name| is_printed(name))
    }

    pub fn telling(&self, text: &[u8], call: &Call, told: &Told) -> Vec<&'static str> {
        let number = if let Told::Refused([number, ..]) = told { *number } else { 0 };
        let read = !(1..=3).contains(&number);
        let is_asked = |word: &String| self.is_otherwise(word.as_bytes());
        let told_so = [
            (CAPITALS, read && self.has_capitals),
            (IN_STEP, read && !self.steps_otherwise.is_empty()),
            (PRINTED, matches!(told, Told::Sheet(_) | Told::Merged(_)) && !self.steps_otherwise.is_empty()),
            (WIRED, self.is_wired(told)),
            (TWICE, matches!(told, Told::Refused([3, 2, _])) && is_twice_by_case(&self.declared)),
            (NAMED, matches!(told, Told::Name(name) if has_capital(name))),
            (ASKED, number == 0 && call.arguments().iter().any(is_asked)),
        ];
        let labels = told_so.into_iter().filter(|(_, is)| *is).map(|(label, _)| label);
        let misformed = match told {
            Told::Refused([1, line, _]) => of_misformed(text, *line),
            _ => Vec::new(),
        };
        labels.chain(misformed).collect()
    }
}

const CAPITALS: &str = "case: capitals in a name, not refused by 1 to 3";
const IN_STEP: &str = "case: a step's name declared in another, not refused by 3";
const PRINTED: &str = "case: a sheet as declared, otherwise than in a step";
const WIRED: &str = "case: a wire as declared, otherwise than in a step";
const TWICE: &str = "case: refused 3 for a name declared in two";
const NAMED: &str = "case: a name with capitals handed back";
const ASKED: &str = "case: events asked for in another than declared";
const BESIDE: &str = "case: a byte beside the letters refused in a name";
const NO_LETTER: &str = "case: a digit or a hyphen with the bit of case turned refused in a name";
const HIGHEST_BIT: &str = "case: a name's byte with the highest bit refused";

pub const LABELS: [&str; 10] = [CAPITALS, IN_STEP, PRINTED, WIRED, TWICE, NAMED, ASKED, BESIDE, NO_LETTER, HIGHEST_BIT];
