//! Names spelt in other cases, and bytes that a careless comparison of cases takes for those of a name.
use crate::dice::Dice;
use std::ops::Range;

/// What is done to the letters of a name.
#[derive(Clone, Copy)]
pub enum Case {
    Capitals,
    FirstCapital,
    Any,
}

pub const CASES: [Case; 4] = [Case::Capitals, Case::FirstCapital, Case::Any, Case::Any];

/// Where a name stands.
#[derive(Clone, Copy, PartialEq)]
pub enum Stands {
    Declared,
    InStep,
    InMove,
}

pub fn is_same(one: &[u8], other: &[u8]) -> bool {
    one.eq_ignore_ascii_case(other)
}

pub fn spell(dice: &mut Dice, case: Case, name: &mut [u8]) {
    for (k, byte) in name.iter_mut().enumerate() {
        let capital = match case {
            Case::Capitals => true,
            Case::FirstCapital => k == 0,
            Case::Any => dice.once_in(2),
        };
        *byte = if capital { byte.to_ascii_uppercase() } else { byte.to_ascii_lowercase() };
    }
}

/// The name as it is, or in another case.
pub fn spelt(dice: &mut Dice, name: &str) -> String {
    let mut bytes = name.as_bytes().to_vec();
    if dice.once_in(2) {
        let case = dice.one(&CASES);
        spell(dice, case, &mut bytes);
    }
    String::from_utf8(bytes).expect("a name of ASCII")
}

// ---- Texts and sheets, whatever their bytes -----------------------------------------

fn words(line: &[u8]) -> Vec<Range<usize>> {
    let (mut words, mut from) = (Vec::new(), 0);
    for at in (0..=line.len()).filter(|at| line.get(*at).is_none_or(|byte| b" ()\n".contains(byte))) {
        if from < at {
            words.push(from..at);
        }
        from = at + 1;
    }
    words
}

/// Where the names of a text or a sheet are.
pub fn names(text: &[u8]) -> Vec<(Stands, Range<usize>)> {
    let (mut names, mut from) = (Vec::new(), 0);
    for line in text.split_inclusive(|b| *b == b'\n') {
        let words = words(line);
        for (k, word) in words.iter().enumerate().skip(1) {
            let [head, before] = [0, k - 1].map(|k| &line[words[k].clone()]);
            let stands = match head {
                b"events" => Stands::Declared,
                b"step" if k == 2 => Stands::InStep,
                b"machine" if before == b"move" => Stands::InMove,
                _ => continue,
            };
            names.push((stands, from + word.start..from + word.end));
        }
        from += line.len();
    }
    names
}

/// The names that stand so, each in this case.
pub fn respell(dice: &mut Dice, text: &mut [u8], so: Stands, case: Case) {
    for (_, name) in names(text).into_iter().filter(|(stands, _)| *stands == so) {
        spell(dice, case, &mut text[name]);
    }
}

/// Those that are declared, those of steps, or both; now and then neither.
pub fn respell_text(dice: &mut Dice, text: &mut [u8]) {
    let way = dice.below(5);
    for so in [&[][..], &[Stands::Declared], &[Stands::InStep], &[Stands::Declared, Stands::InStep]][way.min(3)] {
        let case = dice.one(&CASES);
        respell(dice, text, *so, case);
    }
}

/// The sheet of a text, with the spelling of its line of events.
pub fn as_declared(text: &[u8], sheet: &str) -> String {
    let declared: Vec<&[u8]> = names(text)
        .into_iter()
        .filter(|(stands, _)| *stands == Stands::Declared)
        .map(|(_, name)| &text[name])
        .collect();
    let mut sheet = sheet.as_bytes().to_vec();
    for (_, name) in names(&sheet) {
        let spelling =
            declared.iter().find(|known| is_same(known, &sheet[name.clone()])).expect("a name that is declared");
        sheet[name].copy_from_slice(spelling);
    }
    String::from_utf8(sheet).expect("a sheet of ASCII")
}

/// Each move in a case of its own, or each event in one; or all as they are.
pub fn respell_sheet(dice: &mut Dice, sheet: &mut [u8]) {
    let case = dice.one(&CASES);
    match dice.below(4) {
        0 => {}
        1 => one_spelling_each(dice, sheet),
        _ => respell(dice, sheet, Stands::InMove, case),
    }
}

fn one_spelling_each(dice: &mut Dice, sheet: &mut [u8]) {
    let mut known: Vec<Vec<u8>> = Vec::new();
    for (_, name) in names(sheet) {
        let found = known.iter().position(|known| is_same(known, &sheet[name.clone()]));
        let found = found.unwrap_or_else(|| {
            spell(dice, Case::Any, &mut sheet[name.clone()]);
            known.push(sheet[name.clone()].to_vec());
            known.len() - 1
        });
        sheet[name].copy_from_slice(&known[found]);
    }
}

// ---- Bytes that are taken for others ------------------------------------------------

/// The bits by which a byte may be taken for another: those of case, of letters against digits, and the highest.
const BITS: [u8; 5] = [0x20, 0x40, 0x60, 0x80, 0xa0];

/// The bytes beside the letters.
pub const BESIDE: [u8; 4] = *b"@[`{";

pub fn is_of_name(byte: u8) -> bool {
    byte.is_ascii_alphanumeric() || byte == b'-'
}

/// Bytes that no name has and that come to this one if some bits, or the borders of the letters, are not looked at.
pub fn taken_for(byte: u8) -> Vec<u8> {
    let turned = BITS.map(|bits| byte ^ bits).into_iter();
    turned.chain(BESIDE).filter(|other| !is_of_name(*other) && !b" ()\n".contains(other)).collect()
}

/// One byte of one of the names in these places, or two next to each other.
pub fn confuse(dice: &mut Dice, text: &mut [u8], names: &[Range<usize>]) {
    if names.is_empty() {
        return;
    }
    let name = dice.one(names);
    let at = name.start + dice.below(name.len());
    for at in at..name.end.min(at + 1 + dice.below(2)) {
        text[at] = dice.one(&taken_for(text[at]));
    }
}
