//! What the independent program answers to a call, as it prints it and as the library has to tell it.
use crate::call::Call;
use crate::split::Step;
use crate::RULES;
use reference::{Ran, Refusal, TEXT_BOUND};
use std::cell::RefCell;

/// As the independent program prints it: by itself if it takes these names, which have to be text, each ended.
fn boarded(list: &[u8], sheet: &[u8]) -> Vec<u8> {
    if let Some(Ok(names)) = list.strip_suffix(b"\n").map(std::str::from_utf8) {
        let names: Vec<String> = names.split('\n').map(str::to_string).collect();
        return reference::answer(RULES, "board", &names, sheet);
    }
    let places = |all: &[usize]| all.iter().map(|place| format!(" {place}")).collect::<String>();
    let printed = match reference::board_run(RULES, sheet, list) {
        Ok((Ran::Whole, all)) => format!("(whole (places{}))\n", places(&all)),
        Ok((Ran::Blocked(ran, machine), all)) => format!("(blocked {ran} {machine} (places{}))\n", places(&all)),
        Err(Refusal(number, detail, second)) => format!("(refused {number} {detail} {second})\n"),
    };
    printed.into_bytes()
}

type Merged = Result<Vec<u8>, Refusal>;

thread_local! {
    static LAST: RefCell<Option<(Vec<u8>, Merged)>> = const { RefCell::new(None) };
}

/// The merged split's sheet. It is the one answer that takes long to find, so it is found once for calls in a row.
pub fn merged(text: &[u8]) -> Merged {
    LAST.with_borrow_mut(|last| match last {
        Some((same, found)) if same == text => found.clone(),
        _ => {
            let found = reference::merge(RULES, text, usize::MAX);
            *last = Some((text.to_vec(), found.clone()));
            found
        }
    })
}

fn merged_in(text: &[u8], lent: Option<&usize>) -> Vec<u8> {
    match merged(text) {
        Ok(sheet) if sheet.len() <= lent.copied().unwrap_or(TEXT_BOUND) => sheet,
        Ok(sheet) => format!("(refused 13 {} 0)\n", sheet.len()).into_bytes(),
        Err(Refusal(number, detail, second)) => format!("(refused {number} {detail} {second})\n").into_bytes(),
    }
}

/// The printed answer, and no other than one known beforehand.
pub fn expected(call: &Call, text: &[u8]) -> Vec<u8> {
    let figures = || call.numbers(text).iter().map(usize::to_string).collect::<Vec<_>>();
    let answer = match call.service() {
        "board" => boarded(&call.list, text),
        "merge" => merged_in(text, call.numbers(text).first()),
        service => reference::answer(RULES, service, &figures(), text),
    };
    if let Some(known) = &call.known {
        let shown = String::from_utf8_lossy;
        assert_eq!(*known, shown(&answer), "the independent program, {} on {}", call.shown(), shown(text));
    }
    answer
}

/// 0 where nothing is refused, else the number of the refusal.
pub fn class(printed: &[u8]) -> usize {
    refusal(printed).map_or(0, |refusal| refusal[0])
}

fn refusal(printed: &[u8]) -> Option<[usize; 3]> {
    figures(printed.strip_prefix(b"(refused ")?).try_into().ok()
}

/// All figures of a line that holds no name.
fn figures(line: &[u8]) -> Vec<usize> {
    let words = line.split(|b| !b.is_ascii_digit()).filter(|word| !word.is_empty());
    words.map(|word| String::from_utf8_lossy(word).parse().unwrap_or(usize::MAX)).collect()
}

/// The machines that an answer of thin keeps, whoever printed it.
pub fn kept(printed: &[u8]) -> Option<Vec<usize>> {
    figures(printed.strip_prefix(b"(kept ")?).get(1..).map(<[usize]>::to_vec)
}

/// What a printed answer says.
pub enum Told {
    Refused([usize; 3]),
    Sheet(Vec<u8>),
    Steps(Vec<Step>),
    Name(Vec<u8>),
    /// How many ran and the machine that blocked, if one did; the place of each machine.
    Ran(Option<(usize, usize)>, Vec<usize>),
    Kept(Vec<usize>),
    /// The merged split's sheet.
    Merged(Vec<u8>),
    Quoted(Vec<u8>),
}

impl Told {
    pub fn of(call: &Call, printed: &[u8]) -> Told {
        if let Some(refusal) = refusal(printed) {
            return Told::Refused(refusal);
        }
        let line = printed.strip_suffix(b"\n").expect("a line that ends");
        match call.service() {
            "check" | "sheet" => Told::Sheet(printed.to_vec()),
            "merge" => Told::Merged(printed.to_vec()),
            "quote" => Told::Quoted(printed.to_vec()),
            "steps" => Told::Steps(figures(line)[1..].chunks(3).map(Step::new).collect()),
            "name" => Told::Name(line.to_vec()),
            "run" | "board" => {
                let mut told = figures(line);
                let blocked = line.starts_with(b"(blocked ").then(|| (told.remove(0), told.remove(0)));
                Told::Ran(blocked, told)
            }
            _ => Told::Kept(kept(printed).expect("machines that are kept")),
        }
    }
}
