//! The static libraries, called as a C program calls them. Every field of an answer counts, and every entry that is
//! lent.
use crate::answer::Told;
use crate::board::{self, board_run, board_sheet};
use crate::call::{names, Call};
use crate::lent::{lend, Among, Entry, UNSPOILT};
use crate::split::{
    split_board, split_check, split_merge, split_name, split_quote, split_run, split_sheet, split_steps, split_thin,
};
use crate::split::{Answer, Name, Run, Set, Step};
use reference::TEXT_BOUND;
use std::fmt::Debug;
use std::ptr;

impl Step {
    pub fn new(figures: &[usize]) -> Step {
        let [source, event, target] = [0, 1, 2].map(|k| u8::try_from(figures[k]).expect("a byte"));
        Step { source, event, target }
    }
}

/// What was called, what it should have given, and what it gave.
pub struct Fault {
    pub call: String,
    pub expected: String,
    pub given: String,
}

fn compared<T: Debug + PartialEq>(call: &str, expected: &T, given: &T) -> Option<Fault> {
    let fault = || Fault { call: call.to_string(), expected: format!("{expected:?}"), given: format!("{given:?}") };
    (expected != given).then(fault)
}

/// A slice as C has it. One without bytes is called both ways: with a pointer to somewhere, and with none.
fn pointer(bytes: &[u8], null: bool) -> *const u8 {
    if null && bytes.is_empty() {
        ptr::null()
    } else {
        bytes.as_ptr()
    }
}

fn ways(some_empty: bool) -> &'static [bool] {
    if some_empty {
        &[false, true]
    } else {
        &[false]
    }
}

/// As much as the call says, and if it says nothing also none, one too few, just enough and more.
fn rooms(call: &Call, text: &[u8], most: usize, needed: usize) -> Vec<usize> {
    match call.numbers(text)[..] {
        [lent] => vec![lent.min(most + 100)],
        _ => vec![most, 0, needed.saturating_sub(1), needed, needed + 5],
    }
}

type Lending<T> = unsafe extern "C" fn(*const u8, usize, *mut T, usize) -> Answer;
type Running = unsafe extern "C" fn(*const u8, usize, *const u8, usize) -> Run;

/// The library for boards has answers of its own, with the same fields.
unsafe extern "C" fn sheet_of_board(sheet: *const u8, size: usize, out: *mut u8, lent: usize) -> Answer {
    let board::Answer { number, detail, second, size } = unsafe { board_sheet(sheet, size, out, lent) };
    Answer { number, detail, second, size }
}

unsafe extern "C" fn run_of_board(sheet: *const u8, size: usize, names: *const u8, len: usize) -> Run {
    let board::Run { number, detail, second, blocked, ran, machine, places } =
        unsafe { board_run(sheet, size, names, len) };
    Run { number, detail, second, blocked, ran, machine, places }
}

/// All that is to be written, if only enough is lent, or the refusal.
type Full<T> = Result<Vec<T>, [usize; 3]>;

fn filling<T: Entry>(function: Lending<T>, name: &str, among: &Among, rooms: &[usize], full: &Full<T>) -> Vec<Fault> {
    let mut faults = Vec::new();
    for lent in rooms {
        let (refusal, filled) = match full {
            Ok(entries) if entries.len() <= *lent => ([0; 3], &entries[..]),
            Ok(entries) => ([13, entries.len(), 0], &[][..]),
            Err(refusal) => (*refusal, &[][..]),
        };
        let [number, detail, second] = refusal;
        let expected = Answer { number, detail, second, size: filled.len() };
        for null in ways(*lent == 0 || among.is_empty()) {
            let call = |out, size| unsafe { function(pointer(among, *null), among.len(), out, size) };
            let given = lend(*lent, *null, filled, call);
            faults.extend(compared(&format!("{name}, {lent} lent"), &(expected, UNSPOILT.to_string()), &given));
        }
    }
    faults
}

fn bytes(told: &Told) -> Full<u8> {
    match told {
        Told::Refused(refusal) => Err(*refusal),
        Told::Sheet(bytes) | Told::Merged(bytes) | Told::Quoted(bytes) => Ok(bytes.clone()),
        _ => unreachable!("a sheet or a quotation"),
    }
}

/// Check, merge or quote.
fn written(function: Lending<u8>, name: &str, call: &Call, text: &[u8], told: &Told) -> Vec<Fault> {
    let full = bytes(told);
    let rooms = rooms(call, text, TEXT_BOUND, full.as_ref().map_or(9, Vec::len));
    filling(function, name, &Among::others(text), &rooms, &full)
}

fn rewritten(call: &Call, sheet: &[u8], told: &Told) -> Vec<Fault> {
    let full = bytes(told);
    let rooms = rooms(call, sheet, TEXT_BOUND, full.as_ref().map_or(9, Vec::len));
    let of = |function, name: &str| filling(function, name, &Among::machines(sheet), &rooms, &full);
    [of(split_sheet, "split_sheet"), of(sheet_of_board, "board_sheet")].into_iter().flatten().collect()
}

fn listed(call: &Call, text: &[u8], told: &Told) -> Vec<Fault> {
    let full = match told {
        Told::Refused(refusal) => Err(*refusal),
        Told::Steps(steps) => Ok(steps.clone()),
        _ => unreachable!("steps"),
    };
    let rooms = rooms(call, text, 1024, full.as_ref().map_or(9, Vec::len));
    filling(split_steps, "split_steps", &Among::others(text), &rooms, &full)
}

/// Where the name stands: each of line 2 comes after one space.
fn place_of_name(text: &[u8], event: usize) -> usize {
    let line = text.iter().position(|b| *b == b'\n').expect("a line that ends") + 1;
    line + "(events ".len() + names(text)[..event].iter().map(|name| name.len() + 1).sum::<usize>()
}

fn named(call: &Call, text: &[u8], told: &Told) -> Vec<Fault> {
    let event = call.numbers(text)[0];
    let expected = match told {
        Told::Refused([number, detail, second]) => {
            Name { number: *number, detail: *detail, second: *second, ..Name::default() }
        }
        Told::Name(name) => {
            let from = place_of_name(text, event);
            assert_eq!(text[from..][..name.len()], name[..], "a name that is not where it should be");
            Name { from, size: name.len(), ..Name::default() }
        }
        _ => unreachable!("a name"),
    };
    let among = Among::others(text);
    let name = |null: &bool| unsafe { split_name(pointer(&among, *null), among.len(), event) };
    let fault = |null: &bool| compared(&format!("split_name of event {event}"), &expected, &name(null));
    ways(text.is_empty()).iter().filter_map(fault).collect()
}

fn running(function: Running, name: &str, text: &Among, list: &[u8], told: &Told) -> Vec<Fault> {
    let mut expected = Run::default();
    match told {
        Told::Refused([number, detail, second]) => {
            (expected.number, expected.detail, expected.second) = (*number, *detail, *second);
        }
        Told::Ran(blocked, places) => {
            if let Some((ran, machine)) = blocked {
                (expected.blocked, expected.ran, expected.machine) = (1, *ran, *machine);
            }
            places.iter().enumerate().for_each(|(k, place)| expected.places[k] = *place as u8);
        }
        _ => unreachable!("a run"),
    }
    let among = Among::others(list);
    let run = |null: &bool| unsafe { function(pointer(text, *null), text.len(), pointer(&among, *null), among.len()) };
    let fault = |null: &bool| compared(name, &expected, &run(null));
    ways(text.is_empty() || list.is_empty()).iter().filter_map(fault).collect()
}

/// What no byte can say is not declared, and then 255 is not either.
fn ran(call: &Call, text: &[u8], told: &Told) -> Vec<Fault> {
    let events: Vec<u8> = call.numbers(text).into_iter().map(|event| u8::try_from(event).unwrap_or(255)).collect();
    running(split_run, &format!("split_run of events {events:?}"), &Among::others(text), &events, told)
}

fn boarded(call: &Call, sheet: &[u8], told: &Told) -> Vec<Fault> {
    let names = String::from_utf8_lossy(&call.list);
    let of = |function: Running, name: &str| {
        running(function, &format!("{name} of {names:?}"), &Among::machines(sheet), &call.list, told)
    };
    [of(split_board, "split_board"), of(run_of_board, "board_run")].into_iter().flatten().collect()
}

fn thinned(text: &[u8], told: &Told) -> Vec<Fault> {
    let expected = match told {
        Told::Refused([number, detail, second]) => {
            Set { number: *number, detail: *detail, second: *second, ..Set::default() }
        }
        Told::Kept(kept) => Set { machines: kept.iter().map(|m| 1 << m).sum(), size: kept.len(), ..Set::default() },
        _ => unreachable!("a set"),
    };
    let text = Among::others(text);
    let thin = |null: &bool| unsafe { split_thin(pointer(&text, *null), text.len()) };
    ways(text.is_empty()).iter().filter_map(|null| compared("split_thin", &expected, &thin(null))).collect()
}

/// What the library gives otherwise than it should.
pub fn faults(call: &Call, text: &[u8], told: &Told) -> Vec<Fault> {
    match call.service() {
        "check" => written(split_check, "split_check", call, text, told),
        "merge" => written(split_merge, "split_merge", call, text, told),
        "quote" => written(split_quote, "split_quote", call, text, told),
        "steps" => listed(call, text, told),
        "name" => named(call, text, told),
        "run" => ran(call, text, told),
        "sheet" => rewritten(call, text, told),
        "board" => boarded(call, text, told),
        _ => thinned(text, told),
    }
}
