//! Calls on sheets from a seed, as many as are asked for: on good ones and on those with something wrong.
use crate::boards::defects::{roomy, DEFECTS};
use crate::boards::good;
use crate::boards::lists::Board;
use crate::call::{call, lending, Call, Task};
use crate::damage::spoilt;
use crate::dice::Dice;
use crate::letters;
use crate::products::product;
use crate::RULES;

/// The kind of sheet, how often it is made among all, and how.
const MAKERS: [(&str, usize, fn(&mut Dice) -> Vec<u8>); 6] = [
    ("good sheet", 40, |dice| good(dice).text().into_bytes()),
    ("sheet of a product", 10, |dice| product(dice, 12, false).drawn(dice).1.into_bytes()),
    ("sheet with a defect", 30, |dice| with_defects(dice, 1)),
    ("sheet with two defects", 30, |dice| with_defects(dice, 2)),
    ("sheet with a byte taken for another", 15, with_confused_byte),
    ("damaged sheet", 30, damaged),
];

fn with_defects(dice: &mut Dice, count: usize) -> Vec<u8> {
    let mut sheet = roomy(dice);
    for _ in 0..count {
        dice.one(&DEFECTS)(dice, &mut sheet);
    }
    sheet.text().into_bytes()
}

/// In the name of a move.
fn with_confused_byte(dice: &mut Dice) -> Vec<u8> {
    let mut sheet = roomy(dice).text().into_bytes();
    let names: Vec<_> = letters::names(&sheet).into_iter().map(|name| name.1).collect();
    letters::confuse(dice, &mut sheet, &names);
    sheet
}

fn damaged(dice: &mut Dice) -> Vec<u8> {
    let sheet = good(dice).text().into_bytes();
    spoilt(dice, sheet)
}

/// Two calls by the program: sheet, with a size or without, and a list. On good sheets more lists by the library.
fn calls(dice: &mut Dice, sheet: &[u8]) -> Vec<Call> {
    let good = reference::read_sheet(RULES, sheet).is_ok();
    let names = Board::new(sheet, good);
    let near = [0, sheet.len().saturating_sub(1), sheet.len(), sheet.len() + 4];
    let room = (!dice.once_in(3)).then(|| dice.one(&near).to_string());
    let mut calls = vec![lending("sheet", room.clone()), names.list(dice)];
    if room.is_some() {
        calls.push(call("sheet").by_library());
    }
    let others = if good { 6 } else { 1 };
    calls.extend((0..others).map(|_| names.list(dice).by_library()));
    if !good {
        calls[dice.below(2)].unsaid = true;
    }
    calls
}

/// Tasks with so many calls of the program together.
pub fn tasks(seed: u64, count: usize) -> impl Iterator<Item = Task> {
    let (mut dice, mut left) = (Dice::new(seed), count);
    let often: usize = MAKERS.iter().map(|(_, often, _)| often).sum();
    std::iter::from_fn(move || {
        let mut at = dice.below(often);
        let (kind, _, maker) = MAKERS.into_iter().find(|(_, often, _)| {
            let found = at < *often;
            at = at.wrapping_sub(*often);
            found
        })?;
        let mut sheet = maker(&mut dice);
        letters::respell_sheet(&mut dice, &mut sheet);
        let calls = calls(&mut dice, &sheet);
        let said = calls.iter().filter(|call| !call.unsaid).count();
        left = left.checked_sub(said.max(1))?;
        Some(Task::new(kind, sheet, calls))
    })
}
