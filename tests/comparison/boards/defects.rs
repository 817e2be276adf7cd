//! What can be wrong with a sheet, each done to a good one.
use crate::boards::{good, Machine, Sheet};
use crate::dice::Dice;
use crate::letters;

type Defect = fn(&mut Dice, &mut Sheet);

pub const DEFECTS: [Defect; 14] = [
    count_changed,
    line_dropped,
    line_doubled,
    lines_swapped,
    number_changed,
    places_changed,
    start_changed,
    end_changed,
    ends_equal,
    event_twice,
    name_damaged,
    names_added,
    machine_added,
    place_left,
];

/// A sheet in which two defects have room.
pub fn roomy(dice: &mut Dice) -> Sheet {
    loop {
        let sheet = good(dice);
        if sheet.count > 1 && sheet.machines.iter().any(|machine| machine.moves.len() > 1) {
            return sheet;
        }
    }
}

fn machine<'a>(dice: &mut Dice, sheet: &'a mut Sheet) -> &'a mut Machine {
    let at = dice.below(sheet.machines.len());
    &mut sheet.machines[at]
}

/// One that has moves, if there is any; a line may have gone by another defect.
fn moving<'a>(dice: &mut Dice, sheet: &'a mut Sheet) -> Option<&'a mut Machine> {
    let with: Vec<usize> = (0..sheet.machines.len()).filter(|m| !sheet.machines[*m].moves.is_empty()).collect();
    (!with.is_empty()).then(|| &mut sheet.machines[dice.one(&with)])
}

fn count_changed(dice: &mut Dice, sheet: &mut Sheet) {
    sheet.count = dice.one(&[0, 1, 16, 17, sheet.count.saturating_sub(1), sheet.count + 1, 999, 1000]);
}

fn line_dropped(dice: &mut Dice, sheet: &mut Sheet) {
    if sheet.machines.len() > 1 {
        sheet.machines.remove(dice.below(sheet.machines.len()));
    }
}

fn line_doubled(dice: &mut Dice, sheet: &mut Sheet) {
    let line = machine(dice, sheet).clone();
    dice.insert(&mut sheet.machines, line);
}

fn lines_swapped(dice: &mut Dice, sheet: &mut Sheet) {
    dice.shuffle(&mut sheet.machines);
}

fn number_changed(dice: &mut Dice, sheet: &mut Sheet) {
    let machine = machine(dice, sheet);
    machine.number = dice.one(&[0, 1, machine.number + 1, machine.number + 10, machine.number * 10, 16]);
}

fn places_changed(dice: &mut Dice, sheet: &mut Sheet) {
    let machine = machine(dice, sheet);
    machine.places = dice.one(&[0, 65, 100, 256, machine.start, machine.places.saturating_sub(1), 1000]);
}

fn start_changed(dice: &mut Dice, sheet: &mut Sheet) {
    let machine = machine(dice, sheet);
    machine.start = dice.one(&[machine.places, machine.places + 1, 64, 255, 256]);
}

fn end_changed(dice: &mut Dice, sheet: &mut Sheet) {
    if let Some(machine) = moving(dice, sheet) {
        let out = dice.one(&[machine.places, machine.places + 1, 64, 256, 1000]);
        let at = dice.below(machine.moves.len());
        let end = if dice.once_in(2) { &mut machine.moves[at].1 } else { &mut machine.moves[at].2 };
        *end = out;
    }
}

fn ends_equal(dice: &mut Dice, sheet: &mut Sheet) {
    if let Some(machine) = moving(dice, sheet) {
        let at = dice.below(machine.moves.len());
        machine.moves[at].2 = machine.moves[at].1;
    }
}

/// By the same move, or by another, in whatever case.
fn event_twice(dice: &mut Dice, sheet: &mut Sheet) {
    if let Some(machine) = moving(dice, sheet) {
        let (name, mut pre, mut post) = dice.one(&machine.moves);
        if dice.once_in(2) {
            (pre, post) = (post, pre);
        }
        let again = letters::spelt(dice, &name);
        dice.insert(&mut machine.moves, (again, pre, post));
    }
}

fn name_damaged(dice: &mut Dice, sheet: &mut Sheet) {
    if let Some(machine) = moving(dice, sheet) {
        let at = dice.below(machine.moves.len());
        let name = &mut machine.moves[at].0;
        let damaged = [
            name.to_uppercase().replace(['A', 'E', 'O'], "@"),
            format!("{name:x<17}"),
            name.chars().skip(1).collect(),
            format!("-{name}"),
            format!("0{name}"),
            format!("{name} "),
            format!("{name}_"),
            format!("{name}\0"),
        ];
        *name = dice.one(&damaged);
    }
}

/// Up to the bound on names, or past it on this line or a later one.
fn names_added(dice: &mut Dice, sheet: &mut Sheet) {
    let others = dice.one(&[30, 40, 63, 64]);
    let first = dice.below(sheet.machines.len());
    for k in 0..others {
        let m = (first + k * sheet.machines.len() / others).min(sheet.machines.len() - 1);
        let machine = &mut sheet.machines[m];
        machine.places = machine.places.max(2);
        machine.moves.push((format!("other-{k}"), k % 2, 1 - k % 2));
    }
}

fn machine_added(_: &mut Dice, sheet: &mut Sheet) {
    let number = sheet.machines.len();
    sheet.machines.push(Machine { number, places: 1, start: 0, moves: Vec::new() });
}

/// The highest place that a move has is one too high.
fn place_left(dice: &mut Dice, sheet: &mut Sheet) {
    if let Some(machine) = moving(dice, sheet) {
        machine.places = machine.moves.iter().map(|(_, pre, post)| *pre.max(post)).max().unwrap_or(1);
    }
}
