//! Splits in which some machines are needed and others add nothing, for thinning and quoting; or places, for merging.
use crate::dice::Dice;
use crate::draft::{alike, Draft};
use crate::products::{product, rings};
use crate::RULES;
use reference::{self, TEXT_BOUND};

/// A tree of steps and some more, each with an event of its own: any division of the states then is a machine.
fn without_machines(dice: &mut Dice, states: usize) -> Draft {
    let before = |to: usize, dice: &mut Dice| if dice.once_in(3) { dice.below(to) } else { to - 1 };
    let mut ends: Vec<(usize, usize)> = (1..states).map(|to| (before(to, dice), to)).collect();
    ends.extend((0..dice.below(4)).map(|_| (dice.below(states), dice.below(states))));
    ends.retain(|(from, to)| from != to);
    dice.shuffle(&mut ends);
    let events: Vec<String> = (0..ends.len()).map(|k| format!("e{k}")).collect();
    let steps = ends.into_iter().zip(&events).map(|((from, to), event)| (from, event.clone(), to)).collect();
    Draft { states, start: None, events, steps, machines: Vec::new() }.begun(dice)
}

/// Up to so many places.
fn divided_in(dice: &mut Dice, states: usize, most: usize) -> Vec<Vec<usize>> {
    let mut places = vec![Vec::new(); most];
    for state in 0..states {
        let at = dice.below(places.len());
        dice.insert(&mut places[at], state);
    }
    places.retain(|place| !place.is_empty());
    places
}

/// Up to four places.
fn division(dice: &mut Dice, states: usize) -> Vec<Vec<usize>> {
    let most = 2 + dice.below(3);
    divided_in(dice, states, most)
}

fn is_accepted(draft: &Draft) -> bool {
    reference::check(RULES, draft.text().as_bytes(), TEXT_BOUND).is_ok()
}

/// Machines at random until they suffice, and a few more.
pub fn divided(dice: &mut Dice) -> Draft {
    let states = 2 + dice.below(7);
    let mut draft = without_machines(dice, states);
    while draft.machines.len() < 16 && !(is_accepted(&draft) && dice.once_in(3)) {
        let machine = division(dice, states);
        dice.insert(&mut draft.machines, machine);
    }
    draft
}

/// Machines with more places than are needed, until they suffice: so many merges that which comes first counts.
pub fn finer(dice: &mut Dice) -> Draft {
    let states = 3 + dice.below(10);
    let mut draft = without_machines(dice, states);
    while draft.machines.len() < 16 && !is_accepted(&draft) {
        let most = 2 + dice.below(states);
        let machine = divided_in(dice, states, most);
        dice.insert(&mut draft.machines, machine);
    }
    draft
}

/// For each state that has a step a machine that parts it from the others. Each of these is needed.
fn singled_out(dice: &mut Dice, draft: &mut Draft) {
    let states = draft.states;
    for state in (0..states).filter(|state| draft.steps.iter().any(|s| s.0 == *state)) {
        let others = (0..states).filter(|other| *other != state).collect();
        dice.insert(&mut draft.machines, vec![vec![state], others]);
    }
}

pub fn sixteen_needed(dice: &mut Dice) -> Draft {
    let (mut draft, _) = rings(&[16]).drawn(dice);
    draft.machines.clear();
    singled_out(dice, &mut draft);
    draft
}

/// The machines that are needed, and up to two more.
pub fn nearly_needed(dice: &mut Dice) -> Draft {
    let states = 3 + dice.below(14);
    let mut draft = without_machines(dice, states);
    singled_out(dice, &mut draft);
    for _ in 0..dice.one(&[0, 0, 1, 2]).min(16 - draft.machines.len()) {
        let machine = division(dice, states);
        dice.insert(&mut draft.machines, machine);
    }
    draft
}

/// So many machines, three or more, all needed, and more events than these. Each has a place with the start and one with
/// state 1, and alone parts a state of its own from the start. The first events lead from 1 to these states, each on all
/// machines but one; the others lead from the start to 1, on all.
pub fn shared(events: Vec<String>, machines: usize) -> Draft {
    let own = |k: usize| k + 2;
    let step = |(k, name): (usize, &String)| match k < machines {
        true => (1, name.clone(), own(k)),
        false => (0, name.clone(), 1),
    };
    let steps = events.iter().enumerate().map(step).collect();
    let others = |k: usize| (0..machines).filter(|other| *other != k).map(own).collect::<Vec<_>>();
    let machine = |k: usize| vec![[vec![0], others(k)].concat(), vec![1, own(k)]];
    Draft { states: machines + 2, start: None, events, steps, machines: (0..machines).map(machine).collect() }
}

/// The same with names that are alike, and now and then with some machines again.
pub fn wired(dice: &mut Dice) -> Draft {
    let machines = 3 + dice.below(14);
    let mut names = alike();
    dice.shuffle(&mut names);
    names.truncate(machines + 1 + dice.below(names.len() - machines));
    let mut draft = shared(names, machines);
    for _ in 0..dice.one(&[0, 0, 1, 3]).min(16 - machines) {
        let machine = dice.one(&draft.machines);
        dice.insert(&mut draft.machines, machine);
    }
    draft.begun(dice)
}

/// A machine with a place for each state, so many that the rebate may be a half, and up to two that are coarser.
pub fn many_placed(dice: &mut Dice) -> Draft {
    let states = dice.one(&[10, 11, 11, 11, 11, 12, 21, 31]);
    let mut draft = without_machines(dice, states);
    let mut places: Vec<Vec<usize>> = (0..states).map(|state| vec![state]).collect();
    dice.shuffle(&mut places);
    draft.machines.push(places);
    for _ in 0..dice.below(3) {
        let machine = division(dice, states);
        dice.insert(&mut draft.machines, machine);
    }
    draft
}

/// A product and a few of its machines again: the same, or with two places in one.
pub fn repeated(dice: &mut Dice) -> Draft {
    let most = dice.one(&[3, 5, 8]);
    let (mut draft, _) = product(dice, most, false).drawn(dice);
    for _ in 0..(16 - draft.machines.len()).min(1 + dice.below(4)) {
        let mut machine = dice.one(&draft.machines);
        dice.shuffle(&mut machine);
        if machine.len() > 2 && dice.once_in(2) {
            let place = machine.remove(0);
            machine[0].extend(place);
        }
        dice.insert(&mut draft.machines, machine);
    }
    draft
}
