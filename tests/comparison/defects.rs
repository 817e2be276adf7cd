//! What can be wrong with a system and its machines, each done to a product, which would be accepted without it.
use crate::dice::Dice;
use crate::draft::Draft;
use crate::products::product;

type Defect = fn(&mut Dice, &mut Draft);

pub const DEFECTS: [Defect; 16] = [
    state_moved,
    state_doubled,
    state_missing,
    step_removed,
    step_added,
    step_forked,
    step_standing,
    event_idle,
    event_again,
    state_unreached,
    start_moved,
    start_strange,
    places_merged,
    machine_dropped,
    target_changed,
    name_damaged,
];

/// A product in which two defects have room.
pub fn roomy(dice: &mut Dice) -> Draft {
    loop {
        let most = dice.one(&[6, 12, 30]);
        let (draft, _) = product(dice, most, false).drawn(dice);
        if draft.machines.len() > 2 && draft.steps.len() > 2 && draft.states > 2 {
            return draft;
        }
    }
}

fn machine<'a>(dice: &mut Dice, draft: &'a mut Draft) -> &'a mut Vec<Vec<usize>> {
    let at = dice.below(draft.machines.len());
    &mut draft.machines[at]
}

fn insert_step(dice: &mut Dice, draft: &mut Draft, from: usize, to: usize) {
    let event = dice.one(&draft.events);
    dice.insert(&mut draft.steps, (from, event, to));
}

/// One to three states, of which the lowest counts, and a machine that has them.
fn some_states<'a>(dice: &mut Dice, draft: &'a mut Draft) -> (Vec<usize>, &'a mut Vec<Vec<usize>>) {
    let states = (0..1 + dice.below(3)).map(|_| dice.below(draft.states)).collect();
    (states, machine(dice, draft))
}

fn state_moved(dice: &mut Dice, draft: &mut Draft) {
    let (states, machine) = some_states(dice, draft);
    for state in states {
        let (from, others): (Vec<usize>, Vec<usize>) = (0..machine.len()).partition(|p| machine[*p].contains(&state));
        from.iter().for_each(|p| machine[*p].retain(|s| *s != state));
        match others.len() {
            0 => machine.push(vec![state]),
            _ => machine[dice.one(&others)].push(state),
        }
        machine.retain(|place| !place.is_empty());
    }
}

fn state_doubled(dice: &mut Dice, draft: &mut Draft) {
    let (states, machine) = some_states(dice, draft);
    for state in states {
        let at = dice.below(machine.len());
        dice.insert(&mut machine[at], state);
    }
}

fn state_missing(dice: &mut Dice, draft: &mut Draft) {
    let (states, machine) = some_states(dice, draft);
    machine.iter_mut().for_each(|place| place.retain(|s| !states.contains(s)));
    machine.retain(|place| !place.is_empty());
}

fn step_removed(dice: &mut Dice, draft: &mut Draft) {
    draft.steps.remove(dice.below(draft.steps.len()));
}

fn step_added(dice: &mut Dice, draft: &mut Draft) {
    let (from, to) = (dice.below(draft.states), dice.below(draft.states));
    insert_step(dice, draft, from, to);
}

fn step_forked(dice: &mut Dice, draft: &mut Draft) {
    let (from, event, _) = dice.one(&draft.steps);
    let step = (from, event, dice.below(draft.states));
    dice.insert(&mut draft.steps, step);
}

fn step_standing(dice: &mut Dice, draft: &mut Draft) {
    let state = dice.below(draft.states);
    insert_step(dice, draft, state, state);
}

fn event_idle(dice: &mut Dice, draft: &mut Draft) {
    dice.insert(&mut draft.events, "idle".to_string());
}

/// In another case, if names are spelt so.
fn event_again(dice: &mut Dice, draft: &mut Draft) {
    let again = dice.one(&draft.events);
    dice.insert(&mut draft.events, again);
}

/// A state more, in a place of every machine, with a step to one of the others. It is the highest or state 0.
fn state_unreached(dice: &mut Dice, draft: &mut Draft) {
    let state = draft.states;
    let to = dice.below(state);
    draft.states += 1;
    for machine in &mut draft.machines {
        let at = dice.below(machine.len());
        dice.insert(&mut machine[at], state);
    }
    insert_step(dice, draft, state, to);
    if dice.once_in(2) {
        draft.exchange(0, state);
    }
}

/// The others need not be reached from there.
fn start_moved(dice: &mut Dice, draft: &mut Draft) {
    draft.start = Some(dice.below(draft.states));
}

/// No state, and now and then the count is over its bound too.
fn start_strange(dice: &mut Dice, draft: &mut Draft) {
    if dice.once_in(2) {
        draft.states = dice.one(&[257, 300]);
    }
    draft.start = Some(dice.one(&[draft.states, draft.states + 1, 300, 999]));
}

fn places_merged(dice: &mut Dice, draft: &mut Draft) {
    let machine = machine(dice, draft);
    let gone = machine.remove(dice.below(machine.len()));
    match machine.len() {
        0 => machine.push(gone),
        n => machine[dice.below(n)].extend(gone),
    }
}

fn machine_dropped(dice: &mut Dice, draft: &mut Draft) {
    draft.machines.remove(dice.below(draft.machines.len()));
}

fn target_changed(dice: &mut Dice, draft: &mut Draft) {
    let at = dice.below(draft.steps.len());
    draft.steps[at].2 = dice.below(draft.states);
}

/// In one step, or where the event is declared.
fn name_damaged(dice: &mut Dice, draft: &mut Draft) {
    let (event, step) = (dice.below(draft.events.len()), dice.below(draft.steps.len()));
    let other = dice.one(&draft.events);
    let declared = dice.once_in(2);
    let name = if declared { &mut draft.events[event] } else { &mut draft.steps[step].1 };
    let damaged = [
        name.to_uppercase().replace('A', "@"),
        format!("{name:x<17}"),
        name.chars().skip(1).collect(),
        format!("-{name}"),
        name.replace('a', "b"),
        other,
    ];
    *name = dice.one(&damaged);
}
