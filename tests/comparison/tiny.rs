//! Systems of few states, in which every refusal from 3 on is likely.
use crate::dice::Dice;
use crate::draft::{alike, Draft};
use crate::RULES;
use reference::{self, Refusal, TEXT_BOUND};

/// As a rule a step to each state from a lower one, then some steps at random. The start is the state that was lowest,
/// whatever its number is then, or any.
fn tiny_plan(dice: &mut Dice) -> Draft {
    let states = 1 + dice.below(4);
    let events: Vec<String> = ["a", "b", "c"][..dice.below(4)].iter().map(|e| e.to_string()).collect();
    let mut ends: Vec<(usize, usize)> = (1..states).map(|to| (dice.below(to), to)).collect();
    if dice.once_in(6) {
        ends.pop();
    }
    ends.extend((0..dice.below(4)).map(|_| (dice.below(states), dice.below(states))));
    dice.shuffle(&mut ends);
    ends.truncate(if events.is_empty() { 0 } else { ends.len() });
    let steps = ends.into_iter().map(|(from, to)| (from, dice.one(&events), to)).collect();
    let draft = Draft { states, start: None, events, steps, machines: vec![vec![vec![0]]] };
    match dice.below(4) {
        0 => Draft { start: Some(dice.below(states)), ..draft },
        _ => draft.begun(dice),
    }
}

/// Places at random; now and then a state is listed again or not at all.
fn places(dice: &mut Dice, states: usize) -> Vec<Vec<usize>> {
    let mut places = vec![Vec::new(); 2 + dice.below(2)];
    for state in 0..states {
        for _ in 0..dice.one(&[vec![1; 30], vec![0, 2]].concat()) {
            let at = dice.below(places.len());
            dice.insert(&mut places[at], state);
        }
    }
    places.retain(|p| !p.is_empty());
    places
}

/// One to four states. Most plans pass as far as 7 and most machines as far as 10, so that later refusals count too.
pub fn tiny(dice: &mut Dice) -> Draft {
    let refusal = |d: &Draft| reference::check(RULES, d.text().as_bytes(), TEXT_BOUND).err();
    let early = |d: &Draft| matches!(refusal(d), Some(Refusal(1..=7, _, _)));
    let uneven = |d: &Draft| matches!(refusal(d), Some(Refusal(8..=10, _, _)));
    let mut draft = tiny_plan(dice);
    let mut tries = dice.below(40);
    while tries > 0 && early(&draft) {
        draft = tiny_plan(dice);
        tries -= 1;
    }
    let mut machines = Vec::new();
    for _ in 0..1 + dice.below(4) {
        draft.machines = vec![places(dice, draft.states)];
        let mut tries = dice.below(12);
        while tries > 0 && uneven(&draft) {
            draft.machines = vec![places(dice, draft.states)];
            tries -= 1;
        }
        machines.append(&mut draft.machines);
    }
    draft.machines = machines;
    draft
}

/// A few lines with names alike; now and then one of the figures or names is not declared, or breaks a bound.
pub fn loose(dice: &mut Dice) -> Draft {
    let n = 1 + dice.below(9);
    let state = |dice: &mut Dice| if dice.once_in(40) { n + dice.below(2) } else { dice.below(n) };
    let alike = alike();
    let events: Vec<String> = (0..1 + dice.below(3)).map(|_| dice.one(&alike)).collect();
    let event = |dice: &mut Dice| if dice.once_in(25) { dice.one(&alike) } else { dice.one(&events) };
    let steps = (0..dice.below(4)).map(|_| (state(dice), event(dice), state(dice))).collect();
    let place = |dice: &mut Dice| (0..1 + dice.below(4)).map(|_| state(dice)).collect();
    let machines = (0..dice.below(4)).map(|_| (0..1 + dice.below(3)).map(|_| place(dice)).collect()).collect();
    let states = if dice.once_in(10) { dice.one(&[0, 257, 300, 999]) } else { n };
    let start = match dice.below(8) {
        0..=3 => None,
        4..=6 => Some(state(dice)),
        _ => Some(dice.one(&[0, n, 256, 300, 999])),
    };
    Draft { states, start, events: events.clone(), steps, machines }
}
