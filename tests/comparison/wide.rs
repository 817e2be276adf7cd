//! Systems of 256 states, two rings of 16, with one fault each.
use crate::call::Task;
use crate::dice::Dice;
use crate::draft::Draft;
use crate::products::rings;
use crate::written::known;

type Fault = fn(&mut Dice, &mut Draft, usize) -> String;

const FAULTS: [Fault; 4] = [doubled, missing, unreached, open];

/// The least states of the four words that make up a set of them.
const WORDS: [usize; 4] = [0, 64, 128, 192];

fn faulty(dice: &mut Dice, fault: Fault, least: usize) -> (String, String) {
    let (mut draft, _) = rings(&[16, 16]).drawn(dice);
    let refusal = fault(dice, &mut draft, least);
    (draft.text(), format!("(refused {refusal})"))
}

/// One fault, at a state of any word.
pub fn any(dice: &mut Dice) -> String {
    let (fault, least) = (dice.one(&FAULTS), dice.one(&WORDS));
    faulty(dice, fault, least).0
}

/// Each fault at states of each word.
pub fn all(dice: &mut Dice) -> Vec<Task> {
    let mut tasks = Vec::new();
    for fault in FAULTS {
        for least in WORDS.repeat(4) {
            let (text, answer) = faulty(dice, fault, least);
            tasks.push(known("wide system", text, &answer));
        }
    }
    tasks
}

fn doubled(dice: &mut Dice, draft: &mut Draft, least: usize) -> String {
    let (machine, state) = (dice.below(2), least + dice.below(64));
    draft.machines[machine][dice.below(16)].push(state);
    format!("8 {machine} {state}")
}

fn missing(dice: &mut Dice, draft: &mut Draft, least: usize) -> String {
    let (machine, state) = (dice.below(2), least + dice.below(64));
    draft.machines[machine].iter_mut().for_each(|place| place.retain(|s| *s != state));
    format!("9 {machine} {state}")
}

fn unreached(dice: &mut Dice, draft: &mut Draft, least: usize) -> String {
    let others: Vec<usize> = (least..least + 64).filter(|state| *state != draft.first()).collect();
    let state = dice.one(&others);
    draft.steps.retain(|s| s.2 != state);
    format!("7 {state} 0")
}

/// A state and some higher ones lose their step of an event; all are still reached, by the other ring.
fn open(dice: &mut Dice, draft: &mut Draft, least: usize) -> String {
    let steps: Vec<_> = draft.steps.iter().filter(|s| s.0 >= least).cloned().collect();
    let (lowest, event, _) = dice.one(&steps);
    let number = draft.events.iter().position(|e| *e == event).expect("an event that is declared");
    draft.steps.retain(|s| s.1 != event || s.0 < lowest || (s.0 > lowest && dice.once_in(2)));
    format!("12 {number} {lowest}")
}
