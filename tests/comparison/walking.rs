//! Demand 3 by walking: the plan and the machines go side by side through all that they reach together. They run the
//! same lists of events if and only if no pair that is reached has an event that runs on one side only.
use crate::machines::{after, Machine, Plan};
use crate::merging::Merging;
use std::collections::HashSet;

/// A state of the plan, the places of the machines, and a list of events that leads to both.
struct Pair {
    state: usize,
    places: Vec<usize>,
    list: Vec<usize>,
}

pub enum Walk {
    /// They never part, and each machine stands in the place that holds the plan's state; these places, by state.
    Agreed { pairs: usize, standing: Standing },
    /// An event that runs on one side only.
    Parted { pairs: usize, why: String },
    /// A machine that stands elsewhere.
    Astray { why: String },
}

/// Where the machines stand in each state; nothing if that is not known, or not yet.
type Standing = Vec<Option<Vec<usize>>>;

/// In the places of the text.
fn as_listed(plan: &Plan, numbers: &[usize]) -> Standing {
    (0..plan.next.len()).map(|state| Some(numbers.iter().map(|m| plan.places[*m][state]).collect())).collect()
}

/// With the machines of these numbers only. Where they stand in a state is one and the same whenever it is reached.
fn walk(plan: &Plan, machines: &[Machine], numbers: &[usize], mut standing: Standing) -> Walk {
    let some: Vec<&Machine> = numbers.iter().map(|m| &machines[*m]).collect();
    let start = Pair { state: plan.start, places: some.iter().map(|m| m.start).collect(), list: Vec::new() };
    let mut seen = HashSet::from([(start.state, start.places.clone())]);
    let mut open = vec![start];
    while let Some(Pair { state, places, list }) = open.pop() {
        let due = standing[state].get_or_insert_with(|| places.clone());
        if let Some(k) = (0..some.len()).find(|k| due[*k] != places[*k]) {
            let why = format!("after {list:?}, machine {} in place {} and the plan in {state}", numbers[k], places[k]);
            return Walk::Astray { why };
        }
        for event in 0..plan.names.len() {
            let then = (plan.next[state][event], after(&some, &places, event));
            match then {
                (None, None) => {}
                (Some(state), Some(places)) => {
                    if seen.insert((state, places.clone())) {
                        open.push(Pair { state, places, list: [&list[..], &[event]].concat() });
                    }
                }
                (on_plan, _) => {
                    let side = if on_plan.is_some() { "plan" } else { "machines" };
                    let why = format!("after {list:?}, event {event} runs on the {side} only");
                    return Walk::Parted { pairs: seen.len(), why };
                }
            }
        }
    }
    Walk::Agreed { pairs: seen.len(), standing }
}

/// How many pairs an accepted split reaches, with the machines of its sheet and again with those that thinning keeps;
/// or what is wrong with it.
pub fn accepted(text: &[u8], sheet: &[u8], kept: Option<&[usize]>) -> Result<usize, String> {
    let plan = Plan::of(text);
    let machines = plan.machines_on(sheet).ok_or("no machines can be read from the sheet")?;
    if machines.len() != plan.places.len() || kept.is_some_and(|kept| kept.iter().any(|m| *m >= machines.len())) {
        return Err("not the machines of the text".to_string());
    }
    let all: Vec<usize> = (0..machines.len()).collect();
    let mut pairs = 0;
    for numbers in std::iter::once(&all[..]).chain(kept) {
        match walk(&plan, &machines, numbers, as_listed(&plan, numbers)) {
            Walk::Agreed { pairs: more, .. } => pairs += more,
            Walk::Parted { why, .. } | Walk::Astray { why } => return Err(format!("machines {numbers:?}: {why}")),
        }
    }
    Ok(pairs)
}

/// Whether each place of the text has one number after merging, and these are 0, 1, .. in the order in which they come.
fn is_renumbered(places: &[usize], then: &[usize]) -> bool {
    let mut numbers = vec![None; places.len()];
    let mut pairs = places.iter().zip(then);
    let one = pairs.all(|(place, number)| *numbers[*place].get_or_insert(*number) == *number);
    let mut most = 0;
    let mut is_next = |number: &usize| {
        let next = *number <= most;
        most = most.max(number + 1);
        next
    };
    one && numbers.iter().flatten().all(&mut is_next)
}

/// How many pairs a merged split reaches with the machines of its sheet; or what is wrong with it. Its places are those
/// of the text put together, and no two can be merged any more.
pub fn merged(text: &[u8], sheet: &[u8]) -> Result<usize, String> {
    let plan = Plan::of(text);
    let machines = plan.machines_on(sheet).ok_or("no machines can be read from the merged sheet")?;
    if machines.len() != plan.places.len() {
        return Err("the merged sheet has not the machines of the text".to_string());
    }
    let all: Vec<usize> = (0..machines.len()).collect();
    let (pairs, standing) = match walk(&plan, &machines, &all, vec![None; plan.next.len()]) {
        Walk::Agreed { pairs, standing } => (pairs, standing),
        Walk::Parted { why, .. } | Walk::Astray { why } => return Err(format!("merged machines: {why}")),
    };
    let standing: Vec<Vec<usize>> = standing.into_iter().collect::<Option<_>>().ok_or("a state is not reached")?;
    let places: Vec<Vec<usize>> = all.iter().map(|m| standing.iter().map(|at| at[*m]).collect()).collect();
    if let Some(m) = all.iter().find(|m| !is_renumbered(&plan.places[**m], &places[**m])) {
        return Err(format!("the merged places of machine {m} are not those of the text put together, in their order"));
    }
    let fewer = Merging::of(&Plan { places, ..plan });
    match fewer.and_then(|split| split.goes_on()) {
        Some(m) => Err(format!("two more places of machine {m} can be merged")),
        None => Ok(pairs),
    }
}

/// How many pairs were reached until one parted the plan and the machines that the text gives.
pub fn refused(text: &[u8]) -> Result<usize, String> {
    let plan = Plan::of(text);
    let machines = plan.machines();
    let all: Vec<usize> = (0..machines.len()).collect();
    match walk(&plan, &machines, &all, as_listed(&plan, &all)) {
        Walk::Parted { pairs, .. } => Ok(pairs),
        Walk::Agreed { .. } => Err("no list of events tells the plan from the machines".to_string()),
        Walk::Astray { why } => Err(why),
    }
}
