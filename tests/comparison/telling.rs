//! How often an answer is one that a likely fault would change, on texts that are accepted.
use crate::answer::Told;
use crate::machines::{after, Machine, Plan};
use crate::merging::{self, Merging};
use crate::quoting;

/// The plan and the machines that the independent program's sheet gives.
pub struct Split {
    plan: Plan,
    machines: Vec<Machine>,
    /// The bytes of the sheet.
    size: usize,
    /// What is telling of the merged split, once it is asked for.
    merging: Option<Vec<&'static str>>,
}

impl Split {
    pub fn new(text: &[u8], sheet: &[u8]) -> Split {
        let plan = Plan::of(text);
        let machines = plan.machines_on(sheet).expect("a sheet");
        Split { plan, machines, size: sheet.len(), merging: None }
    }

    fn starts(&self) -> Vec<usize> {
        self.machines.iter().map(|machine| machine.start).collect()
    }

    /// Where the machines would start if the plan did in state 0.
    fn places_of_zero(&self) -> Vec<usize> {
        self.plan.places.iter().map(|place| place[0]).collect()
    }

    /// How many events run, and where the machines stand then.
    fn run(&self, list: &[usize]) -> (usize, Vec<usize>) {
        self.run_from(self.starts(), list)
    }

    fn run_from(&self, mut at: Vec<usize>, list: &[usize]) -> (usize, Vec<usize>) {
        let all: Vec<&Machine> = self.machines.iter().collect();
        for (ran, event) in list.iter().enumerate() {
            match after(&all, &at, *event) {
                Some(then) => at = then,
                None => return (ran, at),
            }
        }
        (list.len(), at)
    }

    /// Which machines that have the event stand elsewhere.
    fn blocking(&self, at: &[usize], event: usize) -> Vec<usize> {
        let blocks = |m: &usize| self.machines[*m].moves[event].is_some_and(|(pre, _)| pre != at[*m]);
        (0..self.machines.len()).filter(blocks).collect()
    }

    /// Refusals 11 and 12 with some of the machines.
    fn suffice(&self, some: &[usize]) -> bool {
        let pre = |m: usize, event: usize| self.machines[m].moves[event].map(|(pre, _)| pre);
        (0..self.plan.names.len()).all(|event| {
            let on: Vec<usize> = some.iter().copied().filter(|m| pre(*m, event).is_some()).collect();
            let common = |state: usize| on.iter().all(|m| pre(*m, event) == Some(self.plan.places[*m][state]));
            let states = 0..self.plan.next.len();
            !on.is_empty() && states.clone().all(|state| !common(state) || self.plan.next[state][event].is_some())
        })
    }

    fn without(list: &[usize], machine: usize) -> Vec<usize> {
        list.iter().copied().filter(|m| *m != machine).collect()
    }

    /// What thinning from the lowest machine to the highest would keep.
    fn thinned_upward(&self) -> Vec<usize> {
        let all: Vec<usize> = (0..self.machines.len()).collect();
        let drop = |kept: Vec<usize>, m: usize| {
            let others = Split::without(&kept, m);
            if !others.is_empty() && self.suffice(&others) {
                others
            } else {
                kept
            }
        };
        all.iter().fold(all.clone(), |kept, m| drop(kept, *m))
    }

    /// What thinning against the original split would keep.
    fn needed_beside_all(&self) -> Vec<usize> {
        let all: Vec<usize> = (0..self.machines.len()).collect();
        all.iter().copied().filter(|m| !self.suffice(&Split::without(&all, *m))).collect()
    }

    /// A list of events that are all declared.
    fn of_run(&self, list: &[usize], blocked: Option<(usize, usize)>) -> Vec<&'static str> {
        let places = |count: usize| self.run(&list[..list.len().min(count)]).1;
        let end = places(list.len());
        let mut found = Vec::new();
        if self.run(list) != self.run_from(self.places_of_zero(), list) {
            found.push(NOT_FROM_ZERO);
        }
        if end != places(0) && end != places(1) {
            found.push(if blocked.is_some() { MOVED_TWICE_AND_BLOCKED } else { MOVED_TWICE });
        }
        if let Some((ran, machine)) = blocked {
            let blocking = self.blocking(&end, list[ran]);
            let on_lower = self.machines[..machine].iter().any(|m| m.moves[list[ran]].is_some());
            let told = [
                (BLOCKED_LATER, ran > 0),
                (BLOCKED_EARLIER, ran + 1 < list.len()),
                (BLOCKED_BY_ANOTHER, machine > 0),
                (BLOCKED_BY_SEVERAL, blocking.len() > 1),
                (BLOCKED_AFTER_LOWER, on_lower),
            ];
            found.extend(told.iter().filter(|(_, is)| *is).map(|(label, _)| label));
        }
        found
    }

    fn of_thin(&self, kept: &[usize]) -> Vec<&'static str> {
        let dropped = self.machines.len() - kept.len();
        let told = [
            (KEEPS_ALL, dropped == 0 && kept.len() > 1),
            (DROPS_ONE, dropped == 1),
            (DROPS_MORE, dropped > 1),
            (DROPS_ALL_BUT_ONE, dropped > 0 && kept.len() == 1),
            (NOT_UPWARD, kept != self.thinned_upward()),
            (NOT_BESIDE_ALL, kept != self.needed_beside_all()),
        ];
        told.iter().filter(|(_, is)| *is).map(|(label, _)| *label).collect()
    }

    fn of_merge(&mut self, lent: Option<&usize>, told: &Told) -> Vec<&'static str> {
        let labels = || Merging::of(&self.plan).map_or(Vec::new(), |split| split.labels());
        merging::telling(self.merging.get_or_insert_with(labels), told, lent, self.size)
    }

    pub fn of(&mut self, service: &str, numbers: &[usize], told: &Told) -> Vec<&'static str> {
        match told {
            _ if service == "merge" => self.of_merge(numbers.first(), told),
            Told::Sheet(_) if self.starts() != self.places_of_zero() => vec![NOT_OF_ZERO],
            Told::Ran(blocked, _) => self.of_run(numbers, *blocked),
            Told::Kept(kept) => self.of_thin(kept),
            Told::Quoted(printed) => quoting::telling(&self.plan, &self.machines, printed),
            Told::Refused([14, position, _]) if *position > 0 => {
                let (ran, _) = self.run(&numbers[..*position]);
                if ran < *position {
                    vec![UNDECLARED_LATER, UNDECLARED_AFTER_BLOCK]
                } else {
                    vec![UNDECLARED_LATER]
                }
            }
            _ => Vec::new(),
        }
    }
}

const NOT_OF_ZERO: &str = "start: other places than those of state 0";
const NOT_FROM_ZERO: &str = "start: run otherwise than from state 0";
const MOVED_TWICE: &str = "run to its end, not to the places after no event or one";
const MOVED_TWICE_AND_BLOCKED: &str = "blocked, not in the places after no event or one";
const BLOCKED_LATER: &str = "blocked after some events";
const BLOCKED_EARLIER: &str = "blocked before other events";
const BLOCKED_BY_ANOTHER: &str = "blocked by another machine than 0";
const BLOCKED_BY_SEVERAL: &str = "blocked by several machines";
const BLOCKED_AFTER_LOWER: &str = "blocked where a lower machine would move";
const UNDECLARED_LATER: &str = "refused 14 at another position than 0";
const UNDECLARED_AFTER_BLOCK: &str = "refused 14 after a block";
const KEEPS_ALL: &str = "all of several machines kept";
const DROPS_ONE: &str = "one machine dropped";
const DROPS_MORE: &str = "more machines dropped";
const DROPS_ALL_BUT_ONE: &str = "all machines but one dropped";
const NOT_UPWARD: &str = "others kept than from the lowest machine up";
const NOT_BESIDE_ALL: &str = "others kept than those needed beside all";

pub const LABELS: [&str; 17] = [
    NOT_OF_ZERO,
    NOT_FROM_ZERO,
    MOVED_TWICE,
    MOVED_TWICE_AND_BLOCKED,
    BLOCKED_LATER,
    BLOCKED_EARLIER,
    BLOCKED_BY_ANOTHER,
    BLOCKED_BY_SEVERAL,
    BLOCKED_AFTER_LOWER,
    UNDECLARED_LATER,
    UNDECLARED_AFTER_BLOCK,
    KEEPS_ALL,
    DROPS_ONE,
    DROPS_MORE,
    DROPS_ALL_BUT_ONE,
    NOT_UPWARD,
    NOT_BESIDE_ALL,
];
