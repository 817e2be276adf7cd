//! Merging by the words of request 4 alone, and with likely faults: how often an answer is one that such a fault would
//! change. On plans of at most 64 states, so that a set of them is a word. Nothing here is shared with the independent
//! program.
use crate::answer::Told;
use crate::machines::Plan;

/// The places of a machine: state i is bit i.
type Places = Vec<u64>;

/// The states that have a step of the event, and the ends of one such step: on a machine that is good all others cross
/// where it does.
struct Event {
    excited: u64,
    from: u64,
    to: u64,
}

/// An accepted split.
pub struct Merging {
    start: u64,
    events: Vec<Event>,
    machines: Vec<Places>,
}

#[derive(Clone, Copy, PartialEq)]
enum Way {
    AsWritten,
    OnceAMachine,
    /// 12 is not asked, or 11 is not: then 12 is of the events that are on some machine.
    Without12,
    Without11,
    BesideOriginal,
    HigherTakes,
    PairsFalling,
    MachinesFalling,
}

/// The event's pre-place, if it is on the machine.
fn pre(places: &Places, event: &Event) -> Option<u64> {
    let place = |end: u64| places.iter().copied().find(|place| place & end != 0).expect("a place for each state");
    Some(place(event.from)).filter(|pre| *pre != place(event.to))
}

/// The lower number takes both sets, and higher ones close up.
fn merged(places: &Places, low: usize, high: usize, way: Way) -> Places {
    let mut fewer = places.clone();
    let (takes, goes) = if way == Way::HigherTakes { (high, low) } else { (low, high) };
    fewer[takes] |= fewer[goes];
    fewer.remove(goes);
    fewer
}

/// By the lower number, then by the higher.
fn pairs(count: usize, way: Way) -> Vec<(usize, usize)> {
    let mut pairs: Vec<_> = (0..count).flat_map(|low| (low + 1..count).map(move |high| (low, high))).collect();
    if way == Way::PairsFalling {
        pairs.reverse();
    }
    pairs
}

impl Merging {
    /// Nothing if the states are more than 64, or the places so many that trying each pair again and again takes long.
    pub fn of(plan: &Plan) -> Option<Merging> {
        let event = |e: usize| {
            let step = |from: usize| Some((1u64 << from, 1u64 << plan.next[from][e]?));
            let steps = || (0..plan.next.len()).filter_map(step);
            let (from, to) = steps().next().expect("a step");
            Event { excited: steps().fold(0, |set, (from, _)| set | from), from, to }
        };
        let places = |place: &Vec<usize>| {
            let mut sets = vec![0; 1 + place.iter().max().expect("a state")];
            place.iter().enumerate().for_each(|(state, p)| sets[*p] |= 1u64 << state);
            sets
        };
        let few = plan.places.iter().flatten().all(|place| *place < 16);
        (plan.next.len() <= 64 && few).then(|| Merging {
            start: 1 << plan.start,
            events: (0..plan.names.len()).map(event).collect(),
            machines: plan.places.iter().map(places).collect(),
        })
    }

    /// 11 and 12.
    fn passes(&self, machines: &[Places], way: Way) -> bool {
        self.events.iter().all(|event| {
            let mut on = machines.iter().filter_map(|places| pre(places, event)).peekable();
            match on.peek() {
                None => way == Way::Without11,
                Some(_) => way == Way::Without12 || on.fold(u64::MAX, |common, pre| common & pre) & !event.excited == 0,
            }
        })
    }

    /// The machine after its first merge that passes.
    fn next(&self, machines: &[Places], m: usize, way: Way) -> Option<Places> {
        let mut tried = if way == Way::BesideOriginal { self.machines.clone() } else { machines.to_vec() };
        let pair = pairs(machines[m].len(), way).into_iter().find(|(low, high)| {
            tried[m] = merged(&machines[m], *low, *high, way);
            self.passes(&tried, way)
        });
        pair.map(|(low, high)| merged(&machines[m], low, high, way))
    }

    fn pass(&self, way: Way) -> Vec<Places> {
        let mut machines = self.machines.clone();
        let mut order: Vec<usize> = (0..machines.len()).collect();
        if way == Way::MachinesFalling {
            order.reverse();
        }
        for m in order {
            while let Some(places) = self.next(&machines, m, way) {
                machines[m] = places;
                if way == Way::OnceAMachine {
                    break;
                }
            }
        }
        machines
    }

    /// A machine in which two places can be merged.
    pub fn goes_on(&self) -> Option<usize> {
        (0..self.machines.len()).find(|m| self.next(&self.machines, *m, Way::AsWritten).is_some())
    }

    /// What is telling of the merged split, whichever call it is asked by.
    pub fn labels(&self) -> Vec<&'static str> {
        let all = self.pass(Way::AsWritten);
        let differs = |way: Way| self.pass(way) != all;
        let both = || self.machines.iter().zip(&all);
        let is = |some: &dyn Fn(&Places, &Places) -> bool| both().any(|(old, new)| some(old, new));
        let start = |places: &Places| places.iter().position(|place| place & self.start != 0);
        let left = |old: &Places, new: &Places, event: &Event| pre(old, event).is_some() && pre(new, event).is_none();
        let leaves = |old: &Places, new: &Places| self.events.iter().any(|event| left(old, new, event));
        // A place that is left has another number than its lowest set had.
        let closes = |old: &Places, new: &Places| (0..new.len()).any(|k| new[k] & old[k] == 0);
        let told = [
            (SOME, all != self.machines),
            (NONE, all == self.machines && is(&|old, _| old.len() > 1)),
            (ONE_PLACE, is(&|old, new| old.len() > 1 && new.len() == 1)),
            (LEAVES, is(&leaves)),
            (CLOSES, is(&closes)),
            (START, is(&|old, new| start(old) != start(new))),
            (NOT_ONCE, differs(Way::OnceAMachine)),
            (NOT_WITHOUT_12, differs(Way::Without12)),
            (NOT_WITHOUT_11, differs(Way::Without11)),
            (NOT_BESIDE_ORIGINAL, differs(Way::BesideOriginal)),
            (NOT_HIGHER, differs(Way::HigherTakes)),
            (NOT_FALLING_PAIRS, differs(Way::PairsFalling)),
            (NOT_FALLING_MACHINES, differs(Way::MachinesFalling)),
        ];
        told.iter().filter(|(_, is)| *is).map(|(label, _)| *label).collect()
    }
}

/// What is telling of an answer, beside a sheet of so many bytes where nothing is merged.
pub fn telling(labels: &[&'static str], told: &Told, lent: Option<&usize>, whole: usize) -> Vec<&'static str> {
    match told {
        Told::Merged(_) if lent.is_some_and(|lent| *lent < whole) => [labels, &[FITS]].concat(),
        Told::Merged(_) => labels.to_vec(),
        Told::Refused([13, size, _]) if *size != whole => vec![OTHER_SIZE],
        _ => Vec::new(),
    }
}

const SOME: &str = "merge: some places merged";
const NONE: &str = "merge: none of several places merged";
const ONE_PLACE: &str = "merge: one of several places left";
const LEAVES: &str = "merge: an event leaves a machine";
const CLOSES: &str = "merge: higher places close up";
const START: &str = "merge: the start's place has another number";
const NOT_ONCE: &str = "merge: not one merge a machine at most";
const NOT_WITHOUT_12: &str = "merge: not without asking 12";
const NOT_WITHOUT_11: &str = "merge: not without asking 11";
const NOT_BESIDE_ORIGINAL: &str = "merge: not beside the other machines as given";
const NOT_HIGHER: &str = "merge: not the higher number for both";
const NOT_FALLING_PAIRS: &str = "merge: not from the highest pair down";
const NOT_FALLING_MACHINES: &str = "merge: not from the highest machine down";
const FITS: &str = "merge: in less than the sheet needs unmerged";
const OTHER_SIZE: &str = "merge: refused 13 with the merged sheet's own size";

pub const LABELS: [&str; 15] = [
    SOME,
    NONE,
    ONE_PLACE,
    LEAVES,
    CLOSES,
    START,
    NOT_ONCE,
    NOT_WITHOUT_12,
    NOT_WITHOUT_11,
    NOT_BESIDE_ORIGINAL,
    NOT_HIGHER,
    NOT_FALLING_PAIRS,
    NOT_FALLING_MACHINES,
    FITS,
    OTHER_SIZE,
];
