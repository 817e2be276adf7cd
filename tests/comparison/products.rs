//! Systems that are products of small machines: these machines are a split that is accepted, with a known sheet.
use crate::dice::Dice;
use crate::draft::{alike, Draft};

/// An event on each machine that takes part: the machine, the place it leaves and the place it enters. Where these are
/// one the machine only looks on, which a split can't say.
type Moves = Vec<(usize, usize, usize)>;

/// Machines, each at first in its place 0, and the moves and names of the events.
pub struct Product {
    pub machines: usize,
    pub events: Vec<(String, Moves)>,
}

/// Where the machines stand after an event, if it runs.
fn after(at: &[usize], moves: &Moves) -> Option<Vec<usize>> {
    let mut then = at.to_vec();
    for (machine, from, to) in moves {
        if at[*machine] != *from {
            return None;
        }
        then[*machine] = *to;
    }
    Some(then)
}

/// A machine's own places in any order, and the global states in which it stands in each.
fn places_of(dice: &mut Dice, states: &[Vec<usize>], m: usize) -> (Vec<usize>, Vec<Vec<usize>>) {
    let mut order: Vec<usize> = (0..states.len()).collect();
    dice.shuffle(&mut order);
    let mut places: Vec<(usize, Vec<usize>)> = Vec::new();
    for state in order {
        match places.iter_mut().find(|(local, _)| *local == states[state][m]) {
            Some((_, listed)) => listed.push(state),
            None => places.push((states[state][m], vec![state])),
        }
    }
    places.into_iter().unzip()
}

impl Product {
    /// The global states from the start, breadth first; the search ends where they are more than `most`.
    fn reached(&self, most: usize) -> Vec<Vec<usize>> {
        let mut found = vec![vec![0; self.machines]];
        let mut k = 0;
        while k < found.len() && found.len() <= most {
            for (_, moves) in &self.events {
                found.extend(after(&found[k], moves).filter(|then| !found.contains(then)));
            }
            k += 1;
        }
        found
    }

    fn steps(&self, states: &[Vec<usize>]) -> Vec<(usize, String, usize)> {
        let number = |at: Vec<usize>| states.iter().position(|s| *s == at).expect("a state that is reached");
        let from = |k: usize| {
            let step = |(name, moves): &(String, Moves)| Some((k, name.clone(), number(after(&states[k], moves)?)));
            self.events.iter().filter_map(step).collect::<Vec<_>>()
        };
        (0..states.len()).flat_map(from).collect()
    }

    fn fits(&self, most: usize) -> bool {
        let states = self.reached(most);
        states.len() <= most && self.steps(&states).len() <= 1024
    }

    /// The system with its states, steps and places in any order, and the sheet, which is the machines themselves.
    pub fn drawn(&self, dice: &mut Dice) -> (Draft, String) {
        let mut states = self.reached(256);
        dice.shuffle(&mut states[1..]);
        let mut steps = self.steps(&states);
        dice.shuffle(&mut steps);
        let events = self.events.iter().map(|(name, _)| name.clone()).collect();
        let mut draft = Draft { states: states.len(), start: None, events, steps, machines: Vec::new() };
        let mut sheet = format!("(accepted {})\n", self.machines);
        for m in 0..self.machines {
            let (locals, places) = places_of(dice, &states, m);
            draft.machines.push(places);
            sheet += &self.sheet_line(m, &locals);
        }
        (draft.begun(dice), sheet)
    }

    /// `locals` are the machine's own places in the order of the text.
    fn sheet_line(&self, m: usize, locals: &[usize]) -> String {
        let place = |local: usize| locals.iter().position(|p| *p == local).expect("a place that is entered");
        let mut line = format!("(machine {m} (places {}) (start {})", locals.len(), place(0));
        for (name, moves) in &self.events {
            for (_, from, to) in moves.iter().filter(|(machine, _, _)| *machine == m) {
                line += &format!(" (move {name} {} {})", place(*from), place(*to));
            }
        }
        line + ")\n"
    }
}

/// Rings side by side, each with an event of its own from each place to the next.
pub fn rings(sizes: &[usize]) -> Product {
    let own = |(m, size): (usize, &usize)| {
        let size = *size;
        (0..size).map(move |p| (format!("r{m}-{p}"), vec![(m, p, (p + 1) % size)]))
    };
    Product { machines: sizes.len(), events: sizes.iter().enumerate().flat_map(own).collect() }
}

/// Some machines leave a global state, and now and then others look on.
fn moves(dice: &mut Dice, at: &[usize], watched: bool) -> Moves {
    let mut machines: Vec<usize> = (0..at.len()).collect();
    dice.shuffle(&mut machines);
    let on = 1 + dice.below(at.len().min(4));
    let looks = usize::from(watched && dice.once_in(2));
    let other = |place: usize, dice: &mut Dice| (place + 1 + dice.below(3)) % 4;
    let part = |(k, m): (usize, usize)| (m, at[m], if k < on { other(at[m], dice) } else { at[m] });
    machines.into_iter().take(on + looks).enumerate().map(part).collect()
}

/// Machines of up to four places with at most so many global states together.
pub fn product(dice: &mut Dice, most: usize, watched: bool) -> Product {
    let mut names = alike();
    dice.shuffle(&mut names);
    let mut product = Product { machines: 1 + dice.below(16), events: Vec::new() };
    for name in names.into_iter().take(1 + dice.below(24)) {
        let at = dice.one(&product.reached(most));
        product.events.push((name, moves(dice, &at, watched)));
        if !product.fits(most) {
            product.events.pop();
        }
    }
    product
}
