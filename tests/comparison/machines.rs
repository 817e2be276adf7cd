//! A plan and its machines by the definitions of document 01 alone, from a text that passes as far as 10, or from a
//! sheet. Nothing here is shared with the independent program.

#[derive(Default)]
pub struct Plan {
    pub start: usize,
    pub names: Vec<String>,
    /// Where each event leads from each state.
    pub next: Vec<Vec<Option<usize>>>,
    /// The place of each state, for each machine of the text.
    pub places: Vec<Vec<usize>>,
}

/// The move of each event that is on it, from its pre-place to its post-place.
#[derive(Debug)]
pub struct Machine {
    pub start: usize,
    pub moves: Vec<Option<(usize, usize)>>,
}

fn number(word: &str) -> usize {
    word.parse().expect("a figure")
}

/// `((0 2) (1 3))`: the place of each state.
fn places(listed: &str, states: usize) -> Vec<usize> {
    let mut row = vec![usize::MAX; states];
    for (place, list) in listed.split(") (").enumerate() {
        list.trim_matches(['(', ')']).split(' ').for_each(|state| row[number(state)] = place);
    }
    assert!(!row.contains(&usize::MAX), "a state in no place");
    row
}

impl Plan {
    pub fn of(text: &[u8]) -> Plan {
        let text = String::from_utf8_lossy(text);
        let mut plan = Plan::default();
        for line in text.lines() {
            let (head, rest) = line.trim_matches(['(', ')']).split_once(' ').unwrap_or_default();
            match (head, &rest.split(' ').collect::<Vec<_>>()[..]) {
                ("states", [n]) => plan.next.resize(number(n), Vec::new()),
                ("states", [n, "start", state]) => {
                    plan.next.resize(number(n), Vec::new());
                    plan.start = number(state);
                }
                ("events", names) => plan.names = names.iter().map(|name| name.to_string()).collect(),
                ("step", [from, name, to]) => {
                    let event = plan.event(name).expect("an event that is declared");
                    let row = &mut plan.next[number(from)];
                    row.resize(plan.names.len(), None);
                    row[event] = Some(number(to));
                }
                ("machine", _) => plan.places.push(places(rest, plan.next.len())),
                _ => {}
            }
        }
        plan.next.iter_mut().for_each(|row| row.resize(plan.names.len(), None));
        plan
    }

    /// Names that differ only in case are one event.
    fn event(&self, name: &str) -> Option<usize> {
        self.names.iter().position(|known| known.eq_ignore_ascii_case(name))
    }

    /// The names on the moves of a sheet that is good, in the order in which they come first; no more than these.
    pub fn of_sheet(sheet: &[u8]) -> Plan {
        let sheet = String::from_utf8_lossy(sheet);
        let mut plan = Plan::default();
        for name in sheet.split("(move ").skip(1).filter_map(|rest| rest.split(' ').next()) {
            if plan.event(name).is_none() {
                plan.names.push(name.to_string());
            }
        }
        plan
    }

    fn steps(&self) -> impl Iterator<Item = (usize, usize, usize)> + '_ {
        let row = |from: usize| self.next[from].iter().enumerate().filter_map(move |(e, to)| Some((from, e, (*to)?)));
        (0..self.next.len()).flat_map(row)
    }

    /// An event is on a machine if a step of it leads from one place to another.
    pub fn machines(&self) -> Vec<Machine> {
        let machine = |place: &Vec<usize>| {
            let mut moves = vec![None; self.names.len()];
            for (from, event, to) in self.steps().filter(|(from, _, to)| place[*from] != place[*to]) {
                moves[event] = Some((place[from], place[to]));
            }
            Machine { start: place[self.start], moves }
        };
        self.places.iter().map(machine).collect()
    }

    /// As the sheet gives them, if it is one.
    pub fn machines_on(&self, sheet: &[u8]) -> Option<Vec<Machine>> {
        let sheet = std::str::from_utf8(sheet).ok()?;
        let machine = |line: &str| {
            let words: Vec<&str> = line.split(['(', ')', ' ']).filter(|word| !word.is_empty()).collect();
            let ["machine", _, "places", _, "start", start, moves @ ..] = &words[..] else { return None };
            let mut machine = Machine { start: start.parse().ok()?, moves: vec![None; self.names.len()] };
            for moved in moves.chunks(4) {
                let ["move", name, pre, post] = moved else { return None };
                let event = self.event(name)?;
                machine.moves[event] = Some((pre.parse().ok()?, post.parse().ok()?));
            }
            Some(machine)
        };
        sheet.strip_prefix("(accepted ")?.lines().skip(1).map(machine).collect()
    }
}

/// Where the machines stand after an event, if it runs: it is on some machine, and all that it is on stand in its
/// pre-place.
pub fn after(machines: &[&Machine], at: &[usize], event: usize) -> Option<Vec<usize>> {
    let mut then = at.to_vec();
    let mut on = false;
    for (k, machine) in machines.iter().enumerate() {
        if let Some((pre, post)) = machine.moves[event] {
            if at[k] != pre {
                return None;
            }
            (then[k], on) = (post, true);
        }
    }
    on.then_some(then)
}
