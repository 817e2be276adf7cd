//! Lists of names for a sheet: of events on it, and of what is on no move.
use crate::call::{board, Call};
use crate::dice::Dice;
use crate::draft::alike;
use crate::letters;
use crate::machines::{after, Machine, Plan};

/// A good sheet's machines, and its names in the order in which they come first; of others neither.
pub struct Board {
    names: Vec<String>,
    machines: Vec<Machine>,
}

/// Nothing that a move can name.
const OTHERS: [&[u8]; 12] =
    [b"", b"\0", b" ", b"@", b"\r", b"_", b"\xff", b"(", b"0", b"\xc3\xa9", b"-", b"seventeen-letters"];

impl Board {
    pub fn new(sheet: &[u8], is_good: bool) -> Board {
        let plan = if is_good { Plan::of_sheet(sheet) } else { Plan::of_sheet(b"") };
        let machines = if is_good { plan.machines_on(sheet).expect("machines") } else { Vec::new() };
        Board { names: plan.names, machines }
    }

    /// In whatever case.
    fn name(&self, dice: &mut Dice) -> Vec<u8> {
        let name = match self.names.len() {
            0 => dice.one(&alike()),
            n => self.names[dice.below(n)].clone(),
        };
        letters::spelt(dice, &name).into_bytes()
    }

    /// So many events that run one after another, or as far as any does; and where the machines then stand.
    fn walk(&self, dice: &mut Dice, size: usize) -> (Vec<usize>, Vec<usize>) {
        let all: Vec<&Machine> = self.machines.iter().collect();
        let mut at: Vec<usize> = all.iter().map(|machine| machine.start).collect();
        let mut list = Vec::new();
        while list.len() < size {
            let runs = (0..self.names.len()).filter_map(|event| Some((event, after(&all, &at, event)?)));
            let runs: Vec<(usize, Vec<usize>)> = runs.collect();
            if runs.is_empty() {
                break;
            }
            let (event, then) = dice.one(&runs);
            list.push(event);
            at = then;
        }
        (list, at)
    }

    pub fn whole(&self, dice: &mut Dice, size: usize) -> Vec<Vec<u8>> {
        let events = self.walk(dice, size).0;
        events.iter().map(|event| letters::spelt(dice, &self.names[*event]).into_bytes()).collect()
    }

    /// A name that some event has but for its end or a byte that is taken for another, or one that is alike.
    fn near(&self, dice: &mut Dice) -> Vec<u8> {
        let mut name = self.name(dice);
        match dice.below(7) {
            0 => name[..name.len() - 1].to_vec(),
            1 => [name, vec![dice.one(b"0-a")]].concat(),
            2 => [name, vec![dice.one(b"\0 \rA\xff")]].concat(),
            3 => [name, vec![dice.one(b"\0 a"); 1 + dice.below(40)]].concat(),
            4 => dice.one(&alike()).into_bytes(),
            5 => {
                let whole = 0..name.len();
                letters::confuse(dice, &mut name, &[whole]);
                name
            }
            _ => dice.one(&OTHERS).to_vec(),
        }
    }

    /// A walk, a walk that goes on by chance, names by chance, none; then some of it near a name, or the last one not
    /// ended.
    pub fn list(&self, dice: &mut Dice) -> Call {
        let [size, after] = [(); 2].map(|_| dice.one(&[0, 1, 2, 3, 5, 8, 13, 40]));
        let kind = dice.below(12);
        let mut names = if kind < 9 { self.whole(dice, size) } else { Vec::new() };
        if kind >= 4 && !self.names.is_empty() {
            names.extend((0..after).map(|_| self.name(dice)));
        }
        for _ in 0..dice.one(&[0, 0, 0, 1, 1, 2]) {
            let near = self.near(dice);
            dice.insert(&mut names, near);
        }
        let mut list: Vec<u8> = names.iter().flat_map(|name| [&name[..], b"\n"].concat()).collect();
        if dice.once_in(6) {
            list.pop();
        }
        board(list)
    }
}
