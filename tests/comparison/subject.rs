//! A text, and the arguments that fit it closely or do not: sizes that are lent, events, and lists of events.
use crate::answer;
use crate::call::{call, lending, names, run, Call};
use crate::dice::Dice;
use crate::draft::alike;
use crate::letters;
use crate::RULES;
use reference::{self, Refusal, Step, TEXT_BOUND};

/// Too large for any number of the machine; what is left of the second and the third if that goes unnoticed is 0 and 1.
pub const HUGE: [&str; 3] = ["999999999999999999999999999999", "18446744073709551616", "18446744073709551617"];

/// There are no names if line 2 is not what it should be, no start but 0 if the text is refused by 1 to 3, and no steps
/// if by 1 to 7.
pub struct Subject {
    pub text: Vec<u8>,
    pub names: Vec<String>,
    pub sheet: Result<Vec<u8>, Refusal>,
    start: usize,
    steps: Vec<Step>,
}

impl Subject {
    pub fn new(text: impl Into<Vec<u8>>) -> Subject {
        let text = text.into();
        let names = names(&text);
        let sheet = reference::check(RULES, &text, TEXT_BOUND);
        let start = reference::read(RULES, &text).map_or(0, |input| input.plan.start);
        let steps = reference::steps(RULES, &text, 1024).unwrap_or_default();
        Subject { text, names, sheet, start, steps }
    }

    // ---- Sizes that are lent --------------------------------------------------------

    /// None, one too few, just enough, one too many, and more.
    fn rooms(needed: usize) -> Vec<String> {
        let near = [0, needed.saturating_sub(1), needed, needed + 1, needed + 4];
        near.iter().map(usize::to_string).chain(HUGE.map(String::from)).collect()
    }

    pub fn sheet_rooms(&self) -> Vec<String> {
        Subject::rooms(self.sheet.as_ref().map_or(7, Vec::len))
    }

    /// Those of the merged sheet, and one in which the sheet as it is would not fit.
    pub fn merge_rooms(&self) -> Vec<String> {
        let Ok(sheet) = &self.sheet else { return Subject::rooms(7) };
        let merged = answer::merged(&self.text).map_or(0, |merged| merged.len());
        let between = (merged < sheet.len()).then(|| (sheet.len() - 1).to_string());
        Subject::rooms(merged).into_iter().chain(between).collect()
    }

    pub fn quote_rooms(&self) -> Vec<String> {
        let quotation = self.sheet.as_ref().ok().and_then(|_| reference::quote(RULES, &self.text, usize::MAX).ok());
        Subject::rooms(quotation.map_or(7, |quotation| quotation.len()))
    }

    /// How long merging takes the independent program, which tries each pair of places on all states and events anew:
    /// a second or more from about 10,000,000 on. Nothing on a text that is refused.
    pub fn merging_takes(&self) -> usize {
        let input = self.sheet.as_ref().ok().and_then(|_| reference::read(RULES, &self.text).ok());
        input.map_or(0, |reference::Input { plan, parts }| {
            let most = parts.iter().map(|machine| machine.places.len()).max().unwrap_or(0);
            most * most * plan.states * plan.events.len()
        })
    }

    pub fn step_rooms(&self) -> Vec<String> {
        Subject::rooms(self.steps.len())
    }

    // ---- Events ---------------------------------------------------------------------

    /// The first that are not declared, and figures of which the low bytes are 0 or all bits are set.
    pub fn undeclared_figures(&self) -> Vec<String> {
        let m = self.names.len();
        let known = [m, m + 1, m.max(64), m.max(255), 256, 300, 1000, 65_536, 1 << 32, usize::MAX];
        known.iter().map(usize::to_string).chain(HUGE.map(String::from)).collect()
    }

    /// Names that are close to those that are declared.
    fn undeclared_names(&self) -> Vec<String> {
        let longer = self.names.iter().map(|name| format!("{name:0<16}"));
        let shorter = self.names.iter().filter(|name| name.len() > 1).map(|name| name[..name.len() - 1].to_string());
        let near = alike().into_iter().chain(longer).chain(shorter);
        let declared = |name: &String| self.names.iter().any(|known| known.eq_ignore_ascii_case(name));
        near.filter(|name| name.len() <= 16 && !declared(name)).collect()
    }

    fn undeclared(&self, dice: &mut Dice) -> String {
        let words = if dice.once_in(2) { self.undeclared_names() } else { self.undeclared_figures() };
        let word = dice.one(&words);
        letters::spelt(dice, &word)
    }

    /// About half of the events asked for are declared.
    pub fn event(&self, dice: &mut Dice) -> String {
        let m = self.names.len();
        if m == 0 || dice.once_in(2) {
            return self.undeclared(dice);
        }
        let event = dice.below(m);
        if dice.once_in(2) {
            letters::spelt(dice, &self.names[event])
        } else {
            event.to_string()
        }
    }

    // ---- Lists of events ------------------------------------------------------------

    /// So many steps on from a state, or as far as there are any; and the state where that ends.
    fn walk(&self, dice: &mut Dice, from: usize, size: usize) -> (Vec<usize>, usize) {
        let (mut list, mut at) = (Vec::new(), from);
        while list.len() < size {
            let next: Vec<&Step> = self.steps.iter().filter(|s| s.from == at).collect();
            if next.is_empty() {
                break;
            }
            let step = dice.one(&next);
            list.push(step.event);
            at = step.to;
        }
        (list, at)
    }

    pub fn whole(&self, dice: &mut Dice, size: usize) -> Vec<usize> {
        self.walk(dice, self.start, size).0
    }

    /// A walk, an event that has no step where it ends (if there is one), and steps on from there.
    pub fn blocked(&self, dice: &mut Dice, size: usize, after: usize) -> Vec<usize> {
        let (mut list, at) = self.walk(dice, self.start, size);
        let runs = |event: usize| self.steps.iter().any(|s| s.from == at && s.event == event);
        let others: Vec<usize> = (0..self.names.len()).filter(|event| !runs(*event)).collect();
        if !others.is_empty() {
            list.push(dice.one(&others));
        }
        list.extend(self.walk(dice, at, after).0);
        list
    }

    /// As figures, as names in whatever case, or by turns.
    fn spelt(&self, dice: &mut Dice, list: &[usize]) -> Vec<String> {
        let way = dice.below(4);
        let mut word = |event: &usize| match self.names.get(*event) {
            Some(name) if way == 0 || (way == 1 && dice.once_in(2)) => letters::spelt(dice, name),
            _ => event.to_string(),
        };
        list.iter().map(&mut word).collect()
    }

    /// One event that is not declared, or two: at the start, at the end or between.
    fn with_undeclared(&self, dice: &mut Dice, mut words: Vec<String>) -> Vec<String> {
        for _ in 0..1 + dice.below(2) {
            let at = [0, words.len(), dice.below(words.len() + 1)];
            words.insert(dice.one(&at), self.undeclared(dice));
        }
        words
    }

    /// A walk, a walk that is blocked, events at random, none, or with some that are not declared.
    pub fn list(&self, dice: &mut Dice) -> Vec<String> {
        let [size, after] = [(); 2].map(|_| dice.one(&[0, 1, 2, 3, 5, 8, 13, 40]));
        let kind = dice.below(12);
        let list = match kind {
            0..=3 | 11 => self.whole(dice, size),
            4 => self.blocked(dice, size, 0),
            5..=7 | 10 => self.blocked(dice, size, after),
            _ => (0..size).map(|_| dice.below(self.names.len().max(1))).collect(),
        };
        let words = self.spelt(dice, &list);
        if kind >= 10 {
            self.with_undeclared(dice, words)
        } else {
            words
        }
    }

    /// All lists of up to so many events, of those that are declared and the first that is not.
    pub fn each_list(&self, size: usize) -> Vec<Vec<usize>> {
        let longer = |list: &Vec<usize>| (0..=self.names.len()).map(|e| [&list[..], &[e]].concat()).collect::<Vec<_>>();
        let (mut lists, mut longest) = (vec![Vec::new()], vec![Vec::new()]);
        for _ in 0..size {
            longest = longest.iter().flat_map(longer).collect();
            lists.extend(longest.clone());
        }
        lists
    }

    // ---- Calls ----------------------------------------------------------------------

    /// Check as it is and with a size; then one call of each of the others, of merge unless that takes long.
    pub fn one_of_each(&self, dice: &mut Dice) -> Vec<Call> {
        let rooms = [self.sheet_rooms(), self.step_rooms(), self.quote_rooms()];
        let [sheet, steps, quotation] = rooms.map(|rooms| dice.one(&rooms));
        let merged = (self.merging_takes() < 5_000_000).then(|| lending("merge", Some(dice.one(&self.merge_rooms()))));
        let (event, list) = (self.event(dice), self.list(dice));
        let calls = [
            call("check"),
            lending("check", Some(sheet)),
            lending("steps", Some(steps).filter(|_| !dice.once_in(4))),
            call(&format!("name {event}")),
            run(&list),
            call("thin"),
            lending("quote", Some(quotation)),
        ];
        calls.into_iter().chain(merged).collect()
    }
}
