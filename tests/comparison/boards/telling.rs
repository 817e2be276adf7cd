//! How often an answer to a call on a sheet is one that a likely fault would change.
use crate::answer::Told;
use crate::call::Call;
use crate::machines::{after, Machine, Plan};
use crate::RULES;
use reference::Refusal;

/// A good sheet's machines, and its names in the order in which they come first.
struct Loaded {
    names: Vec<String>,
    machines: Vec<Machine>,
}

impl Loaded {
    fn of(sheet: &[u8]) -> Loaded {
        let plan = Plan::of_sheet(sheet);
        let machines = plan.machines_on(sheet).expect("machines");
        Loaded { names: plan.names, machines }
    }

    fn starts(&self) -> Vec<usize> {
        self.machines.iter().map(|machine| machine.start).collect()
    }

    /// How many of these run.
    fn run(&self, list: &[usize]) -> usize {
        let all: Vec<&Machine> = self.machines.iter().collect();
        let mut at = self.starts();
        let runs = list.iter().take_while(|event| after(&all, &at, **event).map(|then| at = then).is_some());
        runs.count()
    }

    fn of_run(&self, list: &[usize], blocked: Option<(usize, usize)>, places: &[usize]) -> Vec<&'static str> {
        let moved = places != self.starts();
        let ran = blocked.map_or(list.len(), |(ran, _)| ran);
        let on = |m: usize| self.machines[m].moves[list[ran]];
        let blocking = |m: &usize| on(*m).is_some_and(|(pre, _)| pre != places[*m]);
        let several = blocked.is_some() && (0..places.len()).filter(blocking).count() > 1;
        let told = [
            (MOVED, blocked.is_none() && moved),
            (MOVED_AND_BLOCKED, blocked.is_some() && moved),
            (STARTS, ran == 0 && places.iter().any(|place| *place > 0)),
            (BLOCKED_BY_SEVERAL, several),
            (BLOCKED_AFTER_LOWER, blocked.is_some_and(|(_, machine)| (0..machine).any(|m| on(m).is_some()))),
            (BLOCKED_EARLIER, blocked.is_some() && ran + 1 < list.len()),
        ];
        told.into_iter().filter(|(_, is)| *is).map(|(label, _)| label).collect()
    }

    fn of_odd(&self, list: &[Option<usize>], position: usize, odd: &[u8]) -> Vec<&'static str> {
        let before: Vec<usize> = list[..position].iter().map(|event| event.expect("a name on a move")).collect();
        let odd = odd.to_ascii_lowercase();
        let near = |name: &String| {
            let name = name.to_ascii_lowercase().into_bytes();
            name.starts_with(&odd) || odd.starts_with(&name)
        };
        let told = [
            (ODD_LATER, position > 0),
            (ODD_AFTER_BLOCK, self.run(&before) < position),
            (ODD_UNENDED, list[position].is_some()),
            (ODD_NEAR, list[position].is_none() && !odd.is_empty() && self.names.iter().any(near)),
        ];
        told.into_iter().filter(|(_, is)| *is).map(|(label, _)| label).collect()
    }

    /// Whether the moves of some machine are not in the order in which their names come first.
    fn is_mixed(&self, sheet: &[u8]) -> bool {
        let sheet = String::from_utf8_lossy(sheet);
        sheet.lines().any(|line| {
            let named = line.split("(move ").skip(1).filter_map(|rest| rest.split(' ').next());
            let numbers: Vec<_> =
                named.map(|name| self.names.iter().position(|n| n.eq_ignore_ascii_case(name))).collect();
            !numbers.is_sorted()
        })
    }
}

/// With a good line in the place of the faulty one.
fn mended(sheet: &[u8], line: usize) -> Vec<u8> {
    let mut lines: Vec<Vec<u8>> = sheet.split_inclusive(|b| *b == b'\n').map(<[u8]>::to_vec).collect();
    let machines = lines.len().saturating_sub(1).clamp(1, 16);
    lines[line - 1] = match line {
        1 => format!("(accepted {machines})\n").into_bytes(),
        _ => format!("(machine {} (places 1) (start 0))\n", line - 2).into_bytes(),
    };
    lines.concat()
}

fn of_bad(sheet: &[u8], line: usize) -> Vec<&'static str> {
    let lines = sheet.split_inclusive(|b| *b == b'\n').count();
    let again =
        || matches!(reference::read_sheet(RULES, &mended(sheet, line)), Err(Refusal(15, other, _)) if other > line);
    let told =
        [(BAD_LATER, line > 1), (BAD_MISSING, line > lines), (BAD_TWICE, (1..=lines).contains(&line) && again())];
    told.into_iter().filter(|(_, is)| *is).map(|(label, _)| label).collect()
}

pub fn of(sheet: &[u8], call: &Call, told: &Told) -> Vec<&'static str> {
    if let Told::Refused([15, line, _]) = told {
        return of_bad(sheet, *line);
    }
    let loaded = Loaded::of(sheet);
    let names: Vec<&[u8]> = call.list.split_inclusive(|b| *b == b'\n').collect();
    let bare = |name: &[u8]| name.strip_suffix(b"\n").unwrap_or(name).to_vec();
    let number =
        |name: &&[u8]| loaded.names.iter().position(|known| known.as_bytes().eq_ignore_ascii_case(&bare(name)));
    let list: Vec<Option<usize>> = names.iter().map(number).collect();
    match told {
        Told::Ran(blocked, places) => {
            loaded.of_run(&list.into_iter().map(|e| e.expect("a name on a move")).collect::<Vec<_>>(), *blocked, places)
        }
        Told::Refused([14, position, _]) => loaded.of_odd(&list, *position, &bare(names[*position])),
        Told::Sheet(_) if loaded.is_mixed(sheet) => vec![MIXED],
        _ => Vec::new(),
    }
}

const MOVED: &str = "board: run to its end, away from the start";
const MOVED_AND_BLOCKED: &str = "board: blocked away from the start";
const STARTS: &str = "board: still at a start that is not place 0 everywhere";
const BLOCKED_BY_SEVERAL: &str = "board: blocked by several machines";
const BLOCKED_AFTER_LOWER: &str = "board: blocked where a lower machine would move";
const BLOCKED_EARLIER: &str = "board: blocked before other events";
const ODD_LATER: &str = "board: refused 14 at another position than 0";
const ODD_AFTER_BLOCK: &str = "board: refused 14 after a block";
const ODD_UNENDED: &str = "board: refused 14 for a name on a move that is not ended";
const ODD_NEAR: &str = "board: refused 14 for the beginning of a name, or for more than a name";
const MIXED: &str = "sheet: moves in another order than their names came first";
const BAD_LATER: &str = "sheet: refused 15 at another line than 1";
const BAD_MISSING: &str = "sheet: refused 15 for a line that is missing";
const BAD_TWICE: &str = "sheet: refused 15 before another line that would be";

pub const LABELS: [&str; 14] = [
    MOVED,
    MOVED_AND_BLOCKED,
    STARTS,
    BLOCKED_BY_SEVERAL,
    BLOCKED_AFTER_LOWER,
    BLOCKED_EARLIER,
    ODD_LATER,
    ODD_AFTER_BLOCK,
    ODD_UNENDED,
    ODD_NEAR,
    MIXED,
    BAD_LATER,
    BAD_MISSING,
    BAD_TWICE,
];
