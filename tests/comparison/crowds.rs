//! Lines with about as many items as they may have, and about as many lines, with other faults beside.
use crate::dice::Dice;
use crate::draft::with;

/// About as many events, places or machines as may be, then items that also break 3, 1 or both.
fn crowds() -> Vec<String> {
    let mut texts = Vec::new();
    for n in [0, 1, 62, 63, 64, 65] {
        let names: String = (0..n).map(|k| format!(" e{k}")).collect();
        for last in ["", " e0", " 0e", " e0 e0", " e0 0e", " E", " E0"] {
            texts.push(format!("(states 1)\n(events{names}{last})\n(machine (0))\n"));
        }
        let places: String = (0..n).map(|k| format!(" ({k})")).collect();
        for last in ["", " (66)", " ()", " (66) (0)", " (66) ()"] {
            texts.push(format!("(states 66)\n(events)\n(machine{places}{last})\n"));
        }
    }
    for n in [0, 1, 14, 15, 16, 17] {
        let lines = "(machine (1) (0))\n".repeat(n);
        let long = format!("(machine{})\n", " (0)".repeat(65));
        for last in ["", "(machine (2))\n", "(machine ())\n", "(machine (2) ())\n", &long] {
            texts.push(format!("(states 2)\n(events)\n{lines}{last}"));
        }
    }
    texts
}

/// A line with about as many items as it may have, by chance with one that breaks 3 and one that breaks 1, and behind
/// either form of line 1.
pub fn crowd(dice: &mut Dice) -> String {
    let n = 63 + dice.below(4);
    let names = (0..n).map(|k| format!(" e{k}")).collect();
    let (hole, mut items, others): (_, Vec<String>, _) = match dice.below(2) {
        0 => ("(states 2)\n(events#)\n(machine (0))\n", names, [" e7", " 7e"]),
        _ => ("(states 2)\n(events)\n(machine#)\n", vec![" (0)".to_string(); n], [" (2)", " (0 )"]),
    };
    for (other, chance) in others.into_iter().zip([2, 4]) {
        if dice.once_in(chance) {
            items[dice.below(n)] = other.to_string();
        }
    }
    let hole = if dice.once_in(2) { with(hole, "2", "2 start 1") } else { hole.to_string() };
    hole.replace('#', &items.concat())
}

/// 1,025 step lines, of which the last may break 3 or 1 as well, and 1,024 of which it breaks 3.
fn many_steps() -> Vec<String> {
    let text = |n: usize, last: &str| format!("(states 1)\n(events a)\n{}{last}", "(step 0 a 0)\n".repeat(n));
    vec![
        text(1024, "(step 0 a 0)\n(machine (0))\n"),
        text(1024, "(step 1 b 0)\n"),
        text(1024, "(step 0 a 0\n"),
        text(1023, "(step 0 b 0)\n()\n"),
    ]
}

pub fn all() -> Vec<String> {
    [crowds(), many_steps()].concat()
}
