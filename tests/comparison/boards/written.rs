//! Sheets and lists of names written by hand, each with its answer: the sheet of Y, every bound, two faults in one
//! sheet.
use crate::call::{board, call, Call, Task};
use crate::draft::lines;
use reference::TEXT_BOUND;

pub const Y: &str = "(accepted 2)\n(machine 0 (places 2) (start 0) (move ready 0 1) (move home 1 0))\n\
                     (machine 1 (places 2) (start 0) (move brake 0 1) (move home 1 0))\n";

/// The sheet is good, and both calls say so; or neither does.
pub fn known(sheet: impl Into<String>, refusal: Option<&str>) -> Task {
    let sheet = sheet.into();
    let calls = match refusal {
        None => vec![call("sheet").giving(&sheet)],
        Some(refusal) => {
            let printed = lines(&format!("(refused {refusal})"));
            // The sheet counts before what is lent and before the names.
            ["sheet", "sheet 0"]
                .map(call)
                .into_iter()
                .chain([board(""), board("nobody")])
                .map(|c| c.giving(&printed))
                .collect()
        }
    };
    Task::new("written sheet", sheet, calls)
}

/// Lists of names for the sheet of Y, with bars for byte 10.
const LISTS: &[(&str, &str)] = &[
    ("", "(whole (places 0 0))"),
    ("ready|", "(whole (places 1 0))"),
    ("brake|", "(whole (places 0 1))"),
    ("ready|brake|home|", "(whole (places 0 0))"),
    ("ready|brake|home|home|", "(blocked 3 0 (places 0 0))"),
    ("home|", "(blocked 0 0 (places 0 0))"),
    ("ready|home|brake|", "(blocked 1 1 (places 1 0))"),
    ("ready|ready|nobody|", "(refused 14 2 0)"),
    // A name on no move, or a last one not ended, before any move; the lowest position.
    ("ready|brake", "(refused 14 1 0)"),
    ("ready|nobody|bra", "(refused 14 1 0)"),
    ("ready|brake|bra", "(refused 14 2 0)"),
    ("bra", "(refused 14 0 0)"),
    ("ready", "(refused 14 0 0)"),
    ("|", "(refused 14 0 0)"),
    ("|ready|", "(refused 14 0 0)"),
    ("ready||", "(refused 14 1 0)"),
    ("ready||brake", "(refused 14 1 0)"),
    // The bytes of a name are not looked at for their form.
    ("R@ady|", "(refused 14 0 0)"),
    ("ready |", "(refused 14 0 0)"),
    (" ready|", "(refused 14 0 0)"),
    ("ready\0|", "(refused 14 0 0)"),
    ("ready\r|", "(refused 14 0 0)"),
    ("\0|", "(refused 14 0 0)"),
    ("0|", "(refused 14 0 0)"),
    ("rea|", "(refused 14 0 0)"),
    ("readyx|", "(refused 14 0 0)"),
    ("brake|ready-|", "(refused 14 1 0)"),
    ("brake|seventeen-letters|", "(refused 14 1 0)"),
];

fn on_y() -> Task {
    let listed = |(names, printed): &(&str, &str)| board(names.replace('|', "\n")).giving(&lines(printed));
    let lent = [("sheet 145", None), ("sheet 144", Some(())), ("sheet 0", Some(())), ("sheet 99999", None)];
    let sized = lent.map(|(line, short)| call(line).giving(if short.is_some() { "(refused 13 145 0)\n" } else { Y }));
    let calls: Vec<Call> = [call("sheet").giving(Y)].into_iter().chain(sized).chain(LISTS.iter().map(listed)).collect();
    Task::new("written list", Y, calls)
}

/// Good ones: the order of moves is kept, names are shared, a machine may have no move.
const GOOD: &[&str] = &[
    "(accepted 1)|(machine 0 (places 1) (start 0))",
    "(accepted 1)|(machine 0 (places 64) (start 63) (move z 63 0) (move a 0 63) (move m-0 5 4))",
    "(accepted 3)|(machine 0 (places 2) (start 1) (move b 1 0) (move a 0 1))|(machine 1 (places 1) (start 0))|\
     (machine 2 (places 3) (start 2) (move a 2 1) (move c 0 2) (move b 1 0))",
    "(accepted 2)|(machine 0 (places 2) (start 0) (move sixteen-bytes-10 0 1))|\
     (machine 1 (places 2) (start 0) (move sixteen-bytes-1 0 1) (move sixteen-bytes-10 1 0))",
];

/// The first faulty line, and the sheet.
const FAULTS: &[(usize, &str)] = &[
    // Line 1.
    (1, "(accepted 0)"),
    (1, "(accepted 0)|(machine 0 (places 1) (start 0))"),
    (1, "(accepted 17)|(machine 0 (places 1) (start 0))"),
    (1, "(accepted 01)|(machine 0 (places 1) (start 0))"),
    (1, "(accepted 1) |(machine 0 (places 1) (start 0))"),
    (1, "(machine 0 (places 1) (start 0))"),
    (1, "(refused 12 0 2)"),
    (1, "|(accepted 1)|(machine 0 (places 1) (start 0))"),
    // Machine lines that are missing, and the first that is too many.
    (2, "(accepted 1)"),
    (3, "(accepted 2)|(machine 0 (places 1) (start 0))"),
    (4, "(accepted 3)|(machine 0 (places 1) (start 0))|(machine 1 (places 1) (start 0))"),
    (3, "(accepted 1)|(machine 0 (places 1) (start 0))|(machine 1 (places 1) (start 0))"),
    (3, "(accepted 1)|(machine 0 (places 1) (start 0))|"),
    (3, "(accepted 1)|(machine 0 (places 1) (start 0))||()"),
    // Numbers rise by one from 0.
    (2, "(accepted 1)|(machine 1 (places 1) (start 0))"),
    (3, "(accepted 2)|(machine 0 (places 1) (start 0))|(machine 0 (places 1) (start 0))"),
    (3, "(accepted 2)|(machine 0 (places 1) (start 0))|(machine 2 (places 1) (start 0))"),
    (2, "(accepted 2)|(machine 1 (places 1) (start 0))|(machine 0 (places 1) (start 0))"),
    (2, "(accepted 1)|(machine 00 (places 1) (start 0))"),
    // Places, start, ends.
    (2, "(accepted 1)|(machine 0 (places 0) (start 0))"),
    (2, "(accepted 1)|(machine 0 (places 65) (start 0))"),
    (2, "(accepted 1)|(machine 0 (places 2) (start 2))"),
    (2, "(accepted 1)|(machine 0 (places 2) (start 0) (move a 0 2))"),
    (2, "(accepted 1)|(machine 0 (places 2) (start 0) (move a 2 0))"),
    (2, "(accepted 1)|(machine 0 (places 2) (start 0) (move a 1 1))"),
    (2, "(accepted 1)|(machine 0 (places 2) (start 0) (move a 0 01))"),
    // An event once on a machine, by whatever move.
    (2, "(accepted 1)|(machine 0 (places 2) (start 0) (move a 0 1) (move a 0 1))"),
    (
        3,
        "(accepted 2)|(machine 0 (places 2) (start 0) (move a 0 1))|\
         (machine 1 (places 2) (start 0) (move a 0 1) (move b 0 1) (move a 1 0))",
    ),
    // The form.
    (2, "(accepted 1)|(machine 0 (places 1)  (start 0))"),
    (2, "(accepted 1)|(machine 0 (places 1) (start 0) )"),
    (2, "(accepted 1)|(machine 0 (start 0) (places 1))"),
    (2, "(accepted 1)|(machine 0 (places 1))"),
    (2, "(accepted 1)|(machine 0 (places 2) (start 0) (move 0a 0 1))"),
    (2, "(accepted 1)|(machine 0 (places 2) (start 0) (move seventeen-letters 0 1))"),
    (2, "(accepted 1)|(net 0 (marked 0) (move a (0) (1)))"),
    (3, "(accepted 2)|(machine 0 (places 1) (start 0))|(net 1 (marked))"),
    // Two faulty lines: the first; and before one that is missing, or too many.
    (2, "(accepted 2)|(machine 0 (places 1) (start 1))|(machine 2 (places 1) (start 0))"),
    (1, "(accepted 17)|(machine 5 (places 0) (start 1))"),
    (2, "(accepted 3)|(machine 0 (places 1) (start 1))"),
    (2, "(accepted 1)|(machine 0 (places 1) (start 1))|(machine 1 (places 1) (start 0))"),
];

/// So many machines, with a move for each name of theirs.
pub fn machines(lists: &[Vec<String>]) -> String {
    let line = |(m, names): (usize, &Vec<String>)| {
        let moves: String = names.iter().map(|name| format!(" (move {name} 0 1)")).collect();
        format!("(machine {m} (places 2) (start 0){moves})\n")
    };
    format!("(accepted {})\n", lists.len()) + &lists.iter().enumerate().map(line).collect::<String>()
}

/// At most 64 names occur, on one machine or on all together; at most 16 machines.
fn bounds() -> Vec<Task> {
    let names = |from: usize, to: usize| (from..to).map(|k| format!("e{k}")).collect::<Vec<_>>();
    let good = [
        machines(&[names(0, 64)]),
        machines(&[names(0, 32), names(32, 64)]),
        machines(&[names(0, 64), names(0, 64)]),
        machines(&vec![names(0, 64); 16]),
        machines(&vec![names(0, 1); 16]),
    ];
    let bad = [
        (machines(&[names(0, 65)]), "15 2 0"),
        (machines(&[names(0, 64), names(64, 65)]), "15 3 0"),
        (machines(&[names(0, 33), names(20, 53), names(40, 65)]), "15 4 0"),
        (machines(&[names(0, 64), names(0, 65), names(0, 66)]), "15 3 0"),
        (machines(&vec![names(0, 1); 17]), "15 1 0"),
        (machines(&vec![names(0, 1); 17]).replacen("17", "16", 1), "15 18 0"),
    ];
    let bad = bad.into_iter().map(|(sheet, refusal)| known(sheet, Some(refusal)));
    good.into_iter().map(|sheet| known(sheet, None)).chain(bad).collect()
}

/// Over 32,768 bytes no line counts.
fn sizes() -> Vec<Task> {
    let behind = |size: usize| Y.to_string() + &"x".repeat(size - Y.len());
    let sheets = [
        (behind(TEXT_BOUND), "15 4 0"),
        (behind(TEXT_BOUND + 1), "15 0 0"),
        ("x".repeat(TEXT_BOUND), "15 1 0"),
        ("x".repeat(TEXT_BOUND + 1), "15 0 0"),
        ("\n".repeat(TEXT_BOUND + 1), "15 0 0"),
        (Y.to_string() + &"\n".repeat(TEXT_BOUND - Y.len()), "15 4 0"),
        (behind(100_000), "15 0 0"),
        (String::new(), "15 1 0"),
        (Y.trim_end().to_string(), "15 3 0"),
        ("(accepted 2)".to_string(), "15 1 0"),
    ];
    sheets.into_iter().map(|(sheet, refusal)| known(sheet, Some(refusal))).collect()
}

pub fn all() -> Vec<Task> {
    let faults = FAULTS.iter().map(|(line, sheet)| known(lines(sheet), Some(&format!("15 {line} 0"))));
    let good = GOOD.iter().map(|sheet| known(lines(sheet), None));
    let mut tasks = vec![on_y()];
    tasks.extend(good.chain(faults));
    tasks.extend(bounds());
    tasks.extend(sizes());
    tasks
}
