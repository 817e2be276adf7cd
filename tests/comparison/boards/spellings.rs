//! Sheets with capitals in their names, the same at every run: request 5 by hand, and each byte in each place of a
//! name.
use crate::boards::written::{known, machines};
use crate::call::{board, call, Call, Task};
use crate::dice::Dice;
use crate::draft::lines;
use crate::letters::{self, Case};

/// Spelt in several ways: events on both machines, and each move as it is.
const DRAWN: &str = "(accepted 2)|(machine 0 (places 2) (start 0) (move READY 0 1) (move Home-1 1 0))|\
                     (machine 1 (places 2) (start 0) (move Brake 0 1) (move hOME-1 1 0))";

/// Lists of names for it, with bars for byte 10.
const LISTS: &[(&str, &str)] = &[
    ("READY|", "(whole (places 1 0))"),
    ("ready|", "(whole (places 1 0))"),
    ("rEAdY|bRAKE|", "(whole (places 1 1))"),
    ("Ready|BRAKE|HOME-1|", "(whole (places 0 0))"),
    ("ready|brake|hOME-1|Home-1|", "(blocked 3 0 (places 0 0))"),
    ("ready|home-1|", "(blocked 1 1 (places 1 0))"),
    ("Ready|Brake", "(refused 14 1 0)"),
    ("Ready|brak|", "(refused 14 1 0)"),
    ("HOME-|", "(refused 14 0 0)"),
    ("HOME1|", "(refused 14 0 0)"),
    ("HOME--|", "(refused 14 0 0)"),
    ("HOMEM1|", "(refused 14 0 0)"),
    ("HOME-q|", "(refused 14 0 0)"),
    ("HOME-\x11|", "(refused 14 0 0)"),
    ("HOME\r1|", "(refused 14 0 0)"),
    ("HOME-1\0|", "(refused 14 0 0)"),
    ("BR@KE|", "(refused 14 0 0)"),
    ("br`ke|", "(refused 14 0 0)"),
];

fn drawn() -> Task {
    let sheet = lines(DRAWN);
    let listed = |(names, printed): &(&str, &str)| board(names.replace('|', "\n")).giving(&lines(printed));
    let calls = std::iter::once(call("sheet").giving(&sheet)).chain(LISTS.iter().map(listed)).collect();
    Task::new("spelling", sheet, calls)
}

/// The first faulty line, and the sheet.
const FAULTS: &[(usize, &str)] = &[
    (2, "(accepted 1)|(machine 0 (places 2) (start 0) (move a 0 1) (move A 0 1))"),
    (2, "(accepted 1)|(machine 0 (places 2) (start 0) (move Home 0 1) (move b 0 1) (move hOME 1 0))"),
    (
        3,
        "(accepted 2)|(machine 0 (places 2) (start 0) (move a 0 1))|\
         (machine 1 (places 2) (start 0) (move A 0 1) (move a 1 0))",
    ),
    (2, "(accepted 1)|(machine 0 (places 2) (start 0) (move A@ 0 1))"),
    (2, "(accepted 1)|(machine 0 (places 2) (start 0) (move [ 0 1))"),
    (2, "(accepted 1)|(machine 0 (places 2) (start 0) (move 0A 0 1))"),
    (2, "(accepted 1)|(machine 0 (places 2) (start 0) (move -A 0 1))"),
    (2, "(accepted 1)|(machine 0 (places 2) (start 0) (move SEVENTEEN-LETTERS 0 1))"),
    (2, "(accepted 1)|(machine 0 (places 2) (start 0) (MOVE a 0 1))"),
    (2, "(accepted 1)|(machine 0 (places 2) (Start 0) (move a 0 1))"),
    (2, "(accepted 1)|(machine 0 (PLACES 2) (start 0) (move a 0 1))"),
    (2, "(accepted 1)|(Machine 0 (places 2) (start 0) (move a 0 1))"),
    (1, "(ACCEPTED 1)|(machine 0 (places 2) (start 0) (move a 0 1))"),
];

/// At most 64 events, however often they are spelt otherwise.
fn bounds() -> Vec<Task> {
    let names = |from: usize, to: usize, e: &str| (from..to).map(|k| format!("{e}{k}")).collect::<Vec<_>>();
    let cases = ["name-", "NAME-", "Name-", "nAME-", "naMe-", "namE-", "NAme-", "naME-"];
    let all = cases.map(|case| names(0, 64, case));
    let turned = |k: usize| cases.iter().cycle().skip(k).zip(0..64).map(|(e, n)| format!("{e}{n}")).collect();
    let turned: Vec<Vec<String>> = (0..16).map(turned).collect();
    let good = [machines(&all), machines(&all[..2]), machines(&turned), machines(&[all[1].clone()])];
    let bad = [
        (machines(&[names(0, 65, "NAME-")]), "15 2 0"),
        (machines(&[names(0, 64, "name-"), names(0, 65, "NAME-")]), "15 3 0"),
        (machines(&[names(0, 33, "Name-"), names(20, 53, "NAME-"), names(40, 65, "name-")]), "15 4 0"),
        (machines(&[[names(0, 63, "name-"), names(0, 1, "NAME-")].concat()]), "15 2 0"),
        (machines(&[names(0, 64, "name-"), [names(0, 63, "NAME-"), names(0, 1, "Name-")].concat()]), "15 3 0"),
    ];
    let bad = bad.into_iter().map(|(sheet, refusal)| known(sheet, Some(refusal)));
    good.into_iter().map(|sheet| known(sheet, None)).chain(bad).collect()
}

// ---- By the library only ------------------------------------------------------------

/// Of every kind of byte, and longer than a word.
const NAME: &[u8] = b"aZ5-zA09m";

/// The names of the first machine, and those of the second, behind which another follows, so that they may be read by
/// another way.
fn naming(first: &[u8], second: &[u8]) -> Vec<u8> {
    let head: [&[u8]; 2] = [
        b"(accepted 3)\n(machine 0 (places 2) (start 0) (move ",
        b"(machine 1 (places 2) (start 0) (move b 0 1) (move ",
    ];
    let rest: [&[u8]; 2] =
        [b" 0 1) (move b 0 1))\n", b" 1 0))\n(machine 2 (places 10) (start 9) (move home 9 0) (move back 0 9))\n"];
    [head[0], first, rest[0], head[1], second, rest[1]].concat()
}

fn other_byte() -> impl Iterator<Item = Vec<u8>> {
    let other = |(k, byte): (usize, u8)| [&NAME[..k], &[byte], &NAME[k + 1..]].concat();
    (0..NAME.len()).flat_map(|k| (0..=255).map(move |byte| (k, byte))).map(other)
}

/// Each byte in each place of a name, on either machine, in another case there too.
fn each_byte() -> Vec<Task> {
    let mut dice = Dice::new(5);
    let task = |other: Vec<u8>| {
        let mut again = NAME.to_vec();
        letters::spell(&mut dice, Case::Any, &mut again);
        let calls = || vec![call("sheet").by_library(), board([NAME, b"\n"].concat()).by_library()];
        [naming(&other, &again), naming(&again, &other)].map(|sheet| Task::new("byte of a name", sheet, calls()))
    };
    other_byte().flat_map(task).collect()
}

/// The same in a list of names.
fn each_byte_asked() -> Task {
    let mut dice = Dice::new(5);
    let asked = |mut name: Vec<u8>| {
        letters::spell(&mut dice, Case::Any, &mut name);
        board([b"b\n", &name[..], b"\n"].concat()).by_library()
    };
    let calls: Vec<Call> = other_byte().map(asked).collect();
    Task::new("byte of a name", naming(NAME, b"home"), calls)
}

pub fn all() -> Vec<Task> {
    let faults = FAULTS.iter().map(|(line, sheet)| known(lines(sheet), Some(&format!("15 {line} 0"))));
    let mut tasks = vec![drawn(), each_byte_asked()];
    tasks.extend(faults.chain(bounds()).chain(each_byte()));
    tasks
}
