//! Every way to break the form of a sheet's line, and what is easily read wrongly.
use crate::boards::{Machine, Sheet};
use crate::draft::{alike, with};
use crate::forms::nearby;

/// Every kind of line and of item in few bytes.
const TINY: &str = "(accepted 2)\n(machine 0 (places 3) (start 1) (move a 1 2) (move b-1 2 0))\n(machine 1 (places 2) \
                    (start 0) (move a 0 1))\n";

/// Names of every length that matters to whoever reads words of eight bytes, figures of one and two digits. The second
/// machine has names that were there before and bytes enough behind, so that it may be read by another way.
const WIDE: &str = "(accepted 3)\n(machine 0 (places 64) (start 10) (move a 9 10) (move eight-12 9 63) (move nine-1234 63 0) \
                    (move sixteen-letters- 11 10))\n(machine 1 (places 64) (start 9) (move nine-1234 10 9) (move a 9 63) \
                    (move sixteen-letters- 0 11) (move eight-12 1 0))\n(machine 2 (places 10) (start 9) (move a 9 0))\n";

/// The same in short, for what may stand in the place of the second machine's moves.
const AGAIN: &str = "(accepted 3)\n(machine 0 (places 64) (start 0) (move a 0 1) (move b 1 2))\n(machine 1 (places 3) \
                     (start 1)#)\n(machine 2 (places 10) (start 9) (move home 9 0))\n";

/// Figures at and over every bound, in every position that takes one.
fn figures() -> Vec<String> {
    let figures =
        "0 1 2 3 9 10 11 15 16 17 63 64 65 99 100 255 256 257 999 1000 4294967297 00 01 010 000 0x1 -1 +1 / : 1/ 1: a";
    let holes = [
        "(accepted #)\n(machine 0 (places 2) (start 0))\n",
        "(accepted 1)\n(machine # (places 2) (start 0))\n",
        "(accepted 2)\n(machine 0 (places 2) (start 0))\n(machine # (places 1) (start 0))\n",
        "(accepted 1)\n(machine 0 (places #) (start 0))\n",
        "(accepted 1)\n(machine 0 (places #) (start 1) (move a 0 1))\n",
        "(accepted 1)\n(machine 0 (places 64) (start #))\n",
        "(accepted 1)\n(machine 0 (places 10) (start #) (move a 1 2))\n",
        "(accepted 1)\n(machine 0 (places 64) (start 0) (move a # 1))\n",
        "(accepted 1)\n(machine 0 (places 10) (start 0) (move a 2 #))\n",
        "(accepted 1)\n(machine 0 (places 64) (start 0) (move a # #))\n",
    ];
    let again = [" (move a # 1)", " (move b 1 #)", " (move a # #)", " (move a 2 1) (move b # 0)"];
    let again = again.map(|moves| AGAIN.replace('#', moves));
    let holes = holes.into_iter().map(String::from).chain(again);
    holes.flat_map(|hole| figures.split(' ').map(|f| hole.replace('#', f)).collect::<Vec<_>>()).collect()
}

/// One machine, or two, with a move for each name.
fn with_names(lists: &[&[String]]) -> String {
    let machine = |(number, names): (usize, &&[String])| {
        let moves = names.iter().map(|name| (name.clone(), 0, 1)).collect();
        Machine { number, places: 2, start: 0, moves }
    };
    Sheet { count: lists.len(), machines: lists.iter().enumerate().map(machine).collect() }.text()
}

/// All names on one machine and on two, each of them twice on one machine: last, first or next to itself.
fn names() -> Vec<String> {
    let all = alike();
    let mut sheets = vec![with_names(&[&all]), with_names(&[&all, &all])];
    for (k, name) in all.iter().enumerate() {
        let mut twice = all.clone();
        twice.insert([all.len(), 0, k][k % 3], name.clone());
        sheets.push(with_names(&[&twice]));
        sheets.push(with_names(&[&all, &[name.clone(), "c".to_string(), name.clone()]]));
    }
    let one = |name: &str| with_names(&[&[name.to_string()]]);
    sheets.extend([1, 2, 15, 16, 17, 18, 33].map(|n| one(&"x".repeat(n))));
    for byte in "/0189:@AZ[`abyz{-,._~".chars() {
        sheets.extend([format!("{byte}"), format!("a{byte}")].map(|name| one(&name)));
    }
    for n in 1..=16 {
        let name = "x".repeat(n);
        for padded in (1..=17 - n).map(|zeros| name.clone() + &"\0".repeat(zeros)) {
            sheets.push(with_names(&[&[name.clone(), padded.clone()]]));
            sheets.push(with_names(&[&[name.clone()], &[padded], &["behind".to_string()]]));
        }
    }
    sheets
}

/// What stands in TINY for one of its lines, parted by bars: no bytes at first, then what breaks the form otherwise than
/// by one byte, then two faults on one line or on two.
const FOR_COUNT: &str = "|()|(accepted)|(accepted )|(accepted 2 2)|(accepted (2))|(accepted two)|(Accepted 2)|\
    (accepted 2\0)|(accepted 2)\r|(accepted\t2)|(accepted 2) |(accepted  2)|(accepted 2)\n(accepted 2)|(accepted 02)|\
    \u{feff}(accepted 2)|(accepted 2|accepted 2|(refused 12 0 2)|(states 2)|(accepted 1)|(accepted 3)|(accepted 0)|\
    (accepted 16)|(accepted 17)|(accepted 2)\n|\n(accepted 2)|(machine 0 (places 1) (start 0))|(accepted 2)(machine";
const FOR_MACHINE: &str =
    "|()|(machine)|(machine 0)|(machine 0 (places 3))|(machine 0 (start 1))|(machine (places 3) (start 1))|\
    (machine 0 (start 1) (places 3))|(machine 0 (places 3)(start 1))|(machine 0(places 3) (start 1))|\
    (machine 0  (places 3) (start 1))|(machine  0 (places 3) (start 1))|(machine 0 (places 3)  (start 1))|\
    (machine 0 (places  3) (start 1))|(machine 0 (places 3 ) (start 1))|(machine 0 ( places 3) (start 1))|\
    (machine 0 (places 3) (start 1) )|(machine 0 (places 3) (start 1)) |(machine 0 (places 3) (start 1))\r|\
    (machine 0 (places 3) (start 1)|(machine 0 (places 3) (start 1)))|(machine 0 (places 3 3) (start 1))|\
    (machine 0 (places) (start 1))|(machine 0 (places 3) (start))|(machine 0 (places 3) (start 1 1))|\
    (machine 0 (place 3) (start 1))|(machine 0 (places 3) (starts 1))|(Machine 0 (places 3) (start 1))|\
    (machine 0\t(places 3) (start 1))|(machine 1 (places 3) (start 1))|(machine 00 (places 3) (start 1))|\
    (net 0 (marked 0) (move a (0) (1)))|(net 0 (places 3) (start 1))|(machine 0 (places 03) (start 1))|\
    (machine 0 (places 3) (start 01))|(machine 0 (places 3) (start 3))|(machine 0 (places 0) (start 0))|\
    (machine 0 (places 65) (start 1))|(machine 0 (places 3) (start 1))\n|(machine 0 (places 3) (start 1))\n\n|\
    (machine 0 (places 3) (start 1))(machine 0 (places 3) (start 1))|(machine 0 (0 1) (2))|(accepted 2)|\
    (machine 0 (places 3) (start 1))\n(machine 1 (places 3) (start 1))|(machine 9 (places 3) (start 3))\n()|\
    (machine 0 (places 3) (start 3))\n(machine 5 (places 3) (start 1))";
/// Behind a machine's start.
const FOR_MOVES: &str = "|(move a 0 1)| (move)| (move a)| (move a 0)| (move 0 1)| (move a 0 1 2)| (move a 0 1|\
    \x20(move a 0 1))| (move a 0 1) | (move a 0  1)| (move a  0 1)| (move  a 0 1)| (move a\t0 1)| (moves a 0 1)|\
    \x20(Move a 0 1)| (move A 0 1)| (move 0 0 1)| (move a 1 1)| (move a 0 0)| (move a 0 3)| (move a 3 0)| (move a 0 01)|\
    \x20(move a 00 1)| (move a 0 1)(move b 0 1)| (move a 0 1)  (move b 0 1)| (move a 0 1) (move a 0 1)|\
    \x20(move a 0 1) (move a 1 2)| (move a 0 1) (move b 0 1) (move a 1 0)| (move b 0 1) (move a 1 2)|\
    \x20(move a (0) (1))| (move home (0 1) (2))| (watch a)| (move a 0 1) (watch b)| (start 1)| (move a 0 1) (start 1)|\
    \x20(move a 0 1 )| ( move a 0 1)| (move a -0 1)| (move a 0 1000)| (move a\0 0 1)| (move a 0 1)\0| move a 0 1|\
    \x20(move a 0 1) (move b 0 3) (move a 0 1)| (move b 0 1) (move ab 0 1) (move a 0 1)| ()| (a 0 1)| (places 3)";

fn forms() -> Vec<String> {
    let lines: Vec<&str> = TINY.lines().collect();
    let counts = FOR_COUNT.split('|').map(|other| with(TINY, lines[0], other));
    let machines = FOR_MACHINE.split('|').map(|other| with(TINY, lines[1], other));
    let last = FOR_MACHINE.split('|').map(|other| with(TINY, lines[2], &other.replace("machine 0", "machine 1")));
    let moves = FOR_MOVES.split('|').map(|other| with(TINY, " (move a 1 2) (move b-1 2 0)", other));
    let again = FOR_MOVES.split('|').map(|other| AGAIN.replace('#', other));
    let ends = ["\r\n", " ", "", "\n\n"].map(|end| TINY.replace('\n', end));
    counts.chain(machines).chain(last).chain(moves).chain(again).chain(ends).collect()
}

pub fn all() -> Vec<Vec<u8>> {
    let whole = [figures(), names(), forms()].concat();
    let near = [TINY, WIDE].into_iter().flat_map(|sheet| nearby(sheet.as_bytes()));
    whole.into_iter().map(String::into_bytes).chain(near).collect()
}
