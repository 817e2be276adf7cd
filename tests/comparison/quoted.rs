//! Texts with their quotations, written by hand.
use crate::call::{call, lending, Task};
use crate::draft::{lines, q_with_third, with, y_from, y_with_first_again, ONE_STATE, Y};
use crate::limits::chain;
use crate::redundant::shared;

/// What a machine of so many places comes to. With 1, 11, 21, .. its rebate is a half before it is rounded.
const MACHINES: [(usize, i64); 14] = [
    (1, 39_854),
    (2, 40_028),
    (3, 40_202),
    (4, 40_376),
    (10, 41_418),
    (11, 41_591),
    (12, 41_765),
    (21, 43_328),
    (31, 45_065),
    (41, 46_802),
    (51, 48_539),
    (60, 50_103),
    (61, 50_276),
    (64, 50_798),
];

/// What a wire comes to for an event on 2, 3, .. 16 machines.
const WIRES: [i64; 15] =
    [618, 1_235, 1_853, 2_470, 3_088, 3_706, 4_323, 4_941, 5_558, 6_176, 6_794, 7_411, 8_029, 8_646, 9_264];

const SOME: &[(&str, &str)] = &[
    // The machine that is kept has others before and behind it; the credits rise all the same.
    (
        "(states 4)|(events a b c d)|(step 0 a 1)|(step 1 b 2)|(step 2 c 3)|(step 3 d 0)|\
         (machine (0 1) (2 3))|(machine (0) (1) (2) (3))|(machine (1 2) (0 3))",
        "(line machine 1 40376)|(line credit 0 -4535)|(line credit 2 -4535)|(total 31306)",
    ),
    // A machine of one place is dropped beside another, and is no wire's.
    (
        "(states 2)|(events a)|(step 0 a 1)|(machine (0 1))|(machine (0) (1))",
        "(line machine 1 40028)|(line credit 0 -4535)|(total 35493)",
    ),
    // Home as the line of events has it, whatever the steps say.
    (
        "(states 4)|(events ready brake HoMe)|(step 0 ready 1)|(step 0 brake 2)|(step 1 brake 3)|(step 2 ready 3)|\
         (step 3 home 0)|(machine (0 2) (1 3))|(machine (0 1) (2 3))",
        "(line machine 0 40028)|(line machine 1 40028)|(line wire HoMe 618)|(total 80674)",
    ),
];

fn of_examples() -> Vec<(String, String)> {
    let y = "(line machine 0 40028)|(line machine 1 40028)|(line wire home 618)|(total 80674)";
    let again =
        "(line machine 0 40028)|(line machine 1 40028)|(line wire home 618)|(line credit 2 -4535)|(total 76139)";
    let third = "(line machine 2 40028)|(line credit 0 -4535)|(line credit 1 -4535)|(total 30958)";
    let one_state = "(line machine 0 39854)|(total 39854)";
    let examples = [
        (Y.to_string(), y),
        (y_from(3), y),
        (y_with_first_again(), again),
        (q_with_third(), third),
        (ONE_STATE.to_string(), one_state),
        (with(ONE_STATE, "1", "1 start 0"), one_state),
    ];
    examples.map(|(text, quotation)| (text, lines(quotation))).into()
}

/// A machine of two places again and again: with ten of them the credits outweigh what it costs.
fn copies(machines: usize) -> (String, String) {
    let credits: String = (1..machines).map(|k| format!("(line credit {k} -4535)\n")).collect();
    let total = 40_028 - 4_535 * (machines as i64 - 1);
    let text = lines("(states 2)|(events a)|(step 0 a 1)") + &"(machine (0) (1))\n".repeat(machines);
    (text, format!("(line machine 0 40028)\n{credits}(total {total})\n"))
}

fn of_places((places, cents): (usize, i64)) -> (String, String) {
    (chain(places).text(), format!("(line machine 0 {cents})\n(total {cents})\n"))
}

/// All machines have two places and are kept. Each of the first events is on all of them but one, the others are on all.
fn of_wires(names: Vec<String>, machines: usize) -> (String, String) {
    let (mut quotation, mut total) = (String::new(), 0);
    let mut line = |what: String, cents: i64| {
        quotation += &format!("(line {what} {cents})\n");
        total += cents;
    };
    (0..machines).for_each(|k| line(format!("machine {k}"), 40_028));
    for (k, name) in names.iter().enumerate() {
        line(format!("wire {name}"), WIRES[machines - if k < machines { 3 } else { 2 }]);
    }
    (shared(names, machines).text(), format!("{quotation}(total {total})\n"))
}

/// Wires rise by event and not by name.
fn unordered(machines: usize) -> (String, String) {
    of_wires((0..machines + 2).rev().map(|k| format!("{}-{k}", ["b", "A", "c"][k % 3])).collect(), machines)
}

/// No quotation is longer: 16 machines, all kept, 64 wires of four figures with names of 16 bytes, a total of seven.
const LONGEST: usize = 2566;

fn longest() -> (String, String) {
    let (text, quotation) = of_wires((10..74).map(|k| format!("sixteen-bytes-{k}")).collect(), 16);
    assert_eq!(quotation.len(), LONGEST, "the longest quotation");
    (text, quotation)
}

fn all() -> Vec<(String, String)> {
    let some = SOME.iter().map(|(text, quotation)| (lines(text), lines(quotation)));
    let counted = (1..=16).map(copies).chain(MACHINES.map(of_places)).chain((3..=16).map(unordered));
    some.chain(of_examples()).chain(counted).chain([longest()]).collect()
}

/// The quotation as it is, in just as many bytes and in one more, and refused in one less and in none.
fn of((text, quotation): (String, String)) -> Task {
    let size = quotation.len();
    let refused = format!("(refused 13 {size} 0)\n");
    let lent = |lent: usize, answer: &str| lending("quote", Some(lent.to_string())).giving(answer);
    let refusals = [lent(size - 1, &refused), lent(0, &refused)];
    let calls = [call("quote").giving(&quotation), lent(size, &quotation), lent(size + 1, &quotation)];
    Task::new("quoted", text, calls.into_iter().chain(refusals).collect())
}

/// And a machine of each count of places, by whatever it comes to.
pub fn known() -> Vec<Task> {
    let each = (1..=64).map(|places| Task::new("quoted", chain(places).text(), vec![call("quote")]));
    all().into_iter().map(of).chain(each).collect()
}

/// Some of them, for every call.
pub fn texts() -> Vec<String> {
    [copies(16), longest()].into_iter().map(|(text, _)| text).collect()
}
