//! Texts and calls written by hand, each with its answer: the examples of document 01 and of request 2, traps, and two
//! faults in one text.
use crate::call::{call, Task};
use crate::draft::{lines, q_with_third, with, y_from, y_with_first_again, ONE_STATE, Q, Y};

pub fn open(kind: &'static str, text: impl Into<Vec<u8>>) -> Task {
    Task::new(kind, text, vec![call("check")])
}

/// The answer as `lines` takes it.
pub fn known(kind: &'static str, text: impl Into<Vec<u8>>, answer: &str) -> Task {
    Task::new(kind, text, vec![call("check").giving(&lines(answer))])
}

pub fn examples() -> Vec<Task> {
    let first = "(machine 0 (places 2) (start 0) (move ready 0 1) (move home 1 0))";
    let second = "(machine 1 (places 2) (start 0) (move brake 0 1) (move home 1 0))";
    let again = first.replace("machine 0", "machine 2");
    let third = "(accepted 3)|(machine 0 (places 2) (start 0) (move ready 0 1))|\
                 (machine 1 (places 2) (start 0) (move brake 0 1))|\
                 (machine 2 (places 2) (start 0) (move ready 0 1) (move brake 0 1))";
    let starting = |places: [usize; 2]| {
        let line = |line: &str, place: usize| line.replace("start 0", &format!("start {place}"));
        format!("(accepted 2)|{}|{}", line(first, places[0]), line(second, places[1]))
    };
    let renumbered = "(accepted 3)|(machine 0 (places 2) (start 1) (move ready 1 0))|\
                      (machine 1 (places 2) (start 0) (move brake 0 1))|\
                      (machine 2 (places 2) (start 1) (move ready 1 0) (move brake 1 0))";
    let states = |n: usize| format!("(states {n})\n(events)\n(machine (0))\n");
    let long = "seventeen-letters";
    let examples = [
        (Y.to_string(), format!("(accepted 2)|{first}|{second}")),
        (y_without_last(), "(refused 11 1 0)".to_string()),
        (y_uneven(), "(refused 10 0 0)".to_string()),
        (Q.to_string(), "(refused 12 0 2)".to_string()),
        (q_with_third(), third.to_string()),
        (y_with_first_again(), format!("(accepted 3)|{first}|{second}|{again}")),
        (ONE_STATE.to_string(), "(accepted 1)|(machine 0 (places 1) (start 0))".to_string()),
        (lines("(states 2)|(events)|(machine (0 1))"), "(refused 7 1 0)".to_string()),
        (states(256), "(refused 7 1 0)".to_string()),
        (states(0), "(refused 2 1 0)".to_string()),
        (states(257), "(refused 2 1 0)".to_string()),
        (with(Y, "ready", long), "(refused 1 2 0)".to_string()),
        (with(Y, "step 0 brake", &format!("step 0 {long}")), "(refused 1 4 0)".to_string()),
        (String::new(), "(refused 1 1 0)".to_string()),
        (with(ONE_STATE, "machine (0)", "machine"), "(refused 1 3 0)".to_string()),
        (with(ONE_STATE, "machine (0)", ""), "(refused 1 3 0)".to_string()),
        (y_from(0), starting([0, 0])),
        (y_from(1), starting([1, 0])),
        (y_from(2), starting([0, 1])),
        (y_from(3), starting([1, 1])),
        (y_from(4), "(refused 3 1 0)".to_string()),
        (with(Y, "4", "4 start 03"), "(refused 1 1 0)".to_string()),
        (with(ONE_STATE, "1", "1 start 0"), "(accepted 1)|(machine 0 (places 1) (start 0))".to_string()),
        (with(ONE_STATE, "1", "0 start 0"), "(refused 2 1 0)".to_string()),
        (with(ONE_STATE, "1", "257 start 300"), "(refused 2 1 0)".to_string()),
        (with(ONE_STATE, "1", "256 start 255"), "(refused 7 0 0)".to_string()),
        (with(Q, "3", "3 start 1"), "(refused 7 0 0)".to_string()),
        (q_from_2(), renumbered.to_string()),
        (backward(), "(accepted 1)|(machine 0 (places 2) (start 1) (move a 1 0))".to_string()),
    ];
    examples.map(|(text, answer)| known("example", text, &answer)).into()
}

/// The refusal, and the text.
const FAULTS: &[(&str, &str)] = &[
    // Traps: an unheld event with a step in every state; steps that start in one place and do not cross; an excitation
    // set that lies within the common states and is less than these.
    ("11 0 0", "(states 2)|(events a)|(step 0 a 1)|(step 1 a 0)|(machine (0 1))"),
    ("11 0 0", "(states 3)|(events a b)|(step 0 a 1)|(step 1 b 2)|(machine (0 1) (2))"),
    ("12 1 0", "(states 3)|(events b a)|(step 0 b 1)|(step 1 a 2)|(machine (0 1) (2))|(machine (0) (1 2))"),
    // On one line 1 before 2 before 3, else by line.
    ("1 1 0", "(states 257 )|(events)|(machine (0))"),
    ("2 1 0", "(states 0)|(events 0a)|(machine (0))"),
    ("1 2 0", "(states 2)|(events a a -)|(machine (0))"),
    ("3 3 0", "(states 2)|(events a)|(step 0 b 1)|()"),
    ("1 3 0", "(states 2)|(events a)|(step 0 b 01)|(machine (0 1))"),
    // So with a start on line 1, which has to be a state.
    ("1 1 0", "(states 0 start)|(events)|(machine (0))"),
    ("1 1 0", "(states 257 start 1000)|(events)|(machine (0))"),
    ("2 1 0", "(states 257 start 0)|(events 0a)|(machine (0))"),
    ("2 1 0", "(states 257 start 257)|(events)|(machine (0))"),
    ("3 1 0", "(states 256 start 256)|(events)|(machine (0))"),
    ("3 1 0", "(states 1 start 1)|()"),
    ("3 2 0", "(states 2 start 1)|(events a a)|(machine (0 1))"),
    // All lines before 4, a missing one too.
    ("3 4 0", "(states 2)|(events a)|(step 0 a 0)|(step 0 b 1)|(machine (0 1))"),
    ("3 4 0", "(states 2)|(events a)|(step 0 a 0)|(machine (2))"),
    ("1 4 0", "(states 2)|(events a)|(step 0 a 0)|(machine (0 1)"),
    ("2 4 0", "(states 2)|(events a)|(step 0 a 0)"),
    // 4 and 5 by line, on one line 4 first; the very same step again is 5.
    ("4 4 0", "(states 2)|(events a)|(step 0 a 1)|(step 0 a 0)|(machine (0 1))"),
    ("4 3 0", "(states 2)|(events a)|(step 0 a 0)|(step 0 a 1)|(machine (0 1))"),
    ("5 4 3", "(states 3)|(events a)|(step 0 a 1)|(step 0 a 2)|(step 1 a 1)|(machine (0 1 2))"),
    ("5 5 3", "(states 2)|(events a)|(step 0 a 1)|(step 1 a 0)|(step 0 a 1)|(machine (0 1))"),
    ("5 5 4", "(states 3)|(events a)|(step 0 a 1)|(step 1 a 2)|(step 1 a 2)|(step 0 a 1)|(machine (0))"),
    // 4 and 5 before 6, 6 before 7, 7 before 8; of 6 and 7 the lowest.
    ("4 3 0", "(states 2)|(events b a)|(step 0 a 0)|(machine (0 1))"),
    ("5 4 3", "(states 2)|(events b a)|(step 0 a 1)|(step 0 a 1)|(machine (0 1))"),
    ("6 0 0", "(states 3)|(events b c a d)|(step 0 c 1)|(machine (0 1))"),
    ("6 1 0", "(states 3)|(events c b a d)|(step 0 c 1)|(machine (0 1 2))"),
    ("7 1 0", "(states 4)|(events a)|(step 0 a 2)|(step 1 a 3)|(step 3 a 1)|(machine (0 0))"),
    ("7 3 0", "(states 4)|(events a)|(step 0 a 1)|(step 1 a 2)|(machine (0 0))"),
    // 7 from the start, so that it may name state 0.
    ("7 0 0", "(states 2 start 1)|(events)|(machine (0 0))"),
    ("7 0 0", "(states 3 start 1)|(events a b)|(step 0 a 1)|(step 1 b 2)|(machine (0 1 2))"),
    ("7 1 0", "(states 3 start 2)|(events a)|(step 2 a 0)|(step 1 a 0)|(machine (0 1 2))"),
    ("6 1 0", "(states 3 start 1)|(events a b)|(step 0 a 1)|(machine (0 1 2))"),
    ("5 4 3", "(states 3 start 1)|(events a b)|(step 0 a 1)|(step 0 a 2)|(machine (0 1 2))"),
    // In one machine 8, 9, 10, of each the lowest state or event.
    ("8 0 1", "(states 3)|(events a)|(step 0 a 1)|(step 1 a 2)|(machine (2 2 1) (1))"),
    ("8 0 0", "(states 3)|(events a)|(step 0 a 1)|(step 1 a 2)|(machine (0 2 0))"),
    ("9 0 1", "(states 4)|(events a)|(step 0 a 1)|(step 1 a 2)|(step 2 a 3)|(machine (3) (0))"),
    ("9 0 0", "(states 4)|(events a)|(step 0 a 1)|(step 1 a 2)|(step 2 a 3)|(machine (1 2) (3))"),
    // The place of state 0 shows event b only, that of state 2 event a only.
    ("10 0 0", "(states 3)|(events a b)|(step 0 b 1)|(step 1 b 0)|(step 1 a 2)|(step 2 a 1)|(machine (0) (1) (2))"),
    ("10 0 0", "(states 3)|(events b a)|(step 0 b 1)|(step 1 b 0)|(step 1 a 2)|(step 2 a 1)|(machine (2) (1) (0))"),
    ("10 0 1", "(states 3)|(events b a)|(step 0 b 1)|(step 1 b 0)|(step 1 a 2)|(step 2 a 1)|(machine (0 1) (2))"),
    // Machine by machine, and all machines before 11.
    ("10 0 0", "(states 3)|(events a)|(step 0 a 1)|(step 1 a 2)|(machine (0) (1 2))|(machine (0 0) (1))"),
    ("9 0 2", "(states 3)|(events a)|(step 0 a 1)|(step 1 a 2)|(machine (0 1))|(machine (0 0) (1 2))"),
    ("9 1 0", "(states 3)|(events a)|(step 0 a 1)|(step 1 a 2)|(machine (0 1 2))|(machine (2 1))"),
    (
        "10 1 1",
        "(states 3)|(events a b)|(step 0 a 1)|(step 1 b 2)|(step 0 b 2)|(machine (0 1 2))|(machine (0) (1) (2))",
    ),
    // With a start the same states and events are named.
    ("9 0 0", "(states 2 start 1)|(events a)|(step 1 a 0)|(machine (1))"),
    ("11 0 0", "(states 2 start 1)|(events a)|(step 1 a 0)|(machine (0 1))"),
    ("12 0 0", "(states 3 start 2)|(events a b)|(step 2 a 1)|(step 2 b 0)|(machine (2 0) (1))|(machine (2 1) (0))"),
    // All events of 11 before 12, of each the lowest event, then the lowest state.
    ("11 1 0", "(states 3)|(events ready brake)|(step 0 ready 1)|(step 0 brake 2)|(machine (0 2) (1))"),
    ("11 0 0", "(states 3)|(events a b)|(step 0 a 1)|(step 0 b 2)|(machine (0 1 2))"),
    ("12 0 1", "(states 3)|(events b a)|(step 0 a 1)|(step 0 b 2)|(machine (0 1) (2))|(machine (0 2) (1))"),
    (
        "12 0 2",
        "(states 4)|(events a b c)|(step 0 a 1)|(step 0 b 2)|(step 2 c 3)|\
         (machine (3 2 0) (1))|(machine (0 1) (2) (3))",
    ),
    (
        "12 1 2",
        "(states 4)|(events c a b)|(step 0 a 1)|(step 0 b 2)|(step 2 c 3)|\
         (machine (3 2 0) (1))|(machine (0 1) (2) (3))",
    ),
];

pub fn faults() -> Vec<Task> {
    FAULTS.iter().map(|(refusal, text)| known("fault", lines(text), &format!("(refused {refusal})"))).collect()
}

/// Calls of the other services on the examples, each with its answer.
const CALLS: &[(fn() -> String, &str, &str)] = &[
    (y, "run 0 1 2 2", "(blocked 3 0 (places 0 0))"),
    (y, "run ready 1 home 2", "(blocked 3 0 (places 0 0))"),
    (y, "run", "(whole (places 0 0))"),
    (y, "run 0", "(whole (places 1 0))"),
    (y, "run brake", "(whole (places 0 1))"),
    (y, "run 2", "(blocked 0 0 (places 0 0))"),
    (y, "run ready home brake", "(blocked 1 1 (places 1 0))"),
    (y, "run ready brake early", "(refused 14 2 0)"),
    (y, "run 2 3 0 300", "(refused 14 1 0)"),
    (y, "thin", "(kept 2 (0 1))"),
    (y, "steps", "(steps 5)|(step 0 0 1)|(step 0 1 2)|(step 1 1 3)|(step 2 0 3)|(step 3 2 0)"),
    (y, "steps 5", "(steps 5)|(step 0 0 1)|(step 0 1 2)|(step 1 1 3)|(step 2 0 3)|(step 3 2 0)"),
    (y, "steps 4", "(refused 13 5 0)"),
    (y, "steps 0", "(refused 13 5 0)"),
    (y, "quote", "(line machine 0 40028)|(line machine 1 40028)|(line wire home 618)|(total 80674)"),
    (y, "quote 2", "(refused 13 81 0)"),
    (y, "check 144", "(refused 13 145 0)"),
    (y, "check 0", "(refused 13 145 0)"),
    (y, "name 0", "ready"),
    (y, "name home", "home"),
    (y, "name 3", "(refused 14 0 0)"),
    (y, "name early", "(refused 14 0 0)"),
    (y_from_3, "run", "(whole (places 1 1))"),
    (y_from_3, "run home", "(whole (places 0 0))"),
    (y_from_3, "run ready", "(blocked 0 0 (places 1 1))"),
    (y_from_3, "run brake", "(blocked 0 1 (places 1 1))"),
    (y_from_3, "run home ready home", "(blocked 2 1 (places 1 0))"),
    (y_from_3, "run 2 1 0 2 2", "(blocked 4 0 (places 0 0))"),
    (y_from_3, "run 2 3", "(refused 14 1 0)"),
    (y_from_3, "thin", "(kept 2 (0 1))"),
    (y_from_3, "steps", "(steps 5)|(step 0 0 1)|(step 0 1 2)|(step 1 1 3)|(step 2 0 3)|(step 3 2 0)"),
    (y_from_3, "steps 4", "(refused 13 5 0)"),
    (y_from_3, "check 144", "(refused 13 145 0)"),
    (y_from_3, "name 0", "ready"),
    (y_from_3, "name home", "home"),
    (y_from_3, "name 3", "(refused 14 0 0)"),
    (q_from_2, "run", "(whole (places 1 0 1))"),
    (q_from_2, "run 1", "(whole (places 1 1 0))"),
    (q_from_2, "run 0 1", "(blocked 1 2 (places 0 0 0))"),
    (q_from_2, "thin", "(kept 1 (2))"),
    (backward, "run", "(whole (places 1))"),
    (backward, "run a", "(whole (places 0))"),
    (backward, "run a a", "(blocked 1 0 (places 0))"),
    (backward, "steps", "(steps 1)|(step 1 0 0)"),
    (backward, "name a", "a"),
    (backward, "thin", "(kept 1 (0))"),
    (y_with_first_again, "thin", "(kept 2 (0 1))"),
    (q_with_third, "thin", "(kept 1 (2))"),
    (q_with_third, "run 0", "(whole (places 1 0 1))"),
    (q_with_third, "run 0 1", "(blocked 1 2 (places 1 0 1))"),
    (one_state, "run", "(whole (places 0))"),
    (one_state, "run 0", "(refused 14 0 0)"),
    (one_state, "thin", "(kept 1 (0))"),
    (one_state, "steps", "(steps 0)"),
    (one_state, "steps 0", "(steps 0)"),
    (one_state, "name 0", "(refused 14 0 0)"),
    (q, "run early", "(refused 12 0 2)"),
    (q, "thin", "(refused 12 0 2)"),
    (q, "quote", "(refused 12 0 2)"),
    (q, "quote 0", "(refused 12 0 2)"),
    (q, "steps", "(steps 2)|(step 0 0 1)|(step 0 1 2)"),
    (q, "name 1", "brake"),
    (y_without_last, "run 300", "(refused 11 1 0)"),
    (y_without_last, "thin", "(refused 11 1 0)"),
    (y_without_last, "quote 2", "(refused 11 1 0)"),
    (y_without_last, "name brake", "brake"),
    (y_uneven, "run", "(refused 10 0 0)"),
    (y_uneven, "thin", "(refused 10 0 0)"),
    (y_uneven, "quote 2", "(refused 10 0 0)"),
];

fn y() -> String {
    Y.to_string()
}

fn q() -> String {
    Q.to_string()
}

fn one_state() -> String {
    ONE_STATE.to_string()
}

fn y_from_3() -> String {
    y_from(3)
}

/// Q and its third machine, where 0 and 2 have exchanged their numbers and some places their order.
fn q_from_2() -> String {
    lines(
        "(states 3 start 2)|(events ready brake)|(step 2 ready 1)|(step 2 brake 0)|\
         (machine (1) (2 0))|(machine (2 1) (0))|(machine (0 1) (2))",
    )
}

/// All is reached from the start, and not from state 0.
fn backward() -> String {
    lines("(states 2 start 1)|(events a)|(step 1 a 0)|(machine (0) (1))")
}

fn y_without_last() -> String {
    with(Y, "(machine (0 1) (2 3))\n", "")
}

fn y_uneven() -> String {
    with(Y, "(0 2) (1 3))\n(machine (0 1) (2 3))", "(0) (1 2 3))")
}

pub fn calls() -> Vec<Task> {
    let task = |(text, line, answer): &(fn() -> String, &str, &str)| {
        Task::new("example", text(), vec![call(line).giving(&lines(answer))])
    };
    CALLS.iter().map(task).collect()
}
