//! Splits written by hand, each with the sheet that merging their places gives.
use crate::call::{call, lending, Task};
use crate::draft::{lines, q_with_third, with, y_from, y_with_first_again, ONE_STATE, Y};

/// Four states in a ring.
const RING: &str = "(states 4)|(events a b c d)|(step 0 a 1)|(step 1 b 2)|(step 2 c 3)|(step 3 d 0)|";
const EACH: &str = "(machine (0) (1) (2) (3))";

/// The machines of the ring, and the merged split's sheet.
const MERGED: &[(&str, &str)] = &[
    // An event that is on one machine only keeps its places apart: none is merged.
    (EACH, "(accepted 1)|(machine 0 (places 4) (start 0) (move a 0 1) (move b 1 2) (move c 2 3) (move d 3 0))"),
    // Of two machines alike the lower gives all its places away, whichever order they have.
    (
        "(machine (0) (1) (2) (3))|(machine (0) (1) (2) (3))",
        "(accepted 2)|(machine 0 (places 1) (start 0))|\
         (machine 1 (places 4) (start 0) (move a 0 1) (move b 1 2) (move c 2 3) (move d 3 0))",
    ),
    (
        "(machine (1) (0) (2) (3))|(machine (3) (2) (0) (1))",
        "(accepted 2)|(machine 0 (places 1) (start 0))|\
         (machine 1 (places 4) (start 2) (move a 2 3) (move b 3 1) (move c 1 0) (move d 0 2))",
    ),
    // Higher places close up: 3 becomes 2 where 2 is merged into 0.
    (
        "(machine (0) (1) (2) (3))|(machine (0 1) (2 3))",
        "(accepted 2)|(machine 0 (places 3) (start 0) (move a 0 1) (move b 1 2) (move c 2 1) (move d 1 0))|\
         (machine 1 (places 2) (start 0) (move b 0 1) (move d 1 0))",
    ),
    (
        "(machine (0 1) (2 3))|(machine (0) (1) (2) (3))|(machine (1 2) (0 3))",
        "(accepted 3)|(machine 0 (places 1) (start 0))|\
         (machine 1 (places 3) (start 0) (move a 0 1) (move b 1 0) (move c 0 2) (move d 2 0))|\
         (machine 2 (places 2) (start 1) (move a 1 0) (move c 0 1))",
    ),
    // Places 1 and 3 could be merged, or 2 and 3: the lower number decides. What follows from it is another machine 1.
    (
        "(machine (0) (1) (2) (3))|(machine (0 1) (2) (3))",
        "(accepted 2)|(machine 0 (places 3) (start 0) (move a 0 1) (move b 1 2) (move c 2 1) (move d 1 0))|\
         (machine 1 (places 2) (start 0) (move b 0 1) (move d 1 0))",
    ),
    (
        "(machine (0) (1) (3) (2))|(machine (0 1) (2) (3))",
        "(accepted 2)|(machine 0 (places 3) (start 0) (move a 0 1) (move b 1 2) (move c 2 1) (move d 1 0))|\
         (machine 1 (places 2) (start 0) (move b 0 1) (move d 1 0))",
    ),
    // Two merges in one machine; beside what is left of it the next has one place, and the last none to give.
    (
        "(machine (0) (1) (2) (3))|(machine (0 1) (2) (3))|(machine (1) (0 2) (3))",
        "(accepted 3)|(machine 0 (places 2) (start 0) (move a 0 1) (move c 1 0))|(machine 1 (places 1) (start 0))|\
         (machine 2 (places 3) (start 1) (move a 1 0) (move b 0 1) (move c 1 2) (move d 2 1))",
    ),
    // A machine of one place stays as it is.
    (
        "(machine (3 2 1 0))|(machine (0) (1) (2) (3))",
        "(accepted 2)|(machine 0 (places 1) (start 0))|\
         (machine 1 (places 4) (start 0) (move a 0 1) (move b 1 2) (move c 2 3) (move d 3 0))",
    ),
];

/// The ring with one place a state again and again: only the last machine keeps its places.
fn sixteen() -> (String, String) {
    let one = |m: usize| format!("(machine {m} (places 1) (start 0))|");
    let last = "(machine 15 (places 4) (start 0) (move a 0 1) (move b 1 2) (move c 2 3) (move d 3 0))";
    let text = format!("{RING}{}", [EACH; 16].join("|"));
    (lines(&text), lines(&format!("(accepted 16)|{}{last}", (0..15).map(one).collect::<String>())))
}

/// Where the places stand if the plan starts in its last state, which after merging is in place 1.
fn from_the_last() -> (String, String) {
    let text = format!("{RING}(machine (0) (1) (2) (3))|(machine (0 1) (2 3))").replacen('4', "4 start 3", 1);
    let sheet = "(accepted 2)|(machine 0 (places 3) (start 1) (move a 0 1) (move b 1 2) (move c 2 1) (move d 1 0))|\
                 (machine 1 (places 2) (start 1) (move b 0 1) (move d 1 0))";
    (lines(&text), lines(sheet))
}

fn of_examples() -> Vec<(String, String)> {
    let y = "(accepted 2)|(machine 0 (places 2) (start 0) (move ready 0 1) (move home 1 0))|\
             (machine 1 (places 2) (start 0) (move brake 0 1) (move home 1 0))";
    let again = "(accepted 3)|(machine 0 (places 1) (start 0))|\
                 (machine 1 (places 2) (start 0) (move brake 0 1) (move home 1 0))|\
                 (machine 2 (places 2) (start 0) (move ready 0 1) (move home 1 0))";
    let third = "(accepted 3)|(machine 0 (places 1) (start 0))|(machine 1 (places 1) (start 0))|\
                 (machine 2 (places 2) (start 0) (move ready 0 1) (move brake 0 1))";
    let one_state = "(accepted 1)|(machine 0 (places 1) (start 0))";
    vec![
        (Y.to_string(), lines(y)),
        (y_from(3), lines(&y.replace("start 0", "start 1"))),
        (y_with_first_again(), lines(again)),
        (q_with_third(), lines(third)),
        (ONE_STATE.to_string(), lines(one_state)),
        (with(ONE_STATE, "1", "1 start 0"), lines(one_state)),
    ]
}

fn all() -> Vec<(String, String)> {
    let ring = |(machines, sheet): &(&str, &str)| (lines(&format!("{RING}{machines}")), lines(sheet));
    MERGED.iter().map(ring).chain([sixteen(), from_the_last()]).chain(of_examples()).collect()
}

/// The sheet as it is, in just as many bytes, and refused in one less and in none.
pub fn known() -> Vec<Task> {
    let task = |(text, sheet): (String, String)| {
        let size = sheet.len();
        let refused = format!("(refused 13 {size} 0)\n");
        let of = |lent: usize, answer: &str| lending("merge", Some(lent.to_string())).giving(answer);
        let calls = vec![call("merge").giving(&sheet), of(size, &sheet), of(size - 1, &refused), of(0, &refused)];
        Task::new("merged", text, calls)
    };
    all().into_iter().map(task).collect()
}

/// Some of them, for every call.
pub fn texts() -> Vec<String> {
    [sixteen(), from_the_last()].into_iter().map(|(text, _)| text).collect()
}
