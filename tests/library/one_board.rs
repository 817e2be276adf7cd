//! A Rust program that calls one function of the library for boards only, without a warning: it runs an event of Y's sheet.
#[path = "../../include/board.rs"]
mod board;

const SHEET: &[u8] = b"(accepted 2)
(machine 0 (places 2) (start 0) (move ready 0 1) (move home 1 0))
(machine 1 (places 2) (start 0) (move brake 0 1) (move home 1 0))
";

fn main() {
    let mut ran = board::Run::default();
    ran.places[1] = 1;
    assert_eq!(board::run(SHEET, b"brake\n"), ran);
}
