//! A Rust program that calls one service only, without a warning: it asks how long the sheet of y.plan is.
#[path = "../../include/split.rs"]
mod split;

fn main() {
    let asked = split::check(include_bytes!("../../examples/y.plan"), &mut []);
    assert_eq!(asked, split::Answer { number: split::SHORT_SHEET, detail: 145, second: 0, size: 0 });
}
