//! A text or a sheet for each refusal, made from one of about 32 KB by an edit as late in it as the refusal allows.
use crate::call::{Programs, Service, SHEET};
use crate::cases::{last_event, Case, Sheet, Text};
use crate::peer;

/// What is wrong, the text that it is done to, and how.
type Edit = (&'static str, &'static str, fn(&str) -> String);

/// Refusals 1 to 12, in their order.
const EDITS: [Edit; 12] = [
    ("the last byte is missing", "both-32k", |text| text.trim_end().to_string()),
    ("a machine too many", "machines-32k", |text| format!("{text}(machine (0))\n")),
    ("the last state is not declared", "both-32k", |text| ending(text, "255))\n", "256))\n")),
    ("the last step ends where it began", "both-32k", |text| last_step(text, standing)),
    ("the last step is the first again", "both-32k", |text| last_step(text, |first, _| first.to_string())),
    ("no step has the last event", "both-32k", |text| steps(text, |step| step[2] != last_name(text))),
    ("no step leads to the last state", "both-32k", |text| steps(text, |step| step[3] != "255")),
    ("a state twice in the last machine", "both-32k", |text| ending(text, "255))\n", "255 255))\n")),
    ("a state not in the last machine", "both-32k", |text| ending(text, " 255))\n", "))\n")),
    ("two states swapped in the last machine", "both-32k", swapped),
    ("events on no machine", "both-32k", first_machine_again),
    ("a step of the last event missing", "both-32k", step_missing),
];

fn words(line: &str) -> Vec<&str> {
    line.split(['(', ')', ' ', '\n']).filter(|word| !word.is_empty()).collect()
}

fn is_step(line: &str) -> bool {
    line.starts_with("(step ")
}

fn last_name(text: &str) -> &str {
    words(text.lines().nth(1).expect("a line of events")).pop().expect("an event")
}

fn ending(text: &str, from: &str, to: &str) -> String {
    text.strip_suffix(from).expect("a text that ends so").to_string() + to
}

/// The text with only these of its steps.
fn steps(text: &str, kept: impl Fn(&[&str]) -> bool) -> String {
    text.split_inclusive('\n').filter(|line| !is_step(line) || kept(&words(line))).collect()
}

/// The text with another last step, made from the first and the last.
fn last_step(text: &str, made: fn(&str, &str) -> String) -> String {
    let mut lines: Vec<&str> = text.split_inclusive('\n').collect();
    let first = lines.iter().position(|line| is_step(line)).expect("a step");
    let last = lines.iter().rposition(|line| is_step(line)).expect("a step");
    let other = made(lines[first], lines[last]);
    lines[last] = &other;
    lines.concat()
}

fn standing(_: &str, last: &str) -> String {
    let [_, state, event, _] = words(last)[..] else { panic!("no step: {last}") };
    format!("(step {state} {event} {state})\n")
}

/// The last states of the last two places. Of all pairs this makes the lowest uneven event highest.
fn swapped(text: &str) -> String {
    let (before, last) = text.rsplit_once(" 239) (").expect("a place that ends so");
    format!("{before} 255) ({}", ending(last, "255))\n", "239))\n"))
}

fn first_machine_again(text: &str) -> String {
    let is_machine = |line: &&str| line.starts_with("(machine ");
    let first = text.split_inclusive('\n').find(is_machine).expect("a machine");
    text.split_inclusive('\n').map(|line| if is_machine(&line) { first } else { line }).collect()
}

fn step_missing(text: &str) -> String {
    let mut lines: Vec<&str> = text.split_inclusive('\n').collect();
    let of_last_event = |line: &&str| is_step(line) && words(line)[2] == last_name(text);
    lines.remove(lines.iter().rposition(of_last_event).expect("a step of it"));
    lines.concat()
}

/// A case for each refusal, 1 to 15. 13 and 14 are of an accepted text: one byte less than its sheet is lent, or an event
/// that is not declared follows a list that runs. 15 is of a sheet.
pub fn refused(programs: &mut Programs, texts: &[Text], sheets: &[Sheet]) -> Vec<Case> {
    let named = |name: &str| texts.iter().find(|text| text.name == name).expect("a text of that name");
    let edited = EDITS.iter().map(|(what, base, edit)| {
        let text = String::from_utf8(named(base).bytes.clone()).expect("a text of ASCII");
        (*what, edit(&text).into_bytes(), Service::Check(SHEET))
    });
    let Text { bytes, walk, .. } = named("both-32k");
    let cycle = &named("cycle-31k").bytes;
    let peer::Answer::Refused(13, sheet, 0) = peer::check(cycle, &mut []) else { panic!("a sheet in no bytes") };
    let stranger = last_event(bytes) as u8 + 1;
    let last = sheets.last().expect("a sheet");
    let unended = last.bytes[..last.bytes.len() - 1].to_vec();
    let calls = [
        ("a byte too few for the sheet", cycle.clone(), Service::Check(sheet - 1)),
        ("the last event is not declared", bytes.clone(), Service::Run([&walk[..], &[stranger]].concat())),
        ("the last byte of a sheet is missing", unended, Service::Sheet(SHEET)),
    ];
    let case = |(number, (what, text, service)): (usize, (&str, Vec<u8>, Service))| {
        let case = Case::new(programs, what, &text, service);
        assert_eq!(case.refusal().map(|refusal| refusal[0]), Some(number), "{what}");
        case
    };
    (1..).zip(edited.chain(calls)).map(case).collect()
}
