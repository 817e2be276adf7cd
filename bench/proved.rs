//! The proved library, called as include/split.rs has it.
use crate::call::{again, Call, Program, Service, Told, SHEET, STEPS};
use crate::split::{board, check, merge, name, quote, run, sheet, steps, thin, Answer, Name, Run, Set, Step};
use std::hint::black_box;

/// The answer, unless a refusal has a number.
fn or(told: Told, refusal: [usize; 3]) -> Told {
    match refusal[0] {
        0 => told,
        _ => Told::Refused(refusal),
    }
}

fn ran(answer: Run) -> Told {
    let Run { number, detail, second, blocked, ran, machine, places } = answer;
    or(Told::Ran((blocked == 1).then_some((ran, machine)), places), [number, detail, second])
}

pub struct Proved {
    sheet: Vec<u8>,
    steps: Vec<Step>,
}

impl Proved {
    pub fn new() -> Proved {
        Proved { sheet: vec![0; SHEET], steps: vec![Step::default(); STEPS] }
    }
}

impl Program for Proved {
    fn tell(&mut self, Call { text, service }: &Call) -> Option<Told> {
        Some(match service {
            Service::Check(lent) => {
                let Answer { number, detail, second, size } = check(text, &mut self.sheet[..*lent]);
                or(Told::Written(self.sheet[..size].to_vec()), [number, detail, second])
            }
            Service::Steps => {
                let Answer { number, detail, second, size } = steps(text, &mut self.steps);
                let listed = self.steps[..size].iter().map(|s| [s.source, s.event, s.target]).collect();
                or(Told::Steps(listed), [number, detail, second])
            }
            Service::Name(event) => {
                let Name { number, detail, second, from, size } = name(text, *event);
                or(Told::Name(text[from..from + size].to_vec()), [number, detail, second])
            }
            Service::Run(events) => ran(run(text, events)),
            Service::Thin => {
                let Set { number, detail, second, machines, size } = thin(text);
                or(Told::Kept(machines, size), [number, detail, second])
            }
            Service::Merge => {
                let Answer { number, detail, second, size } = merge(text, &mut self.sheet);
                or(Told::Written(self.sheet[..size].to_vec()), [number, detail, second])
            }
            Service::Quote => {
                let Answer { number, detail, second, size } = quote(text, &mut self.sheet);
                or(Told::Written(self.sheet[..size].to_vec()), [number, detail, second])
            }
            Service::Sheet(lent) => {
                let Answer { number, detail, second, size } = sheet(text, &mut self.sheet[..*lent]);
                or(Told::Written(self.sheet[..size].to_vec()), [number, detail, second])
            }
            Service::Board(names) => ran(board(text, names)),
        })
    }

    fn repeat(&mut self, Call { text, service }: &Call, rounds: usize) {
        let Proved { sheet: bytes, steps: records } = self;
        match service {
            Service::Check(lent) => again(rounds, || check(black_box(text), black_box(&mut bytes[..*lent]))),
            Service::Steps => again(rounds, || steps(black_box(text), black_box(records))),
            Service::Name(event) => again(rounds, || name(black_box(text), black_box(*event))),
            Service::Run(events) => again(rounds, || run(black_box(text), black_box(events))),
            Service::Thin => again(rounds, || thin(black_box(text))),
            Service::Merge => again(rounds, || merge(black_box(text), black_box(bytes))),
            Service::Quote => again(rounds, || quote(black_box(text), black_box(bytes))),
            Service::Sheet(lent) => again(rounds, || sheet(black_box(text), black_box(&mut bytes[..*lent]))),
            Service::Board(names) => again(rounds, || board(black_box(text), black_box(names))),
        }
    }
}
