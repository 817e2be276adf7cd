//! Those that the proved library is compared with: the peer, in two parts, and the independent program.
use crate::call::{again, Call, Program, Service, Told, SHEET, STEPS};
use crate::{peer, peer_slips};
use reference::Refusal;
use std::hint::black_box;

/// How many requests of document 02 are in force.
const RULES: reference::Rules = reference::Rules(6);

/// It has no steps and no name, and check, run and thin only on names in small letters.
pub struct Peer {
    sheet: Vec<u8>,
}

impl Peer {
    pub fn new() -> Peer {
        Peer { sheet: vec![0; SHEET] }
    }

    fn written(&self, answer: peer_slips::Answer) -> Told {
        match answer {
            peer_slips::Answer::Accepted(size) => Told::Written(self.sheet[..size].to_vec()),
            peer_slips::Answer::Refused(number, detail, second) => refused(number, detail, second),
        }
    }
}

/// Whether the part of the peer that has check, run and thin reads it.
fn is_small(text: &[u8]) -> bool {
    !text.iter().any(u8::is_ascii_uppercase)
}

fn refused(number: u8, detail: usize, second: usize) -> Told {
    Told::Refused([number.into(), detail, second])
}

impl Program for Peer {
    fn tell(&mut self, Call { text, service }: &Call) -> Option<Told> {
        match service {
            Service::Check(_) | Service::Run(_) | Service::Thin if !is_small(text) => None,
            Service::Check(lent) => Some(match peer::check(text, &mut self.sheet[..*lent]) {
                peer::Answer::Accepted(size) => Told::Written(self.sheet[..size].to_vec()),
                peer::Answer::Refused(number, detail, second) => refused(number, detail, second),
            }),
            Service::Run(events) => {
                let peer::RunAnswer { ran, places, .. } = peer::run(text, events);
                Some(match ran {
                    peer::Ran::Whole => Told::Ran(None, places),
                    peer::Ran::Blocked(count, machine) => Told::Ran(Some((count, machine)), places),
                    peer::Ran::Refused(number, detail, second) => refused(number, detail, second),
                })
            }
            Service::Thin => Some(match peer::thin(text) {
                peer::Thinned::Kept(machines, size) => Told::Kept(machines.into(), size),
                peer::Thinned::Refused(number, detail, second) => refused(number, detail, second),
            }),
            Service::Merge => {
                let answer = peer_slips::merge(text, &mut self.sheet);
                Some(self.written(answer))
            }
            Service::Quote => {
                let answer = peer_slips::quote(text, &mut self.sheet);
                Some(self.written(answer))
            }
            Service::Sheet(lent) => {
                let answer = peer_slips::sheet(text, &mut self.sheet[..*lent]);
                Some(self.written(answer))
            }
            Service::Board(names) => {
                let peer_slips::RunAnswer { ran, places, .. } = peer_slips::board(text, names);
                Some(match ran {
                    peer_slips::Ran::Whole => Told::Ran(None, places),
                    peer_slips::Ran::Blocked(count, machine) => Told::Ran(Some((count, machine)), places),
                    peer_slips::Ran::Refused(number, detail, second) => refused(number, detail, second),
                })
            }
            Service::Steps | Service::Name(_) => None,
        }
    }

    fn repeat(&mut self, Call { text, service }: &Call, rounds: usize) {
        match service {
            Service::Check(lent) => {
                again(rounds, || peer::check(black_box(text), black_box(&mut self.sheet[..*lent])));
            }
            Service::Run(events) => again(rounds, || peer::run(black_box(text), black_box(events))),
            Service::Thin => again(rounds, || peer::thin(black_box(text))),
            Service::Merge => again(rounds, || peer_slips::merge(black_box(text), black_box(&mut self.sheet))),
            Service::Quote => again(rounds, || peer_slips::quote(black_box(text), black_box(&mut self.sheet))),
            Service::Sheet(lent) => {
                again(rounds, || peer_slips::sheet(black_box(text), black_box(&mut self.sheet[..*lent])));
            }
            Service::Board(names) => again(rounds, || peer_slips::board(black_box(text), black_box(names))),
            Service::Steps | Service::Name(_) => unreachable!("a service that the peer has not"),
        }
    }
}

/// It takes its own memory for what it answers.
pub struct Independent;

fn numbers(events: &[u8]) -> Vec<usize> {
    events.iter().map(|event| usize::from(*event)).collect()
}

fn ran(text: &[u8], events: &[u8]) -> Result<Told, Refusal> {
    let (ran, _, marks) = reference::run(RULES, text, &numbers(events))?;
    let mut places = [0; 16];
    for (place, marks) in places.iter_mut().zip(&marks) {
        *place = *marks.first().expect("a place that the machine stands in") as u8;
    }
    Ok(match ran {
        reference::Ran::Whole => Told::Ran(None, places),
        reference::Ran::Blocked(count, machine) => Told::Ran(Some((count, machine)), places),
    })
}

fn boarded(sheet: &[u8], names: &[u8]) -> Result<Told, Refusal> {
    let (ran, all) = reference::board_run(RULES, sheet, names)?;
    let mut places = [0; 16];
    places.iter_mut().zip(&all).for_each(|(place, stands)| *place = *stands as u8);
    Ok(match ran {
        reference::Ran::Whole => Told::Ran(None, places),
        reference::Ran::Blocked(count, machine) => Told::Ran(Some((count, machine)), places),
    })
}

impl Program for Independent {
    fn tell(&mut self, Call { text, service }: &Call) -> Option<Told> {
        let told = match service {
            Service::Check(lent) => reference::check(RULES, text, *lent).map(Told::Written),
            Service::Steps => reference::steps(RULES, text, STEPS)
                .map(|all| Told::Steps(all.iter().map(|s| [s.from, s.event, s.to].map(|n| n as u8)).collect())),
            Service::Name(event) => reference::event_name(RULES, text, *event).map(Told::Name),
            Service::Run(events) => ran(text, events),
            Service::Thin => reference::thin(RULES, text)
                .map(|kept| Told::Kept(kept.iter().map(|machine| 1 << machine).sum(), kept.len())),
            Service::Merge => reference::merge(RULES, text, SHEET).map(Told::Written),
            Service::Quote => reference::quote(RULES, text, SHEET).map(Told::Written),
            Service::Sheet(lent) => reference::rewritten(RULES, text, *lent).map(Told::Written),
            Service::Board(names) => boarded(text, names),
        };
        Some(told.unwrap_or_else(|Refusal(number, detail, second)| refused(number, detail, second)))
    }

    fn repeat(&mut self, Call { text, service }: &Call, rounds: usize) {
        match service {
            Service::Check(lent) => again(rounds, || reference::check(RULES, black_box(text), *lent)),
            Service::Steps => again(rounds, || reference::steps(RULES, black_box(text), STEPS)),
            Service::Name(event) => again(rounds, || reference::event_name(RULES, black_box(text), *event)),
            Service::Run(events) => {
                let list = numbers(events);
                again(rounds, || reference::run(RULES, black_box(text), black_box(&list)));
            }
            Service::Thin => again(rounds, || reference::thin(RULES, black_box(text))),
            Service::Merge => again(rounds, || reference::merge(RULES, black_box(text), SHEET)),
            Service::Quote => again(rounds, || reference::quote(RULES, black_box(text), SHEET)),
            Service::Sheet(lent) => again(rounds, || reference::rewritten(RULES, black_box(text), *lent)),
            Service::Board(names) => {
                again(rounds, || reference::board_run(RULES, black_box(text), black_box(names)));
            }
        }
    }
}
