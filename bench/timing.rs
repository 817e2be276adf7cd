//! How long calls take. Every pass takes a sample of each program on each case, one after the other, so that whatever
//! else the machine does falls on all of them alike.
use crate::call::{Call, Program, Programs, INDEPENDENT, PEER, PROVED};
use crate::cases::Case;
use std::time::{Duration, Instant};

/// What a sample takes at least. A shorter one would show the clock, a longer one is more often interrupted.
const SAMPLE: Duration = Duration::from_micros(500);

/// The independent program takes long and nothing depends on it closely: it has a sample in one pass of so many.
const SELDOM: usize = 10;

/// Calls that take longer than this, in ns, have a sample in the first pass only.
const LONG: f64 = 5e7;

/// Some calls beforehand are not timed: they bring text and code back into the caches.
fn time(program: &mut dyn Program, call: &Call, rounds: usize) -> Duration {
    program.repeat(call, rounds / 8);
    let start = Instant::now();
    program.repeat(call, rounds);
    start.elapsed()
}

/// Calls enough for a sample, also where one time was long by chance; none if the program has no such service.
fn rounds(program: &mut dyn Program, call: &Call) -> usize {
    if program.tell(call).is_none() {
        return 0;
    }
    let mut rounds = 1;
    if time(program, call, rounds) > 10 * SAMPLE {
        return rounds;
    }
    while (0..3).any(|_| time(program, call, rounds) < SAMPLE) {
        rounds *= 2;
    }
    rounds
}

pub fn measure(programs: &mut Programs, cases: &mut [Case], passes: usize) {
    let sizes: Vec<[usize; 3]> =
        cases.iter().map(|case| [PROVED, PEER, INDEPENDENT].map(|p| rounds(&mut *programs[p], &case.call))).collect();
    for pass in 0..passes {
        // Neither of the first two always follows the other.
        let order = if pass % 2 == 0 { [PROVED, PEER, INDEPENDENT] } else { [PEER, PROVED, INDEPENDENT] };
        for (case, rounds) in cases.iter_mut().zip(&sizes) {
            for p in order {
                let is_short = case.ns[p].first().is_none_or(|first| *first < LONG);
                if rounds[p] > 0 && (p != INDEPENDENT || pass % SELDOM == 0 && is_short) {
                    let taken = time(&mut *programs[p], &case.call, rounds[p]);
                    case.ns[p].push(taken.as_nanos() as f64 / rounds[p] as f64);
                }
            }
        }
    }
}

pub fn median(samples: &[f64]) -> f64 {
    let mut sorted = samples.to_vec();
    sorted.sort_by(f64::total_cmp);
    sorted[sorted.len() / 2]
}

/// The median of the ratios in each pass.
pub fn ratio(samples: &[f64], others: &[f64]) -> f64 {
    median(&samples.iter().zip(others).map(|(a, b)| a / b).collect::<Vec<_>>())
}
