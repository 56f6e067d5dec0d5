//! Rounds of samples: in each round every case is sampled once by every side, one side right after the other.

use crate::cases::Case;
use crate::jobs::Buffers;
use crate::machine;
use crate::timing::{calls_per_sample, clock_cost, sample, summary, Floor, Subject, Summary};
use std::time::{Duration, Instant};

/// However little time is given.
const FEWEST_ROUNDS: usize = 5;

/// The sides of a case: the library, the ordinary program, SuiteSparse, and the floor.
pub const LIBRARY: usize = 0;
pub const ORDINARY: usize = 1;
pub const SUITESPARSE: usize = 2;
pub const FLOOR: usize = 3;
const SIDES: usize = 4;

/// What was measured of a case.
pub type Sides = [Option<Summary>; SIDES];

/// What was measured of the cases, in their order.
pub struct Measured {
    pub rounds: usize,
    /// The load of the machine when the run began.
    pub load: Option<f64>,
    pub clock_cost: f64,
    pub sides: Vec<Sides>,
}

/// Samples all cases in rounds until the time is over.
pub fn measure(cases: &mut [Case], time: Duration) -> Measured {
    let begin = Instant::now();
    let load = machine::load();
    let clock_cost = clock_cost();
    let mut buffers = Buffers::default();
    let counts: Vec<[u32; SIDES]> = cases.iter_mut().map(|case| sample_sizes(case, &mut buffers)).collect();
    let mut samples: Vec<[Vec<f64>; SIDES]> = cases.iter().map(|_| Default::default()).collect();
    let mut rounds = 0;
    while rounds < FEWEST_ROUNDS || begin.elapsed() < time {
        for ((case, counts), samples) in cases.iter_mut().zip(&counts).zip(&mut samples) {
            // Each side comes first in one of four rounds.
            for turn in 0..SIDES {
                let side = (turn + rounds) % SIDES;
                let buffers = &mut buffers;
                let time = with_subject(case, side, |subject| sample(subject, buffers, counts[side], clock_cost));
                samples[side].extend(time);
            }
        }
        rounds += 1;
    }
    let sides = samples.iter().map(|sides| [0, 1, 2, 3].map(|side| summary(&sides[side]))).collect();
    Measured { rounds, load, clock_cost, sides }
}

/// The calls that make a sample of each side.
fn sample_sizes(case: &mut Case, buffers: &mut Buffers) -> [u32; SIDES] {
    [0, 1, 2, 3].map(|side| with_subject(case, side, |subject| calls_per_sample(subject, buffers)).unwrap_or(0))
}

/// A side of a case at work, where the case has it. The floor is that of the library's call.
fn with_subject<T>(case: &mut Case, side: usize, work: impl FnOnce(&mut dyn Subject) -> T) -> Option<T> {
    if side != FLOOR {
        return case.subjects[side].as_mut().map(|subject| work(subject.as_mut()));
    }
    case.subjects[LIBRARY].as_mut().map(|subject| work(&mut Floor(subject.as_mut())))
}
