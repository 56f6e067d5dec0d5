//! Keys behind doors.

use super::answer::{ensure, pack, Refusal, Result};
use super::matrix::{Matrix, MAX_SIDE};
use super::request::WORKSPACE_WORDS;

const MAX_ALLOWANCE: u32 = 1_000;

/// The doors that open within an allowance of rounds, each with its first round, as a vector at the front of `out`.
pub fn open_doors(
    allowance: u32,
    locks: &[u32],
    cabinets: &[u32],
    hand: &[u32],
    out: &mut [u32],
    work: &mut [u32],
) -> u64 {
    let answer = attempt(allowance, [locks, cabinets, hand], out, work.len());
    work.fill(0);
    pack(answer)
}

fn attempt(allowance: u32, [locks, cabinets, hand]: [&[u32]; 3], out: &mut [u32], work: usize) -> Result<usize> {
    let locks = Matrix::parse(locks).ok_or(Refusal::InvalidFirst)?;
    let cabinets = Matrix::parse(cabinets).ok_or(Refusal::InvalidSecond)?;
    let hand = Matrix::parse(hand).ok_or(Refusal::InvalidMask)?;
    ensure(allowance <= MAX_ALLOWANCE, Refusal::IndexOutOfBounds)?;
    let agree = cabinets.shape() == (locks.cols, locks.rows()) && hand.shape() == (1, locks.rows());
    ensure(agree, Refusal::InvalidShape)?;
    ensure(work >= WORKSPACE_WORDS, Refusal::WorkspaceTooShort)?;
    let mut doors = Found::new();
    let mut keys = Found::new();
    hand.columns.iter().for_each(|&key| keys.add(key, 0));
    // In each round only the keys that came in the round before can open doors that are still closed.
    let (mut key, mut door) = (0, 0);
    for round in 0..=allowance {
        if key == keys.count {
            break;
        }
        for &key in &keys.order[key..keys.count] {
            locks.row(key as usize).columns.iter().for_each(|&door| doors.add(door, round));
        }
        key = keys.count;
        for &door in &doors.order[door..doors.count] {
            cabinets.row(door as usize).columns.iter().for_each(|&key| keys.add(key, round + 1));
        }
        door = doors.count;
    }
    doors.write(locks.cols, out)
}

/// Keys or doors in the order in which they were found, each with its first round.
struct Found {
    rounds: [u32; MAX_SIDE],
    order: [u32; MAX_SIDE],
    count: usize,
}

/// The round of what was not found.
const NEVER: u32 = u32::MAX;

impl Found {
    fn new() -> Self {
        Found { rounds: [NEVER; MAX_SIDE], order: [0; MAX_SIDE], count: 0 }
    }

    fn add(&mut self, number: u32, round: u32) {
        let first = &mut self.rounds[number as usize];
        if *first == NEVER {
            *first = round;
            self.order[self.count] = number;
            self.count += 1;
        }
    }

    /// The vector of so many columns. What was found is put in the order of its numbers.
    fn write(mut self, cols: usize, out: &mut [u32]) -> Result<usize> {
        let mut values = [0; MAX_SIDE];
        let found = &mut self.order[..self.count];
        found.sort_unstable();
        found.iter().zip(&mut values).for_each(|(&number, value)| *value = self.rounds[number as usize]);
        let starts = [0, self.count as u32];
        let vector = Matrix { revision: 0, cols, starts: &starts, columns: found, values: &values[..self.count] };
        ensure(vector.size() <= out.len(), Refusal::InsufficientSpace)?;
        vector.write(out);
        Ok(self.count)
    }
}
