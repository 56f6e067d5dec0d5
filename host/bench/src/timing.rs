//! Samples of the time of a call.

use crate::jobs::Buffers;
use std::time::{Duration, Instant};

/// A call that can be repeated.
pub trait Subject {
    /// Puts back what a call writes. Not timed.
    fn restore(&mut self, buffers: &mut Buffers);

    /// The call that is timed.
    fn call(&mut self, buffers: &mut Buffers);

    /// Whether nothing has to be put back: a call changes nothing, or writes the same anew whatever was there.
    fn repeats(&self) -> bool;

    /// What no such call can do without, and nothing else.
    fn floor(&mut self, _: &mut Buffers) {}
}

/// The floor of a call, to be timed in its stead.
pub struct Floor<'a>(pub &'a mut dyn Subject);

impl Subject for Floor<'_> {
    fn restore(&mut self, buffers: &mut Buffers) {
        self.0.restore(buffers);
    }

    fn call(&mut self, buffers: &mut Buffers) {
        self.0.floor(buffers);
    }

    fn repeats(&self) -> bool {
        self.0.repeats()
    }
}

/// The shortest sum of the times of a sample's calls.
const SAMPLE: Duration = Duration::from_millis(1);

/// The calls before each sample that are not timed: buffers, code and branch predictors are warm after them.
const WARM_CALLS: u32 = 4;

/// What one reading of the clock before and one after a call add to its time, in nanoseconds.
pub fn clock_cost() -> f64 {
    let mut costs: Vec<f64> = (0..20_001)
        .map(|_| {
            let begin = Instant::now();
            begin.elapsed().as_nanos() as f64
        })
        .collect();
    costs.sort_by(f64::total_cmp);
    costs[costs.len() / 2]
}

/// The time of one call in nanoseconds, as the mean of `calls`. A call that has to be restored is timed by itself, and
/// `clock_cost` is taken off; calls that need no restoring are timed together.
pub fn sample(subject: &mut dyn Subject, buffers: &mut Buffers, calls: u32, clock_cost: f64) -> f64 {
    for _ in 0..WARM_CALLS {
        subject.restore(buffers);
        subject.call(buffers);
    }
    let total = time_calls(subject, buffers, calls);
    let mean = total.as_nanos() as f64 / f64::from(calls);
    if subject.repeats() {
        mean
    } else {
        mean - clock_cost
    }
}

fn time_calls(subject: &mut dyn Subject, buffers: &mut Buffers, calls: u32) -> Duration {
    if subject.repeats() {
        let begin = Instant::now();
        for _ in 0..calls {
            subject.call(buffers);
        }
        return begin.elapsed();
    }
    let mut total = Duration::ZERO;
    for _ in 0..calls {
        subject.restore(buffers);
        let begin = Instant::now();
        subject.call(buffers);
        total += begin.elapsed();
    }
    total
}

/// How many calls make a sample.
pub fn calls_per_sample(subject: &mut dyn Subject, buffers: &mut Buffers) -> u32 {
    let mut calls = 1;
    subject.restore(buffers);
    loop {
        let total = time_calls(subject, buffers, calls);
        if total >= SAMPLE {
            return calls + calls / 8;
        }
        calls *= 2;
    }
}

/// The median, and the 10th and 90th percentile.
#[derive(Clone, Copy, Debug)]
pub struct Summary {
    pub median: f64,
    pub low: f64,
    pub high: f64,
}

/// The summary of samples, if there are any.
pub fn summary(samples: &[f64]) -> Option<Summary> {
    let last = samples.len().checked_sub(1)?;
    let mut sorted = samples.to_vec();
    sorted.sort_by(f64::total_cmp);
    let at = |percent: usize| sorted[(last * percent + 50) / 100];
    Some(Summary { median: at(50), low: at(10), high: at(90) })
}

#[cfg(test)]
mod tests {
    use super::*;

    #[test]
    fn percentiles() {
        let samples: Vec<f64> = (0..=100).rev().map(f64::from).collect();
        let summed = summary(&samples).map(|Summary { median, low, high }| (low, median, high));
        assert_eq!(summed, Some((10.0, 50.0, 90.0)));
        assert_eq!(summary(&[7.0]).map(|summary| summary.high), Some(7.0));
        assert!(summary(&[]).is_none());
    }
}
