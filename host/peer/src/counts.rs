//! Counts of what was compared, by function of the library.

use crate::case::{Case, Total};
use crate::plan::Adjustment;
use std::collections::{BTreeMap, BTreeSet};

/// What was compared of one function.
#[derive(Default)]
struct Count {
    calls: u64,
    flags: BTreeSet<u32>,
    numbers: BTreeSet<(u32, u32)>,
    accumulators: BTreeSet<u32>,
    masked: u64,
    accumulated: u64,
    aliased: u64,
}

#[derive(Default)]
pub struct Counts {
    compared: BTreeMap<&'static str, Count>,
    adjusted: u64,
    adjustments: BTreeMap<Adjustment, u64>,
    entries: u64,
    changed: u64,
    /// Refused calls, by code.
    refused: BTreeMap<u32, u64>,
    no_operation: u64,
}

impl Counts {
    pub fn add(&mut self, case: &Case, adjustments: &[Adjustment]) {
        let count = self.compared.entry(case.name).or_default();
        count.calls += 1;
        count.flags.insert(case.options.flags);
        count.numbers.insert(case.operation.numbers());
        count.masked += u64::from(case.options.has_mask);
        count.aliased += u64::from(case.is_aliased());
        if case.options.has_accumulator {
            count.accumulated += 1;
            count.accumulators.insert(case.options.accumulator);
        }
        self.adjusted += u64::from(!adjustments.is_empty());
        for &adjustment in adjustments {
            *self.adjustments.entry(adjustment).or_default() += 1;
        }
        self.entries += case.after.as_ref().map_or(0, |grid| grid.cells.len() as u64);
        self.changed += u64::from(case.after != case.grids[case.c]);
    }

    pub fn add_total(&mut self, total: &Total) {
        let count = self.compared.entry(total.name).or_default();
        count.calls += 1;
        count.numbers.insert((total.monoid, 0));
    }

    pub fn add_refused(&mut self, code: u32) {
        *self.refused.entry(code).or_default() += 1;
    }

    pub fn add_no_operation(&mut self) {
        self.no_operation += 1;
    }

    pub fn generated(&self) -> u64 {
        self.calls() + self.refusals() + self.no_operation
    }

    fn refusals(&self) -> u64 {
        self.refused.values().sum()
    }

    /// The accepted calls that were compared.
    pub fn calls(&self) -> u64 {
        self.compared.values().map(|count| count.calls).sum()
    }

    pub fn print(&self) {
        for (name, count) in &self.compared {
            println!("  {name}: {} compared, {}", count.calls, count.kinds());
        }
        println!("  C was changed by {} of these calls; {} entries of C compared", self.changed, self.entries);
        for (adjustment, calls) in &self.adjustments {
            println!("  adjusted, {}: {calls}", adjustment.text());
        }
        let refused: Vec<String> = self.refused.iter().map(|(code, calls)| format!("{code}: {calls}")).collect();
        println!("  refused operations, by code: {}", refused.join(", "));
    }

    /// The counts of the last line.
    pub fn summary(&self) -> String {
        format!(
            "{} of them by an adjusted call; left out: {} refused operations, {} calls that are no operation",
            self.adjusted,
            self.refusals(),
            self.no_operation
        )
    }
}

impl Count {
    fn kinds(&self) -> String {
        let (flags, numbers, accumulators) = (self.flags.len(), self.numbers.len(), self.accumulators.len());
        let aliased = match self.aliased {
            0 => String::new(),
            aliased => format!(", {aliased} with C as an input or mask"),
        };
        format!(
            "{flags} sums of flags, {numbers} choices of operators; {} with a mask, {} with one of {accumulators} \
             accumulators{aliased}",
            self.masked, self.accumulated
        )
    }
}
