//! Document 02, A3: sheets merged into C by MAX leave the same sheet in whatever order they come, and one again changes
//! nothing. What they leave is held against the largest value of each cell.

use crate::calls::{code_of, LentCall, LentOperation, Operation, Options, Work, WORK_WORDS};
use crate::generate::{grid, random_words, sheet, side};
use crate::grid::{Grid, MAX_ENTRIES};
use crate::library;
use crate::rng::Rng;

/// C's buffer, the sheets that are merged into it, and the final C. The buffer has room for it, and few words more.
pub struct Merges {
    c: Vec<u32>,
    sheets: Vec<Vec<u32>>,
    expected: Grid,
}

/// Up to six sheets, some of which come twice, with ties.
pub fn merges(rng: &mut Rng) -> Merges {
    let (rows, cols) = (side(rng), side(rng));
    let old = grid(rng, rows, cols);
    let mut expected = old.clone();
    let mut sheets: Vec<Vec<u32>> = Vec::new();
    for _ in 0..rng.below(7) {
        if !sheets.is_empty() && rng.once_in(4) {
            sheets.push(sheets[rng.below(sheets.len())].clone());
            continue;
        }
        let report = grid(rng, rows, cols);
        let mut merged = expected.clone();
        for (&at, &value) in &report.cells {
            let newest = merged.cells.entry(at).or_insert(value);
            *newest = value.max(*newest);
        }
        if merged.cells.len() <= MAX_ENTRIES {
            expected = merged;
            sheets.push(sheet(rng, &report));
        }
    }
    let mut c = old.words();
    let spare = expected.size() - c.len() + rng.below(4);
    c.extend(random_words(rng, spare));
    Merges { c, sheets, expected }
}

impl Merges {
    /// The positions of the sheets in another order.
    fn shuffled(&self, rng: &mut Rng) -> Vec<usize> {
        let mut order: Vec<usize> = (0..self.sheets.len()).collect();
        rng.shuffle(&mut order);
        order
    }

    /// Merges in the order of the list, in another one, and one of the sheets again. What goes wrong is the error.
    pub fn judge(&self, rng: &mut Rng) -> Result<(), String> {
        let in_order: Vec<usize> = (0..self.sheets.len()).collect();
        let mut other = self.shuffled(rng);
        if !other.is_empty() {
            other.push(rng.below(self.sheets.len()));
        }
        for order in [in_order, other] {
            let mut c = self.c.clone();
            for &number in &order {
                merge(rng, &mut c, &self.sheets[number])
                    .map_err(|text| format!("order {order:?}, sheet {number}: {text}"))?;
            }
            // Document 02, A12: "A3's claim speaks of grids only"; each merge adds one to the revision.
            let size = self.expected.size();
            let revision = self.expected.revision.wrapping_add(order.len() as u32);
            let expected = Grid { revision, ..self.expected.clone() }.words();
            if c[..size] != expected {
                return Err(format!("order {order:?}: C is {:?} and not {expected:?}", &c[..size]));
            }
        }
        Ok(())
    }
}

/// One merge by the library.
fn merge(rng: &mut Rng, c: &mut Vec<u32>, words: &[u32]) -> Result<(), String> {
    let call = LentCall::Operation(LentOperation {
        operation: Operation::Apply { kind: 0, op: 0, scalar: rng.word() },
        options: Options { flags: 0, has_mask: false, has_accumulator: true, accumulator: 7, yes: 1 },
        inputs: vec![words.to_vec()],
        a: 0,
        b: 0,
        mask: 0,
        c: c.clone(),
        work: Work { length: WORK_WORDS, seed: rng.next() },
    });
    let outcome = library::lent(&call);
    let code = code_of(outcome.answer);
    if code != 0 {
        return Err(format!("refused by {code}"));
    }
    let after = outcome.buffers.into_iter().find(|buffer| buffer.name == "C").ok_or("no buffer of C")?;
    *c = after.words;
    Ok(())
}

#[cfg(test)]
mod tests {
    use super::*;

    #[test]
    fn a_final_c_that_is_expected_otherwise_is_noticed() {
        let mut cases = (0..).map(|number| merges(&mut Rng::of_case(1, 3, number)));
        let mut case = cases.find(|case| !case.sheets.is_empty() && !case.expected.cells.is_empty()).unwrap();
        assert_eq!(case.judge(&mut Rng::new(1)), Ok(()));
        let value = case.expected.cells.values_mut().next().unwrap();
        *value = value.wrapping_sub(1);
        assert!(case.judge(&mut Rng::new(1)).is_err());
    }
}
