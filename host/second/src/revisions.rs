//! Document 02, A12: "a new first section before the others: 1, then a revision number". What a look at the revision
//! answers, on sheets and on words that are none.

use crate::fault::Fault;
use crate::generate_lent::lone_buffer;
use crate::grid::Grid;
use crate::rng::Rng;
use ostrubel::calls;

/// 0 and the revision, or 3 and 0.
fn expected(words: &[u32]) -> u64 {
    match Grid::read(words, Fault::None) {
        Some(grid) => u64::from(grid.revision) << 32,
        None => 3,
    }
}

/// What goes wrong is the error.
pub fn judge(rng: &mut Rng) -> Result<u64, String> {
    let words = lone_buffer(rng);
    let (expected, seen) = (expected(&words), calls::revision(&words));
    if expected == seen {
        Ok(seen)
    } else {
        Err(format!("revision of {words:?}: expected {expected:#x}, seen {seen:#x}"))
    }
}

#[cfg(test)]
mod tests {
    use super::*;

    #[test]
    fn of_the_strip_and_of_its_old_form() {
        let strip = [1, u32::MAX, 2, 1, 4, 2, 0, 3, 3, 0, 1, 3, 3, 10, 20, 40];
        for (words, answer) in [(&strip[..], u64::from(u32::MAX) << 32), (&strip[2..], 3), (&strip[..15], 3)] {
            assert_eq!((expected(words), calls::revision(words)), (answer, answer));
        }
    }
}
