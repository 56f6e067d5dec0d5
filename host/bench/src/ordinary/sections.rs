//! The words of a store: eight sections, each a count of words and the matrix of a slot, then zeros.

use super::matrix::Matrix;

pub const SLOTS: usize = 8;
const MAX_STORE_WORDS: usize = 16_384;

/// The matrices of a valid store.
pub struct Store<'a> {
    pub matrices: [Option<Matrix<'a>>; SLOTS],
    pub bounds: Bounds,
}

/// Where the section of each slot begins, and where the last one ends.
#[derive(Clone, Copy)]
pub struct Bounds {
    starts: [usize; SLOTS + 1],
}

impl<'a> Store<'a> {
    /// The store in the words, if they are one.
    pub fn parse(words: &'a [u32]) -> Option<Self> {
        if !(SLOTS..=MAX_STORE_WORDS).contains(&words.len()) {
            return None;
        }
        let mut matrices = [None; SLOTS];
        let mut starts = [0; SLOTS + 1];
        let mut rest = words;
        for slot in 0..SLOTS {
            let (&count, behind) = rest.split_first()?;
            let (contents, behind) = behind.split_at_checked(count as usize)?;
            if !contents.is_empty() {
                matrices[slot] = Some(Matrix::parse(contents).filter(|matrix| matrix.size() == contents.len())?);
            }
            rest = behind;
            starts[slot + 1] = words.len() - rest.len();
        }
        rest.iter().all(|&word| word == 0).then_some(Store { matrices, bounds: Bounds { starts } })
    }

    /// The matrix of a slot, if there is one.
    pub fn matrix(&self, slot: usize) -> Option<Matrix<'a>> {
        self.matrices[slot]
    }
}

impl Bounds {
    /// Where the words of a slot's matrix begin.
    pub fn contents_at(&self, slot: usize) -> usize {
        self.starts[slot] + 1
    }

    pub fn end(&self) -> usize {
        self.starts[SLOTS]
    }

    /// The words that all sections take when the slot's contents have `size` words.
    pub fn needed(&self, slot: usize, size: usize) -> usize {
        let old = self.starts[slot + 1] - self.contents_at(slot);
        self.end() - old + size
    }

    /// Gives a slot's contents another size: the later sections are moved, and zeros fill what becomes free.
    pub fn resize(&self, words: &mut [u32], slot: usize, size: usize) {
        let at = self.contents_at(slot);
        let (later, end) = (self.starts[slot + 1], self.end());
        words[at - 1] = size as u32;
        words.copy_within(later..end, at + size);
        let new_end = self.needed(slot, size);
        if new_end < end {
            words[new_end..end].fill(0);
        }
    }
}
