//! The library's answers, taken apart as `include/ostrubel.h` says.

use crate::{Error, Found};

/// The entries of the matrix that was written or checked.
pub fn entries(answer: u64) -> Result<usize, Error> {
    accepted(answer)?;
    Ok(upper_word(answer) as usize)
}

/// The value of the cell that was read, or `None` where it is absent.
pub fn cell(answer: u64) -> Result<Option<i32>, Error> {
    accepted(answer)?;
    let is_present = (answer >> 8) & 1 == 1;
    Ok(is_present.then_some(upper_word(answer) as i32))
}

/// The cell that was read, with the position of its entry.
pub fn found(answer: u64) -> Result<Found, Error> {
    let position = ((answer >> 16) & 0xFFFF) as usize;
    Ok(match cell(answer)? {
        Some(value) => Found::Present { value, position },
        None => Found::Absent { position },
    })
}

/// The number that a matrix was reduced to.
pub fn number(answer: u64) -> Result<i32, Error> {
    accepted(answer)?;
    Ok(upper_word(answer) as i32)
}

/// The codes are 0 to 15: no other can be answered.
fn accepted(answer: u64) -> Result<(), Error> {
    match (answer & 255) as u32 {
        0 => Ok(()),
        code => Err(Error::from_number(code).unwrap_or_else(|| unreachable!("the library has no code {code}"))),
    }
}

fn upper_word(answer: u64) -> u32 {
    (answer >> 32) as u32
}

/// The part of two matrices' words that the answer of a row view names.
pub fn part<'a>(answer: u64, first: &'a [u32], second: &'a [u32]) -> &'a [u32] {
    let words = if answer & 1 == 0 { first } else { second };
    let from = upper_word(answer) as usize;
    let count = ((answer >> 8) & 0xFF_FFFF) as usize;
    &words[from..from + count]
}
