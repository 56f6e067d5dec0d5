//! Document 02, A1, again: "A sheet file is the sheet's words and nothing more, four bytes each, lowest byte first", what
//! the reader and the writer answer and leave, and the text: "a line "R C N", then a line "row column value" for each
//! entry in order". A12: "Old files start with 2, new ones with 1: the new reader takes both, an old file having revision
//! 0, and writes the new form." Random sheets and random damage go through both ways.

use crate::fault::Fault;
use crate::generate::{damage, entries_near_limit, grid, grid_of, random_words, sheet, side};
use crate::grid::{Grid, MAX_SIDE, MAX_WORDS};
use crate::rng::Rng;
use ostrubel::calls;

/// The bytes that the text's buffer must have: "1000 1000 2048" and 2,048 times "100 100 -2147483648".
const TEXT_BYTES: usize = 15 + 2048 * 20;

/// A rule that is not the paper's, to see that it is noticed.
#[derive(Clone, Copy, PartialEq, Eq, Debug)]
pub enum Slip {
    None,
    HighestFirst,
    RestAccepted,
    SpareAccepted,
    RoomFirst,
    SpareWritten,
    BehindCleared,
    UnsignedText,
    ColumnsFirst,
    OldRefused,
    OldRevisionOne,
    OldRoom,
}

pub fn file_bytes(words: &[u32], slip: Slip) -> Vec<u8> {
    let order = |word: &u32| if slip == Slip::HighestFirst { word.to_be_bytes() } else { word.to_le_bytes() };
    words.iter().flat_map(order).collect()
}

/// The sheet of a file.
pub fn grid_of_file(bytes: &[u8], slip: Slip) -> Option<Grid> {
    if !bytes.len().is_multiple_of(4) && slip != Slip::RestAccepted {
        return None;
    }
    let word = |four: &[u8]| u32::from_le_bytes([four[0], four[1], four[2], four[3]]);
    let mut words: Vec<u32> = bytes.chunks_exact(4).map(word).collect();
    if words.first() == Some(&2) && slip != Slip::OldRefused {
        let revision = u32::from(slip == Slip::OldRevisionOne);
        words.splice(..0, [1, revision]);
    }
    let grid = Grid::read(&words, Fault::None)?;
    (grid.size() == words.len() || slip == Slip::SpareAccepted).then_some(grid)
}

pub fn text_of(grid: &Grid, slip: Slip) -> String {
    let mut entries: Vec<(u32, u32, i32)> = grid.cells.iter().map(|(&(i, j), &value)| (i, j, value)).collect();
    if slip == Slip::ColumnsFirst {
        entries.sort_by_key(|&(i, j, _)| (j, i));
    }
    let mut text = format!("{} {} {}\n", grid.rows, grid.cols, entries.len());
    for (i, j, value) in entries {
        let value = if slip == Slip::UnsignedText { i64::from(value as u32) } else { i64::from(value) };
        text += &format!("{i} {j} {value}\n");
    }
    text
}

/// An answer of one number, and a buffer afterwards.
type Outcome<T> = (u64, Vec<T>);

fn accepted(count: usize) -> u64 {
    (count as u64) << 32
}

/// The front of a buffer overwritten.
fn over<T: Copy>(front: &[T], buffer: &[T]) -> Vec<T> {
    [front, &buffer[front.len()..]].concat()
}

fn read(bytes: &[u8], buffer: &[u32], slip: Slip) -> Outcome<u32> {
    let refused = |code: u64| (code, buffer.to_vec());
    match grid_of_file(bytes, slip) {
        None if slip == Slip::RoomFirst && buffer.len() < bytes.len() / 4 => refused(11),
        None => refused(15),
        Some(grid) if slip == Slip::OldRoom && grid.size() > buffer.len() && bytes.len() / 4 <= buffer.len() => {
            (accepted(grid.cells.len()), buffer.to_vec())
        }
        Some(grid) if grid.size() > buffer.len() => refused(11),
        Some(grid) => (accepted(grid.cells.len()), over(&grid.words(), buffer)),
    }
}

fn write(words: &[u32], buffer: &[u8], slip: Slip) -> Outcome<u8> {
    let refused = |code: u64| (code, buffer.to_vec());
    let Some(grid) = Grid::read(words, Fault::None) else {
        return refused(3);
    };
    let bytes = file_bytes(if slip == Slip::SpareWritten { words } else { &words[..grid.size()] }, slip);
    if bytes.len() > buffer.len() {
        return refused(11);
    }
    let mut after = over(&bytes, buffer);
    if slip == Slip::BehindCleared {
        after[bytes.len()..].fill(0);
    }
    (accepted(grid.cells.len()), after)
}

fn print(words: &[u32], buffer: &[u8], slip: Slip) -> Outcome<u8> {
    match Grid::read(words, Fault::None) {
        None => (3, buffer.to_vec()),
        Some(_) if buffer.len() < TEXT_BYTES => (11, buffer.to_vec()),
        Some(grid) => {
            let text = text_of(&grid, slip);
            (accepted(text.len()), over(text.as_bytes(), buffer))
        }
    }
}

/// What is lent: a file to read with the words to read it into, and a sheet to write with the bytes to write it into.
pub struct Case {
    pub file: Vec<u8>,
    pub words: Vec<u32>,
    pub sheet: Vec<u32>,
    pub bytes: Vec<u8>,
    pub text: Vec<u8>,
}

/// A length near another one, or some other.
fn near(rng: &mut Rng, length: usize, most: usize) -> usize {
    match rng.below(6) {
        0 => length.saturating_sub(1 + rng.below(5)),
        1 => rng.below(most),
        2 => length,
        _ => length + rng.below(9),
    }
}

pub fn case(rng: &mut Rng) -> Case {
    let grid = if rng.once_in(50) {
        let entries = entries_near_limit(rng).min(2048);
        grid_of(rng, MAX_SIDE, MAX_SIDE, entries)
    } else {
        let (rows, cols) = (side(rng), side(rng));
        grid(rng, rows, cols)
    };
    let mut sheet = sheet(rng, &grid);
    let mut held = grid.words();
    if rng.once_in(3) {
        damage(rng, &mut held);
    }
    if rng.once_in(3) {
        // The old form.
        held.drain(..held.len().min(2));
    }
    if rng.once_in(6) {
        damage(rng, &mut sheet);
    }
    let mut file = file_bytes(&held, Slip::None);
    match rng.below(8) {
        0 if !file.is_empty() => {
            let at = rng.below(file.len());
            file[at] = rng.word() as u8;
        }
        1 => file.truncate(rng.below(file.len() + 1)),
        2 => file.extend((0..1 + rng.below(9)).map(|_| rng.pick(&[0, 1, 255]))),
        3 if rng.once_in(8) => file.resize(MAX_WORDS * 4 + 1 + rng.below(5000), 0),
        _ => {}
    }
    let words = near(rng, grid.size(), MAX_WORDS + 10);
    let words = random_words(rng, words);
    let bytes = near(rng, grid.size() * 4, MAX_WORDS * 4 + 10);
    let bytes = random_bytes(rng, bytes);
    let text = if rng.once_in(6) { TEXT_BYTES - 1 } else { TEXT_BYTES + rng.below(3) };
    let text = random_bytes(rng, text);
    Case { file, words, sheet, bytes, text }
}

fn random_bytes(rng: &mut Rng, count: usize) -> Vec<u8> {
    (0..count).map(|_| rng.word() as u8).collect()
}

fn compare<T: PartialEq>(name: &str, expected: Outcome<T>, seen: Outcome<T>) -> Result<(), String> {
    if expected.0 != seen.0 {
        return Err(format!("{name} answers {:#x} and not {:#x}", seen.0, expected.0));
    }
    match expected.1.iter().zip(&seen.1).position(|(a, b)| a != b) {
        Some(at) => Err(format!("{name} leaves something else at {at}")),
        None => Ok(()),
    }
}

impl Case {
    pub fn judge(&self, slip: Slip) -> Result<(), String> {
        let mut words = self.words.clone();
        let answer = calls::read_file(&self.file, &mut words);
        compare("read_file", read(&self.file, &self.words, slip), (answer, words))?;
        let mut bytes = self.bytes.clone();
        let answer = calls::write_file(&self.sheet, &mut bytes);
        compare("write_file", write(&self.sheet, &self.bytes, slip), (answer, bytes))?;
        let mut text = self.text.clone();
        let answer = calls::write_text(&self.sheet, &mut text);
        compare("write_text", print(&self.sheet, &self.text, slip), (answer, text))
    }
}

#[cfg(test)]
mod tests {
    use super::*;

    #[test]
    fn the_strip() {
        let strip = [1, 7, 2, 1, 4, 2, 0, 3, 3, 0, 1, 3, 3, 10, 20, 40];
        for (words, revision) in [(&strip[..], 7), (&strip[2..], 0)] {
            let grid = grid_of_file(&file_bytes(words, Slip::None), Slip::None).unwrap();
            assert_eq!(grid.revision, revision);
            assert_eq!(text_of(&grid, Slip::None), "1 4 3\n0 0 10\n0 1 20\n0 3 40\n");
        }
    }

    #[test]
    fn each_slip_is_noticed() {
        let cases: Vec<Case> = (0..3000).map(|number| case(&mut Rng::of_case(1, 4, number))).collect();
        assert_eq!(cases.iter().find_map(|case| case.judge(Slip::None).err()), None);
        for slip in [
            Slip::HighestFirst,
            Slip::RestAccepted,
            Slip::SpareAccepted,
            Slip::RoomFirst,
            Slip::SpareWritten,
            Slip::BehindCleared,
            Slip::UnsignedText,
            Slip::ColumnsFirst,
            Slip::OldRefused,
            Slip::OldRevisionOne,
            Slip::OldRoom,
        ] {
            assert!(cases.iter().any(|case| case.judge(slip).is_err()), "{slip:?}");
        }
    }
}
