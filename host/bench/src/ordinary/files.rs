//! Files and texts.

use super::answer::{ensure, pack, Refusal, Result};
use super::matrix::{Matrix, MAX_ENTRIES, MAX_WORDS};
use std::io::Write;

/// The line "1000 1000 2048", and as many lines as there can be, such as "100 100 -2147483648".
const MAX_TEXT_BYTES: usize = 15 + 20 * MAX_ENTRIES;

/// The words in front of a file of before there were revisions, which begins with 2.
const NO_REVISION: [u32; 2] = [1, 0];

/// The matrix of a file at the front of the words.
pub fn read_file(bytes: &[u8], words: &mut [u32]) -> u64 {
    pack(read(bytes, words))
}

/// The file of a matrix at the front of the bytes.
pub fn write_file(words: &[u32], bytes: &mut [u8]) -> u64 {
    pack(write(words, bytes))
}

/// The text of a matrix at the front of the bytes, and how many there are.
pub fn write_text(words: &[u32], bytes: &mut [u8]) -> u64 {
    pack(print(words, bytes))
}

fn read(bytes: &[u8], words: &mut [u32]) -> Result<usize> {
    let (file, rest) = bytes.as_chunks();
    let mut held = [0; NO_REVISION.len() + MAX_WORDS];
    ensure(rest.is_empty() && file.len() <= MAX_WORDS, Refusal::InvalidFile)?;
    held[..2].copy_from_slice(&NO_REVISION);
    let (front, contents) = held.split_at_mut(2);
    contents.iter_mut().zip(file).for_each(|(word, &four)| *word = u32::from_le_bytes(four));
    let from = if contents[0] == 2 { 0 } else { front.len() };
    let held = &held[from..2 + file.len()];
    let matrix = Matrix::parse(held).filter(|matrix| matrix.size() == held.len()).ok_or(Refusal::InvalidFile)?;
    let place = words.get_mut(..held.len()).ok_or(Refusal::InsufficientSpace)?;
    place.copy_from_slice(held);
    Ok(matrix.entries())
}

fn write(words: &[u32], bytes: &mut [u8]) -> Result<usize> {
    let matrix = Matrix::parse(words).ok_or(Refusal::InvalidFirst)?;
    let place = bytes.get_mut(..4 * matrix.size()).ok_or(Refusal::InsufficientSpace)?;
    for (four, word) in place.chunks_exact_mut(4).zip(words) {
        four.copy_from_slice(&word.to_le_bytes());
    }
    Ok(matrix.entries())
}

fn print(words: &[u32], bytes: &mut [u8]) -> Result<usize> {
    let matrix = Matrix::parse(words).ok_or(Refusal::InvalidFirst)?;
    ensure(bytes.len() >= MAX_TEXT_BYTES, Refusal::InsufficientSpace)?;
    let (all, mut rest) = (bytes.len(), bytes);
    let lines = "the bytes of the longest text are there";
    writeln!(rest, "{} {} {}", matrix.rows(), matrix.cols, matrix.entries()).expect(lines);
    for i in 0..matrix.rows() {
        for (j, value) in matrix.row(i).iter() {
            writeln!(rest, "{i} {j} {}", value as i32).expect(lines);
        }
    }
    Ok(all - rest.len())
}
