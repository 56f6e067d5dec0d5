//! The program of document 02, A1, run on files and on bytes that are none: it reads standard input to its end, "whatever
//! its length and however it arrives", and prints the text, or the line "refused 15" alone.

use crate::files::{case, file_bytes, grid_of_file, text_of, Slip};
use crate::grid::{Grid, MAX_WORDS};
use crate::rng::Rng;
use std::io::Write;
use std::process::{Command, Stdio};

const STRIP: [u32; 16] = [1, 0, 2, 1, 4, 2, 0, 3, 3, 0, 1, 3, 3, 10, 20, 40];
const TWO_ROWS: [u32; 17] = [1, 5, 2, 2, 3, 3, 0, 1, 3, 3, 2, 0, 2, 3, 1, 0, u32::MAX - 4];

/// A word behind the revision changed to another, as the test of the format does it.
const STRIP_DAMAGE: [(usize, u32); 23] = [
    (0, 1),
    (0, 3),
    (3, 1),
    (3, 3),
    (6, 2),
    (6, 4),
    (10, 2),
    (10, 4),
    (1, 0),
    (1, 2),
    (1, 1001),
    (2, 0),
    (2, 3),
    (2, 1000),
    (2, 1001),
    (5, 2),
    (5, 4),
    (8, 0),
    (7, 2),
    (9, 4),
    (12, u32::MAX),
    (13, u32::MAX),
    (3, 0),
];
const TWO_ROWS_DAMAGE: [(usize, u32); 12] = [
    (4, 1),
    (5, 4),
    (6, 2),
    (6, 4),
    (5, 0),
    (5, 3),
    (7, 2049),
    (7, 1 << 31),
    (7, u32::MAX),
    (11, u32::MAX),
    (5, u32::MAX),
    (6, 1 << 31),
];

/// What stands on standard input, and in which pieces it comes.
struct Input {
    bytes: Vec<u8>,
    piece: usize,
}

fn whole(bytes: Vec<u8>) -> Input {
    Input { bytes, piece: usize::MAX }
}

/// Files of both forms: the old one has no revision.
fn changed(words: &[u32], damage: &[(usize, u32)], old: bool) -> Vec<Input> {
    let change = |&(at, word): &(usize, u32)| {
        let mut words = words.to_vec();
        words[at + 2] = word;
        whole(file_bytes(if old { &words[2..] } else { &words }, Slip::None))
    };
    damage.iter().map(change).collect()
}

/// The largest sheet, with the longest text.
fn largest() -> Grid {
    let mut grid = Grid::empty(1000, 1000);
    grid.cells.extend((0..2048).map(|k| ((999 - k / 4, 999 - k % 4), i32::MIN)));
    grid
}

fn inputs() -> Vec<Input> {
    let strip = file_bytes(&STRIP, Slip::None);
    let mut inputs: Vec<Input> = (0..4).map(|length| whole(strip[..length].to_vec())).collect();
    for cut in [1, 4] {
        inputs.push(whole(strip[..strip.len() - cut].to_vec()));
        inputs.push(whole([&strip[..], &vec![0; cut]].concat()));
    }
    for old in [false, true] {
        inputs.extend(changed(&STRIP, &STRIP_DAMAGE, old));
        inputs.extend(changed(&TWO_ROWS, &TWO_ROWS_DAMAGE, old));
    }
    let both_ends = Grid { cells: [((0, 0), i32::MIN), ((0, 1), i32::MAX)].into(), ..Grid::empty(1, 2) };
    let (mut rows, mut entries) = (largest(), largest());
    rows.rows = 1001;
    entries.cells.insert((0, 0), 1);
    for grid in [&both_ends, &Grid::empty(3, 2), &largest(), &rows, &entries] {
        inputs.push(whole(file_bytes(&grid.words(), Slip::None)));
        inputs.push(whole(file_bytes(&grid.words()[2..], Slip::None)));
    }
    let most = file_bytes(&largest().words(), Slip::None);
    for more in [1, 4, 1 << 17] {
        inputs.push(whole([&most[..], &vec![0; more]].concat()));
    }
    inputs.push(whole(vec![0; 1 << 20]));
    for (bytes, piece) in
        [(strip.clone(), 1), ([&strip[..], &[0]].concat(), 1), (most, 4093), (vec![2; MAX_WORDS * 8], 999)]
    {
        inputs.push(Input { bytes, piece });
    }
    inputs
}

/// What the program prints. Each piece is written by itself.
fn printed(program: &str, input: &Input) -> Result<Vec<u8>, String> {
    let said = |error: std::io::Error| format!("{program}: {error}");
    let mut command = Command::new(program);
    let mut child = command.stdin(Stdio::piped()).stdout(Stdio::piped()).spawn().map_err(said)?;
    let mut stdin = child.stdin.take().ok_or("no standard input")?;
    for piece in input.bytes.chunks(input.piece) {
        stdin.write_all(piece).map_err(said)?;
        stdin.flush().map_err(said)?;
    }
    drop(stdin);
    let output = child.wait_with_output().map_err(said)?;
    if output.status.success() {
        Ok(output.stdout)
    } else {
        Err(format!("{program}: {}", output.status))
    }
}

/// Runs the program on the list above and on random files. How many there were.
pub fn judge(program: &str, seed: u64, random: u64) -> Result<usize, String> {
    let mut inputs = inputs();
    inputs.extend((0..random).map(|number| whole(case(&mut Rng::of_case(seed, 5, number)).file)));
    for (number, input) in inputs.iter().enumerate() {
        let grid = grid_of_file(&input.bytes, Slip::None);
        let expected = grid.map_or("refused 15\n".to_string(), |grid| text_of(&grid, Slip::None));
        if printed(program, input)? != expected.as_bytes() {
            return Err(format!("input {number}, {} bytes: the program prints something else", input.bytes.len()));
        }
    }
    Ok(inputs.len())
}
