//! The matrices of one size, by a fixed seed.

use crate::entries::{blocks, Entries};
use ostrubel::MAX_ENTRIES;
use second::rng::Rng;

/// The entries and the sides of the square matrices that are measured.
#[derive(Clone, Copy, Debug, PartialEq, Eq)]
pub struct Size {
    pub entries: usize,
    pub side: usize,
    /// The entries are those of so many times fewer rows and columns, with numbers so many times as large.
    pub spread: usize,
}

/// The same 300 entries in 250 and in 1,000 rows and columns, and more.
pub const SIZES: [Size; 4] = [
    Size { entries: 300, side: 250, spread: 1 },
    Size { entries: 300, side: 1_000, spread: 4 },
    Size { entries: 1_000, side: 500, spread: 1 },
    Size { entries: 2_048, side: 512, spread: 1 },
];

const SEED: u64 = 1;

/// A is random. B, the mask and old C each have half of A's positions, and the rest at random.
pub struct Scene {
    pub size: Size,
    pub a: Entries,
    pub b: Entries,
    /// With some zeros among its values.
    pub mask: Entries,
    pub c: Entries,
    /// Two matrices whose product fits, and what they are.
    pub factors: (Entries, Entries, &'static str),
    /// A second input whose union with A fits, and what it is.
    pub addend: (Entries, &'static str),
    /// Vectors with a tenth of the columns present, before they are spread.
    pub u: Entries,
    pub vector_mask: Entries,
    pub w: Entries,
    /// All rows and all columns in random order.
    pub row_list: Vec<u32>,
    pub col_list: Vec<u32>,
    /// Two matrices whose Kronecker product has the size: the second is a block with a value in every cell.
    pub outer: Entries,
    pub block: Entries,
    /// A day matrix over A and its marks: a quarter of the rows is marked, and has B's entries at A's positions.
    pub day: Entries,
    pub marks: Entries,
}

impl Scene {
    pub fn new(size: Size) -> Self {
        let rng = &mut Rng::new(SEED);
        let Size { entries, side, spread } = size;
        let full = entries == MAX_ENTRIES;
        let (all, side) = (side, side / spread);
        let a = Entries::random(rng, side, side, entries);
        let b = Entries::half_of(rng, &a);
        let mask = Entries::half_of(rng, &a).with_zeros(rng);
        let c = Entries::half_of(rng, &a);
        let factors = match full {
            true => with_words(blocks(rng, side), "A and B of blocks"),
            false => with_words((a.clone(), b.clone()), ""),
        };
        let addend = match full {
            true => (Entries::same_positions(rng, &a), "B at A's positions"),
            false => (b.clone(), ""),
        };
        let mut vector = || Entries::random(rng, 1, side, side / 10);
        let (u, vector_mask, w) = (vector(), vector(), vector());
        let vector_mask = vector_mask.with_zeros(rng);
        let (row_list, col_list) = (rng.permutation(all), rng.permutation(all));
        let width = if side % 5 == 0 { 5 } else { 4 };
        let outer = Entries::random(rng, side / width, side / width, entries / (width * width)).spread(spread);
        let block = Entries::random(rng, width, width, width * width);
        let [a, b, mask, c] = [a, b, mask, c].map(|entries| entries.spread(spread));
        let (day, marks) = day_over(&a, &b, MARKED * spread);
        let [u, vector_mask, w] = [u, vector_mask, w].map(|entries| entries.spread(spread));
        let factors = (factors.0.spread(spread), factors.1.spread(spread), factors.2);
        let addend = (addend.0.spread(spread), addend.1);
        Scene { size, a, b, mask, c, factors, addend, u, vector_mask, w, row_list, col_list, outer, block, day, marks }
    }

    /// The marked row in the middle, and one that has no mark.
    pub fn middle_rows(&self) -> [u32; 2] {
        let (marked, spread) = (MARKED * self.size.spread, self.size.spread);
        let middle = self.size.side / 2 / marked * marked;
        [middle as u32, (middle + spread) as u32]
    }
}

/// One row in so many is marked.
const MARKED: usize = 4;

/// Every row whose number `step` divides is marked; in these the day matrix has the entries of `b` at positions of `a`.
fn day_over(a: &Entries, b: &Entries, step: usize) -> (Entries, Entries) {
    let is_marked = |i: u32| (i as usize).is_multiple_of(step);
    let mut day = b.clone();
    day.cells.retain(|position, _| is_marked(position.0) && a.cells.contains_key(position));
    let mut marks = Entries::new(1, a.rows);
    marks.cells.extend((0..a.rows as u32).filter(|&i| is_marked(i)).map(|i| ((0, i), 1)));
    (day, marks)
}

/// Key k opens door k, and key k + 1 is behind it; key 0 is in hand. So each of the doors takes a round.
pub fn corridor(length: usize) -> [Entries; 3] {
    let keys = 0..length as u32;
    let [mut locks, mut cabinets] = [(); 2].map(|()| Entries::new(length, length));
    locks.cells.extend(keys.clone().map(|k| ((k, k), 1)));
    cabinets.cells.extend(keys.skip(1).map(|k| ((k - 1, k), 1)));
    let mut hand = Entries::new(1, length);
    hand.cells.insert((0, 0), 1);
    [locks, cabinets, hand]
}

fn with_words((a, b): (Entries, Entries), words: &'static str) -> (Entries, Entries, &'static str) {
    (a, b, words)
}

/// A vector of 512 columns with 400 entries.
pub fn full_row() -> Entries {
    Entries::random(&mut Rng::new(SEED), 1, 512, 400)
}
