//! The library's limits and sizes. Sizes count words of 32 bits.

/// The most rows a matrix may have.
pub const MAX_ROWS: u32 = 1_000;

/// The most columns a matrix may have.
pub const MAX_COLS: u32 = 1_000;

/// The most entries a matrix may have.
pub const MAX_ENTRIES: usize = 2_048;

/// The most indexes in an index list of `extract` or `assign`.
pub const MAX_INDEXES: usize = 1_000;

/// The number of slots of a store.
pub const SLOTS: usize = 8;

/// The words of the shortest store, which has room for no matrix.
pub const MIN_STORE_WORDS: usize = 8;

/// The words of the longest store.
pub const MAX_STORE_WORDS: usize = 16_384;

/// The words of the largest matrix: its rows, twice its entries, and 9.
pub const MAX_MATRIX_WORDS: usize = MAX_ROWS as usize + 2 * MAX_ENTRIES + 9;

/// The words that an operation needs to work in: three of the largest matrices. `Matrix` and `Store` provide them.
pub const WORKSPACE_WORDS: usize = 3 * MAX_MATRIX_WORDS;

/// The bytes of the largest file: four for each word of the largest matrix.
pub const MAX_FILE_BYTES: usize = 4 * MAX_MATRIX_WORDS;

/// The bytes of the largest text: the line `1000 1000 2048`, and 2,048 lines such as `100 100 -2147483648`.
pub const MAX_TEXT_BYTES: usize = 15 + 20 * MAX_ENTRIES;

/// Bytes of stack that are enough for any of the library's calls ([`calls`](crate::calls)), at the largest shapes too.
pub const STACK_BYTES: usize = 48 << 10;

/// The most rounds that [`Matrix::open_doors`](crate::Matrix::open_doors) may be allowed.
pub const MAX_ALLOWANCE: u32 = 1_000;

/// The bytes of the longest formula of [`Store::formula`](crate::Store::formula).
pub const MAX_FORMULA_BYTES: usize = 64;

/// The most brackets that are open at once in a formula.
pub const MAX_BRACKETS: usize = 3;

/// The words that a formula needs to work in. `Store` provides them.
pub const FORMULA_WORDS: usize = 65_000;
