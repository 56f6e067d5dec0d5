//! A refusal: its number, what is wrong, and what it is about.

use crate::call::{Call, Doors, Kind, Operation, Role};
use crate::carry_out::{self, counted};
use crate::guard::Damage;
use crate::names::{IndexList, Whole};
use crate::shelf_file;
use crate::text::shown_path;
use ostrubel::{
    check_formula, Error, FormulaError, Store, MAX_ALLOWANCE, MAX_COLS, MAX_FILE_BYTES, MAX_INDEXES, MAX_ROWS,
    MAX_STORE_WORDS, MIN_STORE_WORDS, SLOTS,
};
use std::collections::BTreeSet;
use std::fmt;
use std::path::Path;

#[derive(Debug)]
pub struct Refusal {
    error: Error,
    /// The library's sentence, or one that fits the case better.
    sentence: String,
    /// The arguments that it is about; may be empty.
    about: Vec<String>,
}

impl fmt::Display for Refusal {
    fn fmt(&self, f: &mut fmt::Formatter<'_>) -> fmt::Result {
        write!(f, "refused ({}): {}", self.error.number(), self.sentence)?;
        if !self.about.is_empty() {
            write!(f, " ({})", self.about.join(", "))?;
        }
        Ok(())
    }
}

impl Refusal {
    /// Of a new shelf of so many words.
    pub fn of_length(error: Error, words: &Whole) -> Refusal {
        Refusal::of(error, format!("A shelf has {MIN_STORE_WORDS} to {MAX_STORE_WORDS} words, and not {words}."))
    }

    /// Of a file of so many bytes that holds no shelf.
    pub fn of_file(path: &Path, bytes: usize) -> Refusal {
        let error = Error::InvalidStore;
        let (name, size) = (shown_path(path), size(bytes, shelf_file::MAX_BYTES));
        Refusal::of(
            error,
            format!("{name} is not a shelf, or is damaged ({size}): check the name, or take a sound copy."),
        )
    }

    /// Of a shelf's file that is damaged.
    pub fn of_damage(path: &Path, damage: Damage, bytes: usize) -> Refusal {
        let (name, size) = (shown_path(path), size(bytes, shelf_file::MAX_BYTES));
        let what = match damage {
            Damage::Checksum => "its checksum does not fit its words",
            Damage::Length | Damage::NoWords => "it has bytes too many or too few",
        };
        Refusal::of(Error::InvalidStore, format!("{name} is a damaged shelf: {what} ({size}); take a sound copy."))
    }

    /// Of a shelf's file that a later command has written.
    pub fn of_version(path: &Path, version: u32) -> Refusal {
        let name = shown_path(path);
        let sentence =
            format!("{name} is a shelf of version {version}, which this command does not know: take a later one.");
        Refusal::of(Error::InvalidStore, sentence)
    }

    /// Of a shelf of an earlier form whose sheets, as they are now, do not fit any shelf. `name` is a word of the
    /// shell.
    pub fn of_full_shelf(error: Error, name: &str) -> Refusal {
        let sentence =
            format!("This shelf has an earlier form, and its sheets do not fit {MAX_STORE_WORDS} words in today's.");
        let convert = format!("ostrubel convert {name} --places 0..3 --to OTHER");
        Refusal::of(error, format!("{sentence} Convert some places at a time, each time into another file: {convert}"))
    }

    /// Of so many bytes that are no sheet's file.
    pub fn of_sheet(error: Error, name: &str, bytes: usize) -> Refusal {
        let size = size(bytes, MAX_FILE_BYTES);
        Refusal::of(
            error,
            format!("{name} is no sheet file, or is damaged ({size}): check the name, or take a sound copy."),
        )
    }

    /// Of a place that no shelf has.
    pub fn of_place(place: &Whole) -> Refusal {
        Refusal::of(Error::InvalidStore, format!("There is no place {place}: places are 0 to {}.", SLOTS - 1))
    }

    /// With a sentence that says all.
    pub fn of(error: Error, sentence: String) -> Refusal {
        Refusal { error, sentence, about: Vec::new() }
    }

    /// The refusal of a call on this store, which is as it was before the call.
    pub fn of_call(error: Error, call: &Call, store: &Store) -> Refusal {
        let (sentence, about) = match (error, call) {
            (Error::InvalidStore, _) => (no_place(call), Vec::new()),
            (Error::InvalidShape, Call::Lay { rows, cols, .. }) => {
                let sentence = format!("A sheet has 1 to {MAX_ROWS} rows and 1 to {MAX_COLS} columns.");
                (Some(sentence), vec![format!("{rows} by {cols}")])
            }
            (Error::InvalidShape, Call::Operation(operation)) => misfits(operation, store),
            (Error::InvalidShape, Call::Doors(doors)) => doors_misfits(doors, store),
            (Error::IndexOutOfBounds, Call::Doors(doors)) => {
                let sentence = format!("ALLOWANCE is 0 to {MAX_ALLOWANCE} rounds, and not {}.", doors.allowance);
                (Some(sentence), Vec::new())
            }
            (Error::InvalidFormula, Call::Formula(formula)) => (None, misread(&formula.text)),
            (Error::EmptySlot, Call::Formula(formula)) => (None, empty_places(&formula.text, store)),
            (Error::InvalidShape | Error::TooManyEntries, Call::Formula(_)) => (None, Vec::new()),
            (Error::EmptySlot, _) => (None, places(call, |role| !store.occupied(role.slot.size()))),
            (Error::IndexOutOfBounds, _) => (None, outside(call, store)),
            (Error::TooManyEntries, _) => (None, entries(call, store)),
            (Error::InsufficientSpace, _) => (None, words(store)),
            _ => (None, Vec::new()),
        };
        Refusal { error, sentence: sentence.unwrap_or_else(|| error.to_string()), about }
    }
}

/// Where a text stops being a formula.
fn misread(text: &str) -> Vec<String> {
    let Err(FormulaError::Text { at }) = check_formula(text) else {
        return Vec::new();
    };
    let (front, rest) = text.split_at_checked(at).unwrap_or((text, ""));
    let fault = match rest.chars().next() {
        Some(sign) => format!("{sign:?} cannot stand there"),
        None => "the text ends too early".to_string(),
    };
    vec![if front.is_empty() { fault } else { format!("after {front:?} {fault}") }]
}

/// The empty places that a formula names, each once.
fn empty_places(text: &str, store: &Store) -> Vec<String> {
    let named: BTreeSet<usize> = text.chars().filter_map(|sign| sign.to_digit(8)).map(|slot| slot as usize).collect();
    named.into_iter().filter(|&slot| !store.occupied(slot)).map(|slot| format!("place {slot}")).collect()
}

/// A number of bytes, of which no more than `most` and one were read.
fn size(bytes: usize, most: usize) -> String {
    let more = if bytes > most { "more than " } else { "" };
    format!("{more}{}", counted(bytes.min(most), "byte", "bytes"))
}

/// The place, and in an operation what it is there for.
fn name(role: &Role) -> String {
    if role.name.is_empty() {
        format!("place {}", role.slot)
    } else {
        format!("place {} ({})", role.slot, role.name)
    }
}

/// The places of a call that some test picks out.
fn places(call: &Call, picked: impl Fn(&Role) -> bool) -> Vec<String> {
    call.roles().iter().filter(|role| picked(role)).map(name).collect()
}

fn no_place(call: &Call) -> Option<String> {
    let none = places(call, |role| role.slot.size() >= SLOTS);
    let last = SLOTS - 1;
    (!none.is_empty()).then(|| format!("There is no {}: places are 0 to {last}.", none.join(" and no ")))
}

/// A sheet of an operation: its name, and its shape as transposed.
struct Sheet {
    name: String,
    transposed: &'static str,
    rows: u32,
    cols: u32,
}

impl Sheet {
    fn of(role: &Role, store: &Store) -> Option<Sheet> {
        let (rows, cols) = carry_out::shape(role.slot, role.transposed, store)?;
        let transposed = if role.transposed { " as transposed" } else { "" };
        Some(Sheet { name: name(role), transposed, rows, cols })
    }

    fn shape(&self) -> (u32, u32) {
        (self.rows, self.cols)
    }

    fn is(&self) -> String {
        format!("{} is {} by {}{}", self.name, self.rows, self.cols, self.transposed)
    }

    fn has_rows(&self) -> String {
        format!("{} has {}{}", self.name, counted(self.rows as usize, "row", "rows"), self.transposed)
    }

    fn has_cols(&self) -> String {
        format!("{} has {}{}", self.name, counted(self.cols as usize, "column", "columns"), self.transposed)
    }

    /// Nothing where it has this shape.
    fn must_be(&self, (rows, cols): (u32, u32)) -> Option<String> {
        (self.shape() != (rows, cols)).then(|| format!("{} and must be {rows} by {cols}", self.is()))
    }
}

/// What an operation needs, and the shapes that are not so. No sentence where nothing is found.
fn misfits(operation: &Operation, store: &Store) -> (Option<String>, Vec<String>) {
    let sheets: Option<Vec<Sheet>> = operation.roles().iter().map(|role| Sheet::of(role, store)).collect();
    let sheets = sheets.unwrap_or_default();
    let (need, mut about) = match (&operation.kind, sheets.as_slice()) {
        (Kind::Mxm { .. }, [a, b, .., c]) => {
            let need = "A must have as many columns as B has rows, and C the rows of A and the columns of B";
            (need, facts([inner(a, b), c.must_be((a.rows, b.cols))]))
        }
        (Kind::Vxm { .. }, [u, a, .., c]) => {
            let need = "U must have one row and as many columns as A has rows, and C one row and the columns of A";
            let row = (u.rows != 1).then(|| u.has_rows());
            (need, facts([row, inner(u, a), c.must_be((1, a.cols))]))
        }
        (Kind::EwiseMult { .. } | Kind::EwiseAdd { .. }, [a, b, .., c]) => {
            let inputs = (a.shape() != b.shape()).then(|| format!("{}, {}", a.is(), b.is()));
            let output = c.must_be(a.shape()).filter(|_| inputs.is_none());
            ("A, B and C must have the same shape", facts([inputs, output]))
        }
        (Kind::Apply { .. } | Kind::Select { .. }, [a, .., c]) => {
            ("C must have the shape of A", facts([c.must_be(a.shape())]))
        }
        (Kind::ReduceRows { .. }, [a, .., c]) => {
            ("C must have one row, and a column for each row of A", facts([c.must_be((1, a.rows))]))
        }
        (Kind::Assign { rows, cols, .. }, [a, .., c]) => {
            let (rows, cols) = (chosen(rows, c.rows), chosen(cols, c.cols));
            let fits = (a.rows as usize, a.cols as usize) == (rows, cols);
            let chosen = (!fits).then(|| {
                let (rows, cols) = (counted(rows, "row", "rows"), counted(cols, "column", "columns"));
                format!("{rows} and {cols} are chosen, {}", a.is())
            });
            ("A must have as many rows and columns as are chosen", facts([chosen]))
        }
        (Kind::Kronecker { .. }, [a, b, .., c]) => {
            let need = "C must have as many rows and columns as A's times B's";
            (need, facts([c.must_be((a.rows * b.rows, a.cols * b.cols))]))
        }
        (Kind::Extract { rows, cols, .. }, [a, .., c]) => {
            let (rows, cols) = (chosen(rows, a.rows), chosen(cols, a.cols));
            let fits = (c.rows as usize, c.cols as usize) == (rows, cols);
            let chosen = (!fits).then(|| {
                let (rows, cols) = (counted(rows, "row", "rows"), counted(cols, "column", "columns"));
                format!("{rows} and {cols} are chosen, {}", c.is())
            });
            ("C must have as many rows and columns as are chosen", facts([chosen]))
        }
        _ => return (None, Vec::new()),
    };
    let mut needs: Vec<&str> = if about.is_empty() { Vec::new() } else { vec![need] };
    let transposed = operation.roles().iter().any(|role| role.transposed) && !needs.is_empty();
    let transposed = if transposed { " as transposed" } else { "" };
    match (&operation.write_back.mask, sheets.as_slice()) {
        (Some(_), [.., mask, c]) if mask.shape() != c.shape() => {
            needs.push("the mask must have the shape of C");
            about.push(mask.is());
            if !about.iter().any(|fact| fact.contains(&c.name)) {
                about.push(c.is());
            }
        }
        _ => {}
    }
    ((!needs.is_empty()).then(|| format!("The shapes do not fit{transposed}: {}.", needs.join("; "))), about)
}

fn facts<const N: usize>(facts: [Option<String>; N]) -> Vec<String> {
    facts.into_iter().flatten().collect()
}

/// The columns of the first and the rows of the second, where they differ.
fn inner(first: &Sheet, second: &Sheet) -> Option<String> {
    (first.cols != second.rows).then(|| format!("{}, {}", first.has_cols(), second.has_rows()))
}

/// How many a list chooses among so many.
fn chosen(list: &IndexList, all: u32) -> usize {
    match list {
        IndexList::All => all as usize,
        IndexList::Listed(indexes) => indexes.len(),
    }
}

/// The row, the column or the index lists, and the sheet that they are outside of.
fn outside(call: &Call, store: &Store) -> Vec<String> {
    let asked = match call {
        Call::Set { cell, .. } | Call::Clear { cell } | Call::Read { cell, .. } => {
            vec![format!("row {}", cell.row), format!("column {}", cell.col)]
        }
        Call::Operation(operation) => index_lists(operation, store),
        _ => Vec::new(),
    };
    let roles = call.roles();
    // The indexes of an assign are those of C.
    let held = match call {
        Call::Operation(Operation { kind: Kind::Assign { .. }, .. }) => roles.last(),
        _ => roles.first(),
    };
    let sheet = held.and_then(|role| Sheet::of(role, store));
    asked.into_iter().chain(sheet.map(|sheet| sheet.is())).collect()
}

fn index_lists(operation: &Operation, store: &Store) -> Vec<String> {
    let (held, transposed, rows, cols) = match &operation.kind {
        Kind::Extract { a, rows, cols } => (a, operation.write_back.transpose_first, rows, cols),
        Kind::Assign { rows, cols, .. } => (&operation.c, false, rows, cols),
        _ => return Vec::new(),
    };
    let Some((row_count, col_count)) = carry_out::shape(held, transposed, store) else {
        return Vec::new();
    };
    [index_list("--rows", rows, row_count), index_list("--cols", cols, col_count)].into_iter().flatten().collect()
}

/// What is wrong with a list whose indexes have to be below `limit`.
fn index_list(option: &str, list: &IndexList, limit: u32) -> Option<String> {
    let IndexList::Listed(indexes) = list else {
        return None;
    };
    let past = |index: &&Whole| index.index() >= limit;
    if indexes.is_empty() {
        Some(format!("{option} has no index"))
    } else if let Some(index) = indexes.iter().find(past) {
        Some(format!("{option} has {index}"))
    } else if indexes.len() > MAX_INDEXES {
        Some(format!("{option} has more than {MAX_INDEXES} indexes"))
    } else {
        let mut seen = BTreeSet::new();
        let twice = indexes.iter().find(|index| !seen.insert(index.index()));
        twice.map(|index| format!("{option} has {index} twice"))
    }
}

/// The sheet that would be too full, which is the last one that a call names.
fn entries(call: &Call, store: &Store) -> Vec<String> {
    let counted = call.roles().pop().and_then(|role| {
        let entries = store.matrix(role.slot.size()).ok()?.entries();
        Some(format!("{} has {} now", name(&role), counted(entries, "entry", "entries")))
    });
    counted.into_iter().collect()
}

fn words(store: &Store) -> Vec<String> {
    vec![format!("{} of {} words are used now", store.used_words(), store.words().len())]
}

/// What keys behind doors needs, and the shapes that are not so.
fn doors_misfits(doors: &Doors, store: &Store) -> (Option<String>, Vec<String>) {
    let sheets: Option<Vec<Sheet>> = doors.roles().iter().map(|role| Sheet::of(role, store)).collect();
    let Some([locks, cabinets, hand]) = sheets.as_deref() else {
        return (None, Vec::new());
    };
    let need = "The shapes do not fit: CABINETS must have a row for each door and a column for each key, as LOCKS has \
                columns and rows, and HAND one row and a column for each key.";
    let about = facts([Some(locks.is()), cabinets.must_be((locks.cols, locks.rows)), hand.must_be((1, locks.rows))]);
    (Some(need.to_string()), about)
}
