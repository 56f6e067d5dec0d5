//! The forms that a shelf's words have had, and how earlier ones are taken over.
//!
//! | version | a sheet begins with           |
//! |---------|-------------------------------|
//! | 1       | 2, its rows and its columns   |
//! | 2       | 1, its revision; then as in 1 |
//!
//! The words around the sheets are the same in both: for each place a count of words and the sheet, then zeros.

use ostrubel::{Error, Matrix, Store, MAX_STORE_WORDS, SLOTS};

/// The guard's version of sheets without revisions, and of those that the library reads and writes.
pub const WITHOUT_REVISIONS: u32 = 1;
pub const VERSION: u32 = 2;

/// The sheet of each place, where it has one.
pub type Sheets = [Option<Matrix>; SLOTS];

pub fn sheets(store: &Store) -> Sheets {
    std::array::from_fn(|slot| store.matrix(slot).ok())
}

/// The sheets in words of version 1, or `None` where the words are not of that form. Their revision is 0.
pub fn earlier_sheets(words: &[u32]) -> Option<Sheets> {
    let mut sheets = Sheets::default();
    let mut rest = words;
    for sheet in &mut sheets {
        let (count, behind) = rest.split_first()?;
        let (section, behind) = behind.split_at_checked(usize::try_from(*count).ok()?)?;
        rest = behind;
        if !section.is_empty() {
            let words = [&[1, 0], section].concat();
            // The library checks the words, and may find a shorter sheet at their front.
            *sheet = Some(Matrix::from_words(&words).ok().filter(|matrix| matrix.words() == words)?);
        }
    }
    (words.len() <= MAX_STORE_WORDS && rest.iter().all(|word| *word == 0)).then_some(sheets)
}

/// A store of so many words with these sheets.
pub fn store(words: usize, sheets: &Sheets) -> Result<Store, Error> {
    let mut store = Store::new(words)?;
    for (slot, matrix) in sheets.iter().enumerate() {
        if let Some(matrix) = matrix {
            store.put(slot, matrix)?;
        }
    }
    Ok(store)
}

/// The same with more words where these are too few for sheets that have grown.
pub fn grown_store(words: usize, sheets: &Sheets) -> Result<Store, Error> {
    let used: usize = sheets.iter().map(|sheet| 1 + sheet.as_ref().map_or(0, |matrix| matrix.words().len())).sum();
    if used > MAX_STORE_WORDS {
        return Err(Error::InsufficientSpace);
    }
    store(words.max(used), sheets)
}

#[cfg(test)]
pub mod tests {
    use super::*;

    /// The words of version 1 of a store with a 1 by 2 sheet in place 1.
    pub fn earlier_words() -> Vec<u32> {
        let sheet = [2, 1, 2, 2, 0, 1, 1, 1, 1, 14_053];
        let mut words = vec![0, sheet.len() as u32];
        words.extend(sheet);
        words.resize(40, 0);
        words
    }

    #[test]
    fn sheets_of_version_1() {
        let sheets = earlier_sheets(&earlier_words()).unwrap();
        let expected = Matrix::from_triples(1, 2, [(0, 1, 14_053)]).unwrap();
        assert_eq!(sheets[1], Some(expected));
        assert_eq!(sheets.iter().flatten().count(), 1);
        assert_eq!(sheets[1].as_ref().unwrap().revision(), 0);
        assert_eq!(earlier_sheets(&[0; 8]), Some(Sheets::default()));
    }

    #[test]
    fn words_that_are_not_of_version_1() {
        for (at, word) in [(0, 1), (1, 11), (1, 9), (2, 1), (2, 3), (6, 2), (39, 1), (12, u32::MAX)] {
            let mut words = earlier_words();
            words[at] = word;
            assert_eq!(earlier_sheets(&words), None, "{at} {word}");
        }
        assert_eq!(earlier_sheets(&[0; 7]), None);
        assert_eq!(earlier_sheets(&[0; MAX_STORE_WORDS + 1]), None);
    }

    /// Sheets that no longer fit get more words, up to the longest shelf.
    #[test]
    fn a_store_grows_with_its_sheets() {
        let sheets = earlier_sheets(&earlier_words()).unwrap();
        let used = 8 + sheets[1].as_ref().unwrap().words().len();
        assert_eq!(grown_store(8, &sheets).unwrap().words().len(), used);
        assert_eq!(grown_store(100, &sheets).unwrap().words().len(), 100);
        let full = Matrix::from_triples(1000, 1000, (0..2000).map(|k| (k / 2, k % 2, 1))).unwrap();
        assert_eq!(grown_store(8, &std::array::from_fn(|_| Some(full.clone()))), Err(Error::InsufficientSpace));
    }
}
