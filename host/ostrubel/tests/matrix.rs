//! Making matrices and reading them.

use ostrubel::{ApplyOp, Error, Found, Matrix, Options, Section, UnaryOp, MAX_COLS, MAX_ENTRIES, MAX_ROWS};
use std::collections::BTreeMap;

/// Document 01's strip: 10, 20, 40 at columns 0, 1, 3.
const STRIP: [u32; 16] = [1, 0, 2, 1, 4, 2, 0, 3, 3, 0, 1, 3, 3, 10, 20, 40];

#[test]
fn a_new_matrix_is_empty() -> Result<(), Error> {
    let matrix = Matrix::new(3, 5)?;
    assert_eq!((matrix.rows(), matrix.cols(), matrix.entries()), (3, 5, 0));
    assert_eq!(matrix.words(), [1, 0, 2, 3, 5, 4, 0, 0, 0, 0, 0, 0]);
    assert_eq!(matrix.get(2, 4)?, None);
    assert_eq!(matrix.iter().next(), None);
    Ok(())
}

#[test]
fn triples_give_the_words_of_document_01() -> Result<(), Error> {
    let strip = Matrix::from_triples(1, 4, [(0, 3, 40), (0, 0, 10), (0, 1, 20)])?;
    assert_eq!(strip.words(), STRIP);
    assert_eq!(strip, Matrix::from_words(&STRIP)?);
    assert_eq!(strip.into_words(), STRIP);
    Ok(())
}

#[test]
fn negative_values_are_in_twos_complement() -> Result<(), Error> {
    let matrix = Matrix::from_triples(1, 1, [(0, 0, -5)])?;
    assert_eq!(matrix.words().last(), Some(&4_294_967_291));
    assert_eq!(matrix.get(0, 0)?, Some(-5));
    Ok(())
}

#[test]
fn spare_words_are_left_out() -> Result<(), Error> {
    let mut words = STRIP.to_vec();
    words.extend([7, 8, 9]);
    assert_eq!(Matrix::from_words(&words)?.words(), STRIP);
    Ok(())
}

#[test]
fn the_later_of_two_triples_counts() -> Result<(), Error> {
    let matrix = Matrix::from_triples(2, 2, [(1, 1, 1), (0, 0, 2), (1, 1, 3), (0, 0, 0)])?;
    assert_eq!(matrix.to_triples(), [(0, 0, 0), (1, 1, 3)]);
    Ok(())
}

#[test]
fn cells_are_read() -> Result<(), Error> {
    let strip = Matrix::from_words(&STRIP)?;
    let cells: Result<Vec<_>, _> = (0..4).map(|j| strip.get(0, j)).collect();
    assert_eq!(cells?, [Some(10), Some(20), None, Some(40)]);
    assert_eq!(strip.get(0, 4), Err(Error::IndexOutOfBounds));
    assert_eq!(strip.get(1, 0), Err(Error::IndexOutOfBounds));
    assert_eq!(strip.get(u32::MAX, u32::MAX), Err(Error::IndexOutOfBounds));
    Ok(())
}

/// A present cell's position is where its entry comes among all; an absent one's is where it comes once it has a value.
#[test]
fn cells_are_found_with_their_positions() -> Result<(), Error> {
    let triples = [(0, 2, 5), (2, 0, 0), (2, 1, 7)];
    let matrix = Matrix::from_triples(3, 3, triples)?;
    for (i, j) in (0..3).flat_map(|i| (0..3).map(move |j| (i, j))) {
        let added = Matrix::from_triples(3, 3, triples.into_iter().chain([(i, j, -9)]))?;
        let place = added.iter().position(|(row, col, _)| (row, col) == (i, j));
        let (value, position) = match matrix.find(i, j)? {
            Found::Present { value, position } => (Some(value), position),
            Found::Absent { position } => (None, position),
        };
        assert_eq!((value, Some(position)), (matrix.get(i, j)?, place), "({i}, {j})");
    }
    assert_eq!(Matrix::new(1_000, 1_000)?.find(999, 999)?, Found::Absent { position: 0 });
    assert_eq!(matrix.find(3, 0), Err(Error::IndexOutOfBounds));
    Ok(())
}

#[test]
fn entries_come_row_by_row() -> Result<(), Error> {
    let triples = [(1, 0, 1), (1, 2, 2), (4, 1, 3)];
    let matrix = Matrix::from_triples(6, 3, triples)?;
    let mut entries = matrix.iter();
    for (at, triple) in triples.into_iter().enumerate() {
        assert_eq!(entries.len(), 3 - at);
        assert_eq!(entries.next(), Some(triple));
    }
    assert_eq!((entries.next(), entries.next(), entries.len()), (None, None, 0));
    let mut sum = 0;
    for (_, _, value) in &matrix {
        sum += value;
    }
    assert_eq!(sum, 6);
    Ok(())
}

#[test]
fn entries_of_a_matrix_that_is_given_away() -> Result<(), Error> {
    let triples = [(1, 0, 1), (1, 2, 2), (4, 1, 3)];
    let mut entries = Matrix::from_triples(6, 3, triples)?.into_iter();
    for (at, triple) in triples.into_iter().enumerate() {
        assert_eq!(entries.len(), 3 - at);
        assert_eq!(entries.next(), Some(triple));
    }
    assert_eq!((entries.next(), entries.next(), entries.len()), (None, None, 0));
    assert_eq!(Matrix::new(1, 1)?.into_iter().next(), None);
    Ok(())
}

#[test]
fn words_are_tried() {
    assert_eq!(Matrix::try_from(&STRIP[..]).map(Matrix::into_words), Ok(STRIP.to_vec()));
    assert_eq!(Matrix::try_from(&STRIP[..15]), Err(Error::InvalidFirst));
}

/// Each cell set and cleared, beside a matrix made of the cells there are.
#[test]
fn cells_are_set_and_cleared() -> Result<(), Error> {
    let mut matrix = Matrix::new(3, 3)?;
    let mut cells = BTreeMap::new();
    for step in 0..60 {
        let (i, j) = (step * 7 % 3, step * 5 % 9 / 3);
        let entries = if step % 3 == 0 {
            cells.remove(&(i, j));
            matrix.clear(i, j)?
        } else {
            cells.insert((i, j), step as i32 % 4 - 1);
            matrix.set(i, j, step as i32 % 4 - 1)?
        };
        let expected: Vec<_> = cells.iter().map(|(&(i, j), &value)| (i, j, value)).collect();
        assert_eq!((matrix.to_triples(), entries), (expected, cells.len()), "step {step}");
    }
    for (i, j) in [(3, 0), (0, 3), (u32::MAX, u32::MAX)] {
        let before = matrix.clone();
        assert_eq!(matrix.set(i, j, 1), Err(Error::IndexOutOfBounds));
        assert_eq!(matrix.clear(i, j), Err(Error::IndexOutOfBounds));
        assert_eq!(matrix, before);
    }
    Ok(())
}

#[test]
fn a_full_matrix_takes_no_other_cell() -> Result<(), Error> {
    let cells = (0..MAX_ENTRIES as u32).map(|k| (k % MAX_ROWS, k / MAX_ROWS, 1));
    let mut matrix = Matrix::from_triples(MAX_ROWS, MAX_COLS, cells)?;
    let before = matrix.clone();
    assert_eq!(matrix.set(999, 999, 1), Err(Error::TooManyEntries));
    assert_eq!(matrix, before);
    assert_eq!(matrix.set(0, 0, 2)?, MAX_ENTRIES);
    assert_eq!(matrix.clear(0, 0)?, MAX_ENTRIES - 1);
    assert_eq!(matrix.set(999, 999, 1)?, MAX_ENTRIES);
    Ok(())
}

#[test]
fn transposing() -> Result<(), Error> {
    let matrix = Matrix::from_triples(2, 1_000, [(0, 999, 7), (1, 0, 0), (1, 999, i32::MIN)])?;
    let expected = Matrix::from_triples(1_000, 2, [(999, 0, 7), (0, 1, 0), (999, 1, i32::MIN)])?;
    assert_eq!(matrix.transpose().to_triples(), expected.to_triples());
    assert_eq!((matrix.transpose().rows(), matrix.transpose().cols()), (1_000, 2));
    Ok(())
}

/// A matrix keeps no room of the largest one after a call that wrote it.
#[test]
fn room_is_given_back() -> Result<(), Error> {
    let room = |matrix: Matrix| {
        let words = matrix.into_words();
        (words.capacity() - words.len()) as u32
    };
    let a = Matrix::from_triples(2, 3, [(0, 2, 7), (1, 0, -5)])?;
    let mut c = Matrix::new(3, 2)?;
    assert!(room(c.clone()) < 64 && room(Matrix::new(3, 2)?) < 64);
    c.apply(ApplyOp::Unary(UnaryOp::Abs), &a, &Options::new().transpose_first())?;
    assert!(room(c) < 64);
    let mut refused = Matrix::new(2, 2)?;
    assert!(refused.apply(ApplyOp::Unary(UnaryOp::Abs), &a, &Options::new()).is_err());
    assert!(room(refused) < 64);
    assert!(room(Matrix::open_doors(&a.transpose(), &a, &Matrix::new(1, 3)?, 1)?) < 64);
    assert!(room(Matrix::from_bytes(&a.to_bytes())?) < 64);
    Ok(())
}

#[test]
fn rows_are_read_one_by_one() -> Result<(), Error> {
    let matrix = Matrix::from_triples(3, 3, [(0, 1, 4), (2, 0, 5), (2, 2, 6)])?;
    assert_eq!(matrix.row(0)?.collect::<Vec<_>>(), [(1, 4)]);
    assert_eq!(matrix.row(1)?.len(), 0);
    assert_eq!(matrix.row(2)?.collect::<Vec<_>>(), [(0, 5), (2, 6)]);
    assert_eq!(matrix.row(3).err(), Some(Error::IndexOutOfBounds));
    assert_eq!(matrix.row(u32::MAX).err(), Some(Error::IndexOutOfBounds));
    Ok(())
}

#[test]
fn matrices_are_equal_where_their_cells_are() -> Result<(), Error> {
    let stored_zero = Matrix::from_triples(2, 2, [(0, 0, 0)])?;
    assert_eq!(stored_zero, Matrix::from_triples(2, 2, stored_zero.to_triples())?);
    assert_ne!(stored_zero, Matrix::new(2, 2)?);
    assert_ne!(Matrix::new(2, 2)?, Matrix::new(2, 3)?);
    Ok(())
}

#[test]
fn revisions() -> Result<(), Error> {
    let a = Matrix::from_triples(2, 2, [(0, 1, 7)])?;
    let mut c = Matrix::new(2, 2)?;
    let copy = ApplyOp::Unary(UnaryOp::Identity);
    for revision in 1..4 {
        c.apply(copy, &a, &Options::new())?;
        assert_eq!((c.revision(), a.revision()), (revision, 0));
    }
    assert!(c.apply(copy, &Matrix::new(3, 3)?, &Options::new()).is_err());
    assert_eq!((c.revision(), c.clone().revision(), c == a), (3, 3, true));
    assert_eq!(Matrix::from_bytes(&c.to_bytes())?.revision(), 3);
    assert_eq!(Matrix::open_doors(&a, &a, &Matrix::new(1, 2)?, 1)?.revision(), 0);

    let mut words = c.into_words();
    words[1] = u32::MAX;
    let mut last = Matrix::from_words(&words)?;
    assert_eq!(last.revision(), u32::MAX);
    last.clear(0, 0)?;
    assert_eq!(last.revision(), 0);
    Ok(())
}

/// A file of the form before revisions: without the first section.
#[test]
fn files_of_the_form_before_revisions() -> Result<(), Error> {
    let bytes: Vec<u8> = STRIP[2..].iter().flat_map(|word| word.to_le_bytes()).collect();
    assert_eq!(Matrix::from_bytes(&bytes)?.into_words(), STRIP);
    assert_eq!(Matrix::from_words(&STRIP[2..]), Err(Error::InvalidFirst));
    Ok(())
}

#[test]
fn matrices_go_between_threads() -> Result<(), Error> {
    let matrix = Matrix::from_triples(2, 2, [(0, 1, 7)])?;
    let copy = matrix.clone();
    let value = std::thread::spawn(move || copy.get(0, 1)).join();
    assert_eq!(value.ok(), Some(Ok(Some(7))));
    assert_eq!(matrix.get(0, 1)?, Some(7));
    Ok(())
}

#[test]
fn a_row_view_shows_the_first_matrix_with_entries_in_the_row() -> Result<(), Error> {
    let first = Matrix::from_triples(3, 4, [(0, 1, 9), (0, 3, -1), (2, 0, 6)])?;
    let second = Matrix::from_triples(3, 4, [(0, 0, 1), (1, 2, 5)])?;
    for (i, columns, values) in [(0, vec![1, 3], vec![9, u32::MAX]), (1, vec![2], vec![5]), (2, vec![0], vec![6])] {
        assert_eq!(first.row_view(&second, i, Section::Columns), columns);
        assert_eq!(first.row_view(&second, i, Section::Values), values);
    }
    let part = first.row_view(&second, 1, Section::Columns);
    assert!(second.words().as_ptr_range().contains(&part.as_ptr()));
    Ok(())
}

#[test]
fn a_row_view_of_other_shapes_or_no_row_is_empty() -> Result<(), Error> {
    let matrix = Matrix::from_triples(3, 4, [(0, 1, 9)])?;
    let wide = Matrix::from_triples(3, 5, [(0, 1, 9)])?;
    let long = Matrix::from_triples(4, 4, [(0, 1, 9)])?;
    for (second, i) in [(&wide, 0), (&long, 0), (&matrix, 3), (&matrix, u32::MAX), (&matrix, 1)] {
        assert!(matrix.row_view(second, i, Section::Columns).is_empty());
        assert!(matrix.row_view(second, i, Section::Values).is_empty());
    }
    Ok(())
}
