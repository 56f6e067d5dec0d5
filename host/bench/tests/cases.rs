//! The cases that are measured: all sides agree on them, and the matrices are what the document says.

use bench::cases::{all_cases, Case, Section};
use bench::entries::Entries;
use bench::ordinary;
use bench::rounds::measure;
use bench::scene::{Scene, SIZES};
use std::time::Duration;

#[test]
fn all_sides_agree() {
    let cases = all_cases().unwrap();
    let count = |of: fn(Section) -> bool| cases.iter().filter(|case| of(case.section)).count();
    assert_eq!(count(|section| section == Section::Parts), 2 * SIZES.len() + 2);
    assert_eq!(count(|section| section == Section::Row), 1);
    assert_eq!(count(|section| matches!(section, Section::Lent(_))), 23 * SIZES.len());
    let sums = SIZES.iter().filter(|size| size.entries == 300).count();
    assert_eq!(count(|section| matches!(section, Section::Store(_))), 18 * SIZES.len() + sums);
    assert_eq!(count(|section| matches!(section, Section::Day(_))), 6 * SIZES.len());
    assert_eq!(count(|section| section == Section::Files), 3 * SIZES.len());
    assert_eq!(count(|section| section == Section::Doors), SIZES.len() + 1);
    let has_peer = |case: &&Case| case.subjects[2].is_some();
    let peers = if cfg!(feature = "suitesparse") { (23 + 4 + 1 + 1) * SIZES.len() + sums + 1 } else { 0 };
    assert_eq!(cases.iter().filter(has_peer).count(), peers);
}

/// The fewest rounds, of the products of 300 entries: in 250 rows and columns, and the same in 1,000.
#[test]
fn products_are_measured() {
    let is_product = |case: &Case| match case.section {
        Section::Lent(size) => case.call == "`mxm`" && size.entries == 300,
        _ => false,
    };
    let mut cases: Vec<Case> = all_cases().unwrap().into_iter().filter(is_product).collect();
    let (narrow, wide) = cases.split_at(4);
    let results = |cases: &[Case]| cases.iter().map(|case| case.entries).collect::<Vec<_>>();
    assert_eq!(results(narrow), results(wide));
    for [library, ordinary, _, floor] in measure(&mut cases, Duration::ZERO).sides {
        for side in [library, ordinary, floor] {
            assert!(side.is_some_and(|time| time.median > 0.0));
        }
    }
}

#[test]
fn matrices_have_their_entries() {
    for size in SIZES {
        let Scene { a, b, mask, c, factors, addend, outer, block, day, marks, .. } = Scene::new(size);
        for entries in [&a, &b, &mask, &c, &factors.0, &factors.1, &addend.0] {
            assert_eq!((entries.rows, entries.cols, entries.cells.len()), (size.side, size.side, size.entries));
            let words = entries.words();
            assert_eq!(ordinary::check(&words), (size.entries as u64) << 32);
            assert_eq!(&Entries::read(&words), entries);
        }
        let common = a.cells.keys().filter(|position| b.cells.contains_key(position)).count();
        assert!(common >= size.entries / 2);
        assert!(mask.cells.values().any(|&value| value == 0));
        assert_eq!([outer.rows * block.rows, outer.cols * block.cols], [size.side; 2]);
        assert_eq!((outer.cells.len() * block.cells.len(), block.rows > 1), (size.entries, true));
        assert_eq!((marks.cols, marks.cells.len()), (size.side, (size.side / size.spread).div_ceil(4)));
        assert!(day.cells.keys().all(|position| marks.cells.contains_key(&(0, position.0))));
    }
}
