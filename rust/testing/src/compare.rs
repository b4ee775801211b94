//! Comparing words found with words expected.

use crate::words::{self, Cells, Opening};
use std::fmt::Debug;

/// Fails at the first word that differs, and shows the case.
#[track_caller]
pub fn same_words(found: &[u32], expected: &[u32], case: impl Debug) {
    assert_eq!(found.len(), expected.len(), "length: {case:?}");
    if found != expected {
        let place = (0..found.len()).find(|&i| found[i] != expected[i]);
        differs(place.unwrap_or(0), found, |place| expected[place], case)
    }
}

/// Fails at the first word that differs from the table of these cells, which need not fit in memory twice.
#[track_caller]
pub fn same_table(found: &[u32], opening: Opening, cells: &Cells, case: impl Debug) {
    assert_eq!(found.len(), opening.table_words(), "length: {case:?}");
    assert_eq!(found[0], words::opening_word(opening), "opening: {case:?}");
    let size = opening.cell_words();
    for (pair, (rows, cell)) in found[1..].chunks(size).zip(cells).enumerate() {
        let mut expected = vec![words::count_word(cell.len() as u32)];
        expected.extend(cell.iter().map(|&interval| words::interval_word(interval)));
        let (used, unused) = rows.split_at(expected.len());
        let zero = unused.iter().fold(0, |all, word| all | word) == 0;
        if used != expected || !zero {
            expected.resize(size, 0);
            let place = (0..size).find(|&i| rows[i] != expected[i]).unwrap_or(0);
            let start = 1 + pair * size;
            differs(start + place, found, |place| expected[place - start], case)
        }
    }
}

/// Fails with the word at the place.
#[track_caller]
fn differs(place: usize, found: &[u32], expected: impl Fn(usize) -> u32, case: impl Debug) -> ! {
    let (found, expected) = (found[place], expected(place));
    panic!("word {place} is {found:08X}, expected {expected:08X}: {case:?}")
}
