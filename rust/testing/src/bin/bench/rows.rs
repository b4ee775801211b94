//! The words of a table and of a log in safe Rust, without a check of either.

use herd_testing::words::{self, Contact, Opening};

/// The opening of a log.
pub fn log_opening(log: &[u32]) -> Opening {
    words::read_opening(log[0]).expect("an opening word stands first")
}

/// The contacts of a log.
pub fn log_contacts(log: &[u32]) -> impl Iterator<Item = Contact> + '_ {
    let between = log[1..log.len() - 1].iter();
    between.map(|&word| words::read_contact(word).expect("contact words stand between"))
}

/// Writes the opening word, and every cell empty.
pub fn open(opening: Opening, table: &mut [u32]) {
    table[0] = words::opening_word(opening);
    for cell in table[1..].chunks_exact_mut(opening.cell_words()) {
        cell.fill(0);
        cell[0] = words::count_word(0);
    }
}

/// The rows in use of a cell.
pub fn used(cell: &[u32]) -> &[u32] {
    &cell[1..1 + words::bits(cell[0], 10, 0) as usize]
}

/// The departure of a row.
pub fn departure(row: u32) -> u32 {
    words::bits(row, 21, 11)
}

/// The arrival of a row.
pub fn arrival(row: u32) -> u32 {
    words::bits(row, 10, 0)
}
