//! What document 01 says that the printing program writes for any bytes.

use crate::check;
use crate::model::{self, Contacts};
use crate::words::{self, Interval, Opening};

/// The most bytes that the program takes.
pub const MOST_BYTES: usize = 16_384;
/// The most animals that the program takes.
pub const MOST_ANIMALS: u32 = 8;
/// The most ticks that the program takes.
pub const MOST_TICKS: u32 = 64;

/// The bytes of these words in a file, highest byte first.
pub fn bytes(words: &[u32]) -> Vec<u8> {
    words.iter().flat_map(|word| word.to_be_bytes()).collect()
}

/// The text for these bytes: the sheet of the log, or one line.
pub fn text(bytes: &[u8]) -> String {
    sheet(bytes).unwrap_or_else(|line| line + "\n")
}

/// The sheet of the log in these bytes, or the line that is written instead.
fn sheet(bytes: &[u8]) -> Result<String, String> {
    if bytes.len() > MOST_BYTES {
        return Err("too large".into());
    }
    if !bytes.len().is_multiple_of(4) {
        return Err("not whole words".into());
    }
    let log: Vec<u32> = bytes.chunks(4).map(word).collect();
    if log.first().is_some_and(|&first| opens_larger(first)) {
        return Err("too large".into());
    }
    let refused = |number: u32| format!("refused {number}");
    let opening = check::log_opening(&log).map_err(refused)?;
    let contacts = check::log_contacts(opening, &log).map_err(refused)?;
    Ok(table_text(opening, &contacts.into_iter().collect()))
}

/// The word of four bytes.
fn word(bytes: &[u8]) -> u32 {
    bytes
        .iter()
        .fold(0, |word, &byte| word << 8 | u32::from(byte))
}

/// Whether the word opens a table beyond the program's limits.
fn opens_larger(first: u32) -> bool {
    let opening = words::read_opening(first);
    opening.is_some_and(|opening| opening.animals > MOST_ANIMALS || opening.ticks > MOST_TICKS)
}

/// The numbers of the table over the set, then a line for each cell that is not empty.
fn table_text(opening: Opening, contacts: &Contacts) -> String {
    let (n, ticks, carry) = (opening.animals, opening.ticks, opening.carry);
    let mut text = format!("{n} {ticks} {carry} {}\n", contacts.len());
    let cells = model::minimal_intervals(opening, contacts);
    for u in 0..n {
        for v in 0..n {
            let cell = &cells[opening.pair(u, v)];
            if !cell.is_empty() {
                text += &line(u, v, cell);
            }
        }
    }
    text
}

/// The line of a cell: its two animals, then its intervals.
fn line(u: u32, v: u32, cell: &[Interval]) -> String {
    let interval = |i: &Interval| format!(" {}-{}", i.departure, i.arrival);
    let intervals: String = cell.iter().map(interval).collect();
    format!("{u} {v}{intervals}\n")
}
