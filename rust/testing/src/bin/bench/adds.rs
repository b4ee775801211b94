//! Document 01's add rule on the words of a table in safe Rust, without a check of the table.

use crate::rows;
use herd::calls::Added;
use herd_testing::calls::accepted;
use herd_testing::words::{self, Contact, Interval, Opening};

/// An animal and the earliest arrival at it.
type Reached = (usize, u32);

/// Opens the table and adds the contacts of the log.
pub fn load(log: &[u32], table: &mut [u32]) {
    let opening = rows::log_opening(log);
    rows::open(opening, table);
    for contact in rows::log_contacts(log) {
        let _ = add(opening, table, contact);
    }
}

/// Adds a legal contact to an open table.
pub fn add(opening: Opening, table: &mut [u32], contact: Contact) -> Added {
    let from = contact.from as usize;
    let size = opening.cell_words();
    let line = opening.animals as usize * size;
    let known = is_known(opening, table, contact);
    let mut room = [(0, 0); 256];
    let reached = arrivals(opening, table, contact, &mut room);
    let mut changed = 0;
    for (x, cells) in table[1..].chunks_exact_mut(line).enumerate() {
        let latest = if x == from {
            Some(contact.tick)
        } else {
            latest_departure(&cells[from * size..][..size], contact.tick)
        };
        if let Some(departure) = latest {
            changed += enter_line(cells, size, x, departure, reached);
        }
    }
    accepted(known, changed)
}

/// Whether the table holds the contact.
fn is_known(opening: Opening, table: &[u32], contact: Contact) -> bool {
    let start = opening.cell_start(contact.from, contact.to);
    let rows = rows::used(&table[start..][..opening.cell_words()]);
    let alone = words::interval_word(contact.interval(opening.carry));
    rows.binary_search(&alone).is_ok()
}

/// The animals that are reached from the animal met, itself among them.
fn arrivals<'a>(
    opening: Opening,
    table: &[u32],
    contact: Contact,
    room: &'a mut [Reached; 256],
) -> &'a [Reached] {
    let size = opening.cell_words();
    let line = opening.animals as usize * size;
    let first = contact.tick + opening.carry;
    let mut reached = 0;
    let cells = &table[opening.cell_start(contact.to, 0)..][..line];
    for (y, cell) in cells.chunks_exact(size).enumerate() {
        let earliest = if y == contact.to as usize {
            Some(first)
        } else {
            earliest_arrival(cell, first)
        };
        if let Some(arrival) = earliest {
            room[reached] = (y, arrival);
            reached += 1;
        }
    }
    &room[..reached]
}

/// The interval from the departure to each arrival enters its cell among those of x; how many cells changed.
fn enter_line(
    cells: &mut [u32],
    size: usize,
    x: usize,
    departure: u32,
    reached: &[Reached],
) -> u32 {
    let mut changed = 0;
    for &(y, arrival) in reached.iter().filter(|(y, _)| *y != x) {
        let cell = &mut cells[y * size..][..size];
        changed += u32::from(enter(cell, Interval::new(departure, arrival)));
    }
    changed
}

/// The latest departure in the cell with arrival at most `tick`.
fn latest_departure(cell: &[u32], tick: u32) -> Option<u32> {
    let rows = rows::used(cell);
    let arrived = rows.partition_point(|&row| rows::arrival(row) <= tick);
    let last = arrived.checked_sub(1)?;
    Some(rows::departure(rows[last]))
}

/// The earliest arrival in the cell with departure at least `tick`.
fn earliest_arrival(cell: &[u32], tick: u32) -> Option<u32> {
    let rows = rows::used(cell);
    let before = rows.partition_point(|&row| rows::departure(row) < tick);
    rows.get(before).map(|&row| rows::arrival(row))
}

/// The interval enters the cell; whether the cell changed.
fn enter(cell: &mut [u32], interval: Interval) -> bool {
    let rows = rows::used(cell);
    let count = rows.len();
    let from = rows.partition_point(|&row| rows::departure(row) < interval.departure);
    let mut past = from;
    if let Some(&row) = rows.get(from) {
        if rows::arrival(row) <= interval.arrival {
            return false;
        }
        past += usize::from(rows::departure(row) == interval.departure);
    }
    let first = rows[..from].partition_point(|&row| rows::arrival(row) < interval.arrival);
    let left = first + 1 + (count - past);
    cell.copy_within(1 + past..1 + count, 2 + first);
    cell[1 + first] = words::interval_word(interval);
    if left < count {
        cell[1 + left..1 + count].fill(0);
    }
    cell[0] = words::count_word(left as u32);
    true
}
