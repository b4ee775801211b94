//! The checks of documents 01 and 02 of open tables, of logs, of stays and of a call's numbers, each with its refusal.

use crate::contents::Contents;
use crate::rule::Stored;
use crate::words::{self, Cells, Contact, Interval, Opening, Stay, Window, LAST_PEN};

/// What the words of an open table store, or refusal 5 or 6.
pub fn open_table(table: &[u32]) -> Result<Stored, u32> {
    let first = table.first().ok_or(5u32)?;
    let opening = words::read_opening(*first).ok_or(5u32)?;
    if table.len() != opening.table_words() {
        return Err(5);
    }
    let mut cells = Cells::new();
    for u in 0..opening.animals {
        for v in 0..opening.animals {
            let start = opening.cell_start(u, v);
            let cell =
                read_cell(opening, &table[start..start + opening.cell_words()]).ok_or(6u32)?;
            if u == v && !cell.is_empty() {
                return Err(6);
            }
            cells.push(cell);
        }
    }
    Ok(Stored::new(opening, cells))
}

/// The opening of a log, or refusal 11.
pub fn log_opening(log: &[u32]) -> Result<Opening, u32> {
    match log {
        [first, _, ..] => words::read_opening(*first).ok_or(11),
        _ => Err(11),
    }
}

/// A table of so many words for a log with this opening, or refusal 4.
pub fn log_table(opening: Opening, table_words: usize) -> Result<(), u32> {
    if table_words == opening.table_words() {
        Ok(())
    } else {
        Err(4)
    }
}

/// The contacts of a log with this opening, repeats included, or refusal 12, 13 or 14.
pub fn log_contacts(opening: Opening, log: &[u32]) -> Result<Vec<Contact>, u32> {
    let mut contacts = Vec::new();
    for &word in &log[1..log.len() - 1] {
        contacts.push(log_contact(opening, word)?);
    }
    let counted = words::read_end(log[log.len() - 1]).ok_or(14u32)?;
    if counted as usize == contacts.len() {
        Ok(contacts)
    } else {
        Err(14)
    }
}

/// The contact of a word between a log's first and last, or refusal 12 or 13.
fn log_contact(opening: Opening, word: u32) -> Result<Contact, u32> {
    let read = words::read_contact(word).ok_or(12u32)?;
    let inside = read.from < opening.animals && read.to < opening.animals;
    if inside && read.from != read.to && read.tick <= opening.ticks {
        Ok(read)
    } else {
        Err(13)
    }
}

/// The contact (u, v, t) on a table with this opening, or refusal 7, 8 or 9.
pub fn contact(opening: Opening, u: u32, v: u32, t: u32) -> Result<Contact, u32> {
    animals(opening, u, v)?;
    if t < 1 || t > opening.ticks {
        Err(9)
    } else {
        Ok(Contact::new(u, v, t))
    }
}

/// An animal of a table with this opening, or refusal 7.
pub fn animal(opening: Opening, u: u32) -> Result<(), u32> {
    if u < opening.animals {
        Ok(())
    } else {
        Err(7)
    }
}

/// Two different animals of a table with this opening, or refusal 7 or 8.
pub fn animals(opening: Opening, u: u32, v: u32) -> Result<(), u32> {
    animal(opening, u)?;
    animal(opening, v)?;
    if u == v {
        Err(8)
    } else {
        Ok(())
    }
}

/// The single tick of a question on a table with this opening, one at which a journey can depart or arrive, or refusal 9.
pub fn tick(opening: Opening, tick: u32) -> Result<(), u32> {
    if (1..=opening.last_arrival()).contains(&tick) {
        Ok(())
    } else {
        Err(9)
    }
}

/// The window of two ticks at which contacts can be, on a table with this opening, or refusal 9 or 19.
pub fn window(opening: Opening, first: u32, last: u32) -> Result<Window, u32> {
    let ticks = 1..=opening.ticks;
    if !ticks.contains(&first) || !ticks.contains(&last) {
        Err(9)
    } else if first > last {
        Err(19)
    } else {
        Ok(Window::new(first, last))
    }
}

/// A buffer for the longest chain on a table with this opening, or refusal 10.
pub fn chain_buffer(opening: Opening, buffer: &[u32]) -> Result<(), u32> {
    if buffer.len() < opening.animals as usize - 1 {
        Err(10)
    } else {
        Ok(())
    }
}

/// A buffer for the log, or refusal 15.
pub fn log_buffer(log: &[u32], buffer: &[u32]) -> Result<(), u32> {
    if buffer.len() < log.len() {
        Err(15)
    } else {
        Ok(())
    }
}

/// Two tables with one opening, or refusal 17.
pub fn same_opening(first: Opening, second: Opening) -> Result<(), u32> {
    if first == second {
        Ok(())
    } else {
        Err(17)
    }
}

/// A second table as long as the first, or refusal 20.
pub fn same_length(first: &[u32], second: &[u32]) -> Result<(), u32> {
    if first.len() == second.len() {
        Ok(())
    } else {
        Err(20)
    }
}

/// A contact that the table holds, or refusal 21.
pub fn held(contents: &dyn Contents, contact: Contact) -> Result<(), u32> {
    if contents.holds(contact) {
        Ok(())
    } else {
        Err(21)
    }
}

/// The stays of these words, four to a record, on a table with this opening, or refusal 18.
pub fn stays(opening: Opening, words: &[u32]) -> Result<Vec<Stay>, u32> {
    let mut stays = Vec::new();
    for record in words.chunks(4) {
        stays.push(stay(opening, record)?);
    }
    Ok(stays)
}

/// The stay of one record, or refusal 18.
fn stay(opening: Opening, record: &[u32]) -> Result<Stay, u32> {
    let &[animal, pen, first, last] = record else {
        return Err(18);
    };
    let ticks = 1..=opening.ticks;
    let inside = animal < opening.animals && pen <= LAST_PEN;
    if inside && ticks.contains(&first) && ticks.contains(&last) && first <= last {
        Ok(Stay::new(animal, pen, first, last))
    } else {
        Err(18)
    }
}

/// The intervals of one cell's words, or none where the cell is not well formed.
fn read_cell(opening: Opening, cell: &[u32]) -> Option<Vec<Interval>> {
    let rows = words::read_count(cell[0])?;
    if rows > opening.ticks {
        return None;
    }
    let (used, unused) = cell[1..].split_at(rows as usize);
    if unused.iter().any(|&word| word != 0) {
        return None;
    }
    let mut intervals: Vec<Interval> = Vec::new();
    for &word in used {
        let interval = words::read_interval(word)?;
        let last = intervals.last();
        let rising =
            last.is_none_or(|l| l.departure < interval.departure && l.arrival < interval.arrival);
        let departs = 1 <= interval.departure && interval.departure <= opening.ticks;
        let least = interval.departure + opening.carry;
        let arrives = least <= interval.arrival && interval.arrival <= opening.last_arrival();
        if !(rising && departs && arrives) {
            return None;
        }
        intervals.push(interval);
    }
    Some(intervals)
}
