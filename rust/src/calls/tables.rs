//! Opening a table, adding a contact, joining two tables, adding the contacts of stays, and removing a contact.

use super::exports::{herd_add, herd_join, herd_open, herd_remove, herd_stays};
use super::{Added, Done, Joined, Opened, StaysAdded};

/// Opens the table for so many animals and ticks and the carry time: writes every word of it, each cell empty.
///
/// Whatever the table held is gone. It has 1 + n·n·(τ+1) words, else it is refused with 4.
#[inline]
pub fn open(table: &mut [u32], animals: u32, ticks: u32, carry: u32) -> Opened {
    // SAFETY: pointer and length are those of one lent slice, and the engine is proved to stay inside.
    Opened::of(unsafe { herd_open(table.as_mut_ptr(), table.len(), animals, ticks, carry) })
}

/// Adds the contact that leaves `u` at tick `t` and arrives at `v` when the carry time is over.
///
/// The answer says whether the table held it before, and how many of the table's cells changed. A contact of two different
/// animals at a tick from 1 to τ is never refused on an open table.
#[inline]
pub fn add(table: &mut [u32], u: u32, v: u32, t: u32) -> Added {
    // SAFETY: pointer and length are those of one lent slice, and the engine is proved to stay inside.
    Added::of(unsafe { herd_add(table.as_mut_ptr(), table.len(), u, v, t) })
}

/// Adds the contacts that the second table holds to the first: by tick, then by the animal left, then by the animal met.
///
/// The answer says how many of them the first did not hold before. Both tables are open for the same animals and ticks and
/// the same carry time, else it is refused with 17; the second is only read. Where adds built both, the first is afterwards
/// what adding all contacts of both to one table would have made.
#[inline]
pub fn join(first: &mut [u32], second: &[u32]) -> Joined {
    let (first_words, second_words) = (first.len(), second.len());
    let (first, second) = (first.as_mut_ptr(), second.as_ptr());
    // SAFETY: pointers and lengths are those of two lent slices, and the engine is proved to stay inside.
    Joined::of(unsafe { herd_join(first, first_words, second, second_words) })
}

/// Adds the contacts of the stays: two different animals in the same pen at a shared tick met at that tick, both ways.
///
/// The words of [`Stay`](crate::Stay) records are lent, four to each, in any order and with repeats; stays of one animal may overlap, in
/// one pen or in two. The answer says how many of the contacts the table did not hold before. Each of them is added once:
/// by tick, then by the animal left, then by the animal met. Where some record is no stay of the table's animals and ticks,
/// or the last one is incomplete, it is refused with 18, and no contact is added.
#[inline]
pub fn stays(table: &mut [u32], stays: &[u32]) -> StaysAdded {
    let (words, stay_words) = (table.len(), stays.len());
    let (table, stays) = (table.as_mut_ptr(), stays.as_ptr());
    // SAFETY: pointers and lengths are those of two lent slices, and the engine is proved to stay inside.
    StaysAdded::of(unsafe { herd_stays(table, words, stays, stay_words) })
}

/// Removes the contact that leaves `u` at tick `t` and arrives at `v`, with a second table of the same length for work.
///
/// Afterwards both hold the same words: those of a fresh table over the contacts that the first one held, less this one.
/// What the second held before does not matter. Where its length is not the first's it is refused with 20, and where the
/// first does not hold the contact with 21. On a table that no adds built only the intervals of single contacts count; all
/// others go, and those of the journeys of the contacts left come.
#[inline]
pub fn remove(table: &mut [u32], work: &mut [u32], u: u32, v: u32, t: u32) -> Done {
    let (words, work_words) = (table.len(), work.len());
    let (table, work) = (table.as_mut_ptr(), work.as_mut_ptr());
    // SAFETY: pointers and lengths are those of two lent slices, and the engine is proved to stay inside.
    Done::of(unsafe { herd_remove(table, words, work, work_words, u, v, t) })
}
