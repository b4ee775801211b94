//! Questions about windows and ticks.

use super::exports::{herd_connected, herd_earliest, herd_latest, herd_reach, herd_reached};
use super::{Answer, Found, Reached};

/// Whether a journey from `u` to `v` fits the window from `first` to `last`: yes when one has all its contacts at these
/// ticks, no when none has. It may arrive after `last`, by up to the carry time.
#[inline]
pub fn reach(table: &[u32], u: u32, v: u32, first: u32, last: u32) -> Answer {
    // SAFETY: pointer and length are those of one lent slice, and the engine is proved to stay inside.
    Answer::of(unsafe { herd_reach(table.as_ptr(), table.len(), u, v, first, last) })
}

/// Of the journeys from `u` to `v` that depart at or after `first`, the interval of one with the earliest arrival, then
/// with the latest departure; nothing where none departs so. The interval is minimal.
#[inline]
pub fn earliest(table: &[u32], u: u32, v: u32, first: u32) -> Found {
    // SAFETY: pointer and length are those of one lent slice, and the engine is proved to stay inside.
    Found::of(unsafe { herd_earliest(table.as_ptr(), table.len(), u, v, first) })
}

/// Of the journeys from `u` to `v` that arrive by `last`, the interval of one with the latest departure, then with the
/// earliest arrival; nothing where none arrives so. The interval is minimal.
#[inline]
pub fn latest(table: &[u32], u: u32, v: u32, last: u32) -> Found {
    // SAFETY: pointer and length are those of one lent slice, and the engine is proved to stay inside.
    Found::of(unsafe { herd_latest(table.as_ptr(), table.len(), u, v, last) })
}

/// Whether each animal can have reached every other one by a journey that fits the window from `first` to `last`. One
/// animal alone is connected.
#[inline]
pub fn connected(table: &[u32], first: u32, last: u32) -> Answer {
    // SAFETY: pointer and length are those of one lent slice, and the engine is proved to stay inside.
    Answer::of(unsafe { herd_connected(table.as_ptr(), table.len(), first, last) })
}

/// The animals, without `u`, to which a journey from `u` fits the window from `first` to `last`.
///
/// The set is eight words of 32 animals each, the first of them in the lowest bit. They are written to the front of `set`, as
/// many as it has room for; words behind the eighth stay as they are. The answer counts all animals reached.
#[inline]
pub fn reached(table: &[u32], u: u32, first: u32, last: u32, set: &mut [u32]) -> Reached {
    let (words, room) = (table.len(), set.len());
    let (table, set) = (table.as_ptr(), set.as_mut_ptr());
    // SAFETY: pointers and lengths are those of two lent slices, and the engine is proved to stay inside.
    Reached::of(unsafe { herd_reached(table, words, u, first, last, set, room) })
}
