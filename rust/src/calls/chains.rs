//! The chain of a journey, and the check of a claimed one. A chain is a list of contact words.

use super::exports::{herd_chain, herd_claimed};
use super::{Answer, Chain};

/// Writes the contacts of one journey from `u` to `v` that fits the window from `first` to `last`: all are at these ticks.
///
/// Among these journeys it is one with the earliest arrival, then with the latest departure, and it goes by the
/// lowest-numbered animals. The buffer needs n−1 words.
#[inline]
pub fn chain(table: &[u32], u: u32, v: u32, first: u32, last: u32, buffer: &mut [u32]) -> Chain {
    let (words, room) = (table.len(), buffer.len());
    let (table, buffer) = (table.as_ptr(), buffer.as_mut_ptr());
    // SAFETY: pointers and lengths are those of two lent slices, and the engine is proved to stay inside.
    Chain::of(unsafe { herd_chain(table, words, u, v, first, last, buffer, room) })
}

/// Whether the words of `chain` are contacts that the table holds, one or more, all at ticks from `first` to `last`, and
/// form a journey from `u` to `v`.
///
/// Words that are no contacts, or form no such journey, are answered no and not refused.
#[inline]
pub fn claimed(table: &[u32], u: u32, v: u32, first: u32, last: u32, chain: &[u32]) -> Answer {
    let (words, contacts) = (table.len(), chain.len());
    let (table, chain) = (table.as_ptr(), chain.as_ptr());
    // SAFETY: pointers and lengths are those of two lent slices, and the engine is proved to stay inside.
    Answer::of(unsafe { herd_claimed(table, words, u, v, first, last, chain, contacts) })
}
