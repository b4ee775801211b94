//! Reading and writing logs.

use super::exports::{herd_read_log, herd_write_log};
use super::{Read, Written};

/// Opens the table as the log's opening word says, and adds every contact of the log.
///
/// The log's contacts may stand in any order and more than once. The whole log is checked first, and whatever words the
/// table held do not matter.
#[inline]
pub fn read_log(log: &[u32], table: &mut [u32]) -> Read {
    let (words, room) = (log.len(), table.len());
    // SAFETY: pointers and lengths are those of two lent slices, and the engine is proved to stay inside.
    Read::of(unsafe { herd_read_log(log.as_ptr(), words, table.as_mut_ptr(), room) })
}

/// Writes the log of the contacts that the table holds to the buffer's start: each once, by tick, then by the animal left,
/// then by the animal met.
///
/// The buffer needs 2 words more than there are contacts.
#[inline]
pub fn write_log(table: &[u32], buffer: &mut [u32]) -> Written {
    let (words, room) = (table.len(), buffer.len());
    // SAFETY: pointers and lengths are those of two lent slices, and the engine is proved to stay inside.
    Written::of(unsafe { herd_write_log(table.as_ptr(), words, buffer.as_mut_ptr(), room) })
}
