//! The engine's calls on words that the caller lends, one for each export of the archive.
//!
//! [`Herd`](crate::Herd) owns its words and is the easier way; these calls are for programs that keep tables in memory of
//! their own. A refusal is a bare number here.
//!
//! The caller lends a table of 1 + n·n·(τ+1) words for n animals and τ ticks. [`open`] opens it, [`add`] adds a contact,
//! [`join`] adds all contacts of a second table, [`stays`] adds those of animals that were in the same pen at the same
//! tick, [`remove`] takes a contact out again, [`read_log`] loads a whole log and [`write_log`] writes one. [`reach`],
//! [`earliest`], [`latest`], [`connected`], [`reached`] and [`chain`] ask about the journeys of the contacts that the table
//! holds, and [`claimed`] judges a chain that somebody claims. A call keeps nothing but the words lent to it, and reads and
//! writes only these.
//!
//! A contact leaves one animal at a tick and arrives at another when the carry time is over. A journey is a row of
//! contacts, at least one, each leaving the animal that the one before it reached, no earlier than it got there. A window
//! is a first and a last tick, each from 1 to τ and the first not after the last. A journey fits it when every contact of
//! it is at a tick from the first to the last; it may arrive after the last, by up to the carry time. A table need not have
//! been built by adds: as long as it is well formed, its intervals are taken for the journeys in every question but
//! [`claimed`], and an interval fits a window when it departs at the first tick or later and arrives no more than the carry
//! time after the last.
//!
//! The [`Interval`](crate::Interval) of a journey from one animal to another is its departure and its arrival. It is minimal when no
//! other interval of such a journey lies inside it; [`earliest`] and [`latest`] answer with both ends of a minimal one.
//!
//! # Words
//!
//! The words of a log and of a chain; the bits that are not named are 0.
//!
//! | word | bits 31–30 | bits 25–18 | bits 17–10 | bits 9–0 |
//! |---|---|---|---|---|
//! | opening | 2 | animals − 1 | carry time − 1 | ticks − 1 |
//! | contact | 1 | the animal left | the animal met | tick − 1 |
//! | end of a log | 3 | the contacts of the log, in bits 25–0 | | |
//!
//! A record of a list of stays is four words, each a plain number: animal, pen, first tick, last tick. [`Stay`](crate::Stay) is such a
//! record.
//!
//! # Refusals
//!
//! What a call cannot do it refuses with a number, and then every lent word is as before. Any words and any numbers may be
//! given; the checks run in this order, and the first that fails gives its number:
//!
//! | calls | number | given when |
//! |---|---|---|
//! | `open` | 1, 2, 3 | animals, ticks, carry time beyond their limits (1 to 256, 1 to 1,024, 1 to 256) |
//! | `open` | 4 | the table has not the length for these numbers |
//! | `read_log` | 11 | the log has no opening word first, or no word behind it |
//! | `read_log` | 4 | the table has not the length for this opening word |
//! | `read_log` | 12, 13 | a word between is no contact word, or its contact is not legal |
//! | `read_log` | 14 | the last word is no end word with the number of the words between |
//! | all others | 5 | the table is empty, has no opening word first, or not the length for it |
//! | all others | 6 | some cell of the table is not well formed |
//! | `remove` | 20 | the second table has not the length of the first |
//! | those with animals | 7 | an animal is n or above |
//! | those with two | 8 | both animals are the same |
//! | `add`, `remove`, those with windows | 9 | a tick is not 1 to τ |
//! | `earliest`, `latest` | 9 | the tick is not 1 to τ+δ, with δ the carry time |
//! | those with windows | 19 | both ticks are 1 to τ, and the first is after the last |
//! | `remove` | 21 | the table does not hold the contact |
//! | `chain` | 10 | the buffer is shorter than n−1 words |
//! | `write_log` | 15 | the buffer is shorter than the contacts held and 2 |
//! | `join` | 17 | the two tables have different opening words |
//! | `stays` | 18 | a record is no legal stay, or the last one is incomplete |
//!
//! `join` judges its first table by 5 and 6, and then its second one likewise; `remove` judges its first table so, and of
//! its second one the length alone. A stay is legal when its animal is below n, its pen is 0 to 63, its ticks are 1 to τ,
//! and its first tick is not after its last.
//!
//! # A session
//!
//! ```
//! use herd::calls::{self, Added, Answer, Chain, Done, Found, Joined, Opened, StaysAdded};
//! use herd::{Interval, Stay};
//!
//! let mut table = vec![0; 1 + 4 * 4 * 7];
//! assert_eq!(calls::open(&mut table, 4, 6, 1), Opened::Opened);
//! assert_eq!(calls::add(&mut table, 1, 3, 4), Added::New(1));
//! assert_eq!(calls::add(&mut table, 0, 1, 2), Added::New(2));
//! assert_eq!(calls::reach(&table, 0, 3, 1, 4), Answer::Yes);
//! assert_eq!(calls::reach(&table, 0, 3, 1, 3), Answer::No);
//! assert_eq!(calls::reach(&table, 0, 3, 3, 6), Answer::No);
//! assert_eq!(calls::reach(&table, 0, 3, 1, 7), Answer::Refused(9));
//! assert_eq!(calls::reach(&table, 0, 3, 4, 1), Answer::Refused(19));
//! let interval = Interval { departure: 2, arrival: 5 };
//! assert_eq!(calls::earliest(&table, 0, 3, 2), Found::At(interval));
//! let mut words = [0; 3];
//! assert_eq!(calls::chain(&table, 0, 3, 1, 6, &mut words), Chain::Contacts(2));
//! assert_eq!(words, [0x4000_0401, 0x4004_0C03, 0]);
//!
//! let mut other_yard = vec![0; 1 + 4 * 4 * 7];
//! assert_eq!(calls::open(&mut other_yard, 4, 6, 1), Opened::Opened);
//! assert_eq!(calls::add(&mut other_yard, 0, 1, 2), Added::New(1));
//! assert_eq!(calls::add(&mut other_yard, 3, 2, 6), Added::New(1));
//! assert_eq!(calls::join(&mut table, &other_yard), Joined::New(1));
//! assert_eq!(calls::reach(&table, 0, 2, 2, 6), Answer::Yes);
//!
//! let gate = [
//!     Stay::new(2, 63, 1, 3),
//!     Stay::new(0, 63, 2, 5),
//! ];
//! assert_eq!(calls::stays(&mut table, Stay::words(&gate)), StaysAdded::New(4));
//! assert_eq!(calls::reach(&table, 2, 0, 3, 3), Answer::Yes);
//! assert_eq!(calls::reach(&table, 2, 0, 4, 6), Answer::No);
//!
//! let mut work = vec![0; table.len()];
//! assert_eq!(calls::remove(&mut table, &mut work, 1, 3, 4), Done::Done);
//! assert_eq!(calls::reach(&table, 0, 3, 1, 6), Answer::No);
//! assert_eq!(table, work);
//! assert_eq!(calls::remove(&mut table, &mut work, 1, 3, 4), Done::Refused(21));
//! assert_eq!(calls::remove(&mut table, &mut work[1..], 1, 3, 4), Done::Refused(20));
//! ```

mod answers;
mod chains;
mod exports;
mod logs;
mod questions;
mod tables;

pub use answers::{
    Added, Answer, Chain, Done, Found, Joined, Opened, Reached, Read, StaysAdded, Written,
};
pub use chains::{chain, claimed};
pub use logs::{read_log, write_log};
pub use questions::{connected, earliest, latest, reach, reached};
pub use tables::{add, join, open, remove, stays};
