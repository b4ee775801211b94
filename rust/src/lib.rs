//! Contact tracing for dairy herds: which animals one animal can have reached, by when, and through whom.
//!
//! # The model
//!
//! A [`Herd`] has **animals**, numbered from 0, and a calendar of **ticks**, numbered from 1; how long a tick is, is up to
//! you. A **contact** says that one animal came near enough to another at a tick to pass something on. Contacts are
//! *directed*: where two animals met, and either can have infected the other, that is two contacts. What leaves an animal
//! at tick t arrives at the other at t + δ, where δ is the herd's **carry time**: it cannot be passed on from there before.
//! A **journey** is a row of contacts, each leaving the animal that the one before it arrived at, no earlier than it did.
//!
//! A **window** `first..=last` asks about the journeys whose contacts all lie at these ticks. **Yes** means that such a
//! journey is among the contacts held, and a [chain](Herd::chain) of contacts shows it. **No** means that there is none:
//! by the contacts held the animal cannot have been reached; of contacts that no reader noted it says nothing. The answers
//! do not depend on the order in which contacts came. What cannot be done is an [`Error`] with its reason, and then nothing
//! has changed.
//!
//! A herd has at most 256 animals and 1,024 ticks, and its carry time is at most 256. It holds every contact of its animals
//! and ticks: there is no further limit. It owns a table of 1 + n·n·(τ+1) words of four bytes for n animals and τ ticks (15
//! million bytes for 60 animals and 1,024 ticks, 269 million at the limits). Every question and every change checks the
//! whole table first, in about the time of one read of it, on small tables full of intervals of up to 30: ask
//! [`Herd::reached`] once rather than [`Herd::reach`] for each animal. [`Herd::extend`] and [`Herd::remove`] also load all
//! contacts held again: add one contact by [`Herd::add`] and many by [`Herd::extend`].
//!
//! # In five lines
//!
//! ```
//! let mut herd = herd::Herd::open(4, 6, 1)?;
//! herd.extend([(0, 1, 2), (1, 3, 4)])?;
//! for found in herd.trace(0, herd.calendar())? {
//!     println!("0 can have reached {} at tick {}", found.animal, found.interval.arrival);
//! }
//! # Ok::<(), herd::Error>(())
//! ```
//!
//! # What is proved
//!
//! The answers are those of an engine in which every function is proved against its contract: the calls in [`calls`], which
//! work on words that the caller lends. What is here above it is plain Rust, compared by running with a search over
//! contacts: it finds the sizes, packs contacts that it has judged, and puts refusals into words.

#![deny(missing_docs)]

pub mod calls;
mod error;
mod herd;
mod logs;
mod records;
mod trace;
mod words;

pub use error::Error;
pub use herd::{Added, Herd};
pub use records::{Contact, Interval, Stay};
pub use trace::Traced;
