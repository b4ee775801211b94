//! One answer type for each kind of answer, and how the engine's replies say it.

use crate::Interval;

/// The answer of [`open`](super::open).
#[must_use]
#[derive(Clone, Copy, Debug, PartialEq, Eq)]
pub enum Opened {
    /// The table is open and every cell is empty.
    Opened,
    /// The refusal's number; the table keeps its words.
    Refused(u32),
}

/// The answer of [`add`](super::add).
#[must_use]
#[derive(Clone, Copy, Debug, PartialEq, Eq)]
pub enum Added {
    /// The table did not hold the contact before and holds it now; so many cells changed.
    New(u32),
    /// The table held the contact before; so many cells changed, none where adds built the table.
    Known(u32),
    /// The refusal's number; the table keeps its words.
    Refused(u32),
}

/// The answer of [`join`](super::join).
#[must_use]
#[derive(Clone, Copy, Debug, PartialEq, Eq)]
pub enum Joined {
    /// The first table holds every contact that the second one holds; so many of them were new to it.
    New(u32),
    /// The refusal's number; both tables keep their words.
    Refused(u32),
}

/// The answer of [`stays`](super::stays).
#[must_use]
#[derive(Clone, Copy, Debug, PartialEq, Eq)]
pub enum StaysAdded {
    /// The table holds every contact of the stays; so many of them were new to it.
    New(u32),
    /// The refusal's number; the table keeps its words.
    Refused(u32),
}

/// The answer of a call that rewrites a whole table and has nothing more to tell: [`remove`](super::remove).
#[must_use]
#[derive(Clone, Copy, Debug, PartialEq, Eq)]
pub enum Done {
    /// It is done.
    Done,
    /// The refusal's number; the table keeps its words, and so do those lent for work.
    Refused(u32),
}

/// The answer of [`read_log`](super::read_log).
#[must_use]
#[derive(Clone, Copy, Debug, PartialEq, Eq)]
pub enum Read {
    /// The log has so many different contacts, and the table holds these and no others.
    Contacts(u32),
    /// The refusal's number; the table keeps its words.
    Refused(u32),
}

/// The answer of [`write_log`](super::write_log).
#[must_use]
#[derive(Clone, Copy, Debug, PartialEq, Eq)]
pub enum Written {
    /// The log stands in so many words at the buffer's start; words behind it keep theirs.
    Written(u32),
    /// The refusal's number; the buffer keeps its words.
    Refused(u32),
}

/// The answer of a question for yes or no: [`reach`](super::reach), [`connected`](super::connected) and
/// [`claimed`](super::claimed), which write no lent word.
#[must_use]
#[derive(Clone, Copy, Debug, PartialEq, Eq)]
pub enum Answer {
    /// It is so.
    Yes,
    /// It is not so.
    No,
    /// The refusal's number; nothing is said about the question.
    Refused(u32),
}

/// The answer of a question for an interval: [`earliest`](super::earliest) and [`latest`](super::latest), which write
/// no lent word.
#[must_use]
#[derive(Clone, Copy, Debug, PartialEq, Eq)]
pub enum Found {
    /// The interval asked for.
    At(Interval),
    /// There is none, since no such journey is.
    Nothing,
    /// The refusal's number; nothing is said about the question.
    Refused(u32),
}

/// The answer of [`reached`](super::reached).
#[must_use]
#[derive(Clone, Copy, Debug, PartialEq, Eq)]
pub enum Reached {
    /// So many animals are reached, and the set's words stand at the front of the words lent for it.
    Animals(u32),
    /// The refusal's number; the words lent for the set stay as they are.
    Refused(u32),
}

/// The answer of [`chain`](super::chain).
#[must_use]
#[derive(Clone, Copy, Debug, PartialEq, Eq)]
pub enum Chain {
    /// So many contacts of one journey stand at the buffer's start; words behind them keep theirs.
    Contacts(u32),
    /// No journey is told; the buffer keeps its words.
    NoJourney,
    /// The refusal's number; the buffer keeps its words.
    Refused(u32),
}

impl Opened {
    /// What the reply says.
    pub(crate) fn of(reply: u64) -> Opened {
        match parts(reply) {
            (0, number) => Opened::Refused(number),
            (1, 0) => Opened::Opened,
            _ => no_answer(reply),
        }
    }
}

impl Added {
    /// What the reply says.
    pub(crate) fn of(reply: u64) -> Added {
        match parts(reply) {
            (0, number) => Added::Refused(number),
            (1, cells) => Added::New(cells),
            (2, cells) => Added::Known(cells),
            _ => no_answer(reply),
        }
    }
}

impl Joined {
    /// What the reply says.
    pub(crate) fn of(reply: u64) -> Joined {
        match parts(reply) {
            (0, number) => Joined::Refused(number),
            (1, contacts) => Joined::New(contacts),
            _ => no_answer(reply),
        }
    }
}

impl StaysAdded {
    /// What the reply says.
    pub(crate) fn of(reply: u64) -> StaysAdded {
        match parts(reply) {
            (0, number) => StaysAdded::Refused(number),
            (1, contacts) => StaysAdded::New(contacts),
            _ => no_answer(reply),
        }
    }
}

impl Done {
    /// What the reply says.
    pub(crate) fn of(reply: u64) -> Done {
        match parts(reply) {
            (0, number) => Done::Refused(number),
            (1, 0) => Done::Done,
            _ => no_answer(reply),
        }
    }
}

impl Read {
    /// What the reply says.
    pub(crate) fn of(reply: u64) -> Read {
        match parts(reply) {
            (0, number) => Read::Refused(number),
            (1, contacts) => Read::Contacts(contacts),
            _ => no_answer(reply),
        }
    }
}

impl Written {
    /// What the reply says.
    pub(crate) fn of(reply: u64) -> Written {
        match parts(reply) {
            (0, number) => Written::Refused(number),
            (1, words) => Written::Written(words),
            _ => no_answer(reply),
        }
    }
}

impl Answer {
    /// What the reply says.
    pub(crate) fn of(reply: u64) -> Answer {
        match parts(reply) {
            (0, number) => Answer::Refused(number),
            (1, 0) => Answer::Yes,
            (2, 0) => Answer::No,
            _ => no_answer(reply),
        }
    }
}

impl Found {
    /// What the reply says.
    pub(crate) fn of(reply: u64) -> Found {
        match parts(reply) {
            (0, number) => Found::Refused(number),
            (1, ends) => interval(ends).map_or_else(|| no_answer(reply), Found::At),
            (2, 0) => Found::Nothing,
            _ => no_answer(reply),
        }
    }
}

impl Reached {
    /// What the reply says.
    pub(crate) fn of(reply: u64) -> Reached {
        match parts(reply) {
            (0, number) => Reached::Refused(number),
            (1, animals) => Reached::Animals(animals),
            _ => no_answer(reply),
        }
    }
}

impl Chain {
    /// What the reply says.
    pub(crate) fn of(reply: u64) -> Chain {
        match parts(reply) {
            (0, number) => Chain::Refused(number),
            (1, contacts) => Chain::Contacts(contacts),
            (2, 0) => Chain::NoJourney,
            _ => no_answer(reply),
        }
    }
}

/// Which answer a reply is (its upper half), and the answer's number (its lower half).
fn parts(reply: u64) -> (u32, u32) {
    ((reply >> 32) as u32, reply as u32)
}

/// The interval of an answer's number: the departure is its upper half, the arrival its lower half. A departure is 1 or
/// later, and an arrival is after its departure.
fn interval(number: u32) -> Option<Interval> {
    let (departure, arrival) = (number >> 16, number & 0xFFFF);
    (1 <= departure && departure < arrival).then_some(Interval { departure, arrival })
}

/// The engine gave a reply that its call does not have.
fn no_answer(reply: u64) -> ! {
    panic!("no answer of this call has the reply {reply:#x}")
}

#[cfg(test)]
mod tests {
    use super::{Done, Found};
    use crate::Interval;
    use std::panic::catch_unwind;

    /// The reply whose upper half says which answer, and whose lower half has these upper and lower halves.
    fn reply(which: u64, upper: u64, lower: u64) -> u64 {
        which << 32 | upper << 16 | lower
    }

    #[test]
    fn both_ends_of_an_interval_are_read_from_a_reply() {
        for (departure, arrival) in [(1, 2), (1, 1280), (2, 5), (1023, 1280), (1024, 1280)] {
            let found = Found::of(reply(1, departure.into(), arrival.into()));
            assert_eq!(found, Found::At(Interval { departure, arrival }));
        }
        assert_eq!(Found::of(reply(2, 0, 0)), Found::Nothing);
        for number in 5..=9 {
            let found = Found::of(reply(0, 0, number.into()));
            assert_eq!(found, Found::Refused(number));
        }
    }

    #[test]
    fn replies_without_an_interval_and_other_replies_are_no_answers() {
        for (which, upper, lower) in [
            (1, 0, 0),
            (1, 0, 5),
            (1, 5, 0),
            (1, 5, 5),
            (1, 1280, 1024),
            (2, 0, 1),
            (2, 1, 0),
            (2, 2, 5),
            (3, 0, 0),
            (3, 2, 5),
            (0xFFFF_FFFF, 2, 5),
        ] {
            let read = catch_unwind(|| Found::of(reply(which, upper, lower)));
            assert!(read.is_err(), "{which} {upper} {lower}: {read:?}");
        }
    }

    #[test]
    fn done_has_no_number() {
        assert_eq!(Done::of(reply(1, 0, 0)), Done::Done);
        for number in [5, 6, 20, 7, 8, 9, 21] {
            let done = Done::of(reply(0, 0, number.into()));
            assert_eq!(done, Done::Refused(number));
        }
        for (which, upper, lower) in [(1, 0, 1), (1, 1, 0), (2, 0, 0), (3, 0, 0), (1 << 31, 0, 0)] {
            let read = catch_unwind(|| Done::of(reply(which, upper, lower)));
            assert!(read.is_err(), "{which} {upper} {lower}: {read:?}");
        }
    }
}
