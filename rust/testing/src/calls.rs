//! What documents 01 and 02 say of each call: the answer, and the words afterwards.

use crate::check;
use crate::contents::Contents;
use crate::model::{self, Contacts, Journeys};
use crate::words::{self, Interval, Opening, Window, SET_WORDS};
use herd::calls::{Added, Answer, Chain, Done, Found, Joined, Opened};
use herd::calls::{Reached, Read, StaysAdded, Written};

/// Opening over these words.
pub fn open(table: &[u32], animals: u32, ticks: u32, carry: u32) -> (Opened, Vec<u32>) {
    let refused = |number| (Opened::Refused(number), table.to_vec());
    if !(1..=256).contains(&animals) {
        return refused(1);
    }
    if !(1..=1024).contains(&ticks) {
        return refused(2);
    }
    if !(1..=256).contains(&carry) {
        return refused(3);
    }
    let opening = Opening::new(animals, ticks, carry);
    if table.len() != opening.table_words() {
        return refused(4);
    }
    let empty = vec![Vec::new(); opening.pairs()];
    (Opened::Opened, words::table(opening, &empty))
}

/// Reading the log into the table of these words.
pub fn read_log(log: &[u32], table: &[u32]) -> (Read, Vec<u32>) {
    let checked = check::log_opening(log).and_then(|opening| {
        check::log_table(opening, table.len())?;
        Ok((opening, check::log_contacts(opening, log)?))
    });
    match checked {
        Err(number) => (Read::Refused(number), table.to_vec()),
        Ok((opening, contacts)) => {
            let different: Contacts = contacts.into_iter().collect();
            let answer = Read::Contacts(different.len() as u32);
            (answer, model::fresh_table(opening, &different))
        }
    }
}

/// Adding the contact (u, v, t) to the table of these words.
pub fn add(table: &[u32], u: u32, v: u32, t: u32) -> (Added, Vec<u32>) {
    Known::by_words(table).add(table, u, v, t)
}

/// Joining the table of the second words into that of the first: the answer, and the words of the first afterwards.
pub fn join(first: &[u32], second: &[u32]) -> (Joined, Vec<u32>) {
    Known::by_words(first).join(first, &Known::by_words(second))
}

/// Adding the contacts of stays to a table, both given as words: the answer, and the table's words afterwards.
pub fn stays(table: &[u32], stays: &[u32]) -> (StaysAdded, Vec<u32>) {
    Known::by_words(table).stays(table, stays)
}

/// Removing the contact (u, v, t) from the table of these words with others for work: the answer, and the words of both
/// afterwards.
pub fn remove(table: &[u32], work: &[u32], u: u32, v: u32, t: u32) -> (Done, [Vec<u32>; 2]) {
    Known::by_words(table).remove(table, work, u, v, t)
}

/// The reach question on the table of these words, which stay as they are.
pub fn reach(table: &[u32], u: u32, v: u32, first: u32, last: u32) -> Answer {
    Known::by_words(table).reach(u, v, first, last)
}

/// What is known of a table that a call is lent: what it holds, or the refusal of its words.
pub struct Known(Result<Box<dyn Contents>, u32>);

impl Known {
    /// A table of any words, by document 01's text; its stored intervals stand for the journeys.
    pub fn by_words(table: &[u32]) -> Known {
        match check::open_table(table) {
            Ok(stored) => Known(Ok(Box::new(stored))),
            Err(number) => Known(Err(number)),
        }
    }

    /// A table built from these contacts, by the plain search.
    pub fn by_contacts(journeys: Journeys) -> Known {
        Known(Ok(Box::new(journeys)))
    }

    /// What the table holds, or refusal 5 or 6.
    pub fn contents(&self) -> Result<&dyn Contents, u32> {
        match &self.0 {
            Ok(contents) => Ok(contents.as_ref()),
            Err(number) => Err(*number),
        }
    }

    /// Adding the contact (u, v, t): the answer, and the table's words afterwards.
    pub fn add(&self, table: &[u32], u: u32, v: u32, t: u32) -> (Added, Vec<u32>) {
        let checked = self.contents().and_then(|contents| {
            let contact = check::contact(contents.opening(), u, v, t)?;
            Ok((contents.opening(), contents.add(contact)))
        });
        match checked {
            Err(number) => (Added::Refused(number), table.to_vec()),
            Ok((opening, (cells, answer))) => (answer, words::table(opening, &cells)),
        }
    }

    /// Joining a second table into this one: the answer, and this table's words afterwards.
    pub fn join(&self, table: &[u32], second: &Known) -> (Joined, Vec<u32>) {
        let checked = self.contents().and_then(|first| {
            let second = second.contents()?;
            check::same_opening(first.opening(), second.opening())?;
            Ok((first.opening(), first.add_all(&second.held())))
        });
        match checked {
            Err(number) => (Joined::Refused(number), table.to_vec()),
            Ok((opening, (cells, new))) => (Joined::New(new), words::table(opening, &cells)),
        }
    }

    /// Adding the contacts of the stays in these words: the answer, and the table's words afterwards.
    pub fn stays(&self, table: &[u32], stays: &[u32]) -> (StaysAdded, Vec<u32>) {
        let checked = self.contents().and_then(|contents| {
            let stays = check::stays(contents.opening(), stays)?;
            let contacts = Vec::from_iter(model::met(&stays));
            Ok((contents.opening(), contents.add_all(&contacts)))
        });
        match checked {
            Err(number) => (StaysAdded::Refused(number), table.to_vec()),
            Ok((opening, (cells, new))) => (StaysAdded::New(new), words::table(opening, &cells)),
        }
    }

    /// Removing the contact (u, v, t) with words lent for work: the answer, and the words of both tables afterwards.
    pub fn remove(
        &self,
        table: &[u32],
        work: &[u32],
        u: u32,
        v: u32,
        t: u32,
    ) -> (Done, [Vec<u32>; 2]) {
        let checked = self.contents().and_then(|contents| {
            check::same_length(table, work)?;
            let contact = check::contact(contents.opening(), u, v, t)?;
            check::held(contents, contact)?;
            Ok((contents.opening(), contents.without(contact)))
        });
        match checked {
            Err(number) => (Done::Refused(number), [table, work].map(<[u32]>::to_vec)),
            Ok((opening, cells)) => {
                let left = words::table(opening, &cells);
                (Done::Done, [left.clone(), left])
            }
        }
    }

    /// Writing the log: the answer, and the buffer's words afterwards.
    pub fn write_log(&self, buffer: &[u32]) -> (Written, Vec<u32>) {
        let checked = self.contents().and_then(|contents| {
            let log = words::log(contents.opening(), contents.held());
            check::log_buffer(&log, buffer)?;
            Ok(log)
        });
        match checked {
            Err(number) => (Written::Refused(number), buffer.to_vec()),
            Ok(log) => (Written::Written(log.len() as u32), over(&log, buffer)),
        }
    }

    /// The reach question.
    pub fn reach(&self, u: u32, v: u32, first: u32, last: u32) -> Answer {
        let checked = self.pair_and_window(u, v, first, last);
        let answer = |(contents, window): Legal| answered(contents.reaches(u, v, window));
        checked.map_or_else(Answer::Refused, answer)
    }

    /// The interval with the earliest arrival from a first tick on.
    pub fn earliest(&self, u: u32, v: u32, first: u32) -> Found {
        let checked = self.pair_and_tick(u, v, first);
        let answer = |contents: &dyn Contents| found(contents.earliest(u, v, first));
        checked.map_or_else(Found::Refused, answer)
    }

    /// The interval with the latest departure by a last tick.
    pub fn latest(&self, u: u32, v: u32, last: u32) -> Found {
        let checked = self.pair_and_tick(u, v, last);
        let answer = |contents: &dyn Contents| found(contents.latest(u, v, last));
        checked.map_or_else(Found::Refused, answer)
    }

    /// Whether every animal reaches every other one.
    pub fn connected(&self, first: u32, last: u32) -> Answer {
        let checked = self.contents().and_then(|contents| {
            let window = check::window(contents.opening(), first, last)?;
            Ok(contents.connects(window))
        });
        checked.map_or_else(Answer::Refused, answered)
    }

    /// The animals reached from `u`: the answer, and the words lent for the set afterwards.
    pub fn reached(&self, u: u32, first: u32, last: u32, set: &[u32]) -> (Reached, Vec<u32>) {
        let checked = self.contents().and_then(|contents| {
            check::animal(contents.opening(), u)?;
            let window = check::window(contents.opening(), first, last)?;
            Ok(contents.reached(u, window))
        });
        match checked {
            Err(number) => (Reached::Refused(number), set.to_vec()),
            Ok(animals) => {
                let room = set.len().min(SET_WORDS);
                let after = over(&words::set(&animals)[..room], set);
                (Reached::Animals(animals.len() as u32), after)
            }
        }
    }

    /// The chain question: the answer, and the buffer's words afterwards.
    pub fn chain(
        &self,
        u: u32,
        v: u32,
        first: u32,
        last: u32,
        buffer: &[u32],
    ) -> (Chain, Vec<u32>) {
        let checked = self
            .pair_and_window(u, v, first, last)
            .and_then(|(contents, window)| {
                check::chain_buffer(contents.opening(), buffer)?;
                Ok(contents.chain(u, v, window))
            });
        match checked {
            Err(number) => (Chain::Refused(number), buffer.to_vec()),
            Ok(None) => (Chain::NoJourney, buffer.to_vec()),
            Ok(Some(contacts)) => {
                let after = over(&words::contact_words(&contacts), buffer);
                (Chain::Contacts(contacts.len() as u32), after)
            }
        }
    }

    /// The check of a claimed chain.
    pub fn claimed(&self, u: u32, v: u32, first: u32, last: u32, chain: &[u32]) -> Answer {
        let checked = self.pair_and_window(u, v, first, last);
        let answer = |(contents, window): Legal| answered(contents.spells(u, v, window, chain));
        checked.map_or_else(Answer::Refused, answer)
    }

    /// What the table holds and the window, or the first of the refusals 5 to 9 and 19.
    fn pair_and_window(&self, u: u32, v: u32, first: u32, last: u32) -> Result<Legal<'_>, u32> {
        let contents = self.contents()?;
        check::animals(contents.opening(), u, v)?;
        let window = check::window(contents.opening(), first, last)?;
        Ok((contents, window))
    }

    /// What the table holds, or the first of the refusals 5 to 9.
    fn pair_and_tick(&self, u: u32, v: u32, tick: u32) -> Result<&dyn Contents, u32> {
        let contents = self.contents()?;
        check::animals(contents.opening(), u, v)?;
        check::tick(contents.opening(), tick)?;
        Ok(contents)
    }
}

/// What a table holds, and a legal window.
type Legal<'a> = (&'a dyn Contents, Window);

/// The words of the buffer when these are written to its start.
fn over(written: &[u32], buffer: &[u32]) -> Vec<u32> {
    [written, &buffer[written.len()..]].concat()
}

/// New or known, with the number of cells changed.
pub fn accepted(known: bool, cells: u32) -> Added {
    if known {
        Added::Known(cells)
    } else {
        Added::New(cells)
    }
}

/// Yes where it is so, else no.
fn answered(so: bool) -> Answer {
    if so {
        Answer::Yes
    } else {
        Answer::No
    }
}

/// The interval, where there is one.
pub fn found(interval: Option<Interval>) -> Found {
    interval.map_or(Found::Nothing, Found::At)
}
