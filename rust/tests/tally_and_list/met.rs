//! What the sessions met, so that no test passes on cases that it never made.

use crate::session::{Reply, MOST_RECORDS};
use std::collections::BTreeMap;

/// An answer as it is counted: which one, or a refusal's number.
#[derive(Clone, Copy, Debug, PartialEq, Eq, PartialOrd, Ord)]
pub enum Kind {
    Answer(u32),
    Refusal(u32),
}

/// How often each answer of each command was met, and how many lists of each length were asked.
#[derive(Debug, Default)]
pub struct Met {
    answers: BTreeMap<(u32, Kind), usize>,
    lists: BTreeMap<usize, usize>,
}

impl Met {
    /// Counts a reply.
    pub fn note(&mut self, command: u32, reply: Reply) {
        let kind = match reply {
            (0, number) => Kind::Refusal(number),
            (which, _) => Kind::Answer(which),
        };
        *self.answers.entry((command, kind)).or_insert(0) += 1;
    }

    /// Counts a list that was asked.
    pub fn list(&mut self, length: usize) {
        *self.lists.entry(length).or_insert(0) += 1;
    }

    /// Adds what another session met.
    pub fn join(&mut self, other: &Met) {
        for (&answer, times) in &other.answers {
            *self.answers.entry(answer).or_insert(0) += times;
        }
        for (&length, times) in &other.lists {
            *self.lists.entry(length).or_insert(0) += times;
        }
    }

    /// Fails where one of these answers of the command was met less often.
    #[track_caller]
    pub fn at_least(&self, command: u32, least: &[(Kind, usize)]) {
        let often =
            |&(kind, times): &(Kind, usize)| self.answers.get(&(command, kind)) >= Some(&times);
        assert!(least.iter().all(often), "{least:?} in {self:?}");
    }

    /// Fails where lists of some length were asked less often.
    #[track_caller]
    pub fn lists_of_every_length(&self, times: usize) {
        let often = |length: usize| self.lists.get(&length) >= Some(&times);
        assert!((0..=MOST_RECORDS).all(often), "{times} in {self:?}");
    }
}
