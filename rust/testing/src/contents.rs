//! What a table holds, as the calls on it ask for it.

use crate::model::{self, Contacts};
use crate::words::{self, Cells, Contact, Interval, Opening, Window};
use herd::calls::Added;

/// What a table holds: told by its contacts (`model::Journeys`), or by its stored intervals (`rule::Stored`). Animals,
/// ticks and windows are legal ones.
pub trait Contents {
    /// The table's numbers.
    fn opening(&self) -> Opening;

    /// Whether the table holds the contact, which may be any.
    fn holds(&self, contact: Contact) -> bool;

    /// The contacts that the table holds, in log order.
    fn held(&self) -> Vec<Contact>;

    /// The cells after the contact is added, and the answer.
    fn add(&self, contact: Contact) -> (Cells, Added);

    /// The cells after the contacts, each once and in log order, are added singly, and how many of them were new.
    fn add_all(&self, contacts: &[Contact]) -> (Cells, u32);

    /// The cells of the fresh table over the contacts that the table holds, less this one: by the plain search.
    fn without(&self, contact: Contact) -> Cells {
        let held = self.held().into_iter();
        let left: Contacts = held.filter(|&other| other != contact).collect();
        model::minimal_intervals(self.opening(), &left)
    }

    /// Whether a journey from `u` to `v` fits the window.
    fn reaches(&self, u: u32, v: u32, window: Window) -> bool;

    /// Of the journeys from `u` to `v` that depart at or after `first`, the minimal interval with the earliest arrival.
    fn earliest(&self, u: u32, v: u32, first: u32) -> Option<Interval>;

    /// Of the journeys from `u` to `v` that arrive by `last`, the minimal interval with the latest departure.
    fn latest(&self, u: u32, v: u32, last: u32) -> Option<Interval>;

    /// The chain from `u` to `v` in the window.
    fn chain(&self, u: u32, v: u32, window: Window) -> Option<Vec<Contact>>;

    /// The animals, without `u`, that are reached from it in the window.
    fn reached(&self, u: u32, window: Window) -> Vec<u32> {
        let others = (0..self.opening().animals).filter(|&v| v != u);
        others.filter(|&v| self.reaches(u, v, window)).collect()
    }

    /// Whether each animal reaches each other one in the window.
    fn connects(&self, window: Window) -> bool {
        let n = self.opening().animals;
        (0..n).all(|u| (0..n).all(|v| u == v || self.reaches(u, v, window)))
    }

    /// Whether the words are contacts held, each of them in the window, that form a journey from `u` to `v`.
    fn spells(&self, u: u32, v: u32, window: Window, chain: &[u32]) -> bool {
        let is_such = |&contact: &Contact| self.holds(contact) && window.has(contact);
        let read = |&word: &u32| words::read_contact(word).filter(is_such);
        let contacts: Option<Vec<Contact>> = chain.iter().map(read).collect();
        contacts.is_some_and(|contacts| {
            let is_journey = words::journey(self.opening().carry, &contacts).is_some();
            is_journey && words::ends(&contacts) == (u, v)
        })
    }
}
