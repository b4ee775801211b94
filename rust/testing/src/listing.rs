//! Every journey of a small set of contacts, listed as its contacts: the plainest way to say what fits a window.

use crate::model::Contacts;
use crate::words::{self, Contact, Interval, Opening, Window};
use std::cmp::Reverse;

/// Every journey of a set of contacts, those that end where they began too.
pub struct Listing {
    opening: Opening,
    journeys: Vec<Vec<Contact>>,
}

impl Listing {
    /// The journeys of the set, which is small.
    pub fn new(opening: Opening, contacts: &Contacts) -> Listing {
        let mut journeys = Vec::new();
        for &first in contacts {
            go_on(opening.carry, contacts, vec![first], &mut journeys);
        }
        Listing { opening, journeys }
    }

    /// The journeys.
    pub fn journeys(&self) -> &[Vec<Contact>] {
        &self.journeys
    }

    /// The intervals of the journeys from `u` to `v`.
    pub fn intervals(&self, u: u32, v: u32) -> Vec<Interval> {
        let interval = |journey| words::journey(self.opening.carry, journey);
        self.between(u, v).filter_map(interval).collect()
    }

    /// Whether a journey from `u` to `v` fits the window.
    pub fn reaches(&self, u: u32, v: u32, window: Window) -> bool {
        self.fitting(u, v, window).next().is_some()
    }

    /// The animals, without `u`, to which a journey from `u` fits the window.
    pub fn reached(&self, u: u32, window: Window) -> Vec<u32> {
        let others = (0..self.opening.animals).filter(|&v| v != u);
        others.filter(|&v| self.reaches(u, v, window)).collect()
    }

    /// Whether each animal reaches all others in the window.
    pub fn connects(&self, window: Window) -> bool {
        let n = self.opening.animals;
        (0..n).all(|u| self.reached(u, window).len() as u32 == n - 1)
    }

    /// The chain from `u` to `v`: of the journeys that fit the window those with the earliest arrival, and of these the one
    /// whose contacts, taken in turn, leave latest and then go to the lowest-numbered animal.
    pub fn chain(&self, u: u32, v: u32, window: Window) -> Option<&[Contact]> {
        let step = |contact: &Contact| (Reverse(contact.tick), contact.to);
        let steps = |journey: &[Contact]| journey.iter().map(step).collect::<Vec<_>>();
        self.fitting(u, v, window)
            .min_by_key(|journey| (journey[journey.len() - 1].tick, steps(journey)))
    }

    /// Whether the contacts are a journey from `u` to `v` that fits the window.
    pub fn spells(&self, u: u32, v: u32, window: Window, contacts: &[Contact]) -> bool {
        self.fitting(u, v, window)
            .any(|journey| journey == contacts)
    }

    /// The journeys from `u` to `v`.
    fn between(&self, u: u32, v: u32) -> impl Iterator<Item = &[Contact]> {
        let journeys = self.journeys.iter().map(Vec::as_slice);
        journeys.filter(move |journey| words::ends(journey) == (u, v))
    }

    /// The journeys from `u` to `v` with all their contacts in the window.
    fn fitting(&self, u: u32, v: u32, window: Window) -> impl Iterator<Item = &[Contact]> {
        let lies_in = move |journey: &&[Contact]| journey.iter().all(|&c| window.has(c));
        self.between(u, v).filter(lies_in)
    }
}

/// Lists every journey of the set that begins with this one.
fn go_on(carry: u32, contacts: &Contacts, journey: Vec<Contact>, listed: &mut Vec<Vec<Contact>>) {
    let last = journey[journey.len() - 1];
    for &next in contacts {
        if next.from == last.to && next.tick >= last.tick + carry {
            let longer = [&journey[..], &[next]].concat();
            go_on(carry, contacts, longer, listed);
        }
    }
    listed.push(journey);
}
