//! The closure of document 000: an ordered map of intervals for each pair of animals, and Algorithm 1.

use crate::rows;
use herd_testing::words::{Cells, Contact, Interval, Opening};
use std::borrow::Borrow;
use std::cmp::Ordering;
use std::collections::BTreeMap;

/// The tick at which an interval departs.
#[derive(Clone, Copy, PartialEq, Eq, PartialOrd, Ord)]
struct Departure(u32);

/// The tick at which an interval arrives.
#[derive(Clone, Copy, PartialEq, Eq, PartialOrd, Ord)]
struct Arrival(u32);

/// The key of an interval; in a tree departures and arrivals rise together, so it is found by either.
#[derive(Clone, Copy)]
struct Key(Departure, Arrival);

impl Ord for Key {
    fn cmp(&self, other: &Key) -> Ordering {
        self.0.cmp(&other.0)
    }
}

impl PartialOrd for Key {
    fn partial_cmp(&self, other: &Key) -> Option<Ordering> {
        Some(self.cmp(other))
    }
}

impl PartialEq for Key {
    fn eq(&self, other: &Key) -> bool {
        self.0 == other.0
    }
}

impl Eq for Key {}

impl Borrow<Departure> for Key {
    fn borrow(&self) -> &Departure {
        &self.0
    }
}

impl Borrow<Arrival> for Key {
    fn borrow(&self) -> &Arrival {
        &self.1
    }
}

impl Key {
    /// The interval of the key.
    fn interval(&self) -> Interval {
        Interval::new(self.0 .0, self.1 .0)
    }
}

/// The minimal intervals of one pair, document 000's T(u, v).
#[derive(Default)]
struct Tree(BTreeMap<Key, ()>);

impl Tree {
    /// FIND_NEXT: the earliest interval that departs at `tick` or later.
    fn find_next(&self, tick: u32) -> Option<Interval> {
        let mut later = self.0.range(Departure(tick)..);
        later.next().map(|(key, ())| key.interval())
    }

    /// FIND_PREVIOUS: the latest interval that arrives by `tick`.
    fn find_previous(&self, tick: u32) -> Option<Interval> {
        let mut earlier = self.0.range(..=Arrival(tick));
        earlier.next_back().map(|(key, ())| key.interval())
    }

    /// INSERT: puts the interval in place of those that contain it, unless one lies inside it; whether it was put.
    fn insert(&mut self, interval: Interval) -> bool {
        let next = self.find_next(interval.departure);
        if next.is_some_and(|next| next.within(interval)) {
            return false;
        }
        while let Some(departure) = self.containing(interval) {
            self.0.remove(&departure);
        }
        let key = Key(Departure(interval.departure), Arrival(interval.arrival));
        self.0.insert(key, ());
        true
    }

    /// The departure of the latest interval that contains this one.
    fn containing(&self, interval: Interval) -> Option<Departure> {
        let mut earlier = self.0.range(..=Departure(interval.departure));
        let (key, ()) = earlier.next_back()?;
        interval.within(key.interval()).then_some(key.0)
    }
}

/// The trees of all pairs.
pub struct Closure {
    opening: Opening,
    trees: Vec<Tree>,
}

impl Closure {
    /// The closure of the log's contacts, added in their order.
    pub fn load(log: &[u32]) -> Closure {
        let opening = rows::log_opening(log);
        let mut trees = Vec::new();
        trees.resize_with(opening.pairs(), Tree::default);
        let mut closure = Closure { opening, trees };
        for contact in rows::log_contacts(log) {
            closure.add_contact(contact);
        }
        closure
    }

    /// The intervals of every pair.
    pub fn cells(&self) -> Cells {
        let cell = |tree: &Tree| tree.0.keys().map(Key::interval).collect();
        self.trees.iter().map(cell).collect()
    }

    /// Algorithm 1; its storage D is `joined`, the animals whose reach of v the contact changed, as section 4.2 says.
    fn add_contact(&mut self, contact: Contact) {
        let (u, v, t) = (contact.from, contact.to, contact.tick);
        let arrival = t + self.opening.carry;
        self.insert(u, v, t, arrival);
        let mut joined = Vec::new();
        for w in self.others(v) {
            if let Some(before) = self.tree(w, u).find_previous(t) {
                if self.insert(w, v, before.departure, arrival) {
                    joined.push((w, before.departure));
                }
            }
        }
        for w in self.others(u) {
            if let Some(after) = self.tree(v, w).find_next(arrival) {
                self.insert(u, w, t, after.arrival);
                for &(x, departure) in joined.iter().filter(|(x, _)| *x != w) {
                    self.insert(x, w, departure, after.arrival);
                }
            }
        }
    }

    /// The animals but one, whose own cell stays empty.
    fn others(&self, animal: u32) -> impl Iterator<Item = u32> {
        (0..self.opening.animals).filter(move |&other| other != animal)
    }

    /// The tree of a pair.
    fn tree(&self, u: u32, v: u32) -> &Tree {
        &self.trees[self.opening.pair(u, v)]
    }

    /// INSERT into the tree of a pair.
    fn insert(&mut self, u: u32, v: u32, departure: u32, arrival: u32) -> bool {
        self.trees[self.opening.pair(u, v)].insert(Interval::new(departure, arrival))
    }
}
