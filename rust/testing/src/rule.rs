//! The add rule of document 01 and the questions of documents 01 and 02 on cells, for any well-formed table.

use crate::calls::accepted;
use crate::contents::Contents;
use crate::words::{Cells, Contact, Interval, Opening, Window};
use herd::calls::Added;
use std::cmp::Reverse;

/// The cells of a well-formed table; its stored intervals stand for the journeys.
#[derive(Clone)]
pub struct Stored {
    opening: Opening,
    cells: Cells,
}

impl Stored {
    /// The table of these cells.
    pub fn new(opening: Opening, cells: Cells) -> Stored {
        Stored { opening, cells }
    }

    /// The cells.
    pub fn cells(&self) -> &Cells {
        &self.cells
    }

    /// The intervals stored for the pair (u, v).
    pub fn cell(&self, u: u32, v: u32) -> &[Interval] {
        &self.cells[self.opening.pair(u, v)]
    }

    /// The intervals stored for the pair (u, v) that fit the window.
    fn fitting(&self, u: u32, v: u32, window: Window) -> impl Iterator<Item = &Interval> {
        let fits = move |i: &&Interval| window.fits(**i, self.opening.carry);
        self.cell(u, v).iter().filter(fits)
    }

    /// The tick d(x) at which `x` is left on the way to the contact, if any.
    fn left_at(&self, contact: Contact, x: u32) -> Option<u32> {
        if x == contact.from {
            Some(contact.tick)
        } else {
            let before = self.latest(x, contact.from, contact.tick);
            before.map(|i| i.departure)
        }
    }

    /// The tick e(y) at which `y` is reached on the way from the contact, if any.
    fn reached_at(&self, contact: Contact, y: u32) -> Option<u32> {
        let met = contact.tick + self.opening.carry;
        if y == contact.to {
            Some(met)
        } else {
            let behind = self.earliest(contact.to, y, met);
            behind.map(|i| i.arrival)
        }
    }

    /// Adds the contact to the cells, and answers.
    fn take(&mut self, contact: Contact) -> Added {
        let known = self.holds(contact);
        let animals = 0..self.opening.animals;
        let left = animals.clone();
        let left = left.filter_map(|x| Some((x, self.left_at(contact, x)?)));
        let left: Vec<(u32, u32)> = left.collect();
        let reached = animals.filter_map(|y| Some((y, self.reached_at(contact, y)?)));
        let reached: Vec<(u32, u32)> = reached.collect();
        let mut changed = 0;
        for &(x, d) in &left {
            for &(y, e) in reached.iter().filter(|&&(y, _)| y != x) {
                let cell = &mut self.cells[self.opening.pair(x, y)];
                let entered = enter(cell, Interval::new(d, e));
                changed += u32::from(entered != *cell);
                *cell = entered;
            }
        }
        accepted(known, changed)
    }

    /// The contacts that the chain's rule goes through from `u`, and whether they end at `v`.
    pub fn walk(&self, u: u32, v: u32, window: Window) -> (Vec<Contact>, bool) {
        let mut walked = Vec::new();
        let fitting = self.fitting(u, v, window);
        let Some(kept) = fitting.min_by_key(|i| (i.arrival, Reverse(i.departure))) else {
            return (walked, false);
        };
        let (mut x, mut departure) = (u, kept.departure);
        while x != v {
            let met = Interval::new(departure, departure + self.opening.carry);
            let held = |z: &u32| self.cell(x, *z).contains(&met);
            let next = (0..self.opening.animals).filter(held).find_map(|z| {
                let goes_on =
                    |i: &&Interval| i.arrival == kept.arrival && i.departure >= met.arrival;
                if z == v {
                    (met.arrival == kept.arrival).then_some((z, met.arrival))
                } else {
                    let onward = self.cell(z, v).iter().find(goes_on);
                    onward.map(|i| (z, i.departure))
                }
            });
            let Some((z, later)) = next else {
                return (walked, false);
            };
            walked.push(Contact::new(x, z, departure));
            (x, departure) = (z, later);
        }
        (walked, true)
    }
}

impl Contents for Stored {
    fn opening(&self) -> Opening {
        self.opening
    }

    fn holds(&self, contact: Contact) -> bool {
        let inside = contact.from < self.opening.animals && contact.to < self.opening.animals;
        let alone = contact.interval(self.opening.carry);
        inside && self.cell(contact.from, contact.to).contains(&alone)
    }

    fn held(&self) -> Vec<Contact> {
        let mut held = Vec::new();
        for u in 0..self.opening.animals {
            for v in 0..self.opening.animals {
                let cell = self.cell(u, v).iter();
                held.extend(cell.map(|i| Contact::new(u, v, i.departure)));
            }
        }
        held.retain(|&contact| self.holds(contact));
        held.sort();
        held
    }

    fn add(&self, contact: Contact) -> (Cells, Added) {
        let mut after = self.clone();
        let answer = after.take(contact);
        (after.cells, answer)
    }

    fn add_all(&self, contacts: &[Contact]) -> (Cells, u32) {
        let mut after = self.clone();
        let mut new = 0;
        for &contact in contacts {
            new += u32::from(matches!(after.take(contact), Added::New(_)));
        }
        (after.cells, new)
    }

    fn reaches(&self, u: u32, v: u32, window: Window) -> bool {
        self.fitting(u, v, window).next().is_some()
    }

    fn earliest(&self, u: u32, v: u32, first: u32) -> Option<Interval> {
        let departing = self.cell(u, v).iter().filter(|i| i.departure >= first);
        departing.min_by_key(|i| i.arrival).copied()
    }

    fn latest(&self, u: u32, v: u32, last: u32) -> Option<Interval> {
        let arrived = self.cell(u, v).iter().filter(|i| i.arrival <= last);
        arrived.max_by_key(|i| i.departure).copied()
    }

    fn chain(&self, u: u32, v: u32, window: Window) -> Option<Vec<Contact>> {
        let (walked, ends) = self.walk(u, v, window);
        (ends && walked.len() < self.opening.animals as usize).then_some(walked)
    }
}

/// The cell after the interval enters it.
fn enter(cell: &[Interval], interval: Interval) -> Vec<Interval> {
    if cell.iter().any(|i| i.within(interval)) {
        return cell.to_vec();
    }
    let staying = cell.iter().filter(|i| !interval.within(**i));
    let mut entered: Vec<Interval> = staying.copied().collect();
    entered.push(interval);
    entered.sort();
    entered
}
