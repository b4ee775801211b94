//! The plain search over contacts: what a table over a set of contacts must hold and answer, without cells or an add rule;
//! and the plain search over stays: which contacts they tell.

use crate::calls::accepted;
use crate::contents::Contents;
use crate::words::{self, Cells, Contact, Interval, Opening, Stay, Window};
use herd::calls::Added;
use std::cell::{OnceCell, RefCell};
use std::cmp::Reverse;
use std::collections::{BTreeMap, BTreeSet};
use std::rc::Rc;

/// A set of contacts in log order.
pub type Contacts = BTreeSet<Contact>;

/// The minimal journey intervals of every ordered pair of different animals, by departure.
pub fn minimal_intervals(opening: Opening, contacts: &Contacts) -> Cells {
    let listed: Vec<Contact> = contacts.iter().copied().collect();
    let leaving: BTreeSet<(u32, u32)> = listed.iter().map(|c| (c.from, c.tick)).collect();
    let mut cells = vec![Vec::new(); opening.pairs()];
    for (x, departure) in leaving {
        let arrivals = earliest_arrivals(opening, &listed, x, departure);
        for (y, arrival) in (0..).zip(arrivals).filter(|&(y, _)| y != x) {
            let cell: &mut Vec<Interval> = &mut cells[opening.pair(x, y)];
            cell.extend(arrival.map(|arrival| Interval::new(departure, arrival)));
        }
    }
    cells.iter().map(|journeys| minimal(journeys)).collect()
}

/// The fresh table over the set.
pub fn fresh_table(opening: Opening, contacts: &Contacts) -> Vec<u32> {
    words::table(opening, &minimal_intervals(opening, contacts))
}

/// The contacts of the stays: two different animals in the same pen at a shared tick met at that tick, both ways.
pub fn met(stays: &[Stay]) -> Contacts {
    let mut contacts = Contacts::new();
    for one in stays {
        for other in stays {
            if one.animal == other.animal || one.pen != other.pen {
                continue;
            }
            for tick in one.first..=one.last {
                if other.first <= tick && tick <= other.last {
                    contacts.insert(Contact::new(one.animal, other.animal, tick));
                }
            }
        }
    }
    contacts
}

/// The number of ordered pairs whose intervals differ.
pub fn changed_pairs(before: &Cells, after: &Cells) -> u32 {
    before.iter().zip(after).filter(|(b, a)| b != a).count() as u32
}

/// The journeys of a set of contacts, each known by its first and last animal and its interval.
pub struct Journeys {
    opening: Opening,
    contacts: Contacts,
    minimal: Cells,
    all: OnceCell<Cells>,
    inside: RefCell<BTreeMap<Window, Rc<Cells>>>,
}

impl Journeys {
    /// The journeys of the set.
    pub fn new(opening: Opening, contacts: Contacts) -> Journeys {
        let minimal = minimal_intervals(opening, &contacts);
        Journeys {
            opening,
            contacts,
            minimal,
            all: OnceCell::new(),
            inside: RefCell::default(),
        }
    }

    /// The set.
    pub fn contacts(&self) -> &Contacts {
        &self.contacts
    }

    /// The minimal intervals of every ordered pair.
    pub fn minimal(&self) -> &Cells {
        &self.minimal
    }

    /// The intervals of all journeys from `u` to another animal `v`, whether another one lies inside them or not.
    fn between(&self, u: u32, v: u32) -> &[Interval] {
        let find = || intervals(self.opening, self.contacts.iter());
        &self.all.get_or_init(find)[self.opening.pair(u, v)]
    }

    /// The intervals of all journeys of those contacts that lie in the window, for every ordered pair of different animals.
    /// They are searched once for each window.
    fn inside(&self, window: Window) -> Rc<Cells> {
        let lying = self.contacts.iter().filter(|&&contact| window.has(contact));
        let find = || Rc::new(intervals(self.opening, lying));
        Rc::clone(self.inside.borrow_mut().entry(window).or_insert_with(find))
    }
}

impl Contents for Journeys {
    fn opening(&self) -> Opening {
        self.opening
    }

    fn holds(&self, contact: Contact) -> bool {
        self.contacts.contains(&contact)
    }

    fn held(&self) -> Vec<Contact> {
        self.contacts.iter().copied().collect()
    }

    fn add(&self, contact: Contact) -> (Cells, Added) {
        let mut more = self.contacts.clone();
        let new = more.insert(contact);
        let after = minimal_intervals(self.opening, &more);
        let changed = changed_pairs(&self.minimal, &after);
        (after, accepted(!new, changed))
    }

    fn add_all(&self, contacts: &[Contact]) -> (Cells, u32) {
        let mut all = self.contacts.clone();
        all.extend(contacts);
        let new = all.len() - self.contacts.len();
        (minimal_intervals(self.opening, &all), new as u32)
    }

    fn reaches(&self, u: u32, v: u32, window: Window) -> bool {
        !self.inside(window)[self.opening.pair(u, v)].is_empty()
    }

    fn earliest(&self, u: u32, v: u32, first: u32) -> Option<Interval> {
        let journeys = self.between(u, v);
        let departing = journeys.iter().filter(|i| i.departure >= first);
        let arrival = departing.map(|i| i.arrival).min()?;
        let departure = latest_to_arrive(journeys, first, arrival)?;
        Some(Interval::new(departure, arrival))
    }

    fn latest(&self, u: u32, v: u32, last: u32) -> Option<Interval> {
        let journeys = self.between(u, v);
        let arriving = journeys.iter().filter(|i| i.arrival <= last);
        let departure = arriving.map(|i| i.departure).max()?;
        let leaving = journeys.iter().filter(|i| i.departure == departure);
        let arrival = leaving.map(|i| i.arrival).min()?;
        Some(Interval::new(departure, arrival))
    }

    fn chain(&self, u: u32, v: u32, window: Window) -> Option<Vec<Contact>> {
        let inside = self.inside(window);
        let fitting = |u, v| &inside[self.opening.pair(u, v)];
        let by_arrival = |i: &&Interval| (i.arrival, Reverse(i.departure));
        let kept = fitting(u, v).iter().min_by_key(by_arrival)?;
        let (mut x, mut departure) = (u, kept.departure);
        let mut chain = Vec::new();
        while x != v {
            let met = departure + self.opening.carry;
            let next = |z| {
                if z == v {
                    (met == kept.arrival).then_some(met)
                } else {
                    latest_to_arrive(fitting(z, v), met, kept.arrival)
                }
            };
            let contacts = (0..self.opening.animals).map(|z| Contact::new(x, z, departure));
            let taken = contacts
                .filter(|contact| self.contacts.contains(contact))
                .find_map(|contact| next(contact.to).map(|later| (contact, later)));
            let (contact, later) = taken.expect("a journey goes on until its last animal");
            chain.push(contact);
            (x, departure) = (contact.to, later);
        }
        Some(chain)
    }
}

/// The latest departure, at `first` or later, of the journeys with this arrival.
fn latest_to_arrive(journeys: &[Interval], first: u32, arrival: u32) -> Option<u32> {
    let arriving = |i: &&Interval| i.departure >= first && i.arrival == arrival;
    let departures = journeys.iter().filter(arriving).map(|i| i.departure);
    departures.max()
}

/// The intervals of all journeys of every ordered pair of different animals, by departure.
fn intervals<'a>(opening: Opening, contacts: impl Iterator<Item = &'a Contact>) -> Cells {
    let mut leaving = vec![Vec::new(); opening.animals as usize];
    for &contact in contacts {
        leaving[contact.from as usize].push(contact);
    }
    let times = opening.last_arrival() as usize + 1;
    let mut cells = vec![Vec::new(); opening.pairs()];
    for x in 0..opening.animals {
        let departures: BTreeSet<u32> = leaving[x as usize].iter().map(|c| c.tick).collect();
        for departure in departures {
            let seen = search(opening, &leaving, x, departure);
            for (y, reached) in (0..).zip(seen.chunks(times)).filter(|&(y, _)| y != x) {
                let cell: &mut Vec<Interval> = &mut cells[opening.pair(x, y)];
                let times = (0..).zip(reached).filter(|(_, &seen)| seen);
                cell.extend(times.map(|(arrival, _)| Interval::new(departure, arrival)));
            }
        }
    }
    cells
}

/// The earliest arrival at each animal, if any, of the journeys that leave `x` at the departure. The contacts are in log
/// order, so that those by which an animal is reached stand before those by which it is left.
fn earliest_arrivals(
    opening: Opening,
    contacts: &[Contact],
    x: u32,
    departure: u32,
) -> Vec<Option<u32>> {
    let mut arrivals: Vec<Option<u32>> = vec![None; opening.animals as usize];
    let from = contacts.partition_point(|contact| contact.tick < departure);
    for contact in &contacts[from..] {
        let begins = contact.from == x && contact.tick == departure;
        let goes_on = arrivals[contact.from as usize].is_some_and(|met| met <= contact.tick);
        if begins || goes_on {
            let met = &mut arrivals[contact.to as usize];
            *met = Some(met.unwrap_or(u32::MAX).min(contact.tick + opening.carry));
        }
    }
    arrivals
}

/// Whether a journey that leaves `x` at the departure reaches each animal at each time from 0 to τ+δ.
fn search(opening: Opening, leaving: &[Vec<Contact>], x: u32, departure: u32) -> Vec<bool> {
    let times = opening.last_arrival() as usize + 1;
    let mut seen = vec![false; opening.animals as usize * times];
    let mut open: Vec<Contact> = Vec::new();
    let leaving_x = leaving[x as usize].iter();
    open.extend(leaving_x.filter(|c| c.tick == departure));
    while let Some(taken) = open.pop() {
        let (animal, time) = (taken.to as usize, taken.tick + opening.carry);
        if seen[animal * times + time as usize] {
            continue;
        }
        seen[animal * times + time as usize] = true;
        open.extend(leaving[animal].iter().filter(|c| c.tick >= time));
    }
    seen
}

/// Those of the journey intervals inside which no other one lies.
fn minimal(journeys: &[Interval]) -> Vec<Interval> {
    let alone = |i: Interval| !journeys.iter().any(|&j| j != i && j.within(i));
    journeys.iter().copied().filter(|&i| alone(i)).collect()
}
