//! What the program must print and write, told by the plain search over contacts.

use herd_testing::contents::Contents;
use herd_testing::model::{Contacts, Journeys};
use herd_testing::sheet;
use herd_testing::words::{self, Cells, Contact, Interval, Opening, Window};
use std::cmp::Reverse;

/// Which way an animal is traced.
#[derive(Clone, Copy, Debug, PartialEq, Eq)]
pub enum Way {
    /// To the animals that it can have reached.
    Trace,
    /// To the animals that can have reached it.
    Back,
}

/// Both ways.
pub const WAYS: [Way; 2] = [Way::Trace, Way::Back];

impl Way {
    /// The command that traces so.
    pub fn command(self) -> &'static str {
        match self {
            Way::Trace => "trace",
            Way::Back => "back",
        }
    }
}

/// An animal that was traced: the journey that shows it, and its interval.
#[derive(Clone, Debug)]
pub struct Found {
    pub animal: u32,
    pub interval: Interval,
    pub chain: Vec<Contact>,
}

/// A herd as the plain search knows it.
pub struct Herd {
    pub opening: Opening,
    journeys: Journeys,
}

impl Herd {
    /// The herd with this opening and these contacts.
    pub fn new(opening: Opening, contacts: impl IntoIterator<Item = Contact>) -> Herd {
        let journeys = Journeys::new(opening, contacts.into_iter().collect());
        Herd { opening, journeys }
    }

    /// Its contacts.
    pub fn contacts(&self) -> &Contacts {
        self.journeys.contacts()
    }

    /// Its contacts as a list.
    pub fn listed(&self) -> Vec<Contact> {
        self.contacts().iter().copied().collect()
    }

    /// The minimal intervals of its pairs.
    pub fn cells(&self) -> &Cells {
        self.journeys.minimal()
    }

    /// The herd with these contacts besides.
    pub fn with(&self, more: impl IntoIterator<Item = Contact>) -> Herd {
        let own = self.contacts().iter().copied();
        Herd::new(self.opening, own.chain(more))
    }

    /// The herd without this contact.
    pub fn without(&self, contact: Contact) -> Herd {
        let own = self.contacts().iter().copied();
        Herd::new(self.opening, own.filter(|&other| other != contact))
    }

    /// The bytes of its log.
    pub fn log(&self) -> Vec<u8> {
        log_of(self.opening, self.contacts().iter().copied())
    }

    /// The three numbers that open it, as `herd load` takes them.
    pub fn numbers(&self) -> String {
        let (n, ticks, carry) = (self.opening.animals, self.opening.ticks, self.opening.carry);
        format!("--animals {n} --ticks {ticks} --carry {carry}")
    }

    /// What is told about its log, which lies in this file.
    pub fn about(&self, file: &str) -> String {
        let animals = counted(self.opening.animals as usize, "animal");
        let ticks = counted(self.opening.ticks as usize, "tick");
        let contacts = counted(self.contacts().len(), "contact");
        let carry = self.opening.carry;
        format!("{file}: {animals}, {ticks}, carry time {carry}, {contacts}\n")
    }

    /// A line for each of its contacts.
    pub fn lines(&self) -> String {
        self.contacts().iter().map(line).collect()
    }

    /// Its sheet.
    pub fn sheet(&self) -> String {
        let (n, ticks, carry) = (self.opening.animals, self.opening.ticks, self.opening.carry);
        let mut text = format!("{n} {ticks} {carry} {}\n", self.contacts().len());
        for (pair, intervals) in self.cells().iter().enumerate() {
            if intervals.is_empty() {
                continue;
            }
            text += &format!("{} {}", pair / n as usize, pair % n as usize);
            for interval in intervals {
                text += &format!(" {}-{}", interval.departure, interval.arrival);
            }
            text += "\n";
        }
        text
    }

    /// The answer to a question.
    pub fn answer(&self, from: u32, to: u32, window: Window) -> String {
        let by = by_contacts(window);
        let Some(chain) = self.journeys.chain(from, to, window) else {
            return format!("no: {from} cannot have reached {to} {by}\n");
        };
        let mut text = format!("yes: {from} can have reached {to} {by}\n");
        for Contact { from, to, tick } in chain {
            let arrival = tick + self.opening.carry;
            text += &format!("  {from} -> {to} at tick {tick}, arrives at tick {arrival}\n");
        }
        text
    }

    /// The animals that are found where this one is traced, in the order of the table.
    pub fn found(&self, way: Way, animal: u32, window: Window) -> Vec<Found> {
        let others = (0..self.opening.animals).filter(|&other| other != animal);
        let found = others.filter_map(|other| match way {
            Way::Trace => self.show(other, self.journeys.chain(animal, other, window)?),
            Way::Back => {
                let last = window.last + self.opening.carry;
                let latest = self.journeys.latest(other, animal, last)?;
                let leaves = latest.departure;
                let rest = Window::new(leaves, window.last);
                let chain = (window.first <= leaves).then_some(rest);
                self.show(other, self.journeys.chain(other, animal, chain?)?)
            }
        });
        let mut found: Vec<Found> = found.collect();
        found.sort_by_key(|found| match way {
            Way::Trace => (found.interval.arrival, Reverse(0), found.animal),
            Way::Back => (0, Reverse(found.interval.departure), found.animal),
        });
        found
    }

    /// What a chain shows of an animal.
    fn show(&self, animal: u32, chain: Vec<Contact>) -> Option<Found> {
        let interval = words::journey(self.opening.carry, &chain)?;
        Some(Found {
            animal,
            interval,
            chain,
        })
    }

    /// The sentence about the animals found.
    pub fn title(&self, way: Way, animal: u32, window: Window, found: usize) -> String {
        let others = counted(self.opening.animals as usize - 1, "other animal");
        let by = by_contacts(window);
        match way {
            Way::Trace => format!("Animal {animal} can have reached {found} of {others} {by}"),
            Way::Back => {
                format!("Animal {animal} can have been reached from {found} of {others} {by}")
            }
        }
    }

    /// The table of the animals found.
    pub fn table(&self, way: Way, animal: u32, window: Window) -> String {
        let found = self.found(way, animal, window);
        let mut text = self.title(way, animal, window, found.len()) + "\n";
        if found.is_empty() {
            return text;
        }
        text += match way {
            Way::Trace => "animal  earliest arrival  departure  through\n",
            Way::Back => "animal  latest departure  arrival  through\n",
        };
        for found in found {
            let (animal, interval) = (found.animal, found.interval);
            let (leaves, comes) = (interval.departure, interval.arrival);
            let through = through(&found.chain);
            text += &match way {
                Way::Trace => format!("{animal:>6}  {comes:>16}  {leaves:>9}  {through}\n"),
                Way::Back => format!("{animal:>6}  {leaves:>16}  {comes:>7}  {through}\n"),
            };
        }
        text
    }
}

/// The bytes of the log of these contacts, in the order in which they come.
pub fn log_of(opening: Opening, contacts: impl IntoIterator<Item = Contact>) -> Vec<u8> {
    sheet::bytes(&words::log(opening, contacts))
}

/// A contact as a line of a reader file.
pub fn line(contact: &Contact) -> String {
    format!("{} {} {}\n", contact.from, contact.to, contact.tick)
}

/// The animals between the two ends of a chain.
fn through(chain: &[Contact]) -> String {
    let between: Vec<String> = chain[1..].iter().map(|c| c.from.to_string()).collect();
    match between.is_empty() {
        true => "directly".into(),
        false => between.join(", "),
    }
}

/// How a window is named.
fn by_contacts(window: Window) -> String {
    format!(
        "by contacts from tick {} to tick {}",
        window.first, window.last
    )
}

/// A number of things, in the singular or in the plural.
pub fn counted(number: usize, thing: &str) -> String {
    let plural = if number == 1 { "" } else { "s" };
    format!("{number} {thing}{plural}")
}
