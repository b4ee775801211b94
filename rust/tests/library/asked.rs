//! A herd and the journeys of its contacts: each question, compared with the plain search.

use crate::met::Met;
use crate::{built, range};
use herd::{Contact, Herd, Interval};
use herd_testing::contents::Contents;
use herd_testing::model::{Contacts, Journeys};
use herd_testing::random::Random;
use herd_testing::words::{self, Opening, Window};

/// A herd, and the journeys of the contacts that it holds.
pub struct Asked {
    pub opening: Opening,
    pub herd: Herd,
    pub journeys: Journeys,
}

impl Asked {
    /// The herd with these numbers and contacts.
    pub fn new(random: &mut Random, opening: Opening, contacts: Contacts) -> Asked {
        Asked {
            opening,
            herd: built(random, opening, &contacts),
            journeys: Journeys::new(opening, contacts),
        }
    }

    /// Compares the numbers of the herd and the contacts that it holds.
    #[track_caller]
    pub fn compare_contacts(&self, met: &mut Met) {
        let (opening, herd) = (self.opening, &self.herd);
        let numbers = Opening::new(herd.animals(), herd.ticks(), herd.carry());
        assert_eq!(numbers, opening);
        assert_eq!(herd.calendar(), range(Window::whole(opening)));
        let held = self.journeys.held();
        assert_eq!(herd.held(), held.len(), "{opening:?} {held:?}");
        assert_eq!(herd.contacts().unwrap(), held, "{opening:?}");
        let kind = if held.is_empty() { "none" } else { "some" };
        met.answer("contacts", kind);
    }

    /// Compares the minimal intervals of the pair, and the earliest and the latest journey at each of the ticks.
    #[track_caller]
    pub fn compare_pair(
        &self,
        (u, v): (u32, u32),
        ticks: impl Iterator<Item = u32>,
        met: &mut Met,
    ) {
        let case = (self.opening, u, v, self.journeys.contacts());
        let minimal = &self.journeys.minimal()[self.opening.pair(u, v)];
        let intervals = self.herd.intervals(u, v).unwrap();
        assert_eq!(&intervals, minimal, "{case:?}");
        let number = ["none", "one", "several"][minimal.len().min(2)];
        met.answer("intervals", number);
        for tick in ticks {
            let earliest = self.journeys.earliest(u, v, tick);
            let found = self.herd.earliest(u, v, tick).unwrap();
            assert_eq!(found, earliest, "{tick} {case:?}");
            met.answer("earliest", self.kind(earliest));
            let latest = self.journeys.latest(u, v, tick);
            let found = self.herd.latest(u, v, tick).unwrap();
            assert_eq!(found, latest, "{tick} {case:?}");
            met.answer("latest", self.kind(latest));
        }
    }

    /// Compares whether the pair is reached in the window, and the chain.
    #[track_caller]
    pub fn compare_way(&self, (u, v): (u32, u32), window: Window, met: &mut Met) {
        let case = (self.opening, u, v, window, self.journeys.contacts());
        let reaches = self.journeys.reaches(u, v, window);
        let found = self.herd.reach(u, v, range(window)).unwrap();
        assert_eq!(found, reaches, "{case:?}");
        met.yes_or_no("reach", reaches);
        let chain = self.journeys.chain(u, v, window);
        let found = self.herd.chain(u, v, range(window)).unwrap();
        assert_eq!(found, chain, "{case:?}");
        met.answer("chain", length(chain.as_deref().unwrap_or_default()));
    }

    /// Compares the animals that the animal reaches in the window.
    #[track_caller]
    pub fn compare_reached(&self, animal: u32, window: Window, met: &mut Met) {
        let reached = self.journeys.reached(animal, window);
        let found = self.herd.reached(animal, range(window)).unwrap();
        let case = (self.opening, animal, window, self.journeys.contacts());
        assert_eq!(found, reached, "{case:?}");
        let all = reached.len() + 1 == self.opening.animals as usize;
        let some = if all { "all" } else { "some" };
        met.answer("reached", if reached.is_empty() { "none" } else { some });
    }

    /// Compares whether each animal reaches every other one in the window.
    #[track_caller]
    pub fn compare_connected(&self, window: Window, met: &mut Met) {
        let connects = self.journeys.connects(window);
        let found = self.herd.connected(range(window)).unwrap();
        let case = (self.opening, window, self.journeys.contacts());
        assert_eq!(found, connects, "{case:?}");
        met.yes_or_no("connected", connects);
    }

    /// Compares whether the contacts, all of them of the herd's animals and ticks, are a journey of the pair in the window.
    #[track_caller]
    pub fn compare_claim(&self, (u, v): (u32, u32), window: Window, chain: &[Contact]) -> bool {
        let told = words::contact_words(chain);
        let spells = self.journeys.spells(u, v, window, &told);
        let claimed = chain.iter().copied();
        let found = self.herd.claimed(u, v, range(window), claimed).unwrap();
        let case = (self.opening, u, v, window, chain, self.journeys.contacts());
        assert_eq!(found, spells, "{case:?}");
        spells
    }

    /// What journey an interval is of.
    fn kind(&self, interval: Option<Interval>) -> &'static str {
        match interval {
            None => "none",
            Some(i) if i.arrival - i.departure == self.opening.carry => "one contact",
            Some(_) => "several contacts",
        }
    }
}

/// How many contacts a chain has.
pub fn length(chain: &[Contact]) -> &'static str {
    ["none", "one contact", "several contacts"][chain.len().min(2)]
}
