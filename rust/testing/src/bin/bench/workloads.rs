//! The logs that the bench loads.

use herd_testing::cases;
use herd_testing::random::Random;
use herd_testing::words::{self, Contact, Opening, Stay, LAST_PEN};

/// The seed of every log and question.
pub const SEED: u64 = 8;

/// The workload that stands for a season of a herd.
pub const SEASON: &str = "sparse season";

/// The numbers of its table.
pub const SEASON_OPENING: Opening = Opening {
    animals: 128,
    ticks: 512,
    carry: 4,
};

/// The ticks of the longest stay in a season.
const LONGEST_STAY: u32 = 12;
/// The ticks of each stay that shares nothing.
const STAY_APART: u32 = 6;

/// A table's numbers and the contacts of its log.
pub struct Workload {
    pub name: &'static str,
    pub opening: Opening,
    pub contacts: Vec<Contact>,
}

impl Workload {
    /// Every legal contact once, shuffled.
    fn complete(name: &'static str, opening: Opening) -> Workload {
        let mut contacts = cases::legal_contacts(opening);
        Random::new(SEED).shuffle(&mut contacts);
        Workload {
            name,
            opening,
            contacts,
        }
    }

    /// So many contacts, each drawn from all legal ones.
    pub fn drawn(name: &'static str, opening: Opening, number: usize) -> Workload {
        let mut random = Random::new(SEED);
        let contacts = (0..number).map(|_| cases::contact(&mut random, opening));
        Workload {
            name,
            opening,
            contacts: contacts.collect(),
        }
    }

    /// Its contacts at even places, and those at odd ones.
    pub fn halves(&self) -> [Vec<Contact>; 2] {
        let from = |first| self.contacts.iter().skip(first).step_by(2);
        [0, 1].map(|first| from(first).copied().collect())
    }

    /// The words of the log of its first contacts.
    pub fn log_of(&self, number: usize) -> Vec<u32> {
        words::log(self.opening, self.contacts[..number].iter().copied())
    }

    /// The words of its log.
    pub fn log(&self) -> Vec<u32> {
        self.log_of(self.contacts.len())
    }
}

/// The five workloads.
pub fn all() -> Vec<Workload> {
    vec![
        Workload::complete("complete, 32 animals", Opening::new(32, 64, 1)),
        Workload::complete("complete, 100 animals", Opening::new(100, 10, 1)),
        Workload::drawn(SEASON, SEASON_OPENING, 6_000),
        Workload::drawn("dense pen", Opening::new(24, 256, 3), 60_000),
        largest(200),
    ]
}

/// So many contacts of the largest table.
pub fn largest(contacts: usize) -> Workload {
    Workload::drawn("largest table", Opening::new(256, 1024, 2), contacts)
}

/// So many contacts of four tables, for reader files.
pub fn readers(lines: usize) -> Vec<Workload> {
    vec![
        Workload::drawn("24 animals, 256 ticks", Opening::new(24, 256, 3), lines),
        Workload::drawn("60 animals, 1024 ticks", Opening::new(60, 1024, 4), lines),
        Workload::drawn("128 animals, 512 ticks", SEASON_OPENING, lines),
        Workload::drawn("largest table", Opening::new(256, 1024, 2), lines),
    ]
}

/// So many stays of a season, each in any pen.
pub fn stays(number: usize) -> Vec<Stay> {
    let mut random = Random::new(SEED);
    let draw = |_| {
        let pen = random.between(0, LAST_PEN);
        cases::stay(&mut random, SEASON_OPENING, pen, LONGEST_STAY)
    };
    (0..number).map(draw).collect()
}

/// So many stays of a season, no two of which share a tick in one pen.
pub fn stays_apart(number: usize) -> Vec<Stay> {
    let mut random = Random::new(SEED);
    let place = |place: u32| {
        let (pen, before) = (place % (LAST_PEN + 1), place / (LAST_PEN + 1));
        let animal = random.between(0, SEASON_OPENING.animals - 1);
        let first = 1 + before * STAY_APART;
        Stay::new(animal, pen, first, first + STAY_APART - 1)
    };
    let mut stays: Vec<Stay> = (0..number as u32).map(place).collect();
    random.shuffle(&mut stays);
    stays
}
