//! Adding the contacts of stays: the engine's call less the check of its table, beside its adds made singly less a check for
//! each, beside the same adds made by joins less all else that these do, and beside the same adds in Rust without a check.

use crate::adding::{check, doubt, median};
use crate::adds;
use crate::asking::read;
use crate::clock::{race, timed};
use crate::joining::{inner_mean, single_add, GRAIN, TOLD};
use crate::rows;
use crate::ticks;
use herd::calls::{Joined, StaysAdded};
use herd_testing::compare::same_words;
use herd_testing::model;
use herd_testing::words::{self, Contact, Opening, Stay};
use std::time::{Duration, Instant};

/// The laps of a run last this long together.
const LONG: Duration = Duration::from_secs(8);
/// The laps of a run are at least so many, however long they last.
const LEAST: usize = 3;
/// The laps of a run are at most so many.
const MOST: usize = 9;
/// One in so many parts of the contacts is added by a join; of each of the others the first contact is added singly and the
/// rest in Rust.
const STEP: usize = 4;

/// A ratio, and how far it may be off; no number where nothing is told.
pub struct Ratio {
    pub number: f64,
    pub doubt: f64,
}

/// The ratios of the call less the check of its table to its adds made singly less theirs, to the same adds made by joins,
/// and to the same adds in Rust.
pub struct Ratios {
    pub singly: Ratio,
    pub joined: Ratio,
    pub rust: f64,
}

/// The seconds of one lap: a check of the table, the call less its check, and its adds made singly less theirs, made by
/// joins, and made in Rust.
struct Lap {
    check: f64,
    call: f64,
    singly: f64,
    joined: f64,
    rust: f64,
}

/// The stays and their contacts in log order, the engine's table, and its peers.
pub struct Staying {
    opening: Opening,
    stays: Vec<Stay>,
    contacts: Vec<Contact>,
    table: Vec<u32>,
    peers: Peers,
}

/// The table to which the peers add, and a table to join.
struct Peers {
    opening: Opening,
    table: Vec<u32>,
    second: Vec<u32>,
}

/// So many adds, and the seconds that they lasted together.
#[derive(Default)]
struct Adds {
    number: usize,
    lasted: f64,
}

impl Staying {
    /// Adding the contacts of the stays to an empty table.
    pub fn new(opening: Opening, stays: Vec<Stay>) -> Staying {
        let length = opening.table_words();
        Staying {
            opening,
            contacts: Vec::from_iter(model::met(&stays)),
            stays,
            table: vec![1; length],
            peers: Peers {
                opening,
                table: vec![1; length],
                second: vec![1; length],
            },
        }
    }

    /// The number of contacts.
    pub fn contacts(&self) -> usize {
        self.contacts.len()
    }

    /// The medians over laps, in which all peers take turns.
    pub fn run(&mut self) -> Ratios {
        let mut laps = Vec::new();
        let start = Instant::now();
        while laps.len() < LEAST || laps.len() < MOST && start.elapsed() < LONG {
            laps.push(self.lap());
        }
        let of = |number: fn(&Lap) -> f64| -> Vec<f64> { laps.iter().map(number).collect() };
        let (check, rust) = (median(&of(|lap| lap.check)), median(&of(|lap| lap.rust)));
        let grain = GRAIN * check * self.contacts.len() as f64 / rust;
        let told = |number| if grain < TOLD { number } else { f64::NAN };
        let singly = of(|lap| lap.call / lap.singly);
        let joined = of(|lap| lap.call / lap.joined);
        Ratios {
            singly: Ratio {
                number: told(median(&singly)),
                doubt: doubt(&singly).max(grain * median(&singly)),
            },
            joined: Ratio {
                number: median(&joined),
                doubt: doubt(&joined),
            },
            rust: median(&of(|lap| lap.call / lap.rust)),
        }
    }

    /// The seconds of one call, and of one read of the table's words.
    pub fn call_and_read(&mut self) -> (f64, f64) {
        let seconds = race(2, |peer| match peer {
            0 => self.call(),
            _ => timed(|| read(&self.table)).1,
        });
        (seconds[0], seconds[1])
    }

    /// One lap; both tables are compared.
    fn lap(&mut self) -> Lap {
        rows::open(self.opening, &mut self.table);
        check(&mut self.table);
        let check = check(&mut self.table).as_secs_f64();
        let call = self.call().as_secs_f64();
        let [singly, joined, rust] = self.adds();
        same_words(&self.table, &self.peers.table, "adds of all peers");
        Lap {
            check,
            call: call - check,
            singly,
            joined,
            rust,
        }
    }

    /// One call on an empty table.
    fn call(&mut self) -> Duration {
        rows::open(self.opening, &mut self.table);
        let stays = Stay::words(&self.stays);
        let (answer, lasted) = timed(|| herd::calls::stays(&mut self.table, stays));
        assert_eq!(answer, StaysAdded::New(self.contacts.len() as u32));
        lasted
    }

    /// The seconds of all adds made singly, made by joins and made in Rust, judged by those that are made so. The ticks of one
    /// part are too near to each other for a journey, so that its adds last as long in a join's order as in log order.
    fn adds(&mut self) -> [f64; 3] {
        rows::open(self.opening, &mut self.peers.table);
        let mut singly = Vec::new();
        let (mut joined, mut rust) = (Adds::default(), Adds::default());
        let part_of = |contact: &Contact| (contact.tick - 1) / self.opening.carry;
        let is_one = |one: &Contact, next: &Contact| part_of(one) == part_of(next);
        for (place, part) in self.contacts.chunk_by(is_one).enumerate() {
            if place % STEP == 0 {
                joined.count(part.len(), self.peers.join(part));
            } else {
                singly.push(single_add(&mut self.peers.table, part[0]));
                rust.count(part.len() - 1, self.peers.add(&part[1..]));
            }
        }
        let all = self.contacts.len() as f64;
        [inner_mean(singly), joined.mean(), rust.mean()].map(|mean| mean * all)
    }
}

impl Peers {
    /// The seconds of the adds of a join of these contacts; all else of it is taken to last as long as the mean of the joins
    /// of an empty table before and after.
    fn join(&mut self, contacts: &[Contact]) -> f64 {
        let before = self.whole_join(&[]);
        let whole = self.whole_join(contacts);
        let after = self.whole_join(&[]);
        whole.as_secs_f64() - (before + after).as_secs_f64() / 2.0
    }

    /// One join of these contacts.
    fn whole_join(&mut self, contacts: &[Contact]) -> Duration {
        let log = words::log(self.opening, contacts.iter().copied());
        ticks::load(&log, &mut self.second);
        check(&mut self.table);
        let (answer, lasted) = timed(|| herd::calls::join(&mut self.table, &self.second));
        assert_eq!(answer, Joined::New(contacts.len() as u32));
        lasted
    }

    /// The seconds of the adds of these contacts in Rust.
    fn add(&mut self, contacts: &[Contact]) -> f64 {
        let add = || {
            for &contact in contacts {
                let _ = adds::add(self.opening, &mut self.table, contact);
            }
        };
        timed(add).1.as_secs_f64()
    }
}

impl Adds {
    /// Counts so many adds more.
    fn count(&mut self, number: usize, lasted: f64) {
        self.number += number;
        self.lasted += lasted;
    }

    /// The mean of the seconds of one add.
    fn mean(&self) -> f64 {
        self.lasted / self.number as f64
    }
}
