//! Calls that leave an open table: reach, chain and log writing, beside one read of the table's words.

use crate::clock::{race, timed};
use crate::workloads::{Workload, SEED};
use herd::calls::{chain, Chain};
use herd::calls::{reach, Answer};
use herd::calls::{write_log, Written};
use herd_testing::cases;
use herd_testing::random::Random;
use herd_testing::words::Contact;
use std::hint::black_box;
use std::time::Duration;

/// The pairs of animals drawn, of which the one with the longest chain is asked for.
const PAIRS: usize = 16;

/// The seconds of one call of each kind, and of one read of the table's words.
pub struct Times {
    pub read: f64,
    pub reach: f64,
    pub chain: f64,
    pub write_log: f64,
}

/// An open table, a buffer that is long enough, the pair that is asked for, and the last tick of the
/// window, which begins at tick 1.
pub struct Asking {
    table: Vec<u32>,
    buffer: Vec<u32>,
    pair: Contact,
    last: u32,
}

impl Asking {
    /// Questions on the table of the workload.
    pub fn new(workload: &Workload, table: Vec<u32>) -> Asking {
        let mut random = Random::new(SEED);
        let mut drawn = || cases::contact(&mut random, workload.opening);
        let room = workload.contacts.len() + 2;
        let mut asking = Asking {
            table,
            buffer: vec![0; room.max(workload.opening.animals as usize)],
            pair: drawn(),
            last: workload.opening.ticks,
        };
        let pairs: Vec<Contact> = (0..PAIRS).map(|_| drawn()).collect();
        let longest = pairs.into_iter().max_by_key(|&pair| asking.contacts(pair));
        asking.pair = longest.unwrap_or(asking.pair);
        asking
    }

    /// The times of all calls.
    pub fn run(&mut self) -> Times {
        let seconds = race(4, |call| match call {
            0 => self.read(),
            1 => self.reach(),
            2 => self.chain(),
            _ => self.write_log(),
        });
        Times {
            read: seconds[0],
            reach: seconds[1],
            chain: seconds[2],
            write_log: seconds[3],
        }
    }

    /// One read of the table's words.
    pub fn read(&mut self) -> Duration {
        timed(|| read(&self.table)).1
    }

    /// One question for reach.
    pub fn reach(&mut self) -> Duration {
        let (u, v) = (self.pair.from, self.pair.to);
        let (answer, lasted) = timed(|| reach(&self.table, u, v, 1, self.last));
        assert!(!matches!(answer, Answer::Refused(_)), "{answer:?}");
        lasted
    }

    /// One chain.
    pub fn chain(&mut self) -> Duration {
        let (u, v) = (self.pair.from, self.pair.to);
        let (answer, lasted) = timed(|| chain(&self.table, u, v, 1, self.last, &mut self.buffer));
        assert!(!matches!(answer, Chain::Refused(_)), "{answer:?}");
        lasted
    }

    /// One writing of the log.
    pub fn write_log(&mut self) -> Duration {
        let (answer, lasted) = timed(|| write_log(&self.table, &mut self.buffer));
        assert!(matches!(answer, Written::Written(_)), "{answer:?}");
        lasted
    }

    /// The contacts of the chain of a pair, 0 where there is no journey.
    fn contacts(&mut self, pair: Contact) -> u32 {
        let (u, v) = (pair.from, pair.to);
        match chain(&self.table, u, v, 1, self.last, &mut self.buffer) {
            Chain::Contacts(contacts) => contacts,
            Chain::NoJourney => 0,
            Chain::Refused(number) => panic!("a chain was refused with {number}"),
        }
    }
}

/// Reads every word of the table once.
pub fn read(table: &[u32]) {
    let all = black_box(table).iter().fold(0, |all, word| all ^ word);
    black_box(all);
}
