//! Adding one contact more: the engine's add less the check of its table, beside the same rule in Rust without a check.

use crate::adds;
use crate::clock::timed;
use crate::ticks;
use crate::workloads::Workload;
use herd::calls::Added;
use herd_testing::compare::same_words;
use herd_testing::words::{Contact, Opening};
use std::time::{Duration, Instant};

/// The adds of a run last this long together.
const LONG: Duration = Duration::from_millis(1_500);
/// The adds of a run are at least so many, however long they last.
const LEAST: usize = 9;
/// The adds of a run are at most so many.
const MOST: usize = 1_000;
/// The part of the check's time below which a difference of two times tells nothing.
const GRAIN: f64 = 0.01;
/// The doubt about the ratio to Rust's add from which on nothing is told.
const TOLD: f64 = 1.0;

/// The seconds of one add of the engine less its check, the ratio to Rust's, and how far that may be off; no number
/// where nothing is told.
pub struct Times {
    pub engine: f64,
    pub ratio: f64,
    pub doubt: f64,
}

/// The engine's table and Rust's over the first half of the contacts, the other half to add, and the times taken.
pub struct Adding {
    opening: Opening,
    log: Vec<u32>,
    table: Vec<u32>,
    other: Vec<u32>,
    contacts: Vec<Contact>,
    added: usize,
    checks: Vec<f64>,
    engine: Vec<f64>,
    rust: Vec<f64>,
}

impl Adding {
    /// Adding the second half of the workload's contacts.
    pub fn new(workload: &Workload) -> Adding {
        let length = workload.opening.table_words();
        let half = workload.contacts.len() / 2;
        let mut adding = Adding {
            opening: workload.opening,
            log: workload.log_of(half),
            table: vec![1; length],
            other: vec![1; length],
            contacts: workload.contacts[half..].to_vec(),
            added: 0,
            checks: Vec::new(),
            engine: Vec::new(),
            rust: Vec::new(),
        };
        adding.restart();
        adding
    }

    /// The times of adds to each of the tables, which take turns.
    pub fn run(tables: &mut [Adding]) -> Vec<Times> {
        let start = Instant::now();
        for laps in 0..MOST {
            if laps >= LEAST && start.elapsed() > LONG {
                break;
            }
            tables.iter_mut().for_each(Adding::lap);
        }
        tables.iter().map(Adding::times).collect()
    }

    /// Both tables as the first half of the contacts leaves them.
    fn restart(&mut self) {
        ticks::load(&self.log, &mut self.table);
        self.other.copy_from_slice(&self.table);
        self.added = 0;
    }

    /// Adds the next contact to both tables.
    fn lap(&mut self) {
        if self.added == self.contacts.len() {
            self.restart();
        }
        let contact = self.contacts[self.added];
        self.added += 1;
        let answer = self.lap_of_engine(contact);
        let expected = self.lap_of_rust(contact);
        assert_eq!(answer, expected, "{contact:?}");
    }

    /// The engine's add, whose own check is taken to last as long as the mean of the checks before and after.
    fn lap_of_engine(&mut self, contact: Contact) -> Added {
        let (u, v, t) = (contact.from, contact.to, contact.tick);
        check(&mut self.table);
        let before = check(&mut self.table);
        let (answer, whole) = timed(|| herd::calls::add(&mut self.table, u, v, t));
        let after = check(&mut self.table);
        let check = (before + after).as_secs_f64() / 2.0;
        self.checks.push(check);
        self.engine.push(whole.as_secs_f64() - check);
        answer
    }

    /// Rust's add, after as many passes over its table as go before the engine's, so that caches hold both alike.
    fn lap_of_rust(&mut self, contact: Contact) -> Added {
        for _ in 0..3 {
            check(&mut self.other);
        }
        let (answer, lasted) = timed(|| adds::add(self.opening, &mut self.other, contact));
        self.rust.push(lasted.as_secs_f64());
        answer
    }

    /// The medians over the contacts added; both tables are compared.
    fn times(&self) -> Times {
        same_words(&self.table, &self.other, "adds in Rust");
        let pairs = self.engine.iter().zip(&self.rust);
        let ratios: Vec<f64> = pairs.map(|(engine, rust)| engine / rust).collect();
        let grain = GRAIN * median(&self.checks) / median(&self.rust);
        let doubt = doubt(&ratios).max(grain);
        let told = |number| if doubt < TOLD { number } else { f64::NAN };
        Times {
            engine: told(median(&self.engine)),
            ratio: told(median(&ratios)),
            doubt,
        }
    }
}

/// An add that reads the whole table and is refused for its tick.
pub fn check(table: &mut [u32]) -> Duration {
    let (answer, lasted) = timed(|| herd::calls::add(table, 0, 1, 0));
    assert_eq!(answer, Added::Refused(9));
    lasted
}

/// The middle one of the numbers.
pub fn median(numbers: &[f64]) -> f64 {
    quarter(numbers, 2)
}

/// How far the median of such numbers may be off: twice its standard error, judged by the quartiles.
pub fn doubt(numbers: &[f64]) -> f64 {
    let deviation = (quarter(numbers, 3) - quarter(numbers, 1)) / 1.349;
    2.0 * 1.2533 * deviation / (numbers.len() as f64).sqrt()
}

/// The number that stands after so many quarters of them in order.
fn quarter(numbers: &[f64], quarters: usize) -> f64 {
    let mut rising = numbers.to_vec();
    rising.sort_by(f64::total_cmp);
    rising[(rising.len() - 1) * quarters / 4]
}
