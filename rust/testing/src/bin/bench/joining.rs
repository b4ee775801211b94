//! Joining two tables: the engine's join less the checks of both, beside its adds made singly less a check for each, and
//! beside the same adds in Rust without a check.

use crate::adding::{check, doubt, median};
use crate::adds;
use crate::asking::read;
use crate::clock::{race, timed};
use crate::ticks;
use crate::workloads::Workload;
use herd::calls::{Added, Joined};
use herd_testing::compare::same_words;
use herd_testing::model::Contacts;
use herd_testing::words::{self, Contact, Opening};
use std::time::{Duration, Instant};

/// The laps of a run last this long together.
const LONG: Duration = Duration::from_secs(4);
/// The laps of a run are at least so many, however long they last.
const LEAST: usize = 3;
/// The laps of a run are at most so many.
const MOST: usize = 9;
/// The adds timed singly in one lap last about so many seconds together.
const SINGLY: f64 = 0.5;
/// The adds timed singly in one lap are at most so many.
const MOST_SINGLY: f64 = 2_000.0;
/// One in so many of these times is left out at either end, before their mean is taken.
const ENDS: usize = 50;
/// The part of the check's time below which a difference of two times tells nothing.
pub const GRAIN: f64 = 0.01;
/// The doubt about the ratio to adds made singly from which on nothing is told.
pub const TOLD: f64 = 1.0;

/// The ratios of the join less its checks to its adds made singly less theirs, with how far that may be off, and to the
/// same adds in Rust; no number where nothing is told.
pub struct Ratios {
    pub singly: f64,
    pub doubt: f64,
    pub rust: f64,
}

/// The seconds of one lap: a check of the first table, the join less its checks, the same adds in Rust, and the adds made
/// singly less theirs.
struct Lap {
    check: f64,
    join: f64,
    rust: f64,
    singly: f64,
}

/// The engine's table and Rust's over one half of the contacts, the table over the other half with its contacts in log
/// order, and the number of those that are new.
pub struct Joining {
    opening: Opening,
    log: Vec<u32>,
    first: Vec<u32>,
    other: Vec<u32>,
    second: Vec<u32>,
    contacts: Vec<Contact>,
    new: u32,
}

impl Joining {
    /// Joining the half of the workload's contacts at odd places into the half at even ones.
    pub fn new(workload: &Workload) -> Joining {
        let opening = workload.opening;
        let length = opening.table_words();
        let [first, second] = workload.halves();
        let (held, joined) = (Contacts::from_iter(first), Contacts::from_iter(second));
        let mut joining = Joining {
            opening,
            log: words::log(opening, held.iter().copied()),
            first: vec![1; length],
            other: vec![1; length],
            second: vec![1; length],
            new: joined.difference(&held).count() as u32,
            contacts: joined.into_iter().collect(),
        };
        let log = words::log(opening, joining.contacts.iter().copied());
        ticks::load(&log, &mut joining.second);
        joining
    }

    /// The medians over laps, in which all peers take turns; a first lap tells whether adds can be timed singly.
    pub fn run(&mut self) -> Ratios {
        let number = self.contacts.len() as f64;
        let trial = self.lap(usize::MAX);
        let grain = GRAIN * trial.check * number / trial.rust;
        if grain >= TOLD {
            return Ratios {
                singly: f64::NAN,
                doubt: f64::NAN,
                rust: f64::NAN,
            };
        }
        let many = SINGLY / (4.0 * trial.check);
        let step = (number / many.clamp(1.0, MOST_SINGLY)).ceil() as usize;
        let (mut singly, mut rust) = (Vec::new(), Vec::new());
        let start = Instant::now();
        for laps in 0..MOST {
            if laps >= LEAST && start.elapsed() > LONG {
                break;
            }
            let lap = self.lap(step);
            singly.push(lap.join / lap.singly);
            rust.push(lap.join / lap.rust);
        }
        Ratios {
            singly: median(&singly),
            doubt: doubt(&singly).max(grain * median(&singly)),
            rust: median(&rust),
        }
    }

    /// The seconds of one join, and of one read of the words of both tables.
    pub fn join_and_read(&mut self) -> (f64, f64) {
        let seconds = race(2, |peer| match peer {
            0 => self.join(),
            _ => timed(|| [&self.first, &self.second].map(|table| read(table))).1,
        });
        (seconds[0], seconds[1])
    }

    /// One lap, in which one in so many adds, the first among them, is timed singly; both tables are compared.
    fn lap(&mut self, step: usize) -> Lap {
        ticks::load(&self.log, &mut self.first);
        check(&mut self.second);
        let checks = [check(&mut self.first), check(&mut self.second)];
        let [first, second] = checks.map(|check| check.as_secs_f64());
        let join = self.join().as_secs_f64();
        let (rust, singly) = self.adds(step);
        same_words(&self.first, &self.other, "adds in Rust");
        Lap {
            check: first,
            join: join - first - second,
            rust,
            singly,
        }
    }

    /// One join.
    fn join(&mut self) -> Duration {
        ticks::load(&self.log, &mut self.first);
        let (answer, lasted) = timed(|| herd::calls::join(&mut self.first, &self.second));
        assert_eq!(answer, Joined::New(self.new));
        lasted
    }

    /// The seconds of all adds in Rust, and made singly, judged by the means over those that are made so; no number where
    /// these would last no time.
    fn adds(&mut self, step: usize) -> (f64, f64) {
        ticks::load(&self.log, &mut self.other);
        let (mut rust, mut singly) = (Vec::new(), Vec::new());
        for place in 0..self.contacts.len() {
            let contact = self.contacts[place];
            if place % step == 0 {
                singly.push(single_add(&mut self.other, contact));
            } else {
                let add = || adds::add(self.opening, &mut self.other, contact);
                rust.push(timed(add).1.as_secs_f64());
            }
        }
        let all = |times: Vec<f64>| {
            let lasted = inner_mean(times) * self.contacts.len() as f64;
            Some(lasted).filter(|&time| time > 0.0).unwrap_or(f64::NAN)
        };
        (all(rust), all(singly))
    }
}

/// The seconds of an add of the contact, whose own check is taken to last as long as the mean of the checks before and
/// after.
pub fn single_add(table: &mut [u32], contact: Contact) -> f64 {
    let (u, v, t) = (contact.from, contact.to, contact.tick);
    check(table);
    let before = check(table);
    let (answer, whole) = timed(|| herd::calls::add(table, u, v, t));
    assert!(!matches!(answer, Added::Refused(_)), "{answer:?}");
    let after = check(table);
    whole.as_secs_f64() - (before + after).as_secs_f64() / 2.0
}

/// The mean of the times, without the shortest and the longest of them.
pub fn inner_mean(mut times: Vec<f64>) -> f64 {
    times.sort_by(f64::total_cmp);
    let ends = times.len() / ENDS;
    let inner = &times[ends..times.len() - ends];
    inner.iter().sum::<f64>() / inner.len() as f64
}
