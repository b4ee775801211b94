//! Removing one contact: the engine's call, beside its load of the log of the contacts left and one read of the table's
//! words.

use crate::asking::read;
use crate::clock::{race, timed};
use crate::ticks;
use crate::workloads::Workload;
use herd::calls::{Done, Read};
use herd_testing::compare::same_words;
use herd_testing::model::Contacts;
use herd_testing::words::{self, Contact};
use std::time::Duration;

/// The seconds of one removal, of one load of the log of the contacts left, and of one read of the table's words.
pub struct Times {
    pub remove: f64,
    pub load: f64,
    pub read: f64,
}

/// The table over all contacts, the one from which the contact is removed with words for work, the log of the contacts
/// left, as it is written, and the table that it is loaded into.
pub struct Removing {
    whole: Vec<u32>,
    table: Vec<u32>,
    work: Vec<u32>,
    contact: Contact,
    left: u32,
    log: Vec<u32>,
    loaded: Vec<u32>,
}

impl Removing {
    /// Removing the contact in the middle of the workload's log.
    pub fn new(workload: &Workload) -> Removing {
        let length = workload.opening.table_words();
        let contact = workload.contacts[workload.contacts.len() / 2];
        let mut left = Contacts::from_iter(workload.contacts.iter().copied());
        left.remove(&contact);
        let mut whole = vec![1; length];
        ticks::load(&workload.log(), &mut whole);
        Removing {
            whole,
            table: vec![1; length],
            work: vec![1; length],
            contact,
            left: left.len() as u32,
            log: words::log(workload.opening, left),
            loaded: vec![1; length],
        }
    }

    /// The times of all peers; both tables of the removal are compared with the one loaded.
    pub fn run(&mut self) -> Times {
        let seconds = race(3, |peer| match peer {
            0 => self.remove(),
            1 => self.load(),
            _ => timed(|| read(&self.table)).1,
        });
        same_words(&self.table, &self.loaded, "a load of the contacts left");
        same_words(&self.work, &self.loaded, "the words for work");
        Times {
            remove: seconds[0],
            load: seconds[1],
            read: seconds[2],
        }
    }

    /// One removal from the table over all contacts.
    fn remove(&mut self) -> Duration {
        self.table.copy_from_slice(&self.whole);
        let (u, v, t) = (self.contact.from, self.contact.to, self.contact.tick);
        let remove = || herd::calls::remove(&mut self.table, &mut self.work, u, v, t);
        let (answer, lasted) = timed(remove);
        assert_eq!(answer, Done::Done);
        lasted
    }

    /// One load of the log of the contacts left.
    fn load(&mut self) -> Duration {
        let (answer, lasted) = timed(|| herd::calls::read_log(&self.log, &mut self.loaded));
        assert_eq!(answer, Read::Contacts(self.left));
        lasted
    }
}
