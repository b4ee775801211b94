//! Loading a whole log: the engine, the closure of document 000, adds in Rust, the build by ticks in Rust, one write.

use crate::adds;
use crate::clock::{race, timed};
use crate::closure::Closure;
use crate::ticks;
use crate::workloads::Workload;
use herd::calls::{read_log, Read};
use herd_testing::compare::{same_table, same_words};
use herd_testing::words::Opening;
use std::hint::black_box;
use std::time::Duration;

/// The seconds of one load by each peer, and of one write of the table's words.
pub struct Times {
    pub engine: f64,
    pub closure: f64,
    pub adds: f64,
    pub ticks: f64,
    pub write: f64,
}

/// A log, the table that the engine loads it into, and the one that its peers use.
pub struct Loading {
    opening: Opening,
    log: Vec<u32>,
    table: Vec<u32>,
    other: Vec<u32>,
    compared: [bool; 3],
}

impl Loading {
    /// Loading the workload's log.
    pub fn new(workload: &Workload) -> Loading {
        let length = workload.opening.table_words();
        Loading {
            opening: workload.opening,
            log: workload.log(),
            table: vec![1; length],
            other: vec![1; length],
            compared: [false; 3],
        }
    }

    /// The times of all peers, and the engine's table; every peer's table is compared with it.
    pub fn run(mut self) -> (Times, Vec<u32>) {
        let seconds = race(5, |peer| match peer {
            0 => self.engine(),
            1 => self.closure(),
            2 => self.adds(),
            3 => self.ticks(),
            _ => self.write(),
        });
        let times = Times {
            engine: seconds[0],
            closure: seconds[1],
            adds: seconds[2],
            ticks: seconds[3],
            write: seconds[4],
        };
        (times, self.into_table())
    }

    /// The table that the engine left.
    pub fn into_table(self) -> Vec<u32> {
        self.table
    }

    /// One load by the engine.
    pub fn engine(&mut self) -> Duration {
        let (answer, lasted) = timed(|| read_log(&self.log, &mut self.table));
        assert!(matches!(answer, Read::Contacts(_)), "{answer:?}");
        lasted
    }

    /// One load by the closure of document 000.
    fn closure(&mut self) -> Duration {
        let (closure, lasted) = timed(|| Closure::load(&self.log));
        if self.is_first(0) {
            same_table(&self.table, self.opening, &closure.cells(), "the closure");
        }
        lasted
    }

    /// One load by adds in Rust.
    fn adds(&mut self) -> Duration {
        let ((), lasted) = timed(|| adds::load(&self.log, &mut self.other));
        if self.is_first(1) {
            same_words(&self.table, &self.other, "adds in Rust");
        }
        lasted
    }

    /// One load tick by tick in Rust.
    fn ticks(&mut self) -> Duration {
        let ((), lasted) = timed(|| ticks::load(&self.log, &mut self.other));
        if self.is_first(2) {
            same_words(&self.table, &self.other, "ticks in Rust");
        }
        lasted
    }

    /// One write of the table's words.
    fn write(&mut self) -> Duration {
        timed(|| black_box(&mut self.other).fill(0)).1
    }

    /// Whether a peer was not compared before.
    fn is_first(&mut self, peer: usize) -> bool {
        !std::mem::replace(&mut self.compared[peer], true)
    }
}
