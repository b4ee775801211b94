//! A call: making it through the safe wrapper, and what it must come to.

use super::reply::{Export, Reply};
use crate::calls::{self, Known};
use crate::guard::{Guarded, Memory, Place};

/// A call on a table: its numbers and the words that it is lent beside the table, in the order of its parameters.
#[derive(Clone, Debug)]
pub enum Call {
    /// Animals, ticks, carry time.
    Open(u32, u32, u32),
    /// The log.
    ReadLog(Vec<u32>),
    /// The animal left, the animal met, the tick.
    Add(u32, u32, u32),
    /// The second table.
    Join(Vec<u32>),
    /// The words of the stays.
    Stays(Vec<u32>),
    /// The animal left, the animal met, the tick, and the words for work.
    Remove(u32, u32, u32, Vec<u32>),
    /// The buffer.
    WriteLog(Vec<u32>),
    /// From, to, first, last.
    Reach(u32, u32, u32, u32),
    /// From, to, first.
    Earliest(u32, u32, u32),
    /// From, to, last.
    Latest(u32, u32, u32),
    /// First, last.
    Connected(u32, u32),
    /// From, first, last, and words for the set.
    Reached(u32, u32, u32, Vec<u32>),
    /// From, to, first, last, and the buffer.
    Chain(u32, u32, u32, u32, Vec<u32>),
    /// From, to, first, last, and the words claimed.
    Claimed(u32, u32, u32, u32, Vec<u32>),
}

/// What a call comes to: its answer and every lent word afterwards.
#[derive(Clone, Debug, PartialEq, Eq)]
pub struct Outcome {
    /// The answer.
    pub reply: Reply,
    /// The words of the table.
    pub table: Vec<u32>,
    /// The words lent beside the table, if any.
    pub beside: Vec<u32>,
}

impl Outcome {
    /// The answer, and the lent words as they are now.
    fn new(answer: impl Into<Reply>, table: &[u32], beside: &[u32]) -> Outcome {
        Outcome {
            reply: answer.into(),
            table: table.to_vec(),
            beside: beside.to_vec(),
        }
    }
}

impl Call {
    /// Which call it is.
    pub fn export(&self) -> Export {
        match self {
            Call::Open(..) => Export::Open,
            Call::ReadLog(..) => Export::ReadLog,
            Call::Add(..) => Export::Add,
            Call::Join(..) => Export::Join,
            Call::Stays(..) => Export::Stays,
            Call::Remove(..) => Export::Remove,
            Call::WriteLog(..) => Export::WriteLog,
            Call::Reach(..) => Export::Reach,
            Call::Earliest(..) => Export::Earliest,
            Call::Latest(..) => Export::Latest,
            Call::Connected(..) => Export::Connected,
            Call::Reached(..) => Export::Reached,
            Call::Chain(..) => Export::Chain,
            Call::Claimed(..) => Export::Claimed,
        }
    }

    /// What it comes to on a copy of the table in ordinary memory.
    pub fn made(&self, table: &[u32]) -> Outcome {
        self.made_in(table, |_, words| words.to_vec())
    }

    /// What it comes to where the table touches the first guard and the words lent beside it touch the second; words lent
    /// for reading cannot be written.
    pub fn made_at(&self, table: &[u32], places: [Place; 2]) -> Outcome {
        self.made_in(table, |lent, words| Guarded::new(places[lent], words))
    }

    /// What it comes to in memory that `lend` gives: 0 is the table, 1 what is lent beside it.
    fn made_in<M: Memory>(&self, table: &[u32], lend: impl Fn(usize, &[u32]) -> M) -> Outcome {
        let mut table = lend(0, table);
        match *self {
            Call::Open(animals, ticks, carry) => {
                let answer = herd::calls::open(&mut table, animals, ticks, carry);
                Outcome::new(answer, &table, &[])
            }
            Call::ReadLog(ref log) => {
                let log = lend(1, log).freeze();
                let answer = herd::calls::read_log(&log, &mut table);
                Outcome::new(answer, &table, &log)
            }
            Call::Add(u, v, t) => {
                let answer = herd::calls::add(&mut table, u, v, t);
                Outcome::new(answer, &table, &[])
            }
            Call::Join(ref second) => {
                let second = lend(1, second).freeze();
                let answer = herd::calls::join(&mut table, &second);
                Outcome::new(answer, &table, &second)
            }
            Call::Stays(ref stays) => {
                let stays = lend(1, stays).freeze();
                let answer = herd::calls::stays(&mut table, &stays);
                Outcome::new(answer, &table, &stays)
            }
            Call::Remove(u, v, t, ref work) => {
                let mut work = lend(1, work);
                let answer = herd::calls::remove(&mut table, &mut work, u, v, t);
                Outcome::new(answer, &table, &work)
            }
            Call::WriteLog(ref buffer) => {
                let (table, mut buffer) = (table.freeze(), lend(1, buffer));
                let answer = herd::calls::write_log(&table, &mut buffer);
                Outcome::new(answer, &table, &buffer)
            }
            Call::Reach(u, v, first, last) => {
                let table = table.freeze();
                Outcome::new(herd::calls::reach(&table, u, v, first, last), &table, &[])
            }
            Call::Earliest(u, v, first) => {
                let table = table.freeze();
                Outcome::new(herd::calls::earliest(&table, u, v, first), &table, &[])
            }
            Call::Latest(u, v, last) => {
                let table = table.freeze();
                Outcome::new(herd::calls::latest(&table, u, v, last), &table, &[])
            }
            Call::Connected(first, last) => {
                let table = table.freeze();
                Outcome::new(herd::calls::connected(&table, first, last), &table, &[])
            }
            Call::Reached(u, first, last, ref set) => {
                let (table, mut set) = (table.freeze(), lend(1, set));
                let answer = herd::calls::reached(&table, u, first, last, &mut set);
                Outcome::new(answer, &table, &set)
            }
            Call::Chain(u, v, first, last, ref buffer) => {
                let (table, mut buffer) = (table.freeze(), lend(1, buffer));
                let answer = herd::calls::chain(&table, u, v, first, last, &mut buffer);
                Outcome::new(answer, &table, &buffer)
            }
            Call::Claimed(u, v, first, last, ref chain) => {
                let (table, chain) = (table.freeze(), lend(1, chain).freeze());
                let answer = herd::calls::claimed(&table, u, v, first, last, &chain);
                Outcome::new(answer, &table, &chain)
            }
        }
    }

    /// What it must come to on a table of which this is known.
    pub fn expected(&self, table: &[u32], known: &Known) -> Outcome {
        match *self {
            Call::Open(animals, ticks, carry) => {
                let (answer, after) = calls::open(table, animals, ticks, carry);
                Outcome::new(answer, &after, &[])
            }
            Call::ReadLog(ref log) => {
                let (answer, after) = calls::read_log(log, table);
                Outcome::new(answer, &after, log)
            }
            Call::Add(u, v, t) => {
                let (answer, after) = known.add(table, u, v, t);
                Outcome::new(answer, &after, &[])
            }
            Call::Join(ref second) => {
                let (answer, after) = known.join(table, &Known::by_words(second));
                Outcome::new(answer, &after, second)
            }
            Call::Stays(ref stays) => {
                let (answer, after) = known.stays(table, stays);
                Outcome::new(answer, &after, stays)
            }
            Call::Remove(u, v, t, ref work) => {
                let (answer, [table, work]) = known.remove(table, work, u, v, t);
                Outcome::new(answer, &table, &work)
            }
            Call::WriteLog(ref buffer) => {
                let (answer, after) = known.write_log(buffer);
                Outcome::new(answer, table, &after)
            }
            Call::Reach(u, v, first, last) => {
                Outcome::new(known.reach(u, v, first, last), table, &[])
            }
            Call::Earliest(u, v, first) => Outcome::new(known.earliest(u, v, first), table, &[]),
            Call::Latest(u, v, last) => Outcome::new(known.latest(u, v, last), table, &[]),
            Call::Connected(first, last) => Outcome::new(known.connected(first, last), table, &[]),
            Call::Reached(u, first, last, ref set) => {
                let (answer, after) = known.reached(u, first, last, set);
                Outcome::new(answer, table, &after)
            }
            Call::Chain(u, v, first, last, ref buffer) => {
                let (answer, after) = known.chain(u, v, first, last, buffer);
                Outcome::new(answer, table, &after)
            }
            Call::Claimed(u, v, first, last, ref chain) => {
                let answer = known.claimed(u, v, first, last, chain);
                Outcome::new(answer, table, chain)
            }
        }
    }
}
