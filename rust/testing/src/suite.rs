//! One suite for all calls: a call on a table, and what it must come to.
//!
//! A [`Call`] is made through the safe wrapper on a [`Lent`] table, and its answer and every lent word afterwards, those
//! lent for reading too, are compared with what must be: by the plain search over contacts where the table was built from
//! contacts, by the text of documents 01 and 02 where it was not.

mod call;
pub mod draws;
mod lent;
mod reply;

pub use call::{Call, Outcome};
pub use lent::Lent;
pub use reply::{Export, Reply};

use crate::calls::found;
use crate::cases;
use crate::check;
use crate::compare::same_words;
use crate::guard::{Place, PLACES};
use crate::random::Random;
use crate::words::{self, Interval, Window};
use std::collections::BTreeMap;
use std::thread;

/// How often each answer of each call was met.
#[derive(Default)]
pub struct Suite {
    met: BTreeMap<(Export, Reply), u32>,
}

impl Suite {
    /// Makes the call on the table, and compares.
    #[track_caller]
    pub fn compare(&mut self, lent: &Lent, call: &Call) -> Reply {
        let expected = call.expected(&lent.words, &lent.known);
        same(&call.made(&lent.words), &expected, lent, call, None);
        self.note(call.export(), expected.reply)
    }

    /// Makes the call on the table, compares, and fails unless it is answered so.
    #[track_caller]
    pub fn require(&mut self, lent: &Lent, call: &Call, reply: Reply) {
        let answer = self.compare(lent, call);
        assert_eq!(answer, reply, "{call:?} on {:?}", lent.opening);
    }

    /// Asks for earliest and latest of a pair at a tick, compares, and fails unless they are answered so.
    #[track_caller]
    pub fn require_at_tick(
        &mut self,
        lent: &Lent,
        (u, v): (u32, u32),
        tick: u32,
        earliest: Option<Interval>,
        latest: Option<Interval>,
    ) {
        self.require(lent, &Call::Earliest(u, v, tick), found(earliest).into());
        self.require(lent, &Call::Latest(u, v, tick), found(latest).into());
    }

    /// Asks for earliest and latest of a pair at every tick, compares, and fails unless each is answered with the row next
    /// to the tick: the first of the pair's rows that depart at it or later, the last of those that arrive by it.
    #[track_caller]
    pub fn require_rows(&mut self, lent: &Lent, pair: (u32, u32), rows: &[Interval]) {
        for tick in 1..=lent.opening.last_arrival() {
            let next = rows.iter().find(|row| row.departure >= tick);
            let before = rows.iter().rev().find(|row| row.arrival <= tick);
            self.require_at_tick(lent, pair, tick, next.copied(), before.copied());
        }
    }

    /// Makes the call with each lent slice at either guard, those lent for reading where they cannot be written, and
    /// compares. Where no word is lent beside the table, that slice touches the guard behind it alone.
    #[track_caller]
    pub fn compare_at_guards(&mut self, lent: &Lent, call: &Call) -> Reply {
        let expected = call.expected(&lent.words, &lent.known);
        let alone = expected.beside.is_empty();
        for table in PLACES {
            for beside in PLACES.into_iter().take(if alone { 1 } else { 2 }) {
                let places = [table, beside];
                let made = call.made_at(&lent.words, places);
                same(&made, &expected, lent, call, Some(places));
            }
        }
        self.note(call.export(), expected.reply)
    }

    /// Makes a call of each kind on the table, so many times, and compares.
    #[track_caller]
    pub fn compare_drawn(
        &mut self,
        random: &mut Random,
        lent: &Lent,
        exports: &[Export],
        times: usize,
    ) {
        for &export in exports {
            for _ in 0..times {
                let call = lent.draw(random, export);
                self.compare(lent, &call);
            }
        }
    }

    /// Makes every call on a small table whose animals are legal and whose ticks are those of contacts and arrivals, first
    /// not after last, and one in so many of those with a number one beyond, and compares.
    #[track_caller]
    pub fn compare_every(&mut self, random: &mut Random, lent: &Lent, rarely: usize) {
        let opening = lent.opening;
        let beyond = opening.last_arrival() + 1;
        let windows: Vec<(u32, u32)> = cases::every_two(0, beyond).collect();
        let is_tick = |tick| check::tick(opening, tick).is_ok();
        let in_turn = |first, last| is_tick(first) && is_tick(last) && first <= last;
        let asks = |random: &mut Random, legal: bool| legal || random.once_in(rarely);
        for u in 0..=opening.animals {
            for v in 0..=opening.animals {
                let pair = check::animals(opening, u, v).is_ok();
                for t in 0..=opening.ticks + 1 {
                    if asks(random, check::contact(opening, u, v, t).is_ok()) {
                        self.compare(lent, &Call::Add(u, v, t));
                        self.compare(lent, &Call::Remove(u, v, t, lent.work(random)));
                    }
                }
                for tick in 0..=beyond {
                    if asks(random, pair && is_tick(tick)) {
                        self.compare(lent, &Call::Earliest(u, v, tick));
                        self.compare(lent, &Call::Latest(u, v, tick));
                    }
                }
                for &(first, last) in &windows {
                    if asks(random, pair && in_turn(first, last)) {
                        self.compare_pair(random, lent, (u, v), (first, last));
                    }
                }
            }
            for &(first, last) in &windows {
                let animal = check::animal(opening, u).is_ok();
                if asks(random, animal && in_turn(first, last)) {
                    let set = draws::set(random);
                    self.compare(lent, &Call::Reached(u, first, last, set));
                }
            }
        }
        for &(first, last) in &windows {
            self.compare(lent, &Call::Connected(first, last));
        }
        let with_many = [
            Export::WriteLog,
            Export::Join,
            Export::Stays,
            Export::Remove,
        ];
        self.compare_drawn(random, lent, &with_many, 4);
    }

    /// Makes each call with a pair and a window, and compares.
    #[track_caller]
    pub fn compare_pair(
        &mut self,
        random: &mut Random,
        lent: &Lent,
        (u, v): (u32, u32),
        (first, last): (u32, u32),
    ) {
        self.compare(lent, &Call::Reach(u, v, first, last));
        let buffer = draws::buffer(random, lent.opening.animals as usize - 1);
        let call = Call::Chain(u, v, first, last, buffer);
        self.compare(lent, &call);
        let chain = claim(random, lent, (u, v));
        let call = Call::Claimed(u, v, first, last, chain);
        self.compare(lent, &call);
    }

    /// How often the call gave such an answer.
    pub fn times(&self, export: Export, is_such: impl Fn(Reply) -> bool) -> u32 {
        let met = self.met.iter();
        let such = met.filter(|((call, reply), _)| *call == export && is_such(*reply));
        such.map(|(_, times)| times).sum()
    }

    /// Fails where one of the calls gave one of its answers, or one of these refusals that it has, less often.
    #[track_caller]
    pub fn at_least(&self, times: u32, exports: &[Export], refusals: &[u32]) {
        for &export in exports {
            for kind in export.kinds() {
                let met = self.times(export, |reply| reply.kind() == *kind);
                assert!(met >= times, "{export:?} {kind}: {met} times");
            }
            for number in refusals.iter().filter(|n| export.refusals().contains(n)) {
                let met = self.times(export, |reply| reply == Reply::Refused(*number));
                assert!(met >= times, "{export:?} refused {number}: {met} times");
            }
        }
    }

    /// Counts one answer more.
    fn note(&mut self, export: Export, reply: Reply) -> Reply {
        *self.met.entry((export, reply)).or_insert(0) += 1;
        reply
    }
}

/// With `--nocapture` a test tells how many calls it compared.
impl Drop for Suite {
    fn drop(&mut self) {
        let times = |export| (export, self.times(export, |_| true));
        let made = Export::ALL.map(times).into_iter();
        let told: Vec<_> = made.filter(|(_, times)| *times > 0).collect();
        println!("{}: {told:?}", thread::current().name().unwrap_or("a test"));
    }
}

/// A claimed chain for a pair: mostly the chain of the window of all ticks, where there is one.
fn claim(random: &mut Random, lent: &Lent, (u, v): (u32, u32)) -> Vec<u32> {
    let pair = check::animals(lent.opening, u, v).is_ok();
    let whole = Window::whole(lent.opening);
    let contents = lent.known.contents().ok();
    let told = contents.filter(|_| pair && !random.once_in(4));
    let chain = told.and_then(|contents| contents.chain(u, v, whole));
    words::contact_words(&chain.unwrap_or_else(|| lent.journey(random, 3)))
}

/// Fails where the answer or a lent word is not as expected.
#[track_caller]
fn same(made: &Outcome, expected: &Outcome, lent: &Lent, call: &Call, places: Option<[Place; 2]>) {
    if made == expected {
        return;
    }
    let case = (lent.opening, call, places);
    assert_eq!(
        made.reply, expected.reply,
        "{case:?} on {:08X?}",
        lent.words
    );
    same_words(&made.table, &expected.table, ("the table", &case));
    same_words(&made.beside, &expected.beside, ("beside the table", &case));
}
