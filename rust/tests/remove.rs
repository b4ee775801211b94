//! Removing a contact: a fresh load of what is left, lists of calls, the words lent for work, and the order of the checks.

use herd::calls::{Added, Done, Opened, Read, Written};
use herd_testing::calls::Known;
use herd_testing::cases;
use herd_testing::check;
use herd_testing::compare::same_words;
use herd_testing::contents::Contents;
use herd_testing::model::{self, Contacts};
use herd_testing::random::Random;
use herd_testing::suite::{draws, Call, Export, Lent, Reply, Suite};
use herd_testing::words::{self, Cells, Contact, Interval, Opening};
use std::collections::BTreeMap;

/// The refusals of a removal, in the order of its checks.
const REFUSALS: [u32; 7] = [5, 6, 20, 7, 8, 9, 21];

/// How often each kind of case came up.
#[derive(Debug, Default)]
struct Times(BTreeMap<&'static str, u32>);

impl Times {
    /// Counts the case where it is one of this kind.
    fn note(&mut self, kind: &'static str, is_one: bool) {
        *self.0.entry(kind).or_insert(0) += u32::from(is_one);
    }

    /// Fails where one of these kinds came up less often.
    #[track_caller]
    fn at_least(&self, times: u32, kinds: &[&str]) {
        let often = |kind: &&str| self.0.get(kind) >= Some(&times);
        assert!(kinds.iter().all(often), "{kinds:?} in {self:?}");
    }
}

/// What the words lent for work are.
#[derive(Clone, Copy, Debug, PartialEq, Eq, PartialOrd, Ord)]
enum Work {
    Zeros,
    Ones,
    RandomWords,
    AnotherTable,
    TheSameTable,
    DamagedTable,
    OtherCarryTime,
}

/// Every kind of words for work.
const WORKS: [Work; 7] = [
    Work::Zeros,
    Work::Ones,
    Work::RandomWords,
    Work::AnotherTable,
    Work::TheSameTable,
    Work::DamagedTable,
    Work::OtherCarryTime,
];

impl Work {
    /// Words of this kind, as many as the table has.
    fn words(self, random: &mut Random, lent: &Lent) -> Vec<u32> {
        let (opening, words) = (lent.opening, lent.words.len());
        match self {
            Work::Zeros => vec![0; words],
            Work::Ones => vec![u32::MAX; words],
            Work::RandomWords => random.words(words),
            Work::AnotherTable => words::table(opening, &cases::cells(random, opening)),
            Work::TheSameTable => lent.words.clone(),
            Work::DamagedTable => cases::refused_6(random, opening, &lent.words),
            Work::OtherCarryTime => {
                let carry = opening.carry % 256 + 1;
                let other = Opening { carry, ..opening };
                words::table(other, &cases::cells(random, other))
            }
        }
    }
}

/// The removal of the contact with these words for work.
fn call(contact: Contact, work: Vec<u32>) -> Call {
    Call::Remove(contact.from, contact.to, contact.tick, work)
}

/// Removes the contact with words of any kind for work, compares, and fails unless it is answered so.
#[track_caller]
fn require(
    suite: &mut Suite,
    random: &mut Random,
    lent: &Lent,
    contact: Contact,
    reply: Reply,
) -> Work {
    let kind = random.one_of(&WORKS);
    let work = kind.words(random, lent);
    suite.require(lent, &call(contact, work), reply);
    kind
}

/// The answer of a removal, and the words of both tables afterwards.
fn removed(table: &[u32], work: &[u32], contact: Contact) -> (Done, [Vec<u32>; 2]) {
    let [mut table, mut work] = [table, work].map(<[u32]>::to_vec);
    let (u, v, t) = (contact.from, contact.to, contact.tick);
    let answer = herd::calls::remove(&mut table, &mut work, u, v, t);
    (answer, [table, work])
}

/// The table after the removal of the contact, to which the words lent for work are equal.
#[track_caller]
fn left(random: &mut Random, table: &[u32], contact: Contact) -> Vec<u32> {
    let work = random.words(table.len());
    let (answer, [after, other]) = removed(table, &work, contact);
    assert_eq!(answer, Done::Done, "{contact:?}");
    same_words(&other, &after, contact);
    after
}

/// About one in so many of the contacts.
fn some(random: &mut Random, contacts: &[Contact], cases: usize) -> Vec<Contact> {
    let mut some = contacts.to_vec();
    some.retain(|_| random.once_in(cases));
    some
}

/// The contacts without this one.
fn less(contacts: &[Contact], contact: Contact) -> Vec<Contact> {
    let others = contacts.iter().filter(|&&other| other != contact);
    others.copied().collect()
}

/// The table that the engine loads from a log of the contacts in any order, over words of no meaning.
#[track_caller]
fn loaded(random: &mut Random, opening: Opening, contacts: &[Contact]) -> Vec<u32> {
    let mut contacts = contacts.to_vec();
    random.shuffle(&mut contacts);
    let number = contacts.len() as u32;
    let mut table = random.words(opening.table_words());
    let read = herd::calls::read_log(&words::log(opening, contacts), &mut table);
    assert_eq!(read, Read::Contacts(number));
    table
}

/// The log that the engine writes of the table.
#[track_caller]
fn log_of(table: &[u32]) -> Vec<u32> {
    let mut buffer = vec![0; table.len() + 2];
    match herd::calls::write_log(table, &mut buffer) {
        Written::Written(words) => buffer.truncate(words as usize),
        Written::Refused(number) => panic!("refused {number}"),
    }
    buffer
}

/// The cells of a well-formed table.
fn cells(table: &[u32]) -> Cells {
    let stored = check::open_table(table).expect("a well-formed table");
    stored.cells().clone()
}

/// Whether a cell of the first table has an interval that the second table's has not.
fn any_gone(one: &[u32], other: &[u32]) -> bool {
    let (one, other) = (cells(one), cells(other));
    let mut pairs = one.iter().zip(&other);
    pairs.any(|(one, other)| one.iter().any(|row| !other.contains(row)))
}

/// Whether a cell other than the contact's has changed.
fn any_elsewhere(opening: Opening, contact: Contact, before: &[u32], after: &[u32]) -> bool {
    let own = opening.pair(contact.from, contact.to);
    let (before, after) = (cells(before), cells(after));
    (0..opening.pairs()).any(|pair| pair != own && before[pair] != after[pair])
}

#[test]
fn every_contact_of_tables_that_adds_built() {
    let mut random = Random::new(1_701);
    let mut suite = Suite::default();
    let (mut times, mut works) = (Times::default(), BTreeMap::new());
    for _ in 0..1_500 {
        let lent = draws::built(&mut random);
        let opening = lent.opening;
        for &contact in &lent.held {
            let kind = require(&mut suite, &mut random, &lent, contact, Reply::Done);
            *works.entry(kind).or_insert(0) += 1;
            let after = left(&mut random, &lent.words, contact);
            let rest = less(&lent.held, contact);
            let fresh = loaded(&mut random, opening, &rest);
            same_words(&after, &fresh, (opening, &lent.held, contact));
            same_words(&log_of(&after), &words::log(opening, rest), contact);
            times.note("the last contact", lent.held.len() == 1);
            times.note("an interval back", any_gone(&after, &lent.words));
            times.note("the last tick", contact.tick == opening.ticks);
            times.note("a long carry time", opening.carry >= opening.ticks);
            let elsewhere = any_elsewhere(opening, contact, &lent.words, &after);
            times.note("other cells", elsewhere);
            times.note("its own cell alone", !elsewhere);
        }
    }
    suite.at_least(15_000, &[Export::Remove], &[]);
    let kinds = ["an interval back", "the last tick", "a long carry time"];
    times.at_least(1_000, &kinds);
    times.at_least(1_000, &["other cells", "its own cell alone"]);
    times.at_least(40, &["the last contact"]);
    assert!(WORKS.iter().all(|kind| works[kind] > 1_000), "{works:?}");
}

#[test]
fn every_contact_of_every_set_of_small_tables() {
    let mut random = Random::new(1_702);
    let mut suite = Suite::default();
    for (animals, ticks, carry) in [
        (2, 1, 1),
        (2, 2, 3),
        (2, 3, 1),
        (2, 4, 1),
        (2, 4, 2),
        (3, 1, 1),
        (3, 2, 1),
        (3, 2, 2),
    ] {
        let opening = Opening::new(animals, ticks, carry);
        let legal = cases::legal_contacts(opening);
        for bits in 0..1usize << legal.len() {
            let set = cases::chosen(&legal, bits).into_iter().collect();
            let lent = Lent::fresh(opening, set);
            for (place, &contact) in legal.iter().enumerate() {
                let reply = match bits >> place & 1 {
                    1 => Reply::Done,
                    _ => Reply::Refused(21),
                };
                require(&mut suite, &mut random, &lent, contact, reply);
            }
        }
    }
    suite.at_least(40_000, &[Export::Remove], &[21]);
}

#[test]
fn tables_that_no_adds_built() {
    let mut random = Random::new(1_703);
    let mut suite = Suite::default();
    let mut times = Times::default();
    for _ in 0..3_000 {
        let lent = draws::stored(&mut random);
        let opening = lent.opening;
        for contact in some(&mut random, &lent.held, 3) {
            require(&mut suite, &mut random, &lent, contact, Reply::Done);
            let after = left(&mut random, &lent.words, contact);
            let rest = less(&lent.held, contact);
            let fresh = loaded(&mut random, opening, &rest);
            same_words(&after, &fresh, (opening, &lent.words, contact));
            same_words(&log_of(&after), &words::log(opening, rest), contact);
            let closed = model::fresh_table(opening, &lent.held.iter().copied().collect());
            times.note("no closure before", closed != lent.words);
            times.note("intervals go", any_gone(&lent.words, &closed));
            times.note("intervals come", any_gone(&after, &lent.words));
        }
    }
    suite.at_least(10_000, &[Export::Remove], &[]);
    let kinds = ["no closure before", "intervals go", "intervals come"];
    times.at_least(2_000, &kinds);
}

/// Every list of rows that a cell of a table with this opening can have.
fn every_cell(opening: Opening) -> Vec<Vec<Interval>> {
    let mut cells = vec![Vec::new()];
    for departure in 1..=opening.ticks {
        let mut longer = Vec::new();
        for arrival in departure + opening.carry..=opening.last_arrival() {
            let before = cells.iter().filter(|cell: &&Vec<Interval>| {
                let last = cell.last();
                last.is_none_or(|last| last.arrival < arrival)
            });
            let row = Interval::new(departure, arrival);
            longer.extend(before.map(|cell| [&cell[..], &[row]].concat()));
        }
        cells.extend(longer);
    }
    cells
}

#[test]
fn every_contact_of_small_well_formed_tables() {
    let mut random = Random::new(1_704);
    let mut suite = Suite::default();
    for (animals, ticks, carry, most) in [
        (2, 1, 2, 4),
        (2, 2, 1, 25),
        (2, 3, 1, 196),
        (2, 4, 2, 1_764),
        (3, 1, 1, 64),
        (3, 2, 1, 2_000),
        (3, 3, 1, 1_000),
    ] {
        let opening = Opening::new(animals, ticks, carry);
        let every = every_cell(opening);
        let tables = every.len().pow(animals * (animals - 1));
        for table in 0..most {
            let mut places = if tables == most {
                table
            } else {
                random.below(tables)
            };
            let mut rows = Cells::new();
            for (u, v) in cases::every_two(0, animals - 1) {
                let one = if u == v { 0 } else { places % every.len() };
                places /= if u == v { 1 } else { every.len() };
                rows.push(every[one].clone());
            }
            let lent = Lent::stored(opening, &rows);
            for contact in cases::legal_contacts(opening) {
                let alone = contact.interval(carry);
                let reply = match rows[opening.pair(contact.from, contact.to)].contains(&alone) {
                    true => Reply::Done,
                    false => Reply::Refused(21),
                };
                require(&mut suite, &mut random, &lent, contact, reply);
            }
        }
    }
    suite.at_least(10_000, &[Export::Remove], &[21]);
}

#[test]
fn adding_back_gives_the_same_words() {
    let mut random = Random::new(1_705);
    let mut times = Times::default();
    for round in 0..1_500 {
        let lent = match round % 3 {
            0 => draws::stored(&mut random),
            _ => draws::built(&mut random),
        };
        let opening = lent.opening;
        let closed = model::fresh_table(opening, &lent.held.iter().copied().collect());
        for contact in some(&mut random, &lent.held, 2) {
            let (u, v, t) = (contact.from, contact.to, contact.tick);
            let mut table = left(&mut random, &lent.words, contact);
            let changed = model::changed_pairs(&cells(&table), &cells(&closed));
            let added = herd::calls::add(&mut table, u, v, t);
            assert_eq!(added, Added::New(changed), "{opening:?} {contact:?}");
            same_words(&table, &closed, (opening, &lent.held, contact));
            times.note("the same words", table == lent.words);
            times.note("the closure of others", table != lent.words);
            let again = left(&mut random, &table, contact);
            let work = random.words(again.len());
            let (refused, words) = removed(&again, &work, contact);
            assert_eq!(refused, Done::Refused(21), "{opening:?} {contact:?}");
            assert_eq!(words, [again, work], "{opening:?} {contact:?}");
        }
    }
    times.at_least(1_000, &["the same words", "the closure of others"]);
}

/// A small opening; with long carry times, and with one animal now and then.
fn small(random: &mut Random) -> Opening {
    if random.once_in(2) {
        cases::opening(random)
    } else {
        draws::opening(random)
    }
}

/// A table that calls change where it stands, and the contacts that the calls leave.
struct Yard {
    opening: Opening,
    table: Vec<u32>,
    left: Contacts,
}

impl Yard {
    /// An opened table.
    fn new(random: &mut Random, opening: Opening) -> Yard {
        let mut table = random.words(opening.table_words());
        let (n, ticks, carry) = (opening.animals, opening.ticks, opening.carry);
        assert_eq!(
            herd::calls::open(&mut table, n, ticks, carry),
            Opened::Opened
        );
        let left = Contacts::new();
        same_words(&table, &model::fresh_table(opening, &left), opening);
        Yard {
            opening,
            table,
            left,
        }
    }

    /// The fresh table over the contacts left, for drawing and comparing calls.
    fn lent(&self) -> Lent {
        Lent::fresh(self.opening, self.left.clone())
    }

    /// Makes the call, and compares the answer and every word with the fresh table over what it leaves.
    #[track_caller]
    fn make(&mut self, suite: &mut Suite, call: &Call) -> Reply {
        let reply = suite.compare(&self.lent(), call);
        let mut for_work = Vec::new();
        let made: Reply = match *call {
            Call::Add(u, v, t) => herd::calls::add(&mut self.table, u, v, t).into(),
            Call::Join(ref second) => herd::calls::join(&mut self.table, second).into(),
            Call::Stays(ref stays) => herd::calls::stays(&mut self.table, stays).into(),
            Call::Remove(u, v, t, ref work) => {
                for_work.clone_from(work);
                herd::calls::remove(&mut self.table, &mut for_work, u, v, t).into()
            }
            _ => panic!("{call:?} leaves the contacts"),
        };
        assert_eq!(made, reply, "{call:?}");
        let legal = self.leaves(call);
        assert_eq!(matches!(made, Reply::Refused(_)), !legal, "{call:?}");
        let fresh = model::fresh_table(self.opening, &self.left);
        same_words(&self.table, &fresh, (self.opening, call));
        if let Call::Remove(_, _, _, work) = call {
            let after = if legal { &fresh } else { work };
            same_words(&for_work, after, (self.opening, call));
        }
        made
    }

    /// Puts the contacts of the call into those left, or takes its contact out, where it is legal; says whether it is.
    fn leaves(&mut self, call: &Call) -> bool {
        let opening = self.opening;
        match *call {
            Call::Add(u, v, t) => {
                let contact = check::contact(opening, u, v, t);
                self.left.extend(contact.ok());
                contact.is_ok()
            }
            Call::Join(ref second) => {
                let known = Known::by_words(second);
                let contents = known.contents().ok();
                let alike = contents.filter(|second| second.opening() == opening);
                self.left.extend(alike.into_iter().flat_map(Contents::held));
                alike.is_some()
            }
            Call::Stays(ref words) => {
                let stays = check::stays(opening, words);
                let met = stays.iter().map(|stays| model::met(stays));
                self.left.extend(met.flatten());
                stays.is_ok()
            }
            Call::Remove(u, v, t, ref work) => {
                let contact = check::contact(opening, u, v, t);
                let long = work.len() == opening.table_words();
                long && contact.is_ok_and(|contact| self.left.remove(&contact))
            }
            _ => panic!("{call:?} leaves the contacts"),
        }
    }
}

#[test]
fn lists_of_adds_joins_stays_and_removals() {
    let mut random = Random::new(1_706);
    let mut suite = Suite::default();
    let mut times = Times::default();
    let exports = [
        Export::Add,
        Export::Add,
        Export::Join,
        Export::Stays,
        Export::Remove,
        Export::Remove,
        Export::Remove,
    ];
    for _ in 0..400 {
        let opening = small(&mut random);
        let mut yard = Yard::new(&mut random, opening);
        let mut before: Option<(Call, Reply)> = None;
        for _ in 0..random.between(10, 60) {
            let export = random.one_of(&exports);
            let drawn = yard.lent().draw(&mut random, export);
            let again = before.filter(|_| random.once_in(5));
            let (call, first) = match again {
                Some((call, reply)) => (call, Some(reply)),
                None => (drawn, None),
            };
            let held = yard.left.len();
            let reply = yard.make(&mut suite, &call);
            let taken = call.export() == Export::Remove && first == Some(Reply::Done);
            if taken {
                assert_eq!(reply, Reply::Refused(21), "{call:?} again");
            }
            times.note("removed", reply == Reply::Done);
            times.note("removed again", taken);
            times.note("refused", matches!(reply, Reply::Refused(_)));
            times.note("none left", held > 0 && yard.left.is_empty());
            times.note("joined", matches!(reply, Reply::Joined(1..)));
            times.note("stays added", matches!(reply, Reply::StaysAdded(1..)));
            before = Some((call, reply));
        }
        let log = words::log(opening, yard.left.iter().copied());
        same_words(&log_of(&yard.table), &log, opening);
        let held: Vec<Contact> = yard.left.iter().copied().collect();
        let fresh = loaded(&mut random, opening, &held);
        same_words(&yard.table, &fresh, opening);
    }
    suite.at_least(100, &[Export::Remove], &[20, 7, 8, 9, 21]);
    times.at_least(100, &["removed", "removed again", "refused", "none left"]);
    times.at_least(100, &["joined", "stays added"]);
}

#[test]
fn lists_on_tables_that_no_adds_built() {
    let mut random = Random::new(1_722);
    let mut suite = Suite::default();
    let mut times = Times::default();
    let changing = [Export::Add, Export::Add, Export::Join, Export::Stays];
    for _ in 0..1_500 {
        let mut lent = draws::stored(&mut random);
        let opening = lent.opening;
        for _ in 0..random.below(5) {
            let export = random.one_of(&changing);
            let call = lent.draw(&mut random, export);
            suite.compare(&lent, &call);
            lent = Lent::stored(opening, &cells(&call.made(&lent.words).table));
        }
        let call = lent.draw(&mut random, Export::Remove);
        let reply = suite.compare(&lent, &call);
        if let (Reply::Done, &Call::Remove(u, v, t, _)) = (reply, &call) {
            let mut held: Contacts = lent.held.iter().copied().collect();
            let closed = model::fresh_table(opening, &held);
            times.note("a closure", closed == lent.words);
            times.note("no closure", closed != lent.words);
            let after = call.made(&lent.words).table;
            held.remove(&Contact::new(u, v, t));
            assert_eq!(known_contacts(&after), held, "{opening:?} {call:?}");
            same_words(&after, &model::fresh_table(opening, &held), &call);
        }
    }
    suite.at_least(20, &[Export::Remove], &[20, 7, 8, 9, 21]);
    times.at_least(50, &["a closure", "no closure"]);
}

/// The contacts that a well-formed table holds.
fn known_contacts(table: &[u32]) -> Contacts {
    let stored = check::open_table(table).expect("a well-formed table");
    stored.held().into_iter().collect()
}

/// Calls that leave just these contacts: some are added twice, or removed before or between; others are added, removed and
/// removed once more; among them are calls that are refused.
fn calls_that_leave(random: &mut Random, opening: Opening, kept: &Contacts) -> Vec<Call> {
    let words = opening.table_words();
    let add = |c: Contact| Call::Add(c.from, c.to, c.tick);
    let mut turns: Vec<Vec<Call>> = Vec::new();
    for &contact in kept {
        let remove = call(contact, random.words(words));
        turns.push(match random.below(4) {
            0 => vec![add(contact), remove, add(contact)],
            1 => vec![add(contact), add(contact)],
            2 => vec![remove, add(contact)],
            _ => vec![add(contact)],
        });
    }
    for contact in cases::log_contacts(random, opening, 8) {
        if !kept.contains(&contact) {
            let mut remove = || call(contact, random.words(words));
            turns.push(vec![add(contact), remove(), remove()]);
        }
    }
    for _ in 0..3 {
        let beyond = Contact::new(opening.animals, 0, 1);
        turns.push(vec![add(beyond), call(beyond, random.words(words))]);
        if let Some(&contact) = kept.first() {
            turns.push(vec![call(contact, random.words(words + 1))]);
        }
    }
    let mut calls = Vec::new();
    while !turns.is_empty() {
        let turn = random.below(turns.len());
        calls.push(turns[turn].remove(0));
        turns.retain(|turn| !turn.is_empty());
    }
    calls
}

#[test]
fn the_set_left_decides_the_words() {
    let mut random = Random::new(1_707);
    let mut suite = Suite::default();
    let mut times = Times::default();
    for _ in 0..150 {
        let opening = small(&mut random);
        let kept = Contacts::from_iter(cases::few_contacts(&mut random, opening, 10));
        let mut run = |kept: &Contacts| {
            let mut yard = Yard::new(&mut random, opening);
            for call in calls_that_leave(&mut random, opening, kept) {
                yard.make(&mut suite, &call);
            }
            assert_eq!(yard.left, *kept, "{opening:?}");
            yard.table
        };
        let (one, other) = (run(&kept), run(&kept));
        same_words(&one, &other, (opening, &kept));
        times.note("the same set", !kept.is_empty());
        let log = words::log(opening, kept.iter().copied());
        same_words(&log_of(&one), &log, (opening, &kept));
        let mut fewer = kept.clone();
        if fewer.pop_first().is_some() {
            assert_ne!(run(&fewer), one, "{opening:?} {kept:?}");
            times.note("one contact less", true);
        }
        let more = cases::legal_contacts(opening).into_iter();
        if let Some(contact) = more.rev().find(|contact| !kept.contains(contact)) {
            let mut more = fewer.clone();
            more.insert(contact);
            assert_ne!(run(&more), one, "{opening:?} {kept:?}");
            times.note("another contact", more.len() == kept.len());
        }
    }
    suite.at_least(150, &[Export::Remove], &[7, 20, 21]);
    let kinds = ["the same set", "one contact less", "another contact"];
    times.at_least(80, &kinds);
}

#[test]
fn all_contacts_in_any_order() {
    let mut random = Random::new(1_708);
    let mut times = Times::default();
    for round in 0..600 {
        let lent = draws::built(&mut random);
        let opening = lent.opening;
        let (mut table, mut work) = (lent.words.clone(), random.words(lent.words.len()));
        let mut held: Contacts = lent.held.iter().copied().collect();
        let mut order = lent.held.clone();
        match round % 3 {
            0 => order.reverse(),
            1 => (),
            _ => random.shuffle(&mut order),
        }
        for (place, &contact) in order.iter().enumerate() {
            let (u, v, t) = (contact.from, contact.to, contact.tick);
            held.remove(&contact);
            let (first, second) = if place % 2 == 0 {
                (&mut table, &mut work)
            } else {
                (&mut work, &mut table)
            };
            assert_eq!(herd::calls::remove(first, second, u, v, t), Done::Done);
            same_words(first, &model::fresh_table(opening, &held), contact);
            same_words(second, first, contact);
        }
        let mut opened = random.words(table.len());
        let (n, ticks, carry) = (opening.animals, opening.ticks, opening.carry);
        assert_eq!(
            herd::calls::open(&mut opened, n, ticks, carry),
            Opened::Opened
        );
        if !order.is_empty() {
            same_words(&table, &opened, (opening, &order));
            same_words(&work, &opened, (opening, &order));
        }
        times.note("one contact", order.len() == 1);
        times.note("ten contacts or more", order.len() >= 10);
    }
    times.at_least(10, &["one contact", "ten contacts or more"]);
}

/// A removal whose outcome for one pair of animals is known by hand.
struct Named {
    name: &'static str,
    opening: (u32, u32, u32),
    contacts: &'static [(u32, u32, u32)],
    removed: (u32, u32, u32),
    pair: (u32, u32),
    before: &'static [(u32, u32)],
    after: &'static [(u32, u32)],
}

/// Removals of contacts behind which other journeys stood, or by which they went.
const NAMED: [Named; 16] = [
    Named {
        name: "a longer journey comes back",
        opening: (3, 6, 1),
        contacts: &[(0, 1, 1), (1, 2, 2), (0, 2, 2)],
        removed: (0, 2, 2),
        pair: (0, 2),
        before: &[(2, 3)],
        after: &[(1, 3)],
    },
    Named {
        name: "two longer journeys come back",
        opening: (4, 9, 1),
        contacts: &[(0, 1, 1), (1, 3, 6), (0, 2, 3), (2, 3, 8), (0, 3, 5)],
        removed: (0, 3, 5),
        pair: (0, 3),
        before: &[(5, 6)],
        after: &[(1, 7), (3, 9)],
    },
    Named {
        name: "one comes back among others that stay",
        opening: (4, 12, 1),
        contacts: &[
            (0, 3, 1),
            (0, 3, 12),
            (0, 1, 4),
            (1, 3, 8),
            (0, 2, 6),
            (2, 3, 7),
        ],
        removed: (2, 3, 7),
        pair: (0, 3),
        before: &[(1, 2), (6, 8), (12, 13)],
        after: &[(1, 2), (4, 9), (12, 13)],
    },
    Named {
        name: "another journey has the same interval",
        opening: (4, 6, 1),
        contacts: &[(0, 1, 1), (1, 3, 2), (0, 2, 1), (2, 3, 2)],
        removed: (0, 1, 1),
        pair: (0, 3),
        before: &[(1, 3)],
        after: &[(1, 3)],
    },
    Named {
        name: "a journey goes with its last contact",
        opening: (3, 6, 1),
        contacts: &[(0, 1, 1), (1, 2, 2)],
        removed: (1, 2, 2),
        pair: (0, 2),
        before: &[(1, 3)],
        after: &[],
    },
    Named {
        name: "a journey goes with its first contact",
        opening: (3, 6, 1),
        contacts: &[(0, 1, 1), (1, 2, 2)],
        removed: (0, 1, 1),
        pair: (0, 2),
        before: &[(1, 3)],
        after: &[],
    },
    Named {
        name: "the rest of a journey stays",
        opening: (3, 6, 1),
        contacts: &[(0, 1, 1), (1, 2, 2)],
        removed: (0, 1, 1),
        pair: (1, 2),
        before: &[(2, 3)],
        after: &[(2, 3)],
    },
    Named {
        name: "an earlier departure comes back",
        opening: (4, 6, 1),
        contacts: &[(0, 1, 1), (0, 1, 2), (1, 3, 4)],
        removed: (0, 1, 2),
        pair: (0, 3),
        before: &[(2, 5)],
        after: &[(1, 5)],
    },
    Named {
        name: "a later departure stays",
        opening: (4, 6, 1),
        contacts: &[(0, 1, 1), (0, 1, 2), (1, 3, 4)],
        removed: (0, 1, 1),
        pair: (0, 3),
        before: &[(2, 5)],
        after: &[(2, 5)],
    },
    Named {
        name: "a later arrival comes back",
        opening: (4, 6, 1),
        contacts: &[(0, 1, 1), (1, 3, 3), (1, 3, 5)],
        removed: (1, 3, 3),
        pair: (0, 3),
        before: &[(1, 4)],
        after: &[(1, 6)],
    },
    Named {
        name: "a contact in the middle",
        opening: (4, 6, 1),
        contacts: &[(0, 1, 1), (1, 2, 2), (2, 3, 3), (1, 2, 4), (2, 3, 5)],
        removed: (1, 2, 2),
        pair: (0, 3),
        before: &[(1, 4)],
        after: &[(1, 6)],
    },
    Named {
        name: "a journey that comes back to its first animal",
        opening: (3, 6, 1),
        contacts: &[(0, 1, 1), (1, 0, 2), (0, 2, 3)],
        removed: (1, 0, 2),
        pair: (1, 2),
        before: &[(2, 4)],
        after: &[],
    },
    Named {
        name: "a departure at the arrival",
        opening: (3, 9, 3),
        contacts: &[(0, 1, 1), (1, 2, 4), (0, 2, 3)],
        removed: (0, 2, 3),
        pair: (0, 2),
        before: &[(3, 6)],
        after: &[(1, 7)],
    },
    Named {
        name: "a departure before the arrival",
        opening: (3, 9, 3),
        contacts: &[(0, 1, 1), (1, 2, 3), (0, 2, 3)],
        removed: (0, 2, 3),
        pair: (0, 2),
        before: &[(3, 6)],
        after: &[],
    },
    Named {
        name: "a carry time as long as the calendar",
        opening: (3, 4, 4),
        contacts: &[(0, 1, 1), (1, 2, 4), (0, 2, 4)],
        removed: (0, 2, 4),
        pair: (0, 2),
        before: &[(4, 8)],
        after: &[],
    },
    Named {
        name: "one of many of a pair",
        opening: (2, 5, 2),
        contacts: &[
            (1, 0, 1),
            (1, 0, 2),
            (1, 0, 3),
            (1, 0, 4),
            (1, 0, 5),
            (0, 1, 3),
        ],
        removed: (1, 0, 3),
        pair: (1, 0),
        before: &[(1, 3), (2, 4), (3, 5), (4, 6), (5, 7)],
        after: &[(1, 3), (2, 4), (4, 6), (5, 7)],
    },
];

#[test]
fn named_removals() {
    let mut random = Random::new(1_709);
    let mut suite = Suite::default();
    for named in &NAMED {
        let (n, ticks, carry) = named.opening;
        let opening = Opening::new(n, ticks, carry);
        let listed = named.contacts.iter();
        let contacts: Vec<Contact> = listed.map(|&(u, v, t)| Contact::new(u, v, t)).collect();
        let lent = Lent::built(&mut random, opening, &contacts);
        let (u, v, t) = named.removed;
        let contact = Contact::new(u, v, t);
        require(&mut suite, &mut random, &lent, contact, Reply::Done);
        let (x, y) = named.pair;
        let rows = |table: &[u32]| -> Vec<(u32, u32)> {
            let cell = &cells(table)[opening.pair(x, y)];
            cell.iter().map(|i| (i.departure, i.arrival)).collect()
        };
        assert_eq!(rows(&lent.words), named.before, "before: {}", named.name);
        let table = left(&mut random, &lent.words, contact);
        assert_eq!(rows(&table), named.after, "after: {}", named.name);
    }
}

#[test]
fn contacts_that_are_not_held() {
    let mut random = Random::new(1_710);
    let mut suite = Suite::default();
    let mut times = Times::default();
    for round in 0..1_200 {
        let lent = match round % 2 {
            0 => draws::built(&mut random),
            _ => draws::stored(&mut random),
        };
        let opening = lent.opening;
        let mut others = Vec::new();
        for held in some(&mut random, &lent.held, 3) {
            let tick = random.between(1, opening.ticks);
            others.push(("another tick", Contact { tick, ..held }));
            let turned = Contact::new(held.to, held.from, held.tick);
            others.push(("the pair turned round", turned));
        }
        for (pair, cell) in (0..).zip(&cells(&lent.words)) {
            let (u, v) = (pair / opening.animals, pair % opening.animals);
            for row in cell.iter().filter(|_| random.once_in(3)) {
                if row.arrival > row.departure + opening.carry {
                    let at = |tick| Contact::new(u, v, tick);
                    others.push(("the departure of a longer interval", at(row.departure)));
                    let last = row.arrival - opening.carry;
                    others.push(("its last contact's tick", at(last)));
                }
            }
        }
        for (kind, contact) in others {
            if !lent.held.contains(&contact) {
                let refused = Reply::Refused(21);
                require(&mut suite, &mut random, &lent, contact, refused);
                times.note(kind, true);
            }
        }
    }
    times.at_least(300, &["another tick", "the pair turned round"]);
    let of_longer = [
        "the departure of a longer interval",
        "its last contact's tick",
    ];
    times.at_least(300, &of_longer);
}

#[test]
fn contacts_that_are_not_legal() {
    let mut random = Random::new(1_711);
    let mut suite = Suite::default();
    for _ in 0..400 {
        let lent = draws::built(&mut random);
        let Some(&Contact { from, to, tick }) = lent.held.first() else {
            continue;
        };
        let (n, ticks) = (lent.opening.animals, lent.opening.ticks);
        for (u, v, t, number) in [
            (n, to, tick, 7),
            (from, n, tick, 7),
            (n, n, 0, 7),
            (from | 1 << 8, to, tick, 7),
            (from, to | 1 << 8, tick, 7),
            (from | 1 << 31, to, tick, 7),
            (u32::MAX, to, ticks + 1, 7),
            (from, from, tick, 8),
            (to, to, 0, 8),
            (to, to, u32::MAX, 8),
            (from, to, 0, 9),
            (from, to, ticks + 1, 9),
            (from, to, lent.opening.last_arrival(), 9),
            (from, to, tick | 1 << 11, 9),
            (from, to, tick | 1 << 16, 9),
            (from, to, u32::MAX, 9),
        ] {
            let contact = Contact::new(u, v, t);
            let refused = Reply::Refused(number);
            require(&mut suite, &mut random, &lent, contact, refused);
        }
    }
    for number in [7, 8, 9] {
        let met = suite.times(Export::Remove, |reply| reply == Reply::Refused(number));
        assert!(met > 1_000, "{number}: {met}");
    }
}

/// A table that holds a contact but not every legal one, a contact that it holds, and a legal one that it does not hold.
fn with_both(random: &mut Random) -> (Lent, Contact, Contact) {
    loop {
        let lent = match random.below(2) {
            0 => draws::built(random),
            _ => draws::stored(random),
        };
        let legal = cases::legal_contacts(lent.opening).into_iter();
        let others: Vec<Contact> = legal.filter(|c| !lent.held.contains(c)).collect();
        if !lent.held.is_empty() && !others.is_empty() {
            let (held, other) = (random.one_of(&lent.held), random.one_of(&others));
            return (lent, held, other);
        }
    }
}

#[test]
fn any_words_for_work_of_the_right_length() {
    let mut random = Random::new(1_712);
    let mut suite = Suite::default();
    for _ in 0..1_000 {
        let (lent, held, other) = with_both(&mut random);
        let mut after = None;
        for kind in WORKS {
            let work = kind.words(&mut random, &lent);
            let refused = Reply::Refused(21);
            suite.require(&lent, &call(other, work.clone()), refused);
            suite.require(&lent, &call(held, work.clone()), Reply::Done);
            let (answer, [table, lent_for_work]) = removed(&lent.words, &work, held);
            assert_eq!(answer, Done::Done, "{kind:?}");
            let first = after.get_or_insert(table.clone());
            same_words(&table, first, kind);
            same_words(&lent_for_work, first, kind);
        }
    }
    let one = Lent::fresh(Opening::new(2, 1, 1), [Contact::new(1, 0, 1)].into());
    let work = model::fresh_table(Opening::new(1, 7, 1), &Contacts::new());
    let call = call(Contact::new(1, 0, 1), work);
    suite.require(&one, &call, Reply::Done);
}

#[test]
fn words_for_work_of_other_lengths() {
    let mut random = Random::new(1_713);
    let mut suite = Suite::default();
    for _ in 0..150 {
        let (lent, held, other) = with_both(&mut random);
        let opening = lent.opening;
        let (animals, ticks) = (opening.animals, opening.ticks);
        let of_more_animals = Opening::new(animals + 1, ticks, 1).table_words();
        let of_more_ticks = Opening::new(animals, ticks + 1, 1).table_words();
        let right = opening.table_words();
        let illegal = Contact::new(animals, animals, 0);
        for kind in WORKS {
            for length in [
                0,
                1,
                right - 1,
                right + 1,
                2 * right,
                of_more_animals,
                of_more_ticks,
            ] {
                let mut work = kind.words(&mut random, &lent);
                work.resize(length, random.one_of(&[0, u32::MAX, 0xC000_0000]));
                for contact in [held, other, illegal] {
                    let call = call(contact, work.clone());
                    suite.require(&lent, &call, Reply::Refused(20));
                }
            }
            let work = kind.words(&mut random, &lent);
            for (contact, reply) in [
                (held, Reply::Done),
                (other, Reply::Refused(21)),
                (illegal, Reply::Refused(7)),
            ] {
                suite.require(&lent, &call(contact, work.clone()), reply);
            }
        }
    }
    suite.at_least(1_000, &[Export::Remove], &[7, 20, 21]);
}

/// The table, with faults for which it is refused with these numbers; where it has both, no word of its cells is cut off.
fn with_faults(random: &mut Random, lent: &Lent, faults: &[u32]) -> Vec<u32> {
    let mut words = lent.words.clone();
    if faults.contains(&6) {
        words = cases::refused_6(random, lent.opening, &words);
    }
    if !faults.contains(&5) {
        return words;
    }
    loop {
        let wrong = cases::refused_5(random, &words);
        if faults == [5] || wrong.len() >= words.len() {
            return wrong;
        }
    }
}

/// The numbers of removals, each with the faults that it has on a table with this opening.
fn contacts_with_faults(
    opening: Opening,
    held: Contact,
    other: Contact,
) -> Vec<(Contact, Vec<u32>)> {
    let (n, ticks) = (opening.animals, opening.ticks);
    let Contact { from, to, tick } = held;
    vec![
        (held, vec![]),
        (other, vec![21]),
        (Contact::new(from, to, 0), vec![9, 21]),
        (Contact::new(from, to, ticks + 1), vec![9, 21]),
        (Contact::new(to, to, tick), vec![8, 21]),
        (Contact::new(from, from, ticks + 1), vec![8, 9, 21]),
        (Contact::new(n, to, tick), vec![7, 21]),
        (Contact::new(from, n, tick), vec![7, 21]),
        (Contact::new(from, u32::MAX, 0), vec![7, 9, 21]),
        (Contact::new(n, n, tick), vec![7, 8, 21]),
        (Contact::new(n, n, ticks + 1), vec![7, 8, 9, 21]),
    ]
}

#[test]
fn checks_run_in_order() {
    let mut random = Random::new(1_714);
    let mut suite = Suite::default();
    let mut won = BTreeMap::new();
    for _ in 0..120 {
        let (lent, held, other) = with_both(&mut random);
        for of_table in [&[][..], &[5], &[6], &[5, 6]] {
            for of_length in [&[][..], &[20]] {
                for (contact, of_contact) in contacts_with_faults(lent.opening, held, other) {
                    let first = lent.with(with_faults(&mut random, &lent, of_table));
                    let mut work = random.one_of(&WORKS).words(&mut random, &lent);
                    let mut length = first.words.len();
                    if !of_length.is_empty() {
                        length = random.one_of(&[length + 1, 2 * length + 1, length ^ 1]);
                    }
                    work.resize(length, random.word());
                    let faults = [of_table, of_length, &of_contact].concat();
                    let expected = faults.first().map_or(Reply::Done, |&n| Reply::Refused(n));
                    let call = call(contact, work);
                    let reply = suite.compare_at_guards(&first, &call);
                    assert_eq!(reply, expected, "{faults:?} {call:?}");
                    for later in faults.iter().skip(1) {
                        *won.entry((faults[0], *later)).or_insert(0) += 1;
                    }
                }
            }
        }
    }
    for (place, first) in REFUSALS.iter().enumerate() {
        for later in &REFUSALS[place + 1..] {
            assert!(won.get(&(*first, *later)) > Some(&100), "{won:?}");
        }
    }
    suite.at_least(100, &[Export::Remove], &REFUSALS);
}

#[test]
fn damaged_tables_with_any_work_and_contact() {
    let mut random = Random::new(1_715);
    let mut suite = Suite::default();
    let mut met = BTreeMap::new();
    for round in 0..4_000 {
        let (lent, held, other) = with_both(&mut random);
        let kind = random.one_of(&WORKS);
        let mut work = kind.words(&mut random, &lent);
        let (words, number) = match round % 3 {
            0 => (cases::refused_5(&mut random, &lent.words), Some(5)),
            1 => (
                cases::refused_6(&mut random, lent.opening, &lent.words),
                Some(6),
            ),
            _ => (cases::damaged(&mut random, &lent.words), None),
        };
        match random.below(3) {
            0 => work.resize(words.len(), 0),
            1 => work.push(0),
            _ => (),
        }
        let first = lent.with(words);
        for (contact, _) in contacts_with_faults(lent.opening, held, other) {
            let reply = suite.compare(&first, &call(contact, work.clone()));
            if let Some(number) = number {
                assert_eq!(reply, Reply::Refused(number), "{contact:?}");
                *met.entry((number, kind)).or_insert(0) += 1;
            }
        }
    }
    for number in [5, 6] {
        for kind in WORKS {
            assert!(met.get(&(number, kind)) > Some(&1_000), "{met:?}");
        }
    }
    suite.at_least(20, &[Export::Remove], &REFUSALS);
}

#[test]
fn every_bit_of_either_table() {
    let mut random = Random::new(1_716);
    let mut suite = Suite::default();
    let mut turns = 0;
    while turns < 30 {
        let (lent, held, other) = with_both(&mut random);
        if lent.words.len() > 80 {
            continue;
        }
        turns += 1;
        let second = Work::AnotherTable.words(&mut random, &lent);
        for place in 0..lent.words.len() {
            for bit in 0..32 {
                let mut words = lent.words.clone();
                words[place] ^= 1 << bit;
                let contact = random.one_of(&[held, other]);
                let work = call(contact, second.clone());
                suite.compare(&lent.with(words), &work);
                let mut words = second.clone();
                words[place] ^= 1 << bit;
                suite.require(&lent, &call(held, words), Reply::Done);
            }
        }
    }
    suite.at_least(100, &[Export::Remove], &[5, 6, 21]);
}

#[test]
fn random_words_in_both() {
    let mut random = Random::new(1_717);
    let mut suite = Suite::default();
    for _ in 0..40_000 {
        let opening = small(&mut random);
        let contacts = cases::log_contacts(&mut random, opening, 8);
        let cells = cases::lone_cells(&mut random, opening, &contacts);
        let lent = Lent::stored(opening, &cells);
        let mut words = lent.words.clone();
        if random.once_in(3) {
            words = cases::damaged(&mut random, &words);
        }
        let lent = lent.with(words);
        let call = lent.draw(&mut random, Export::Remove);
        suite.compare(&lent, &call);
    }
    suite.at_least(500, &[Export::Remove], &REFUSALS);
}

#[test]
fn one_animal_has_no_contact() {
    let mut random = Random::new(1_718);
    let mut suite = Suite::default();
    for ticks in [1, 2, 7, 1023, 1024] {
        for carry in [1, 2, 255, 256] {
            let opening = Opening::new(1, ticks, carry);
            let lent = Lent::fresh(opening, Contacts::new());
            for t in [0, 1, ticks, ticks + 1] {
                for (u, v, number) in [(0, 0, 8), (0, 1, 7), (1, 0, 7), (1, 1, 7)] {
                    let contact = Contact::new(u, v, t);
                    let refused = Reply::Refused(number);
                    require(&mut suite, &mut random, &lent, contact, refused);
                }
            }
        }
    }
}

#[test]
fn the_only_contact() {
    let mut random = Random::new(1_719);
    for (animals, ticks, carry) in [
        (2, 1, 1),
        (2, 1, 256),
        (3, 2, 1),
        (5, 12, 3),
        (4, 6, 6),
        (2, 1024, 1),
        (2, 1024, 256),
        (256, 1, 256),
        (256, 3, 1),
    ] {
        let opening = Opening::new(animals, ticks, carry);
        for (u, v) in [(0, animals - 1), (animals - 1, 0), (1, 0)] {
            for t in [1, ticks, 1 + ticks / 2] {
                let contact = Contact::new(u, v, t);
                let mut table = random.words(opening.table_words());
                let opened = herd::calls::open(&mut table, animals, ticks, carry);
                assert_eq!(opened, Opened::Opened);
                let empty = table.clone();
                assert_eq!(herd::calls::add(&mut table, u, v, t), Added::New(1));
                assert_ne!(table, empty, "{opening:?} {contact:?}");
                let after = left(&mut random, &table, contact);
                same_words(&after, &empty, (opening, contact));
            }
        }
    }
}

#[test]
fn wide_tables() {
    let mut random = Random::new(1_720);
    let mut suite = Suite::default();
    let mut times = Times::default();
    for (animals, ticks, carry) in [
        (2, 1024, 1),
        (2, 1024, 256),
        (3, 1024, 256),
        (3, 1023, 2),
        (4, 600, 100),
        (5, 20, 256),
        (12, 64, 3),
        (40, 30, 2),
        (255, 3, 1),
        (256, 1, 256),
        (256, 4, 1),
    ] {
        let opening = Opening::new(animals, ticks, carry);
        let mut contacts = cases::following_contacts(&mut random, opening, 60);
        contacts.push(Contact::new(animals - 1, 0, ticks));
        contacts.push(Contact::new(0, animals - 1, 1));
        let lent = Lent::fresh(opening, contacts.into_iter().collect());
        let ends = [lent.held[0], lent.held[lent.held.len() - 1]];
        let mut taken = vec![Contact::new(animals - 1, 0, ticks), ends[0], ends[1]];
        taken.extend((0..3).map(|_| random.one_of(&lent.held)));
        for contact in taken {
            let work = random.words(lent.words.len());
            suite.require(&lent, &call(contact, work), Reply::Done);
            let after = left(&mut random, &lent.words, contact);
            times.note("an interval back", any_gone(&after, &lent.words));
        }
        let work = lent.words.clone();
        let turned = Contact::new(0, animals - 1, ticks);
        if !lent.held.contains(&turned) {
            suite.require(&lent, &call(turned, work), Reply::Refused(21));
            times.note("not held", true);
        }
    }
    times.at_least(3, &["an interval back", "not held"]);
}

#[test]
fn long_cells_that_no_adds_built() {
    let mut random = Random::new(1_723);
    let mut suite = Suite::default();
    let mut times = Times::default();
    for (animals, ticks, carry) in [
        (2, 1024, 256),
        (2, 1023, 1),
        (3, 300, 7),
        (8, 40, 256),
        (40, 12, 2),
        (256, 2, 1),
    ] {
        let opening = Opening::new(animals, ticks, carry);
        for _ in 0..3 {
            let lent = Lent::stored(opening, &cases::cells(&mut random, opening));
            let contact = random.one_of(&lent.held);
            let work = random.words(lent.words.len());
            suite.require(&lent, &call(contact, work), Reply::Done);
            times.note("very many contacts", lent.held.len() > 400);
            let after = left(&mut random, &lent.words, contact);
            let rest = less(&lent.held, contact);
            let fresh = loaded(&mut random, opening, &rest);
            same_words(&after, &fresh, (opening, contact));
            times.note("intervals go", any_gone(&lent.words, &after));
        }
    }
    times.at_least(3, &["very many contacts", "intervals go"]);
}

#[test]
fn one_of_every_legal_contact() {
    let mut random = Random::new(1_721);
    for (animals, ticks, carry) in [
        (2, 1, 1),
        (2, 1024, 1),
        (2, 1024, 256),
        (3, 200, 1),
        (7, 12, 14),
        (12, 40, 1),
        (256, 2, 2),
    ] {
        let opening = Opening::new(animals, ticks, carry);
        let full = cases::full_cells(opening);
        let table = words::table(opening, &full);
        let legal = cases::legal_contacts(opening);
        let some = [legal[0], legal[legal.len() - 1], random.one_of(&legal)];
        for contact in some {
            let mut cells = full.clone();
            let own = opening.pair(contact.from, contact.to);
            cells[own].retain(|row| row.departure != contact.tick);
            let after = left(&mut random, &table, contact);
            same_words(&after, &words::table(opening, &cells), (opening, contact));
            let rest = less(&legal, contact);
            same_words(&log_of(&after), &words::log(opening, rest), contact);
        }
    }
}

#[test]
fn empty_slices() {
    assert_eq!(
        herd::calls::remove(&mut [], &mut [], 0, 1, 1),
        Done::Refused(5)
    );
    let mut table = model::fresh_table(Opening::new(2, 1, 1), &[Contact::new(0, 1, 1)].into());
    let before = table.clone();
    assert_eq!(
        herd::calls::remove(&mut [], &mut table, 0, 1, 1),
        Done::Refused(5)
    );
    let refused = herd::calls::remove(&mut table, &mut [], 0, 1, 1);
    assert_eq!((refused, &table), (Done::Refused(20), &before));
}
