//! Reading logs: orders and repeats of contacts, and wrong words at every place.

use herd::calls::{read_log, write_log, Added, Opened, Read, Written};
use herd_testing::cases;
use herd_testing::compare::{same_table, same_words};
use herd_testing::model::{self, Contacts};
use herd_testing::random::Random;
use herd_testing::suite::{Call, Export, Lent, Reply, Suite};
use herd_testing::words::{self, Contact, Interval, Opening};
use std::collections::BTreeMap;

/// The refusals of reading a log.
const REFUSALS: [u32; 5] = [4, 11, 12, 13, 14];

/// Reads the log into a copy of the words, and compares.
#[track_caller]
fn compare(suite: &mut Suite, log: &[u32], before: Vec<u32>) -> Reply {
    let lent = Lent::words(Opening::new(1, 1, 1), before);
    suite.compare(&lent, &Call::ReadLog(log.to_vec()))
}

/// The set of the listed contacts.
fn set(contacts: &[Contact]) -> Contacts {
    contacts.iter().copied().collect()
}

/// The words that a table of this opening's length may hold before the call.
fn held_before(random: &mut Random, opening: Opening) -> Vec<u32> {
    let length = opening.table_words();
    let other = Opening {
        carry: random.between(1, 256),
        ..opening
    };
    match random.below(6) {
        0 => vec![0; length],
        1 => vec![u32::MAX; length],
        2 => words::table(opening, &cases::full_cells(opening)),
        3 => words::table(other, &cases::cells(random, other)),
        4 => {
            let contacts = cases::log_contacts(random, opening, 12);
            model::fresh_table(opening, &set(&contacts))
        }
        _ => random.words(length),
    }
}

/// The contacts in several orders, some with each contact twice.
fn orders(random: &mut Random, contacts: &[Contact]) -> Vec<Vec<Contact>> {
    let drawn = contacts.to_vec();
    let mut sorted = drawn.clone();
    sorted.sort();
    let backwards: Vec<Contact> = sorted.iter().rev().copied().collect();
    let mut by_pair = drawn.clone();
    by_pair.sort_by_key(|c| (c.to, c.from, c.tick));
    let twice = [&sorted[..], &backwards[..]].concat();
    let mut mixed = twice.clone();
    random.shuffle(&mut mixed);
    vec![drawn, sorted, backwards, by_pair, twice, mixed]
}

/// Reads the contacts in several orders into tables that held several things.
fn compare_orders(
    suite: &mut Suite,
    random: &mut Random,
    opening: Opening,
    contacts: &[Contact],
    met: &mut BTreeMap<&str, u32>,
) {
    let different = set(contacts);
    for order in orders(random, contacts) {
        let before = held_before(random, opening);
        let reply = compare(suite, &words::log(opening, order), before);
        assert_eq!(reply, Reply::Read(different.len() as u32), "{opening:?}");
    }
    let cells = model::minimal_intervals(opening, &different);
    for (name, has) in [
        ("no contact", contacts.is_empty()),
        ("repeats", different.len() < contacts.len()),
        (
            "last tick",
            contacts.iter().any(|c| c.tick == opening.ticks),
        ),
        ("carry time above the ticks", opening.carry > opening.ticks),
        ("joined journeys", cases::has_joined(opening, &cells)),
    ] {
        *met.entry(name).or_insert(0) += u32::from(has);
    }
}

#[test]
fn small_logs_in_many_orders() {
    let mut random = Random::new(902);
    let (mut suite, mut met) = (Suite::default(), BTreeMap::new());
    let mut alone = 0;
    for _ in 0..1_500 {
        let opening = cases::opening(&mut random);
        let contacts = cases::log_contacts(&mut random, opening, 40);
        compare_orders(&mut suite, &mut random, opening, &contacts, &mut met);
        alone += u32::from(opening.animals == 1);
    }
    assert!(met.values().all(|&times| times > 100), "{met:?}");
    assert!(met.len() == 5 && alone > 100, "{met:?} {alone}");
}

#[test]
fn longer_logs_in_many_orders() {
    let mut random = Random::new(903);
    let (mut suite, mut met) = (Suite::default(), BTreeMap::new());
    for _ in 0..150 {
        let opening = cases::longer_opening(&mut random);
        let most = random.one_of(&[10, 60, 400]);
        let contacts = cases::log_contacts(&mut random, opening, most);
        compare_orders(&mut suite, &mut random, opening, &contacts, &mut met);
    }
    met.remove("no contact");
    assert!(met.values().all(|&times| times > 30), "{met:?}");
}

#[test]
fn every_order_leaves_the_same_table() {
    let mut random = Random::new(904);
    let mut joined = 0;
    for _ in 0..250 {
        let opening = Opening::new(
            random.between(2, 4),
            random.between(3, 9),
            random.between(1, 2),
        );
        let contacts: Vec<Contact> = (0..5)
            .map(|_| cases::contact(&mut random, opening))
            .collect();
        let cells = model::minimal_intervals(opening, &set(&contacts));
        let expected = words::table(opening, &cells);
        let number = Read::Contacts(set(&contacts).len() as u32);
        for order in cases::orders(&contacts) {
            let mut table = random.words(expected.len());
            let answer = read_log(&words::log(opening, order.clone()), &mut table);
            assert_eq!(answer, number, "{opening:?} {order:?}");
            same_words(&table, &expected, (opening, &order));
        }
        joined += u32::from(cases::has_joined(opening, &cells));
    }
    assert!(joined > 50, "{joined}");
}

#[test]
fn shuffled_and_repeated_logs_leave_the_same_table() {
    let mut random = Random::new(905);
    for _ in 0..200 {
        let opening = cases::longer_opening(&mut random);
        let mut contacts = cases::log_contacts(&mut random, opening, 300);
        let mut first = random.words(opening.table_words());
        let answer = read_log(&words::log(opening, contacts.clone()), &mut first);
        assert_eq!(answer, Read::Contacts(set(&contacts).len() as u32));
        for _ in 0..5 {
            let more = random.below(contacts.len() + 1);
            contacts.extend_from_within(..more.min(300));
            random.shuffle(&mut contacts);
            let mut table = held_before(&mut random, opening);
            let again = read_log(&words::log(opening, contacts.clone()), &mut table);
            assert_eq!(again, answer, "{opening:?}");
            same_words(&table, &first, opening);
        }
    }
}

#[test]
fn logs_without_contacts() {
    let mut random = Random::new(906);
    let mut suite = Suite::default();
    for (animals, ticks, carry) in [
        (1, 1, 1),
        (1, 1, 256),
        (1, 1024, 256),
        (2, 1, 1),
        (2, 1024, 1),
        (7, 5, 3),
        (12, 40, 41),
        (256, 1, 9),
    ] {
        let opening = Opening::new(animals, ticks, carry);
        let log = words::log(opening, []);
        assert_eq!(log.len(), 2);
        let full = words::table(opening, &cases::full_cells(opening));
        for before in [random.words(full.len()), full] {
            let reply = compare(&mut suite, &log, before);
            assert_eq!(reply, Reply::Read(0), "{opening:?}");
        }
    }
}

#[test]
fn logs_of_every_legal_contact() {
    let mut random = Random::new(907);
    for (animals, ticks, carry) in [
        (2, 1, 1),
        (3, 5, 2),
        (7, 12, 14),
        (2, 1024, 256),
        (12, 40, 1),
        (16, 64, 1),
        (64, 3, 1),
    ] {
        let opening = Opening::new(animals, ticks, carry);
        let legal = cases::legal_contacts(opening);
        let cells = cases::full_cells(opening);
        let mut mixed = legal.clone();
        mixed.extend_from_slice(&legal[legal.len() / 2..]);
        random.shuffle(&mut mixed);
        let backwards = legal.iter().rev().copied().collect();
        for order in [legal.clone(), backwards, mixed] {
            let mut table = random.words(opening.table_words());
            let answer = read_log(&words::log(opening, order), &mut table);
            assert_eq!(answer, Read::Contacts(legal.len() as u32), "{opening:?}");
            same_table(&table, opening, &cells, opening);
        }
    }
}

#[test]
fn written_logs_give_the_table_back() {
    let mut random = Random::new(908);
    for turn in 0..2_000 {
        let opening = if turn % 10 == 0 {
            cases::longer_opening(&mut random)
        } else {
            cases::opening(&mut random)
        };
        let contacts = set(&cases::log_contacts(&mut random, opening, 60));
        let table = model::fresh_table(opening, &contacts);
        let mut log = random.words(contacts.len() + 2);
        let words = log.len() as u32;
        assert_eq!(write_log(&table, &mut log), Written::Written(words));
        let mut read = held_before(&mut random, opening);
        let answer = read_log(&log, &mut read);
        assert_eq!(answer, Read::Contacts(words - 2), "{opening:?}");
        same_words(&read, &table, opening);
    }
}

#[test]
fn logs_read_are_written_sorted_and_once() {
    let mut random = Random::new(909);
    for _ in 0..1_000 {
        let opening = cases::opening(&mut random);
        let contacts = cases::log_contacts(&mut random, opening, 40);
        let sorted = words::log(opening, set(&contacts));
        let mut table = random.words(opening.table_words());
        let answer = read_log(&words::log(opening, contacts), &mut table);
        assert_eq!(answer, Read::Contacts(sorted.len() as u32 - 2));
        let mut written = vec![0; sorted.len()];
        let words = Written::Written(sorted.len() as u32);
        assert_eq!(write_log(&table, &mut written), words, "{opening:?}");
        same_words(&written, &sorted, opening);
    }
}

#[test]
fn reading_opens_and_adds_all() {
    let mut random = Random::new(910);
    for _ in 0..1_000 {
        let opening = cases::opening(&mut random);
        let (n, ticks, carry) = (opening.animals, opening.ticks, opening.carry);
        let contacts = cases::log_contacts(&mut random, opening, 30);
        let mut added = random.words(opening.table_words());
        assert_eq!(
            herd::calls::open(&mut added, n, ticks, carry),
            Opened::Opened
        );
        let mut new = 0;
        for contact in &contacts {
            match herd::calls::add(&mut added, contact.from, contact.to, contact.tick) {
                Added::New(_) => new += 1,
                Added::Known(_) => (),
                Added::Refused(number) => panic!("{opening:?} {contact:?}: {number}"),
            }
        }
        let mut read = random.words(opening.table_words());
        let answer = read_log(&words::log(opening, contacts), &mut read);
        assert_eq!(answer, Read::Contacts(new), "{opening:?}");
        same_words(&read, &added, opening);
    }
}

/// A good log with two contacts or more.
struct Good {
    opening: Opening,
    contacts: Vec<Contact>,
    log: Vec<u32>,
}

impl Good {
    /// A small good log.
    fn drawn(random: &mut Random) -> Good {
        let opening = cases::opening_with_pairs(random);
        let mut contacts = cases::log_contacts(random, opening, 10);
        while contacts.len() < 2 {
            contacts.push(cases::contact(random, opening));
        }
        let log = words::log(opening, contacts.clone());
        Good {
            opening,
            contacts,
            log,
        }
    }

    /// A place between the first word and the last.
    fn between(&self, random: &mut Random) -> usize {
        1 + random.below(self.contacts.len())
    }

    /// The place of the last word.
    fn last(&self) -> usize {
        self.log.len() - 1
    }

    /// One of the contacts.
    fn contact(&self, random: &mut Random) -> Contact {
        random.one_of(&self.contacts)
    }

    /// The log with this word at the place.
    fn with(&self, place: usize, word: u32) -> Vec<u32> {
        let mut log = self.log.clone();
        log[place] = word;
        log
    }

    /// Words for the table before the call, of the length that the log asks for.
    fn table(&self, random: &mut Random) -> Vec<u32> {
        held_before(random, self.opening)
    }
}

/// The word with one of the unnamed bits 29–26.
fn unnamed_bit(random: &mut Random, word: u32) -> u32 {
    word | 1 << random.between(26, 29)
}

/// A wrong word for a good log.
type Wrong = fn(&Good, &mut Random) -> u32;

/// First words that are no opening word.
const FIRST_11: [(&str, Wrong); 6] = [
    ("first, unnamed bit", |good, random| {
        unnamed_bit(random, good.log[0])
    }),
    ("first, another kind", |good, random| {
        cases::other_kind(random, good.log[0])
    }),
    ("first, a contact", |good, _| good.log[1]),
    ("first, the end", |good, _| good.log[good.last()]),
    ("first, zero", |_, _| 0),
    ("first, every bit", |_, _| u32::MAX),
];

/// Words between that are no contact word.
const BETWEEN_12: [(&str, Wrong); 7] = [
    ("contact, unnamed bit", |good, random| {
        let contact = good.contact(random);
        unnamed_bit(random, words::contact_word(contact))
    }),
    ("contact, another kind", |good, random| {
        let contact = good.contact(random);
        cases::other_kind(random, words::contact_word(contact))
    }),
    ("between, an end word", |good, random| {
        let place = good.between(random);
        words::end_word(place as u32 - 1)
    }),
    ("between, the last word", |good, _| good.log[good.last()]),
    ("between, the opening word", |good, _| good.log[0]),
    ("between, zero", |_, _| 0),
    ("between, every bit", |_, _| u32::MAX),
];

/// Contact words whose contact is not legal.
const BETWEEN_13: [(&str, Wrong); 9] = [
    ("animal left, n", |good, random| {
        let contact = good.contact(random);
        words::contact_word(Contact::new(good.opening.animals, contact.to, contact.tick))
    }),
    ("animal left, 255", |good, random| {
        let contact = good.contact(random);
        words::contact_word(Contact::new(255, contact.to, contact.tick))
    }),
    ("animal met, n", |good, random| {
        let contact = good.contact(random);
        let met = good.opening.animals;
        words::contact_word(Contact::new(contact.from, met, contact.tick))
    }),
    ("animal met, 255", |good, random| {
        let contact = good.contact(random);
        words::contact_word(Contact::new(contact.from, 255, contact.tick))
    }),
    ("one animal with itself", |good, random| {
        let contact = good.contact(random);
        words::contact_word(Contact::new(contact.to, contact.to, contact.tick))
    }),
    ("n with itself", |good, random| {
        let n = good.opening.animals;
        words::contact_word(Contact::new(n, n, good.contact(random).tick))
    }),
    ("tick, one after the last", |good, random| {
        let contact = good.contact(random);
        let late = good.opening.ticks + 1;
        words::contact_word(Contact::new(contact.from, contact.to, late))
    }),
    ("tick, 1024", |good, random| {
        let contact = good.contact(random);
        words::contact_word(Contact::new(contact.from, contact.to, 1024))
    }),
    ("an interval word that names no animal", |_, random| {
        words::interval_word(Interval::new(2047, random.between(0, 2047)))
    }),
];

/// Last words that are no end word with the true count.
const LAST_14: [(&str, Wrong); 8] = [
    ("count, one more", |good, _| good.log[good.last()] + 1),
    ("count, one less", |good, _| good.log[good.last()] - 1),
    ("count, 0", |_, _| words::end_word(0)),
    ("count, largest", |_, _| words::end_word(0x03FF_FFFF)),
    ("end, unnamed bit", |good, random| {
        unnamed_bit(random, good.log[good.last()])
    }),
    ("end, another kind", |good, random| {
        cases::other_kind(random, good.log[good.last()])
    }),
    ("last, a contact", |good, random| {
        words::contact_word(good.contact(random))
    }),
    ("last, zero", |_, _| 0),
];

/// A good log with words moved, left out or put in.
type Moved = fn(&Good, &mut Random) -> Vec<u32>;

/// Such logs and their refusals.
const MOVED: [(&str, u32, Moved); 17] = [
    ("no word", 11, |_, _| Vec::new()),
    ("an opening word alone", 11, |good, _| vec![good.log[0]]),
    ("a contact alone", 11, |good, _| vec![good.log[1]]),
    ("an end word alone", 11, |_, _| vec![words::end_word(0)]),
    ("first dropped", 11, |good, _| good.log[1..].to_vec()),
    ("backwards", 11, |good, _| {
        good.log.iter().rev().copied().collect()
    }),
    ("first and another swapped", 11, |good, random| {
        let mut log = good.log.clone();
        log.swap(0, good.between(random));
        log
    }),
    ("last and another swapped", 12, |good, random| {
        let mut log = good.log.clone();
        log.swap(good.between(random), good.last());
        log
    }),
    ("a contact behind the end", 12, |good, random| {
        let more = words::contact_word(good.contact(random));
        [&good.log[..], &[more]].concat()
    }),
    ("a word behind the end", 12, |good, random| {
        [&good.log[..], &[random.word()]].concat()
    }),
    ("the end twice", 12, |good, _| {
        [&good.log[..], &good.log[good.last()..]].concat()
    }),
    ("the opening twice", 12, |good, _| {
        [&good.log[..1], &good.log[..]].concat()
    }),
    ("two logs", 12, |good, _| good.log.repeat(2)),
    ("last dropped", 14, |good, _| {
        good.log[..good.last()].to_vec()
    }),
    ("a contact dropped", 14, |good, random| {
        let mut log = good.log.clone();
        log.remove(good.between(random));
        log
    }),
    ("a contact twice", 14, |good, random| {
        let mut log = good.log.clone();
        let place = good.between(random);
        log.insert(place, log[place]);
        log
    }),
    ("repeats not counted", 14, |good, random| {
        let mut contacts = good.contacts.clone();
        contacts.push(good.contact(random));
        let mut log = words::log(good.opening, contacts.clone());
        log[contacts.len() + 1] = words::end_word(set(&contacts).len() as u32);
        log
    }),
];

/// Reads a wrong log into a table of the right length, and requires the refusal.
fn refuse(
    suite: &mut Suite,
    good: &Good,
    random: &mut Random,
    log: &[u32],
    number: u32,
    name: &str,
) {
    let reply = compare(suite, log, good.table(random));
    assert_eq!(reply, Reply::Refused(number), "{name}: {log:08X?}");
}

#[test]
fn chosen_words_are_refused() {
    let mut random = Random::new(911);
    let mut suite = Suite::default();
    for _ in 0..1_500 {
        let good = Good::drawn(&mut random);
        for (number, wrongs) in [
            (11, &FIRST_11[..]),
            (12, &BETWEEN_12),
            (13, &BETWEEN_13),
            (14, &LAST_14),
        ] {
            for (name, wrong) in wrongs {
                let place = match number {
                    11 => 0,
                    14 => good.last(),
                    _ => good.between(&mut random),
                };
                let log = good.with(place, wrong(&good, &mut random));
                refuse(&mut suite, &good, &mut random, &log, number, name);
            }
        }
        for (name, number, moved) in MOVED {
            let log = moved(&good, &mut random);
            refuse(&mut suite, &good, &mut random, &log, number, name);
        }
    }
}

#[test]
fn every_place_between_is_judged() {
    let mut random = Random::new(912);
    let mut suite = Suite::default();
    for _ in 0..300 {
        let good = Good::drawn(&mut random);
        for place in 1..good.last() {
            for (number, wrongs) in [(12, &BETWEEN_12[..]), (13, &BETWEEN_13)] {
                for (name, wrong) in wrongs {
                    let log = good.with(place, wrong(&good, &mut random));
                    refuse(&mut suite, &good, &mut random, &log, number, name);
                }
            }
        }
    }
}

#[test]
fn an_interval_word_is_read_as_the_contact_of_its_bits() {
    let opening = Opening::new(4, 6, 1);
    let mut suite = Suite::default();
    let before = Random::new(913).words(opening.table_words());
    for (departure, arrival, expected) in [
        (1, 2, Reply::Read(1)),
        (1, 7, Reply::Refused(13)),
        (2, 3, Reply::Refused(13)),
        (0, 1024, Reply::Read(1)),
        (0, 0, Reply::Refused(13)),
        (128, 0, Reply::Read(1)),
    ] {
        let word = words::interval_word(Interval::new(departure, arrival));
        let log = [words::opening_word(opening), word, words::end_word(1)];
        let reply = compare(&mut suite, &log, before.clone());
        assert_eq!(reply, expected, "{departure} {arrival}");
    }
}

/// Which of a log's words are wrong, and whether the table's length is.
#[derive(Clone, Copy, Debug)]
struct Defects {
    first: bool,
    length: bool,
    earlier: Option<u32>,
    later: Option<u32>,
    end: bool,
}

impl Defects {
    /// Every choice of defects.
    fn all() -> Vec<Defects> {
        let mut all = Vec::new();
        let wrong = [None, Some(12), Some(13)];
        for turn in 0..72 {
            all.push(Defects {
                first: turn % 2 == 1,
                length: turn / 2 % 2 == 1,
                end: turn / 4 % 2 == 1,
                earlier: wrong[turn / 8 % 3],
                later: wrong[turn / 24],
            });
        }
        all
    }

    /// The refusal of the first check that finds a defect.
    fn refusal(self) -> Option<u32> {
        let first = self.first.then_some(11);
        let length = self.length.then_some(4);
        let end = self.end.then_some(14);
        let words = self.earlier.or(self.later);
        first.or(length).or(words).or(end)
    }
}

/// One of the wrong words.
fn any_of(wrongs: &[(&str, Wrong)], good: &Good, random: &mut Random) -> u32 {
    wrongs[random.below(wrongs.len())].1(good, random)
}

/// A wrong word between for this refusal.
fn wrong_between(number: u32, good: &Good, random: &mut Random) -> u32 {
    match number {
        12 => any_of(&BETWEEN_12, good, random),
        _ => any_of(&BETWEEN_13, good, random),
    }
}

/// The log and the table with these defects.
fn defective(good: &Good, random: &mut Random, defects: Defects) -> (Vec<u32>, Vec<u32>) {
    let (mut log, mut table) = (good.log.clone(), good.table(random));
    if defects.first {
        log[0] = any_of(&FIRST_11, good, random);
    }
    if defects.length {
        let length = table.len();
        table.resize(random.one_of(&[0, 1, length - 1, length + 1]), 9);
    }
    let earlier = 1 + random.below(good.contacts.len() - 1);
    let later = random.between(earlier as u32 + 1, good.contacts.len() as u32) as usize;
    for (place, number) in [(earlier, defects.earlier), (later, defects.later)] {
        if let Some(number) = number {
            log[place] = wrong_between(number, good, random);
        }
    }
    if defects.end {
        log[good.last()] = any_of(&LAST_14, good, random);
    }
    (log, table)
}

#[test]
fn checks_run_in_order() {
    let mut random = Random::new(914);
    let mut suite = Suite::default();
    let every = Defects::all();
    for _ in 0..400 {
        let good = Good::drawn(&mut random);
        for &defects in &every {
            let (log, table) = defective(&good, &mut random, defects);
            let reply = compare(&mut suite, &log, table);
            let read = Reply::Read(set(&good.contacts).len() as u32);
            let expected = defects.refusal().map_or(read, Reply::Refused);
            assert_eq!(reply, expected, "{defects:?}");
        }
    }
    suite.at_least(400, &[Export::ReadLog], &REFUSALS);
}

/// The refusal that flipping this bit of a log of so many words brings in any case.
fn certain_refusal(place: usize, bit: u32, words: usize) -> Option<Reply> {
    match (place, bit) {
        _ if place == words - 1 => Some(Reply::Refused(14)),
        (0, 26..) => Some(Reply::Refused(11)),
        (_, 26..) => Some(Reply::Refused(12)),
        _ => None,
    }
}

#[test]
fn every_bit_of_small_logs() {
    let mut random = Random::new(915);
    let mut suite = Suite::default();
    for _ in 0..120 {
        let good = Good::drawn(&mut random);
        for place in 0..good.log.len() {
            for bit in 0..32 {
                let log = good.with(place, good.log[place] ^ 1 << bit);
                let reply = compare(&mut suite, &log, good.table(&mut random));
                if let Some(certain) = certain_refusal(place, bit, log.len()) {
                    assert_eq!(reply, certain, "{:?} {place} {bit}", good.opening);
                }
            }
        }
    }
    suite.at_least(700, &[Export::ReadLog], &REFUSALS);
}

#[test]
fn every_bit_of_the_opening_with_the_table_it_asks_for() {
    let mut random = Random::new(916);
    let mut suite = Suite::default();
    for _ in 0..200 {
        let good = Good::drawn(&mut random);
        for bit in 0..26 {
            let log = good.with(0, good.log[0] ^ 1 << bit);
            let asked = words::read_opening(log[0]).expect("an opening word");
            if asked.table_words() < 20_000 {
                let before = random.words(asked.table_words());
                compare(&mut suite, &log, before);
            }
        }
    }
    suite.at_least(200, &[Export::ReadLog], &[13]);
}

#[test]
fn random_damage() {
    let mut random = Random::new(917);
    let mut suite = Suite::default();
    for _ in 0..60_000 {
        let opening = cases::opening(&mut random);
        let contacts = cases::log_contacts(&mut random, opening, 12);
        let log = cases::damaged(&mut random, &words::log(opening, contacts));
        let mut table = held_before(&mut random, opening);
        if random.once_in(10) {
            table.pop();
        }
        compare(&mut suite, &log, table);
    }
    suite.at_least(1_000, &[Export::ReadLog], &REFUSALS);
}

#[test]
fn nothing_but_random_words() {
    let mut random = Random::new(918);
    let mut suite = Suite::default();
    for _ in 0..20_000 {
        let opening = cases::opening(&mut random);
        let before = random.words(opening.table_words());
        let length = random.below(12);
        let mut log = random.words(length);
        compare(&mut suite, &log, before.clone());
        if log.len() < 2 {
            continue;
        }
        let last = log.len() - 1;
        log[0] = words::opening_word(opening);
        compare(&mut suite, &log, before.clone());
        log[1..last].fill_with(|| 0x4000_0000 | random.word() & 0x03FF_FFFF);
        compare(&mut suite, &log, before.clone());
        log[last] = words::end_word(last as u32 - 1);
        compare(&mut suite, &log, before.clone());
    }
    suite.at_least(1_000, &[Export::ReadLog], &[11, 12, 13, 14]);
}

#[test]
fn logs_of_no_word_one_and_two() {
    let mut random = Random::new(919);
    let mut suite = Suite::default();
    let opening = Opening::new(3, 4, 2);
    let first = words::opening_word(opening);
    let contact = words::contact_word(Contact::new(0, 1, 1));
    let choices = [
        first,
        first | 1 << 26,
        first | 1 << 29,
        contact,
        words::end_word(0),
        words::end_word(1),
        words::end_word(0) | 1 << 26,
        0,
        u32::MAX,
    ];
    let mut logs = vec![Vec::new()];
    logs.extend(choices.map(|word| vec![word]));
    logs.extend(choices.iter().flat_map(|&a| choices.map(|b| vec![a, b])));
    let right = opening.table_words();
    for log in &logs {
        for length in [0, 1, right - 1, right, right + 1] {
            let reply = compare(&mut suite, log, random.words(length));
            let expected = match log[..] {
                [a, _] if a == first && length != right => Reply::Refused(4),
                [a, b] if a == first && b == words::end_word(0) => Reply::Read(0),
                [a, _] if a == first => Reply::Refused(14),
                _ => Reply::Refused(11),
            };
            assert_eq!(reply, expected, "{log:08X?} {length}");
        }
    }
    let met = |reply| suite.times(Export::ReadLog, |met| met == reply);
    assert_eq!(met(Reply::Read(0)), 1);
    assert_eq!((met(Reply::Refused(4)), met(Reply::Refused(14))), (36, 8));
}

#[test]
fn tables_of_a_wrong_length() {
    let mut random = Random::new(920);
    let mut suite = Suite::default();
    for _ in 0..1_500 {
        let opening = cases::opening(&mut random);
        let contacts = cases::log_contacts(&mut random, opening, 12);
        let log = words::log(opening, contacts);
        let right = opening.table_words();
        let any = random.below(2 * right);
        for length in [0, 1, right - 1, right, right + 1, right + 40, any] {
            let reply = compare(&mut suite, &log, random.words(length));
            let refused = reply == Reply::Refused(4);
            assert_eq!(refused, length != right, "{opening:?} {length}");
        }
    }
    suite.at_least(1_500, &[Export::ReadLog], &[4]);
    let one = Opening::new(1, 7, 1);
    let two = Opening::new(2, 1, 1);
    assert_eq!(one.table_words(), two.table_words());
    let before = random.words(one.table_words());
    for opening in [one, two] {
        let reply = compare(&mut suite, &words::log(opening, []), before.clone());
        assert_eq!(reply, Reply::Read(0));
    }
    for (animals, ticks) in [(2, 2), (3, 1), (1, 6), (1, 8), (256, 1024)] {
        let other = Opening::new(animals, ticks, 1);
        let reply = compare(&mut suite, &words::log(other, []), before.clone());
        assert_eq!(reply, Reply::Refused(4), "{other:?}");
    }
}

#[test]
fn empty_slices() {
    let log = words::log(Opening::new(2, 1, 1), []);
    assert_eq!(read_log(&[], &mut []), Read::Refused(11));
    assert_eq!(read_log(&log[..1], &mut []), Read::Refused(11));
    assert_eq!(read_log(&log, &mut []), Read::Refused(4));
    let mut table = [1, 2, 3];
    assert_eq!(read_log(&[], &mut table), Read::Refused(11));
    assert_eq!(table, [1, 2, 3]);
}

#[test]
fn a_damaged_table_is_no_matter() {
    let mut random = Random::new(921);
    let mut suite = Suite::default();
    for _ in 0..3_000 {
        let opening = cases::opening(&mut random);
        let mut before = words::table(opening, &cases::cells(&mut random, opening));
        let place = random.below(before.len());
        before[random.one_of(&[0, place])] ^= 1 << random.between(0, 31);
        let contacts = cases::log_contacts(&mut random, opening, 12);
        let number = Reply::Read(set(&contacts).len() as u32);
        let reply = compare(&mut suite, &words::log(opening, contacts), before);
        assert_eq!(reply, number, "{opening:?}");
    }
}

#[test]
fn logs_of_the_most_contact_words() {
    let opening = Opening::new(2, 3, 1);
    let most = (1 << 26) - 1;
    let (one, other) = (Contact::new(0, 1, 2), Contact::new(1, 0, 3));
    let mut log = vec![words::contact_word(one); most + 3];
    log[0] = words::opening_word(opening);
    log[most] = words::contact_word(other);
    let before = vec![5; opening.table_words()];
    let mut table = before.clone();
    for end in [
        words::end_word(0),
        words::end_word(most as u32),
        0xC400_0000,
    ] {
        log[most + 2] = end;
        assert_eq!(read_log(&log, &mut table), Read::Refused(14), "{end:08X}");
        same_words(&table, &before, end);
    }
    log[most + 1] = 0xC3FF_FFFF;
    assert_eq!(read_log(&log[..most + 2], &mut table), Read::Contacts(2));
    let expected = model::fresh_table(opening, &set(&[one, other]));
    same_words(&table, &expected, "the most contact words");
}
