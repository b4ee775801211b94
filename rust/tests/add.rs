//! Adding one contact after another, against the plain search.

use herd::calls::{Added, Opened};
use herd_testing::calls::accepted;
use herd_testing::cases;
use herd_testing::compare::same_words;
use herd_testing::model::{self, Contacts};
use herd_testing::random::Random;
use herd_testing::suite::{draws, Call, Export, Lent, Reply, Suite};
use herd_testing::words::{self, Contact, Opening};

/// A table that grows by adds, and the suite that compares them.
struct Office {
    lent: Lent,
    suite: Suite,
}

impl Office {
    /// Opens a table over words of no meaning.
    fn new(random: &mut Random, opening: Opening) -> Office {
        Office {
            lent: Lent::built(random, opening, &[]),
            suite: Suite::default(),
        }
    }

    /// Makes the add on the table as the last one left it, and compares.
    #[track_caller]
    fn add(&mut self, u: u32, v: u32, t: u32) -> Reply {
        let reply = self.suite.compare(&self.lent, &Call::Add(u, v, t));
        if matches!(reply, Reply::New(_)) {
            let mut contacts: Contacts = self.lent.held.iter().copied().collect();
            contacts.insert(Contact::new(u, v, t));
            self.lent = Lent::fresh(self.lent.opening, contacts);
        }
        reply
    }
}

#[test]
fn contacts_in_any_order_with_repeats_and_refused_calls() {
    let mut random = Random::new(301);
    let (mut joined, mut known, mut refused) = (0, 0, 0);
    for _ in 0..12_000 {
        let opening = cases::opening(&mut random);
        let mut office = Office::new(&mut random, opening);
        for _ in 0..random.below(36) {
            let draw = random.below(5);
            let call = match draw {
                1 if !office.lent.held.is_empty() => {
                    let contact = random.one_of(&office.lent.held);
                    (contact.from, contact.to, contact.tick)
                }
                0..=1 => numbers(&mut random, opening),
                _ if opening.animals == 1 => numbers(&mut random, opening),
                _ => {
                    let contact = cases::contact(&mut random, opening);
                    (contact.from, contact.to, contact.tick)
                }
            };
            match office.add(call.0, call.1, call.2) {
                Reply::New(cells) => joined += u32::from(cells > 1),
                Reply::Known(_) => known += 1,
                _ => refused += 1,
            }
        }
    }
    let enough = joined > 15_000 && known > 20_000 && refused > 15_000;
    assert!(enough, "{joined} {known} {refused}");
}

/// Three numbers that may or may not be a legal contact.
fn numbers(random: &mut Random, opening: Opening) -> (u32, u32, u32) {
    let (u, v) = (
        draws::animal(random, opening),
        draws::animal(random, opening),
    );
    (u, v, draws::tick(random, opening.ticks))
}

#[test]
fn every_contact_more_on_every_set_of_small_tables() {
    for (animals, ticks, carry) in [
        (2, 4, 1),
        (2, 4, 2),
        (2, 4, 5),
        (3, 2, 1),
        (3, 2, 2),
        (3, 3, 1),
    ] {
        let opening = Opening::new(animals, ticks, carry);
        let legal = cases::legal_contacts(opening);
        let sets = 1usize << legal.len();
        let set = |bits: usize| -> Contacts { cases::chosen(&legal, bits).into_iter().collect() };
        let fresh: Vec<Vec<u32>> = (0..sets)
            .map(|bits| model::fresh_table(opening, &set(bits)))
            .collect();
        for bits in 0..sets {
            for (i, contact) in legal.iter().enumerate() {
                let more = bits | 1 << i;
                let mut table = fresh[bits].clone();
                let answer = herd::calls::add(&mut table, contact.from, contact.to, contact.tick);
                let (before, after) = (&fresh[bits][1..], &fresh[more][1..]);
                let size = opening.cell_words();
                let pairs = before.chunks(size).zip(after.chunks(size));
                let changed = pairs.filter(|(b, a)| b != a).count() as u32;
                let expected = accepted(more == bits, changed);
                assert_eq!(answer, expected, "{opening:?} {contact:?} {:?}", set(bits));
                if table != fresh[more] {
                    same_words(&table, &fresh[more], (opening, contact, set(bits)));
                }
            }
        }
    }
}

#[test]
fn two_loading_orders_leave_equal_tables() {
    let mut random = Random::new(302);
    let mut accepted = 0;
    for _ in 0..400 {
        let opening = cases::opening_with_pairs(&mut random);
        let (n, ticks, carry) = (opening.animals, opening.ticks, opening.carry);
        let mut calls: Vec<_> = (0..80).map(|_| numbers(&mut random, opening)).collect();
        let is_legal =
            |&(u, v, t): &(u32, u32, u32)| u < n && v < n && u != v && (1..=ticks).contains(&t);
        let mut tables = Vec::new();
        for _ in 0..2 {
            let mut table = random.words(opening.table_words());
            assert_eq!(
                herd::calls::open(&mut table, n, ticks, carry),
                Opened::Opened
            );
            for call in &calls {
                let &(u, v, t) = call;
                let refused = matches!(herd::calls::add(&mut table, u, v, t), Added::Refused(_));
                assert_eq!(refused, !is_legal(call), "{opening:?} {call:?}");
                accepted += u32::from(!refused);
            }
            tables.push(table);
            random.shuffle(&mut calls);
            let again = random.one_of(&calls);
            calls.push(again);
        }
        same_words(&tables[0], &tables[1], opening);
        let legal = calls.iter().filter(|call| is_legal(call));
        let contacts = legal.map(|&(u, v, t)| Contact::new(u, v, t)).collect();
        same_words(&tables[0], &model::fresh_table(opening, &contacts), opening);
    }
    assert!(accepted > 20_000, "{accepted}");
}

#[test]
fn a_row_for_every_tick() {
    let mut random = Random::new(309);
    for (ticks, carry) in [(1, 1), (2, 3), (1000, 7), (1024, 1), (1024, 256)] {
        let opening = Opening::new(2, ticks, carry);
        let mut table = random.words(opening.table_words());
        assert_eq!(
            herd::calls::open(&mut table, 2, ticks, carry),
            Opened::Opened
        );
        let mut contacts = cases::legal_contacts(opening);
        for expected in [Added::New(1), Added::Known(0)] {
            random.shuffle(&mut contacts);
            for contact in &contacts {
                let answer = herd::calls::add(&mut table, contact.from, contact.to, contact.tick);
                assert_eq!(answer, expected, "{opening:?} {contact:?}");
            }
            let full = words::table(opening, &cases::full_cells(opening));
            same_words(&table, &full, opening);
        }
    }
}

#[test]
fn last_tick_is_accepted_and_the_next_refused() {
    let mut random = Random::new(304);
    for _ in 0..300 {
        let opening = cases::opening_with_pairs(&mut random);
        let mut office = Office::new(&mut random, opening);
        assert_eq!(office.add(0, 1, opening.ticks), Reply::New(1));
        assert_eq!(office.add(0, 1, opening.ticks), Reply::Known(0));
        assert_eq!(office.add(0, 1, opening.ticks + 1), Reply::Refused(9));
        assert_eq!(office.add(0, 1, 0), Reply::Refused(9));
    }
}

#[test]
fn one_contact_displaces_many_intervals() {
    let mut random = Random::new(307);
    let mut most = 0;
    for ticks in [5, 16, 64] {
        for carry in [1, 2, 4] {
            let opening = Opening::new(3, ticks, carry);
            let mut office = Office::new(&mut random, opening);
            for t in 1..=ticks {
                office.add(0, 1, t);
            }
            for t in (carry + 1..=ticks).rev() {
                office.add(1, 2, t);
            }
            for t in (1..=ticks).rev() {
                office.add(0, 2, t);
            }
            let new = |reply| matches!(reply, Reply::New(_));
            most = most.max(office.suite.times(Export::Add, new));
        }
    }
    assert!(most > 150, "{most}");
}

#[test]
fn wide_fields() {
    let mut random = Random::new(308);
    let sizes = [
        (2, 1024, 1),
        (3, 1024, 256),
        (3, 1023, 2),
        (4, 600, 100),
        (40, 7, 2),
        (200, 3, 1),
        (256, 4, 1),
    ];
    for (animals, ticks, carry) in sizes {
        let opening = Opening::new(animals, ticks, carry);
        let mut office = Office::new(&mut random, opening);
        for contact in cases::following_contacts(&mut random, opening, 40) {
            office.add(contact.from, contact.to, contact.tick);
        }
    }
}
