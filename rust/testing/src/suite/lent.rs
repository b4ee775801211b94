//! Tables that calls are lent, with what is known of each.

use crate::calls::Known;
use crate::compare::same_words;
use crate::model::{Contacts, Journeys};
use crate::random::Random;
use crate::words::{self, Cells, Contact, Opening};
use herd::calls::{Added, Opened};

/// A table, its numbers, and what is known of it.
pub struct Lent {
    /// The table's numbers, to which calls are drawn; other words than an open table's may say others.
    pub opening: Opening,
    /// The table's words.
    pub words: Vec<u32>,
    /// What is known of them.
    pub known: Known,
    /// Contacts of which claimed chains are made, in log order.
    pub held: Vec<Contact>,
}

impl Lent {
    /// The table that the engine makes of the contacts, added in this order over words of no meaning: the fresh table over
    /// their set. It is known by the plain search.
    pub fn built(random: &mut Random, opening: Opening, contacts: &[Contact]) -> Lent {
        let mut words = random.words(opening.table_words());
        let (n, ticks, carry) = (opening.animals, opening.ticks, opening.carry);
        assert_eq!(
            herd::calls::open(&mut words, n, ticks, carry),
            Opened::Opened
        );
        for contact in contacts {
            let added = herd::calls::add(&mut words, contact.from, contact.to, contact.tick);
            let accepted = matches!(added, Added::New(_) | Added::Known(_));
            assert!(accepted, "{opening:?} {contact:?} {added:?}");
        }
        let fresh = Lent::fresh(opening, contacts.iter().copied().collect());
        same_words(&words, &fresh.words, (opening, contacts));
        fresh
    }

    /// The fresh table over the set. It is known by the plain search.
    pub fn fresh(opening: Opening, contacts: Contacts) -> Lent {
        let held = contacts.iter().copied().collect();
        let journeys = Journeys::new(opening, contacts);
        Lent {
            opening,
            words: words::table(opening, journeys.minimal()),
            known: Known::by_contacts(journeys),
            held,
        }
    }

    /// The well-formed table of these cells. It is known by its words.
    pub fn stored(opening: Opening, cells: &Cells) -> Lent {
        let words = words::table(opening, cells);
        let known = Known::by_words(&words);
        let held = known.contents().map(|contents| contents.held());
        let held = held.unwrap_or_else(|number| panic!("{opening:?} {cells:?}: {number}"));
        Lent {
            opening,
            words,
            known,
            held,
        }
    }

    /// Any words, for calls as on a table with these numbers.
    pub fn words(opening: Opening, words: Vec<u32>) -> Lent {
        let known = Known::by_words(&words);
        Lent {
            opening,
            words,
            known,
            held: Vec::new(),
        }
    }

    /// Other words in place of this table's, for calls as on this table.
    pub fn with(&self, words: Vec<u32>) -> Lent {
        Lent {
            held: self.held.clone(),
            ..Lent::words(self.opening, words)
        }
    }
}
