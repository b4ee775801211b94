//! Openings, contacts and rows as words of 32 bits. A contact is packed only where it was judged.

use crate::{Contact, Error, Interval, Stay};

/// The most contacts that an end word can count.
pub const MOST_LOGGED: usize = (1 << 26) - 1;
/// The last pen; the first is 0.
const LAST_PEN: u32 = 63;

/// Animals, ticks and carry time.
#[derive(Clone, Copy, Debug, PartialEq, Eq)]
pub struct Opening {
    pub animals: u32,
    pub ticks: u32,
    pub carry: u32,
}

impl Opening {
    /// The opening of an opening word.
    pub fn of_word(word: u32) -> Option<Opening> {
        let opening = Opening {
            animals: field(word, 18, 8) + 1,
            ticks: field(word, 0, 10) + 1,
            carry: field(word, 10, 8) + 1,
        };
        (kind(word) == 2 && field(word, 26, 4) == 0).then_some(opening)
    }

    /// Its three numbers in the order of an opening.
    pub fn numbers(self) -> [u32; 3] {
        [self.animals, self.ticks, self.carry]
    }

    /// The words of a cell: a count word and a row for each tick.
    pub fn cell_words(self) -> usize {
        1 + self.ticks as usize
    }

    /// The words of a table: an opening word and a cell for each ordered pair.
    pub fn table_words(self) -> usize {
        1 + self.animals as usize * self.animals as usize * self.cell_words()
    }

    /// The last tick at which a contact can arrive.
    pub fn last_arrival(self) -> u32 {
        self.ticks + self.carry
    }

    /// Whether the contact is one of these animals and ticks, judged as the engine does: animals, then whether both are the
    /// same, then the tick.
    pub fn judge(self, contact: Contact) -> Result<(), Error> {
        self.judge_animal(contact.from)?;
        self.judge_animal(contact.to)?;
        if contact.from == contact.to {
            return Err(Error::SameAnimal(contact.from));
        }
        self.judge_tick(contact.tick)
    }

    /// Whether there is such an animal.
    pub fn judge_animal(self, animal: u32) -> Result<(), Error> {
        let animals = self.animals;
        if animal < animals {
            Ok(())
        } else {
            Err(Error::NoSuchAnimal { animal, animals })
        }
    }

    /// Whether there is such a tick.
    pub fn judge_tick(self, tick: u32) -> Result<(), Error> {
        let last = self.ticks;
        if 1 <= tick && tick <= last {
            Ok(())
        } else {
            Err(Error::NoSuchTick { tick, last })
        }
    }

    /// Whether the stay is of these animals and ticks, and in a pen.
    pub fn judge_stay(self, stay: Stay) -> Result<(), Error> {
        let (first, last) = (stay.first, stay.last);
        self.judge_animal(stay.animal)?;
        if stay.pen > LAST_PEN {
            return Err(Error::NoSuchPen(stay.pen));
        }
        self.judge_tick(first)?;
        self.judge_tick(last)?;
        if first > last {
            return Err(Error::TurnedRound { first, last });
        }
        Ok(())
    }

    /// The word of a contact, or why it has none.
    pub fn contact_word(self, contact: Contact) -> Result<u32, Error> {
        match self.judge(contact) {
            Ok(()) => Ok(1 << 30 | contact.from << 18 | contact.to << 10 | (contact.tick - 1)),
            Err(reason) => Err(Error::Contact {
                contact,
                reason: Box::new(reason),
            }),
        }
    }
}

/// Whether a word has the form of a contact word.
pub fn is_contact(word: u32) -> bool {
    kind(word) == 1 && field(word, 26, 4) == 0
}

/// The contact of a contact word.
pub fn contact_of(word: u32) -> Contact {
    Contact::new(
        field(word, 18, 8),
        field(word, 10, 8),
        field(word, 0, 10) + 1,
    )
}

/// A number by which contact words are in log order: the tick, then the animal left, then the animal met.
pub fn log_order(word: u32) -> u32 {
    field(word, 0, 10) << 16 | field(word, 10, 16)
}

/// The word that ends a log of so many contacts, at most [`MOST_LOGGED`].
pub fn end_word(contacts: usize) -> u32 {
    3 << 30 | contacts as u32
}

/// The rows in use of a cell, of its count word.
pub fn rows_of(word: u32) -> usize {
    field(word, 0, 11) as usize
}

/// The interval of a row in use.
pub fn interval_of(word: u32) -> Interval {
    Interval::new(field(word, 11, 11), field(word, 0, 11))
}

/// The top two bits of a word.
fn kind(word: u32) -> u32 {
    word >> 30
}

/// So many bits of a word, from bit `low` on.
fn field(word: u32, low: u32, bits: u32) -> u32 {
    word >> low & ((1 << bits) - 1)
}
