//! Contacts, intervals, windows, openings and stays, and their 32-bit words as documents 01 and 02 lay them out.

pub use herd::{Contact, Interval, Stay};

/// The numbers of a table: animals n, ticks τ and carry time δ.
#[derive(Clone, Copy, Debug, PartialEq, Eq)]
pub struct Opening {
    pub animals: u32,
    pub ticks: u32,
    pub carry: u32,
}

/// A window: its first and its last tick.
#[derive(Clone, Copy, Debug, PartialEq, Eq, PartialOrd, Ord)]
pub struct Window {
    pub first: u32,
    pub last: u32,
}

/// The intervals of every ordered pair of animals, at the places that `pair` gives.
pub type Cells = Vec<Vec<Interval>>;

impl Opening {
    /// The opening for n animals, τ ticks and carry time δ.
    pub fn new(animals: u32, ticks: u32, carry: u32) -> Opening {
        Opening {
            animals,
            ticks,
            carry,
        }
    }

    /// The last tick at which a contact can arrive, τ+δ.
    pub fn last_arrival(self) -> u32 {
        self.ticks + self.carry
    }

    /// The number of ordered pairs of animals, pairs of one animal included.
    pub fn pairs(self) -> usize {
        self.animals as usize * self.animals as usize
    }

    /// The place of the pair (u, v) among the ordered pairs.
    pub fn pair(self, u: u32, v: u32) -> usize {
        u as usize * self.animals as usize + v as usize
    }

    /// The words of one cell: a count word and τ rows.
    pub fn cell_words(self) -> usize {
        self.ticks as usize + 1
    }

    /// The place of the count word of the cell (u, v) in the table.
    pub fn cell_start(self, u: u32, v: u32) -> usize {
        1 + self.pair(u, v) * self.cell_words()
    }

    /// The words of the whole table: 1 + n·n·(τ+1).
    pub fn table_words(self) -> usize {
        1 + self.pairs() * self.cell_words()
    }
}

impl Window {
    /// The window from the first tick to the last.
    pub fn new(first: u32, last: u32) -> Window {
        Window { first, last }
    }

    /// The window of all ticks of a table with this opening.
    pub fn whole(opening: Opening) -> Window {
        Window::new(1, opening.ticks)
    }

    /// The tightest window in which all contacts of the journey lie.
    pub fn around(journey: &[Contact]) -> Window {
        Window::new(journey[0].tick, journey[journey.len() - 1].tick)
    }

    /// Whether the interval, stored in a table with this carry time, fits the window: it departs at the first tick or
    /// later, and arrives no more than the carry time after the last.
    pub fn fits(self, interval: Interval, carry: u32) -> bool {
        self.first <= interval.departure && interval.arrival <= self.last + carry
    }

    /// Whether the contact lies in the window.
    pub fn has(self, contact: Contact) -> bool {
        self.first <= contact.tick && contact.tick <= self.last
    }
}

/// The last pen; the first is 0.
pub const LAST_PEN: u32 = 63;

/// The stays (animal, pen, first, last) of these numbers.
pub fn stays<const N: usize>(numbers: [(u32, u32, u32, u32); N]) -> [Stay; N] {
    numbers.map(|(animal, pen, first, last)| Stay::new(animal, pen, first, last))
}

/// The contacts (u, v, t) of these numbers.
pub fn contacts<const N: usize>(numbers: [(u32, u32, u32); N]) -> [Contact; N] {
    numbers.map(|(u, v, t)| Contact::new(u, v, t))
}

/// The interval of the journey that the contacts form: at least one, each leaving where and no earlier than when the one
/// before it arrived.
pub fn journey(carry: u32, contacts: &[Contact]) -> Option<Interval> {
    let goes_on = |pair: &[Contact]| {
        pair[0].to == pair[1].from && pair[0].interval(carry).arrival <= pair[1].tick
    };
    let (first, last) = (contacts.first()?, contacts.last()?);
    let interval = Interval::new(first.tick, last.interval(carry).arrival);
    contacts.windows(2).all(goes_on).then_some(interval)
}

/// The first and the last animal of a journey.
pub fn ends(journey: &[Contact]) -> (u32, u32) {
    (journey[0].from, journey[journey.len() - 1].to)
}

/// The number of words of a set of animals.
pub const SET_WORDS: usize = 8;

/// The words of a set of animals: 32 to a word, the first in its lowest bit.
pub fn set(animals: &[u32]) -> [u32; SET_WORDS] {
    let mut words = [0; SET_WORDS];
    for animal in animals {
        words[(animal / 32) as usize] |= 1 << (animal % 32);
    }
    words
}

/// The kind of an unused word.
pub const UNUSED: u32 = 0;
/// The kind of an interval word.
pub const INTERVAL: u32 = 1;
/// The kind of a contact word.
pub const CONTACT: u32 = 1;
/// The kind of an opening word.
pub const OPENING: u32 = 2;
/// The kind of a count word.
pub const COUNT: u32 = 3;
/// The kind of an end word.
pub const END: u32 = 3;

/// The bits from `high` down to `low` of a word, both included.
pub fn bits(word: u32, high: u32, low: u32) -> u32 {
    (word >> low) & ((1 << (high - low + 1)) - 1)
}

/// The kind of a word, its top two bits.
pub fn kind(word: u32) -> u32 {
    bits(word, 31, 30)
}

/// The word of an opening.
pub fn opening_word(opening: Opening) -> u32 {
    OPENING << 30 | (opening.animals - 1) << 18 | (opening.carry - 1) << 10 | (opening.ticks - 1)
}

/// The word of an interval in a cell.
pub fn interval_word(interval: Interval) -> u32 {
    INTERVAL << 30 | interval.departure << 11 | interval.arrival
}

/// The word of a contact in a log.
pub fn contact_word(contact: Contact) -> u32 {
    CONTACT << 30 | contact.from << 18 | contact.to << 10 | (contact.tick - 1)
}

/// The word that counts the rows in use of a cell.
pub fn count_word(rows: u32) -> u32 {
    COUNT << 30 | rows
}

/// The word that ends a log of so many contacts.
pub fn end_word(contacts: u32) -> u32 {
    END << 30 | contacts
}

/// The opening of an opening word.
pub fn read_opening(word: u32) -> Option<Opening> {
    let animals = bits(word, 25, 18) + 1;
    let carry = bits(word, 17, 10) + 1;
    let ticks = bits(word, 9, 0) + 1;
    (kind(word) == OPENING && bits(word, 29, 26) == 0)
        .then_some(Opening::new(animals, ticks, carry))
}

/// The interval of an interval word.
pub fn read_interval(word: u32) -> Option<Interval> {
    let interval = Interval::new(bits(word, 21, 11), bits(word, 10, 0));
    (kind(word) == INTERVAL && bits(word, 29, 22) == 0).then_some(interval)
}

/// The contact of a contact word, legal or not.
pub fn read_contact(word: u32) -> Option<Contact> {
    let (from, to) = (bits(word, 25, 18), bits(word, 17, 10));
    let contact = Contact::new(from, to, bits(word, 9, 0) + 1);
    (kind(word) == CONTACT && bits(word, 29, 26) == 0).then_some(contact)
}

/// The contacts that an end word counts.
pub fn read_end(word: u32) -> Option<u32> {
    (kind(word) == END && bits(word, 29, 26) == 0).then_some(bits(word, 25, 0))
}

/// The rows of a count word.
pub fn read_count(word: u32) -> Option<u32> {
    (kind(word) == COUNT && bits(word, 29, 11) == 0).then_some(bits(word, 10, 0))
}

/// The words of the table with these cells.
pub fn table(opening: Opening, cells: &Cells) -> Vec<u32> {
    let mut words = vec![opening_word(opening)];
    for cell in cells {
        words.push(count_word(cell.len() as u32));
        words.extend(cell.iter().map(|&interval| interval_word(interval)));
        words.extend((cell.len()..opening.ticks as usize).map(|_| 0));
    }
    words
}

/// The words of these contacts, as in a log or a chain.
pub fn contact_words(contacts: &[Contact]) -> Vec<u32> {
    contacts.iter().copied().map(contact_word).collect()
}

/// The words of the log of these contacts, in the order in which they come.
pub fn log(opening: Opening, contacts: impl IntoIterator<Item = Contact>) -> Vec<u32> {
    let mut words = vec![opening_word(opening)];
    words.extend(contacts.into_iter().map(contact_word));
    words.push(end_word(words.len() as u32 - 1));
    words
}
