//! A herd that owns its table.

use crate::calls::{self, Added as Add, Answer, Chain, Done, Found, Joined, Opened};
use crate::calls::{Reached, StaysAdded};
use crate::words::{self, Opening};
use crate::{Contact, Error, Interval, Stay};
use std::fmt;
use std::ops::RangeInclusive;

/// The words of a set of animals.
const SET_WORDS: usize = 8;

/// What [`Herd::add`] did.
#[must_use]
#[derive(Clone, Copy, Debug, PartialEq, Eq)]
pub enum Added {
    /// The contact is held now and was not before.
    New {
        /// For how many ordered pairs of animals it changed the minimal intervals.
        changed: u32,
    },
    /// The contact was held before; nothing has changed.
    Known,
}

/// The contacts of a herd, and what follows from them: who can have reached whom, and when.
///
/// A herd is opened for so many animals, ticks and a carry time, and holds contacts, each at most once. In which order they
/// came does not matter: two herds are equal exactly when they are opened alike and hold the same contacts.
///
/// Beside the errors that a method names, any of them can give [`Error::Memory`] and [`Error::Damaged`].
///
/// ```
/// use herd::{Contact, Herd, Interval};
///
/// let mut herd = Herd::open(4, 6, 1)?;
/// assert_eq!(herd.extend([(1, 3, 4), (0, 1, 1), (0, 1, 2), (0, 1, 1)])?, 3);
///
/// assert!(herd.reach(0, 3, 1..=4)?);
/// assert!(!herd.reach(0, 3, 1..=3)?);
/// assert_eq!(herd.chain(0, 3, 1..=6)?, Some(vec![Contact::new(0, 1, 2), Contact::new(1, 3, 4)]));
/// assert_eq!(herd.earliest(0, 3, 1)?, Some(Interval::new(2, 5)));
/// assert_eq!(herd.reached(0, 1..=6)?, [1, 3]);
/// # Ok::<(), herd::Error>(())
/// ```
#[derive(Clone, PartialEq, Eq)]
pub struct Herd {
    opening: Opening,
    table: Vec<u32>,
    held: usize,
}

impl Herd {
    /// Opens a herd of `animals` animals, numbered from 0, with a calendar of `ticks` ticks, numbered from 1, and a carry
    /// time of `carry` ticks. It holds no contact.
    ///
    /// # Errors
    ///
    /// [`Error::Animals`], [`Error::Ticks`] or [`Error::Carry`] where a number is beyond its limits.
    ///
    /// ```
    /// use herd::Herd;
    ///
    /// let herd = Herd::open(256, 1024, 256)?;
    /// assert_eq!((herd.animals(), herd.ticks(), herd.carry()), (256, 1024, 256));
    /// let error = Herd::open(4, 1025, 1).unwrap_err();
    /// assert_eq!(error.to_string(), "a calendar has 1 to 1024 ticks, not 1025 (refusal 2)");
    /// # Ok::<(), herd::Error>(())
    /// ```
    pub fn open(animals: u32, ticks: u32, carry: u32) -> Result<Herd, Error> {
        let opening = Opening {
            animals,
            ticks,
            carry,
        };
        // An empty table has no opening's length, so that 4 says that the three numbers are within their limits.
        match calls::open(&mut [], animals, ticks, carry) {
            Opened::Refused(4) => {}
            Opened::Refused(1) => return Err(Error::Animals(animals)),
            Opened::Refused(2) => return Err(Error::Ticks(ticks)),
            Opened::Refused(3) => return Err(Error::Carry(carry)),
            Opened::Refused(number) => return Err(Error::Damaged(number)),
            Opened::Opened => return Err(Error::Damaged(0)),
        }
        let mut table = memory(opening.table_words())?;
        match calls::open(&mut table, animals, ticks, carry) {
            Opened::Opened => Ok(Herd::over(opening, table, 0)),
            Opened::Refused(number) => Err(Error::Damaged(number)),
        }
    }

    /// The herd with this opening, these words and so many contacts.
    pub(crate) fn over(opening: Opening, table: Vec<u32>, held: usize) -> Herd {
        Herd {
            opening,
            table,
            held,
        }
    }

    /// How many animals the herd has; they are numbered from 0.
    #[must_use]
    pub fn animals(&self) -> u32 {
        self.opening.animals
    }

    /// How many ticks the calendar has; they are numbered from 1.
    #[must_use]
    pub fn ticks(&self) -> u32 {
        self.opening.ticks
    }

    /// How many ticks a contact takes from its departure to its arrival.
    #[must_use]
    pub fn carry(&self) -> u32 {
        self.opening.carry
    }

    /// The window of all ticks.
    ///
    /// ```
    /// use herd::Herd;
    ///
    /// assert_eq!(Herd::open(4, 6, 1)?.calendar(), 1..=6);
    /// # Ok::<(), herd::Error>(())
    /// ```
    #[must_use]
    pub fn calendar(&self) -> RangeInclusive<u32> {
        1..=self.opening.ticks
    }

    /// How many different contacts the herd holds.
    #[must_use]
    pub fn held(&self) -> usize {
        self.held
    }

    /// Whether a contact is one of the herd's animals and ticks, held or not. No call of the engine is made, so this is
    /// quick.
    ///
    /// # Errors
    ///
    /// [`Error::Contact`] with the reason for which [`add`](Herd::add) would refuse it.
    ///
    /// ```
    /// use herd::Herd;
    ///
    /// let herd = Herd::open(4, 6, 1)?;
    /// herd.judge((0, 1, 6))?;
    /// assert_eq!(herd.judge((0, 1, 7)).unwrap_err().number(), Some(9));
    /// # Ok::<(), herd::Error>(())
    /// ```
    pub fn judge(&self, contact: impl Into<Contact>) -> Result<(), Error> {
        self.opening.contact_word(contact.into()).map(|_| ())
    }

    /// Whether a stay is of the herd's animals and ticks, and in a pen from 0 to 63. No call of the engine is made, so this
    /// is quick.
    ///
    /// # Errors
    ///
    /// [`Error::Stay`] with the reason for which [`stays`](Herd::stays) would refuse it.
    ///
    /// ```
    /// use herd::Herd;
    ///
    /// let herd = Herd::open(4, 6, 1)?;
    /// herd.judge_stay((3, 63, 1, 6))?;
    /// let error = herd.judge_stay((3, 64, 1, 6)).unwrap_err();
    /// assert_eq!(
    ///     error.to_string(),
    ///     "stay of animal 3 in pen 64 from tick 1 to tick 6: there is no pen 64, the pens are 0 to 63 (refusal 18)"
    /// );
    /// # Ok::<(), herd::Error>(())
    /// ```
    pub fn judge_stay(&self, stay: impl Into<Stay>) -> Result<(), Error> {
        self.judge_stay_at(0, stay.into())
    }

    /// Adds one contact.
    ///
    /// Many contacts are added sooner by [`extend`](Herd::extend): each call checks the whole table.
    ///
    /// # Errors
    ///
    /// [`Error::Contact`] where it is not one of the herd's animals and ticks.
    ///
    /// ```
    /// use herd::{Added, Herd};
    ///
    /// let mut herd = Herd::open(4, 6, 1)?;
    /// assert_eq!(herd.add((1, 3, 4))?, Added::New { changed: 1 });
    /// assert_eq!(herd.add((0, 1, 2))?, Added::New { changed: 2 });
    /// assert_eq!(herd.add((0, 1, 2))?, Added::Known);
    /// assert_eq!(herd.held(), 2);
    /// # Ok::<(), herd::Error>(())
    /// ```
    pub fn add(&mut self, contact: impl Into<Contact>) -> Result<Added, Error> {
        let contact = contact.into();
        match calls::add(&mut self.table, contact.from, contact.to, contact.tick) {
            Add::New(changed) => {
                self.held += 1;
                Ok(Added::New { changed })
            }
            Add::Known(_) => Ok(Added::Known),
            Add::Refused(number) => Err(self.contact_refused(number, contact)),
        }
    }

    /// Adds all contacts, in any order and with repeats, and says how many of them were not held before.
    ///
    /// They are loaded together with those that are held, as a log is: this takes a few passes over the table, and for each
    /// contact a step for each animal.
    ///
    /// # Errors
    ///
    /// [`Error::Contact`] at the first that is not one of the herd's animals and ticks; then none is added.
    ///
    /// ```
    /// use herd::{Contact, Error, Herd};
    ///
    /// let mut herd = Herd::open(4, 6, 1)?;
    /// assert_eq!(herd.extend([(0, 1, 1), (1, 3, 4), (0, 1, 1)])?, 2);
    /// let met = Contact::new(2, 3, 6);
    /// assert_eq!(herd.extend([met, met.back(), Contact::new(0, 1, 1)])?, 2);
    ///
    /// let error = herd.extend([(0, 2, 5), (0, 1, 7)]).unwrap_err();
    /// assert!(matches!(error, Error::Contact { contact, .. } if contact == Contact::new(0, 1, 7)));
    /// assert_eq!(herd.held(), 4);
    /// # Ok::<(), Error>(())
    /// ```
    pub fn extend<I>(&mut self, contacts: I) -> Result<usize, Error>
    where
        I: IntoIterator,
        I::Item: Into<Contact>,
    {
        let mut log = self.log()?;
        log.pop();
        let before = log.len();
        for contact in contacts {
            log.push(self.opening.contact_word(contact.into())?);
        }
        if log.len() == before {
            return Ok(0);
        }
        self.load(log)
    }

    /// Loads a log without its end word that has the herd's opening and all its contacts, and says how many are new. The
    /// engine loads a log soonest in log order, and an end word can count all contacts where none comes twice.
    fn load(&mut self, mut log: Vec<u32>) -> Result<usize, Error> {
        log[1..].sort_unstable_by_key(|&word| words::log_order(word));
        log.dedup();
        log.push(words::end_word(log.len() - 1));
        match calls::read_log(&log, &mut self.table) {
            calls::Read::Contacts(all) => {
                let before = std::mem::replace(&mut self.held, all as usize);
                Ok(self.held - before)
            }
            calls::Read::Refused(number) => Err(Error::Damaged(number)),
        }
    }

    /// Takes one contact out again. The herd is then as if it had never been added.
    ///
    /// The contacts left are loaded again, and a second table is taken for the time of the call.
    ///
    /// # Errors
    ///
    /// [`Error::Contact`] where it is not one of the herd's animals and ticks, [`Error::NotHeld`] where the herd does not
    /// hold it.
    ///
    /// ```
    /// use herd::Herd;
    ///
    /// let mut herd = Herd::open(4, 6, 1)?;
    /// herd.extend([(0, 1, 2), (1, 3, 4)])?;
    /// herd.remove((0, 1, 2))?;
    /// assert!(!herd.reach(0, 3, 1..=6)?);
    /// assert_eq!(herd.remove((0, 1, 2)).unwrap_err().to_string(), "contact 0 -> 1 at tick 2 is not held (refusal 21)");
    /// # Ok::<(), herd::Error>(())
    /// ```
    pub fn remove(&mut self, contact: impl Into<Contact>) -> Result<(), Error> {
        let contact @ Contact { from, to, tick } = contact.into();
        let mut work = memory(self.table.len())?;
        match calls::remove(&mut self.table, &mut work, from, to, tick) {
            Done::Done => {
                self.held -= 1;
                Ok(())
            }
            Done::Refused(21) => Err(Error::NotHeld(contact)),
            Done::Refused(number) => Err(self.contact_refused(number, contact)),
        }
    }

    /// Adds all contacts of another herd, and says how many of them were not held before.
    ///
    /// # Errors
    ///
    /// [`Error::DifferentOpenings`] where the two have not the same animals, ticks and carry time.
    ///
    /// ```
    /// use herd::Herd;
    ///
    /// let (mut north, mut south) = (Herd::open(4, 6, 1)?, Herd::open(4, 6, 1)?);
    /// north.extend([(0, 1, 2), (2, 0, 1)])?;
    /// south.extend([(0, 1, 2), (1, 3, 4)])?;
    /// assert_eq!(north.join(&south)?, 1);
    /// assert!(north.reach(0, 3, 1..=4)?);
    /// # Ok::<(), herd::Error>(())
    /// ```
    pub fn join(&mut self, other: &Herd) -> Result<usize, Error> {
        match calls::join(&mut self.table, &other.table) {
            Joined::New(contacts) => Ok(self.gain(contacts)),
            Joined::Refused(17) => Err(Error::DifferentOpenings {
                first: self.opening.numbers(),
                second: other.opening.numbers(),
            }),
            Joined::Refused(number) => Err(Error::Damaged(number)),
        }
    }

    /// Adds the contacts of a list of stays, and says how many of them were not held before: two different animals in the
    /// same pen at a shared tick met at that tick, both ways. Stays of one animal may overlap, in one pen or in two.
    ///
    /// # Errors
    ///
    /// [`Error::Stay`] at the first that is not of the herd's animals and ticks, or in no pen; then no contact is added.
    ///
    /// ```
    /// use herd::{Herd, Stay};
    ///
    /// let mut herd = Herd::open(4, 6, 1)?;
    /// assert_eq!(herd.stays(&[Stay::new(2, 9, 1, 3), Stay::new(0, 9, 2, 5)])?, 4);
    /// assert!(herd.reach(2, 0, 3..=3)? && herd.reach(0, 2, 2..=2)?);
    /// let error = herd.stays(&[Stay::new(2, 64, 1, 3)]).unwrap_err();
    /// assert_eq!(error.number(), Some(18));
    /// # Ok::<(), herd::Error>(())
    /// ```
    pub fn stays(&mut self, stays: &[Stay]) -> Result<usize, Error> {
        match calls::stays(&mut self.table, Stay::words(stays)) {
            StaysAdded::New(contacts) => Ok(self.gain(contacts)),
            StaysAdded::Refused(18) => Err(self.stay_refused(stays)),
            StaysAdded::Refused(number) => Err(Error::Damaged(number)),
        }
    }

    /// Counts so many contacts more.
    fn gain(&mut self, contacts: u32) -> usize {
        self.held += contacts as usize;
        contacts as usize
    }

    /// The contacts that the herd holds, each once, in log order: by tick, then by the animal left, then by the animal met.
    ///
    /// ```
    /// use herd::{Contact, Herd};
    ///
    /// let mut herd = Herd::open(4, 6, 1)?;
    /// herd.extend([(1, 3, 4), (0, 1, 2), (0, 1, 2)])?;
    /// assert_eq!(herd.contacts()?, [Contact::new(0, 1, 2), Contact::new(1, 3, 4)]);
    /// # Ok::<(), herd::Error>(())
    /// ```
    pub fn contacts(&self) -> Result<Vec<Contact>, Error> {
        let log = self.log()?;
        let between = &log[1..log.len() - 1];
        Ok(between.iter().copied().map(words::contact_of).collect())
    }

    /// The words of the herd's log.
    pub(crate) fn log(&self) -> Result<Vec<u32>, Error> {
        if self.held == 0 {
            return Ok(vec![self.table[0], words::end_word(0)]);
        }
        let mut log = memory(self.held + 2)?;
        match calls::write_log(&self.table, &mut log) {
            calls::Written::Written(words) if words as usize == log.len() => Ok(log),
            calls::Written::Written(_) => Err(Error::Damaged(0)),
            calls::Written::Refused(number) => Err(Error::Damaged(number)),
        }
    }

    /// Whether `from` can have reached `to` in the window: yes when a journey has all its contacts at these ticks, no when
    /// none has. It may arrive after the window, by up to the carry time.
    ///
    /// # Errors
    ///
    /// [`Error::NoSuchAnimal`], [`Error::SameAnimal`], [`Error::NoSuchTick`] and [`Error::TurnedRound`].
    ///
    /// ```
    /// use herd::Herd;
    ///
    /// let mut herd = Herd::open(4, 6, 1)?;
    /// herd.extend([(0, 1, 2), (1, 3, 4)])?;
    /// assert!(herd.reach(0, 3, 2..=4)?);
    /// assert!(!herd.reach(0, 3, 3..=6)?);
    /// assert_eq!(herd.reach(0, 3, 1..=7).unwrap_err().number(), Some(9));
    /// # Ok::<(), herd::Error>(())
    /// ```
    pub fn reach(&self, from: u32, to: u32, window: RangeInclusive<u32>) -> Result<bool, Error> {
        let (first, last) = window.into_inner();
        let answer = calls::reach(&self.table, from, to, first, last);
        self.yes_or_no(answer, &[from, to], &[first, last])
    }

    /// The contacts of one journey from `from` to `to` in the window, or nothing where there is none.
    ///
    /// Of all such journeys it is one that arrives first, of these one that departs last, and it goes by the lowest-numbered
    /// animals.
    ///
    /// # Errors
    ///
    /// As [`reach`](Herd::reach).
    ///
    /// ```
    /// use herd::{Contact, Herd};
    ///
    /// let mut herd = Herd::open(4, 6, 1)?;
    /// herd.extend([(0, 1, 1), (0, 1, 2), (1, 3, 4)])?;
    /// assert_eq!(herd.chain(0, 3, 1..=6)?, Some(vec![Contact::new(0, 1, 2), Contact::new(1, 3, 4)]));
    /// assert_eq!(herd.chain(3, 0, 1..=6)?, None);
    /// # Ok::<(), herd::Error>(())
    /// ```
    pub fn chain(
        &self,
        from: u32,
        to: u32,
        window: RangeInclusive<u32>,
    ) -> Result<Option<Vec<Contact>>, Error> {
        let (first, last) = window.into_inner();
        let mut buffer = memory(self.opening.animals as usize - 1)?;
        match calls::chain(&self.table, from, to, first, last, &mut buffer) {
            Chain::Contacts(contacts) => {
                let chain = buffer.into_iter().take(contacts as usize);
                Ok(Some(chain.map(words::contact_of).collect()))
            }
            Chain::NoJourney => Ok(None),
            Chain::Refused(number) => Err(self.refused(number, &[from, to], &[first, last])),
        }
    }

    /// The animals that `from` can have reached in the window, by their numbers; itself is not among them.
    ///
    /// # Errors
    ///
    /// [`Error::NoSuchAnimal`], [`Error::NoSuchTick`] and [`Error::TurnedRound`].
    ///
    /// ```
    /// use herd::Herd;
    ///
    /// let mut herd = Herd::open(4, 6, 1)?;
    /// herd.extend([(0, 1, 2), (1, 3, 4), (1, 0, 5)])?;
    /// assert_eq!(herd.reached(0, 1..=6)?, [1, 3]);
    /// assert_eq!(herd.reached(0, 1..=3)?, [1]);
    /// # Ok::<(), herd::Error>(())
    /// ```
    pub fn reached(&self, from: u32, window: RangeInclusive<u32>) -> Result<Vec<u32>, Error> {
        let (first, last) = window.into_inner();
        let mut set = [0; SET_WORDS];
        match calls::reached(&self.table, from, first, last, &mut set) {
            Reached::Animals(_) => {
                let is_in = |animal: &u32| set[*animal as usize / 32] >> (animal % 32) & 1 == 1;
                Ok((0..self.opening.animals).filter(is_in).collect())
            }
            Reached::Refused(number) => Err(self.refused(number, &[from], &[first, last])),
        }
    }

    /// Of the journeys from `from` to `to` that depart at `first` or later, the interval of one that arrives first, and of
    /// these departs last; nothing where none departs so.
    ///
    /// # Errors
    ///
    /// [`Error::NoSuchAnimal`], [`Error::SameAnimal`], and [`Error::NoSuchTick`] where `first` is not from 1 to the ticks
    /// and the carry time together.
    ///
    /// ```
    /// use herd::{Herd, Interval};
    ///
    /// let mut herd = Herd::open(4, 6, 1)?;
    /// herd.extend([(0, 1, 1), (0, 1, 2), (1, 3, 4)])?;
    /// assert_eq!(herd.earliest(0, 3, 1)?, Some(Interval::new(2, 5)));
    /// assert_eq!(herd.earliest(0, 3, 3)?, None);
    /// # Ok::<(), herd::Error>(())
    /// ```
    pub fn earliest(&self, from: u32, to: u32, first: u32) -> Result<Option<Interval>, Error> {
        self.found(
            calls::earliest(&self.table, from, to, first),
            from,
            to,
            first,
        )
    }

    /// Of the journeys from `from` to `to` that arrive by `last`, the interval of one that departs last, and of these arrives
    /// first; nothing where none arrives so.
    ///
    /// # Errors
    ///
    /// As [`earliest`](Herd::earliest).
    ///
    /// ```
    /// use herd::{Herd, Interval};
    ///
    /// let mut herd = Herd::open(4, 6, 1)?;
    /// herd.extend([(0, 1, 1), (0, 1, 2), (1, 3, 4)])?;
    /// assert_eq!(herd.latest(0, 3, 5)?, Some(Interval::new(2, 5)));
    /// assert_eq!(herd.latest(0, 3, 4)?, None);
    /// # Ok::<(), herd::Error>(())
    /// ```
    pub fn latest(&self, from: u32, to: u32, last: u32) -> Result<Option<Interval>, Error> {
        self.found(calls::latest(&self.table, from, to, last), from, to, last)
    }

    /// The interval found, or why none was looked for.
    fn found(
        &self,
        found: Found,
        from: u32,
        to: u32,
        tick: u32,
    ) -> Result<Option<Interval>, Error> {
        let last = self.opening.last_arrival();
        match found {
            Found::At(interval) => Ok(Some(interval)),
            Found::Nothing => Ok(None),
            Found::Refused(9) => Err(Error::NoSuchTick { tick, last }),
            Found::Refused(number) => Err(self.refused(number, &[from, to], &[])),
        }
    }

    /// Whether each animal can have reached every other one in the window. One animal alone is connected.
    ///
    /// # Errors
    ///
    /// [`Error::NoSuchTick`] and [`Error::TurnedRound`].
    ///
    /// ```
    /// use herd::Herd;
    ///
    /// let mut herd = Herd::open(3, 6, 1)?;
    /// herd.extend([(0, 1, 1), (1, 2, 2), (2, 0, 3), (0, 1, 4)])?;
    /// assert!(herd.connected(1..=4)?);
    /// assert!(!herd.connected(1..=3)?);
    /// # Ok::<(), herd::Error>(())
    /// ```
    pub fn connected(&self, window: RangeInclusive<u32>) -> Result<bool, Error> {
        let (first, last) = window.into_inner();
        let answer = calls::connected(&self.table, first, last);
        self.yes_or_no(answer, &[], &[first, last])
    }

    /// Whether the herd holds each contact of a claimed chain, one or more, and they form a journey from `from` to `to` in
    /// the window.
    ///
    /// # Errors
    ///
    /// As [`reach`](Herd::reach), and before that [`Error::Contact`] at the first contact that is not one of the herd's
    /// animals and ticks.
    ///
    /// ```
    /// use herd::Herd;
    ///
    /// let mut herd = Herd::open(4, 6, 1)?;
    /// herd.extend([(0, 1, 1), (0, 1, 2), (1, 3, 4)])?;
    /// assert!(herd.claimed(0, 3, 1..=6, [(0, 1, 1), (1, 3, 4)])?);
    /// assert!(!herd.claimed(0, 3, 1..=6, [(0, 1, 3), (1, 3, 4)])?);
    /// # Ok::<(), herd::Error>(())
    /// ```
    pub fn claimed<I>(
        &self,
        from: u32,
        to: u32,
        window: RangeInclusive<u32>,
        chain: I,
    ) -> Result<bool, Error>
    where
        I: IntoIterator,
        I::Item: Into<Contact>,
    {
        let word = |contact: I::Item| self.opening.contact_word(contact.into());
        let chain = chain
            .into_iter()
            .map(word)
            .collect::<Result<Vec<u32>, Error>>()?;
        let (first, last) = window.into_inner();
        let answer = calls::claimed(&self.table, from, to, first, last, &chain);
        self.yes_or_no(answer, &[from, to], &[first, last])
    }

    /// The minimal intervals of the journeys from `from` to `to`, by departure: no other such journey lies inside one of
    /// them.
    ///
    /// They are read off the table without a check of the others, so this call is short.
    ///
    /// # Errors
    ///
    /// [`Error::NoSuchAnimal`] and [`Error::SameAnimal`].
    ///
    /// ```
    /// use herd::{Herd, Interval};
    ///
    /// let mut herd = Herd::open(4, 6, 1)?;
    /// herd.extend([(0, 1, 1), (0, 1, 2), (1, 3, 4)])?;
    /// assert_eq!(herd.intervals(0, 1)?, [Interval::new(1, 2), Interval::new(2, 3)]);
    /// assert_eq!(herd.intervals(0, 3)?, [Interval::new(2, 5)]);
    /// # Ok::<(), herd::Error>(())
    /// ```
    pub fn intervals(&self, from: u32, to: u32) -> Result<Vec<Interval>, Error> {
        self.opening.judge_animal(from)?;
        self.opening.judge_animal(to)?;
        if from == to {
            return Err(Error::SameAnimal(from));
        }
        let size = self.opening.cell_words();
        let pair = from as usize * self.opening.animals as usize + to as usize;
        let cell = &self.table[1 + pair * size..1 + (pair + 1) * size];
        let rows = cell[1..].iter().take(words::rows_of(cell[0]));
        Ok(rows.copied().map(words::interval_of).collect())
    }

    /// The answer of a question for yes or no, or why there is none.
    fn yes_or_no(&self, answer: Answer, animals: &[u32], window: &[u32; 2]) -> Result<bool, Error> {
        match answer {
            Answer::Yes => Ok(true),
            Answer::No => Ok(false),
            Answer::Refused(number) => Err(self.refused(number, animals, window)),
        }
    }

    /// Why the engine refused a call with these animals and ticks of the calendar.
    fn refused(&self, number: u32, animals: &[u32], ticks: &[u32]) -> Error {
        let animal = animals
            .iter()
            .find_map(|&animal| self.opening.judge_animal(animal).err());
        let tick = ticks
            .iter()
            .find_map(|&tick| self.opening.judge_tick(tick).err());
        let reason = match (number, animals, ticks) {
            (7, ..) => animal,
            (8, &[one, other], _) if one == other => Some(Error::SameAnimal(one)),
            (9, ..) => tick,
            (19, _, &[first, last]) if first > last => Some(Error::TurnedRound { first, last }),
            _ => None,
        };
        reason.unwrap_or(Error::Damaged(number))
    }

    /// Why the engine refused a contact.
    fn contact_refused(&self, number: u32, contact: Contact) -> Error {
        let animals = [contact.from, contact.to];
        match self.refused(number, &animals, &[contact.tick]) {
            Error::Damaged(number) => Error::Damaged(number),
            reason => Error::Contact {
                contact,
                reason: Box::new(reason),
            },
        }
    }

    /// Why the engine refused a list of stays: the first of them that is none of the herd's.
    fn stay_refused(&self, stays: &[Stay]) -> Error {
        let mut judged = stays.iter().enumerate();
        let wrong = judged.find_map(|(place, &stay)| self.judge_stay_at(place, stay).err());
        wrong.unwrap_or(Error::Damaged(18))
    }

    /// Whether the stay at this place of a list is of the herd's animals and ticks, and in a pen.
    fn judge_stay_at(&self, place: usize, stay: Stay) -> Result<(), Error> {
        let wrong = |reason| Error::Stay {
            place,
            stay,
            reason: Box::new(reason),
        };
        self.opening.judge_stay(stay).map_err(wrong)
    }
}

/// The herd's numbers and how many contacts it holds, not its words.
impl fmt::Debug for Herd {
    fn fmt(&self, f: &mut fmt::Formatter<'_>) -> fmt::Result {
        f.debug_struct("Herd")
            .field("animals", &self.opening.animals)
            .field("ticks", &self.opening.ticks)
            .field("carry", &self.opening.carry)
            .field("held", &self.held)
            .finish_non_exhaustive()
    }
}

/// So many words, each 0.
pub(crate) fn memory(words: usize) -> Result<Vec<u32>, Error> {
    let mut memory = Vec::new();
    match memory.try_reserve_exact(words) {
        Ok(()) => memory.resize(words, 0),
        Err(_) => return Err(Error::Memory { words }),
    }
    Ok(memory)
}
