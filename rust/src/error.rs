//! Why a call did not do what it was asked.

use crate::{Contact, Stay};
use std::fmt;
use std::io;

/// Why a call did not do what it was asked. Nothing has changed then: a herd is as it was before the call.
///
/// Each error says its reason in words, and [`number`](Error::number) gives the number of the refusal in the buyer's
/// documents.
///
/// ```
/// use herd::{Contact, Error, Herd};
///
/// let mut herd = Herd::open(4, 6, 1)?;
/// let error = herd.add((0, 258, 3)).unwrap_err();
/// assert_eq!(error.number(), Some(7));
/// assert_eq!(
///     error.to_string(),
///     "contact 0 -> 258 at tick 3: there is no animal 258, the animals are 0 to 3 (refusal 7)"
/// );
/// assert!(matches!(error, Error::Contact { contact, .. } if contact == Contact::new(0, 258, 3)));
/// # Ok::<(), Error>(())
/// ```
#[derive(Debug)]
#[non_exhaustive]
pub enum Error {
    /// A herd has 1 to 256 animals, not so many (refusal 1).
    Animals(u32),
    /// A calendar has 1 to 1,024 ticks, not so many (refusal 2).
    Ticks(u32),
    /// A carry time is 1 to 256 ticks, not so many (refusal 3).
    Carry(u32),
    /// The animals are numbered from 0, and this number is none of theirs (refusal 7).
    NoSuchAnimal {
        /// The number given.
        animal: u32,
        /// How many animals the herd has.
        animals: u32,
    },
    /// Both animals are the same (refusal 8).
    SameAnimal(u32),
    /// The tick is not from 1 to the last that the call takes (refusal 9).
    NoSuchTick {
        /// The tick given.
        tick: u32,
        /// The last tick that the call takes.
        last: u32,
    },
    /// Both ticks of a window are in range, but its first is after its last (refusal 19).
    TurnedRound {
        /// The first tick.
        first: u32,
        /// The last tick.
        last: u32,
    },
    /// A contact is not one of the herd's animals and ticks; the refusal's number is that of the reason (7, 8 or 9).
    Contact {
        /// The contact.
        contact: Contact,
        /// What is wrong with it.
        reason: Box<Error>,
    },
    /// The contact to be removed is not held (refusal 21).
    NotHeld(Contact),
    /// Two herds that are joined are not opened alike (refusal 17).
    DifferentOpenings {
        /// Animals, ticks and carry time of the first.
        first: [u32; 3],
        /// Animals, ticks and carry time of the second.
        second: [u32; 3],
    },
    /// The pens are numbered 0 to 63, and this number is none of theirs (refusal 18).
    NoSuchPen(u32),
    /// A stay is not one of the herd's animals and ticks, or in no pen (refusal 18).
    Stay {
        /// Its place in the list, counted from 0; 0 where it was judged alone.
        place: usize,
        /// The stay.
        stay: Stay,
        /// What is wrong with it.
        reason: Box<Error>,
    },
    /// A log does not begin with an opening word (refusal 11).
    NoOpeningWord,
    /// A log breaks off behind its opening word (refusal 11).
    NothingBehindOpening,
    /// A word of a log between its first and its last is no contact word (refusal 12).
    NoContactWord {
        /// Its place in the log, counted from 0 in words.
        place: usize,
        /// The word.
        word: u32,
    },
    /// A contact of a log is not one of its animals and ticks (refusal 13).
    ContactWord {
        /// Its place in the log, counted from 0 in words.
        place: usize,
        /// The contact.
        contact: Contact,
        /// What is wrong with it.
        reason: Box<Error>,
    },
    /// The last word of a log is no end word with the number of its contacts (refusal 14).
    WrongEnd {
        /// The last word.
        word: u32,
        /// The number of words between the first and the last.
        contacts: usize,
    },
    /// A log ends within a word of four bytes (no number: it is no list of words yet).
    NotWholeWords {
        /// How many bytes it has.
        bytes: u64,
    },
    /// A log is longer than any that could be read: its end word cannot count its contacts (no number: it is not read to
    /// its end).
    LogTooLong,
    /// A log could not be read or written (no number).
    Io(io::Error),
    /// There is no memory for so many words (no number).
    Memory {
        /// How many words of four bytes were asked for.
        words: usize,
    },
    /// The engine refused words that are the library's own, with this number, or, where it is 0, gave an answer that cannot
    /// be. It means that memory was changed from outside: do not trust the herd any more.
    Damaged(u32),
}

impl Error {
    /// The number of the refusal in document 01 or 02, where the engine has one for it.
    #[must_use]
    pub fn number(&self) -> Option<u32> {
        match self {
            Error::Animals(_) => Some(1),
            Error::Ticks(_) => Some(2),
            Error::Carry(_) => Some(3),
            Error::NoSuchAnimal { .. } => Some(7),
            Error::SameAnimal(_) => Some(8),
            Error::NoSuchTick { .. } => Some(9),
            Error::NoOpeningWord | Error::NothingBehindOpening => Some(11),
            Error::NoContactWord { .. } => Some(12),
            Error::ContactWord { .. } => Some(13),
            Error::WrongEnd { .. } => Some(14),
            Error::DifferentOpenings { .. } => Some(17),
            Error::NoSuchPen(_) | Error::Stay { .. } => Some(18),
            Error::TurnedRound { .. } => Some(19),
            Error::NotHeld(_) => Some(21),
            Error::Contact { reason, .. } => reason.number(),
            Error::Damaged(number) => Some(*number).filter(|&number| number > 0),
            Error::NotWholeWords { .. }
            | Error::LogTooLong
            | Error::Io(_)
            | Error::Memory { .. } => None,
        }
    }

    /// The reason in words, without the refusal's number.
    fn reason(&self, f: &mut fmt::Formatter<'_>) -> fmt::Result {
        match self {
            Error::Animals(animals) => {
                write!(f, "a herd has 1 to 256 animals, not {animals}")
            }
            Error::Ticks(ticks) => write!(f, "a calendar has 1 to 1024 ticks, not {ticks}"),
            Error::Carry(carry) => write!(f, "a carry time is 1 to 256 ticks, not {carry}"),
            Error::NoSuchAnimal { animal, animals: 1 } => {
                write!(f, "there is no animal {animal}, the only animal is 0")
            }
            Error::NoSuchAnimal { animal, animals } => {
                let last = animals.saturating_sub(1);
                write!(
                    f,
                    "there is no animal {animal}, the animals are 0 to {last}"
                )
            }
            Error::SameAnimal(animal) => {
                write!(
                    f,
                    "animal {animal} is named twice, two different animals are needed"
                )
            }
            Error::NoSuchTick { tick, last: 1 } => {
                write!(f, "tick {tick} is out of range, the only tick is 1")
            }
            Error::NoSuchTick { tick, last } => {
                write!(f, "tick {tick} is out of range, the ticks are 1 to {last}")
            }
            Error::TurnedRound { first, last } => {
                write!(f, "the window is turned round: its first tick {first} is after its last tick {last}")
            }
            Error::Contact { contact, reason } => {
                write!(f, "contact {contact}: ")?;
                reason.reason(f)
            }
            Error::NotHeld(contact) => write!(f, "contact {contact} is not held"),
            Error::DifferentOpenings { first, second } => {
                f.write_str("the two are not opened alike: ")?;
                opening(f, first)?;
                f.write_str(" and ")?;
                opening(f, second)
            }
            Error::NoSuchPen(pen) => write!(f, "there is no pen {pen}, the pens are 0 to 63"),
            Error::Stay { stay, reason, .. } => {
                write!(f, "stay of {stay}: ")?;
                reason.reason(f)
            }
            Error::NoOpeningWord => {
                f.write_str("not a log: it does not begin with an opening word")
            }
            Error::NothingBehindOpening => {
                f.write_str("the log breaks off behind its opening word")
            }
            Error::NoContactWord { place, word } => {
                write!(f, "word {place} of the log, {word:08X}, is no contact")
            }
            Error::ContactWord {
                place,
                contact,
                reason,
            } => {
                write!(f, "word {place} of the log, contact {contact}: ")?;
                reason.reason(f)
            }
            Error::WrongEnd { word, contacts } => write!(
                f,
                "the last word of the log, {word:08X}, does not end a log of {contacts} contacts"
            ),
            Error::NotWholeWords { bytes } => {
                write!(f, "not a whole log: its {bytes} bytes are no multiple of 4")
            }
            Error::LogTooLong => f.write_str("the log is longer than any log can be"),
            Error::Io(error) => fmt::Display::fmt(error, f),
            Error::Memory { words } => write!(f, "no memory for {words} words of four bytes"),
            Error::Damaged(_) => f.write_str("the herd's own words are damaged"),
        }
    }
}

/// Writes animals, ticks and carry time.
fn opening(f: &mut fmt::Formatter<'_>, [animals, ticks, carry]: &[u32; 3]) -> fmt::Result {
    write!(f, "{animals} animals, {ticks} ticks, carry time {carry}")
}

/// The reason in words, and the refusal's number in brackets where there is one.
impl fmt::Display for Error {
    fn fmt(&self, f: &mut fmt::Formatter<'_>) -> fmt::Result {
        self.reason(f)?;
        match self.number() {
            Some(number) => write!(f, " (refusal {number})"),
            None => Ok(()),
        }
    }
}

impl std::error::Error for Error {}

impl From<io::Error> for Error {
    fn from(error: io::Error) -> Error {
        Error::Io(error)
    }
}
