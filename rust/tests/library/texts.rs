//! What each error says, and the number of its refusal.

use crate::faults;
use herd::{Contact, Error, Stay};
use std::io;

/// A contact that no herd has.
const CONTACT: Contact = Contact::new(3, 258, 1025);

/// There is no animal 258.
fn no_such_animal(animals: u32) -> Error {
    let animal = 258;
    Error::NoSuchAnimal { animal, animals }
}

/// The tick is after the last.
fn no_such_tick(tick: u32, last: u32) -> Error {
    Error::NoSuchTick { tick, last }
}

/// The window from 9 to 2.
fn turned_round() -> Error {
    let (first, last) = (9, 2);
    Error::TurnedRound { first, last }
}

/// The errors of openings and questions.
fn of_numbers() -> Vec<(Error, u32)> {
    vec![
        (Error::Animals(257), 1),
        (Error::Ticks(0), 2),
        (Error::Carry(u32::MAX), 3),
        (no_such_animal(1), 7),
        (no_such_animal(9), 7),
        (Error::SameAnimal(5), 8),
        (no_such_tick(0, 1), 9),
        (no_such_tick(1281, 1280), 9),
        (turned_round(), 19),
        (Error::Damaged(6), 6),
    ]
}

/// The errors of contacts, stays and joins.
fn of_changes() -> Vec<(Error, u32)> {
    let (place, stay) = (12, Stay::new(7, 64, 9, 2));
    let in_contact = |reason| {
        let (contact, reason) = (CONTACT, Box::new(reason));
        Error::Contact { contact, reason }
    };
    let in_stay = |reason| {
        let reason = Box::new(reason);
        Error::Stay {
            place,
            stay,
            reason,
        }
    };
    let (first, second) = ([4, 6, 1], [5, 1000, 256]);
    vec![
        (in_contact(no_such_animal(4)), 7),
        (in_contact(Error::SameAnimal(77)), 8),
        (in_contact(no_such_tick(1025, 1024)), 9),
        (Error::NotHeld(CONTACT), 21),
        (Error::DifferentOpenings { first, second }, 17),
        (Error::NoSuchPen(64), 18),
        (in_stay(turned_round()), 18),
        (in_stay(no_such_animal(4)), 18),
        (in_stay(Error::NoSuchPen(64)), 18),
    ]
}

/// The errors of logs that have a number.
fn of_logs() -> Vec<(Error, u32)> {
    let (place, contact, reason) = (6, CONTACT, Box::new(no_such_animal(4)));
    let (word, contacts) = (0xC000_000F, 8);
    vec![
        (Error::NoOpeningWord, 11),
        (Error::NothingBehindOpening, 11),
        (Error::NoContactWord { place, word }, 12),
        (Error::NoContactWord { place, word: 15 }, 12),
        (
            Error::ContactWord {
                place,
                contact,
                reason,
            },
            13,
        ),
        (Error::WrongEnd { word, contacts }, 14),
    ]
}

#[test]
fn every_error_with_a_number_says_it_and_what_it_names() {
    let mut said = Vec::new();
    for (error, number) in [of_numbers(), of_changes(), of_logs()]
        .into_iter()
        .flatten()
    {
        assert_eq!(error.number(), Some(number), "{error:?}");
        faults::is_said(&error);
        said.push(number);
    }
    said.sort_unstable();
    said.dedup();
    assert_eq!(said, [1, 2, 3, 6, 7, 8, 9, 11, 12, 13, 14, 17, 18, 19, 21]);
}

#[test]
fn every_error_without_a_number_says_what_it_names() {
    for error in [
        Error::NotWholeWords { bytes: 1 << 40 },
        Error::LogTooLong,
        Error::Memory { words: 67_174_401 },
    ] {
        assert_eq!(error.number(), None, "{error:?}");
        faults::is_said(&error);
    }
    let kind = io::ErrorKind::BrokenPipe;
    let error = Error::from(io::Error::new(kind, "the pipe is broken"));
    faults::is_io(&error, kind);
    assert_eq!(error.to_string(), "the pipe is broken");
}
