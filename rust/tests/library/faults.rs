//! What is wrong with the numbers of a call, judged in the order of documents 01 and 02, and how an error must say it.

use herd::{Contact, Error, Stay};
use herd_testing::words::{Opening, LAST_PEN};
use std::fmt::Debug;
use std::io::ErrorKind;

/// What is wrong with one or two animals, if anything.
pub fn of_animals(opening: Opening, numbers: &[u32]) -> Option<Error> {
    let animals = opening.animals;
    let beyond = numbers.iter().copied().find(|&animal| animal >= animals);
    match (beyond, numbers) {
        (Some(animal), _) => Some(Error::NoSuchAnimal { animal, animals }),
        (None, [one, other]) if one == other => Some(Error::SameAnimal(*one)),
        (None, _) => None,
    }
}

/// What is wrong with a tick that is from 1 to the last, if anything.
pub fn of_tick(tick: u32, last: u32) -> Option<Error> {
    let inside = 1 <= tick && tick <= last;
    (!inside).then_some(Error::NoSuchTick { tick, last })
}

/// What is wrong with a window, if anything.
pub fn of_window(opening: Opening, first: u32, last: u32) -> Option<Error> {
    let turned = || (first > last).then_some(Error::TurnedRound { first, last });
    of_tick(first, opening.ticks)
        .or_else(|| of_tick(last, opening.ticks))
        .or_else(turned)
}

/// What is wrong with a contact, if anything.
pub fn in_contact(opening: Opening, contact: Contact) -> Option<Error> {
    let animals = of_animals(opening, &[contact.from, contact.to]);
    animals.or_else(|| of_tick(contact.tick, opening.ticks))
}

/// The error that names the contact and what is wrong with it, if anything.
pub fn of_contact(opening: Opening, contact: Contact) -> Option<Error> {
    let reason = Box::new(in_contact(opening, contact)?);
    Some(Error::Contact { contact, reason })
}

/// The error that names the first contact of the list with which something is wrong, if any.
pub fn of_contacts(opening: Opening, contacts: &[Contact]) -> Option<Error> {
    let mut listed = contacts.iter();
    listed.find_map(|&contact| of_contact(opening, contact))
}

/// The error that names the stay, its place in a list and what is wrong with it, if anything.
pub fn of_stay(opening: Opening, place: usize, stay: Stay) -> Option<Error> {
    let pen = || (stay.pen > LAST_PEN).then_some(Error::NoSuchPen(stay.pen));
    let reason = of_animals(opening, &[stay.animal])
        .or_else(pen)
        .or_else(|| of_window(opening, stay.first, stay.last))?;
    let reason = Box::new(reason);
    Some(Error::Stay {
        place,
        stay,
        reason,
    })
}

/// The error that names the first stay of the list with which something is wrong, if any.
pub fn of_stays(opening: Opening, stays: &[Stay]) -> Option<Error> {
    let mut listed = stays.iter().enumerate();
    listed.find_map(|(place, &stay)| of_stay(opening, place, stay))
}

/// Fails unless the error is this one, with its number, and says it in words.
#[track_caller]
pub fn same(found: &Error, expected: &Error, case: impl Debug) {
    assert_eq!(
        format!("{found:?}"),
        format!("{expected:?}"),
        "{case:?}: {found}"
    );
    assert_eq!(found.number(), expected.number(), "{case:?}: {found}");
    is_said(found);
}

/// Fails unless the error is that of a reader or writer, of this kind and without a number, and says it in words.
#[track_caller]
pub fn is_io(error: &Error, kind: ErrorKind) {
    let of_kind = matches!(error, Error::Io(io) if io.kind() == kind);
    assert!(of_kind && error.number().is_none(), "{error:?}");
    is_said(error);
}

/// Fails unless the error's text has all that it must name, and ends with the number of the refusal, if it has one.
#[track_caller]
pub fn is_said(error: &Error) {
    let text = error.to_string();
    let said: Vec<&str> = text.split(|c: char| !c.is_ascii_alphanumeric()).collect();
    for named in names(error) {
        assert!(said.contains(&&named[..]), "{named} is not in: {text}");
    }
    let ending = error.number().map(|number| format!(" (refusal {number})"));
    assert_eq!(text.matches("(refusal").count(), ending.iter().count());
    assert!(text.ends_with(&ending.unwrap_or_default()), "{text}");
}

/// The numbers and words of a log that an error's text must have.
fn names(error: &Error) -> Vec<String> {
    match error {
        Error::Animals(number) | Error::Carry(number) => numbers(&[*number, 256]),
        Error::Ticks(number) => numbers(&[*number, 1024]),
        Error::NoSuchAnimal { animal, animals } => numbers(&[*animal, 0, animals - 1]),
        Error::SameAnimal(animal) => numbers(&[*animal]),
        Error::NoSuchTick { tick, last } => numbers(&[*tick, 1, *last]),
        Error::TurnedRound { first, last } => numbers(&[*first, *last]),
        Error::NoSuchPen(pen) => numbers(&[*pen, 0, 63]),
        Error::Contact { contact, reason } => [of(*contact), names(reason)].concat(),
        Error::NotHeld(contact) => of(*contact),
        Error::DifferentOpenings { first, second } => numbers(&[*first, *second].concat()),
        Error::Stay { stay, reason, .. } => {
            let stay = numbers(&[stay.animal, stay.pen, stay.first, stay.last]);
            [stay, names(reason)].concat()
        }
        Error::NoContactWord { place, word } => vec![place.to_string(), format!("{word:08X}")],
        Error::ContactWord {
            place,
            contact,
            reason,
        } => [vec![place.to_string()], of(*contact), names(reason)].concat(),
        Error::WrongEnd { word, contacts } => vec![format!("{word:08X}"), contacts.to_string()],
        Error::NotWholeWords { bytes } => vec![bytes.to_string()],
        Error::Memory { words } => vec![words.to_string()],
        _ => Vec::new(),
    }
}

/// The numbers of a contact.
fn of(contact: Contact) -> Vec<String> {
    numbers(&[contact.from, contact.to, contact.tick])
}

/// The numbers as text.
fn numbers(numbers: &[u32]) -> Vec<String> {
    numbers.iter().map(u32::to_string).collect()
}
