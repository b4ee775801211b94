//! Every method of [`Herd`], compared by running: with a plain search over contacts, with the calls on lent words, and with
//! what an error must say.

mod asked;
mod changes;
mod claims;
mod equality;
mod errors;
mod faults;
mod limits;
mod logs;
mod met;
mod misfits;
mod questions;
mod readers;
mod texts;
mod traces;
mod writers;

use herd::Herd;
use herd_testing::cases;
use herd_testing::model::Contacts;
use herd_testing::random::Random;
use herd_testing::words::{self, Contact, Opening, Window};
use std::ops::RangeInclusive;

/// The herd with these numbers that holds no contact.
fn opened(opening: Opening) -> Herd {
    let herd = Herd::open(opening.animals, opening.ticks, opening.carry);
    herd.unwrap_or_else(|error| panic!("{opening:?}: {error}"))
}

/// The herd with these numbers and contacts, added together in this order.
fn extended(opening: Opening, contacts: &[Contact]) -> Herd {
    let mut herd = opened(opening);
    let added = herd.extend(contacts.iter().copied());
    assert!(added.is_ok(), "{opening:?} {contacts:?}: {added:?}");
    herd
}

/// The herd with these numbers and contacts, which come in any order: together, singly, in two parts that share some, or
/// in a log.
fn built(random: &mut Random, opening: Opening, contacts: &Contacts) -> Herd {
    let mut order: Vec<Contact> = contacts.iter().copied().collect();
    random.shuffle(&mut order);
    let (one, other) = (random.below(order.len() + 1), random.below(order.len() + 1));
    let mut herd = opened(opening);
    match random.below(4) {
        0 => drop(herd.extend(order).unwrap()),
        1 => {
            for contact in order {
                let _ = herd.add(contact).unwrap();
            }
        }
        2 => {
            herd.extend(order[..one.max(other)].to_vec()).unwrap();
            herd.extend(order[one.min(other)..].to_vec()).unwrap();
        }
        _ => herd = Herd::read_log(&bytes(&words::log(opening, order))[..]).unwrap(),
    }
    herd
}

/// The bytes of the words, four to each, the highest first.
fn bytes(words: &[u32]) -> Vec<u8> {
    words.iter().flat_map(|word| word.to_be_bytes()).collect()
}

/// The window as a herd is given it.
fn range(window: Window) -> RangeInclusive<u32> {
    window.first..=window.last
}

/// Every ordered pair of different animals.
fn pairs(opening: Opening) -> Vec<(u32, u32)> {
    let two = cases::every_two(0, opening.animals - 1);
    two.filter(|(u, v)| u != v).collect()
}
