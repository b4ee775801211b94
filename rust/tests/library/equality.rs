//! Two herds are equal exactly when they are opened alike and hold the same contacts, and a copy is apart from its herd.

use crate::met::Met;
use crate::{built, bytes, extended, opened};
use herd::{Contact, Herd};
use herd_testing::cases;
use herd_testing::check;
use herd_testing::model::Contacts;
use herd_testing::random::Random;
use herd_testing::suite::draws;
use herd_testing::words::{self, Opening};

/// Those of the contacts that are of these animals and ticks.
fn legal(opening: Opening, contacts: &Contacts) -> Contacts {
    let is_legal = |c: &&Contact| check::contact(opening, c.from, c.to, c.tick).is_ok();
    contacts.iter().filter(is_legal).copied().collect()
}

/// The contacts, mostly the same, or with one more or one less.
fn other_contacts(random: &mut Random, opening: Opening, contacts: &Contacts) -> Contacts {
    let mut other = legal(opening, contacts);
    let listed: Vec<Contact> = other.iter().copied().collect();
    match random.below(4) {
        0 if !listed.is_empty() => drop(other.remove(&random.one_of(&listed))),
        1 if opening.animals > 1 => drop(other.insert(cases::contact(random, opening))),
        _ => (),
    }
    other
}

/// The log that the herd writes.
fn log(herd: &Herd) -> Vec<u8> {
    let mut written = Vec::new();
    herd.write_log(&mut written).unwrap();
    written
}

#[test]
fn herds_are_equal_exactly_when_opened_alike_with_the_same_contacts() {
    let mut random = Random::new(2_501);
    let mut met = Met::default();
    for _ in 0..4_000 {
        let opening = draws::opening(&mut random);
        let contacts: Contacts = draws::contacts(&mut random, opening).into_iter().collect();
        let other_opening = match random.once_in(3) {
            true => cases::other_opening(&mut random, opening),
            false => opening,
        };
        let other_contacts = other_contacts(&mut random, other_opening, &contacts);
        let (one, other) = (
            built(&mut random, opening, &contacts),
            built(&mut random, other_opening, &other_contacts),
        );
        let alike = (opening == other_opening, contacts == other_contacts);
        let case = (opening, other_opening, &contacts, &other_contacts);
        assert_eq!(one == other, alike == (true, true), "{case:?}");
        assert_eq!(log(&one) == log(&other), one == other, "{case:?}");
        let kind = match alike {
            (true, true) => "equal",
            (true, false) => "other contacts",
            (false, true) => "other numbers",
            (false, false) => "both other",
        };
        met.answer("herds", kind);
    }
    met.answers(500, "herds", &["equal", "other contacts", "other numbers"]);
    met.answers(50, "herds", &["both other"]);
}

#[test]
fn herds_without_contacts_are_equal_exactly_when_opened_alike() {
    let numbers = [
        (1, 1, 1),
        (1, 2, 1),
        (1, 1, 2),
        (2, 1, 1),
        (2, 7, 1),
        (3, 7, 1),
        (2, 7, 256),
    ];
    let openings = numbers.map(|(animals, ticks, carry)| Opening::new(animals, ticks, carry));
    for one in openings {
        for other in openings {
            assert_eq!(
                opened(one) == opened(other),
                one == other,
                "{one:?} {other:?}"
            );
        }
        let log = bytes(&words::log(one, []));
        assert_eq!(Herd::read_log(&log[..]).unwrap(), opened(one));
    }
}

#[test]
fn a_copy_is_apart_from_its_herd() {
    let mut random = Random::new(2_502);
    let mut met = Met::default();
    for _ in 0..300 {
        let opening = cases::opening_with_pairs(&mut random);
        let contacts: Contacts = draws::contacts(&mut random, opening).into_iter().collect();
        let herd = built(&mut random, opening, &contacts);
        let mut copy = herd.clone();
        assert_eq!(copy, herd);
        let contact = cases::contact(&mut random, opening);
        let held = contacts.contains(&contact);
        met.yes_or_no("held", held);
        if held {
            copy.remove(contact).unwrap();
        } else {
            let _ = copy.add(contact).unwrap();
        }
        assert_ne!(copy, herd, "{opening:?} {contact:?}");
        assert_eq!(herd, extended(opening, &Vec::from_iter(contacts)));
    }
    met.answers(30, "held", &["yes", "no"]);
}

#[test]
fn a_herd_is_shown_by_its_numbers_and_not_by_its_words() {
    let herd = extended(
        Opening::new(40, 300, 7),
        &[Contact::new(0, 1, 2), Contact::new(1, 39, 300)],
    );
    assert_eq!(
        format!("{herd:?}"),
        "Herd { animals: 40, ticks: 300, carry: 7, held: 2, .. }"
    );
}
