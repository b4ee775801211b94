//! The largest herds, and those with one animal, one tick or the longest carry time.

use crate::asked::Asked;
use crate::met::Met;
use crate::traces::compare_whole;
use crate::{bytes, extended, opened, pairs, range};
use herd::{Added, Contact, Error, Herd, Interval, Stay};
use herd_testing::cases;
use herd_testing::model::{self, Contacts, Journeys};
use herd_testing::random::Random;
use herd_testing::words::{self, Opening, Window};

/// A few hundred contacts of the largest herd, at its edges and between.
fn contacts_of_largest(random: &mut Random, opening: Opening) -> Vec<Contact> {
    let mut list = cases::following_contacts(random, opening, 300);
    let (first, last) = (1, opening.ticks);
    list.extend(words::contacts([
        (255, 0, last),
        (0, 255, first),
        (254, 255, last),
        (255, 254, first),
        (0, 255, first),
    ]));
    list
}

/// Some pairs: those at the edges, those with the longest journeys, and some drawn ones.
fn some_pairs(random: &mut Random, asked: &Asked) -> Vec<(u32, u32)> {
    let opening = asked.opening;
    let longest = |&(u, v): &(u32, u32)| {
        let cell = &asked.journeys.minimal()[opening.pair(u, v)];
        cell.iter().map(|i| i.arrival - i.departure).max()
    };
    let mut some = pairs(opening);
    some.sort_by_key(longest);
    let mut some = some.split_off(some.len() - 6);
    some.extend([(0, 255), (255, 0)]);
    some.extend((0..2).map(|_| cases::pair(random, opening)));
    some
}

/// Asks every question about some pairs and windows of the largest herd.
fn compare_some(random: &mut Random, asked: &Asked, met: &mut Met) {
    let opening = asked.opening;
    let pairs = some_pairs(random, asked);
    asked.compare_contacts(met);
    for &pair in &pairs {
        let end = opening.last_arrival();
        asked.compare_pair(pair, [1, 700, end].into_iter(), met);
    }
    for (first, last) in [(1, 1024), (200, 900), (1024, 1024)] {
        let window = Window::new(first, last);
        for &pair in &pairs {
            asked.compare_way(pair, window, met);
        }
        asked.compare_reached(pairs[0].0, window, met);
        asked.compare_reached(255, window, met);
        asked.compare_connected(window, met);
        for &(u, v) in &pairs[5..7] {
            let chain = asked.herd.chain(u, v, range(window)).unwrap();
            let yes = asked.compare_claim((u, v), window, &chain.unwrap_or_default());
            met.yes_or_no("claimed", yes);
        }
    }
}

/// Adds a contact to the largest herd, and takes it out again.
fn change_largest(asked: &mut Asked) {
    let (opening, herd) = (asked.opening, &mut asked.herd);
    let before = herd.clone();
    let mut more = asked.journeys.contacts().clone();
    let contact = Contact::new(200, 255, 512);
    assert!(more.insert(contact));
    let after = model::minimal_intervals(opening, &more);
    let changed = model::changed_pairs(asked.journeys.minimal(), &after);
    assert_eq!(herd.add(contact).unwrap(), Added::New { changed });
    assert_eq!(herd.add(contact).unwrap(), Added::Known);
    assert_eq!(herd.held(), more.len());
    assert!(*herd == extended(opening, &Vec::from_iter(more)));
    herd.remove(contact).unwrap();
    assert!(*herd == before);
    assert_eq!(herd.remove(contact).unwrap_err().number(), Some(21));
    assert!(*herd == before);
}

/// Gives contacts that are none of its to the largest herd.
fn refuse_contacts(herd: &mut Herd) {
    let before = herd.clone();
    for (contact, number) in [
        (Contact::new(256, 0, 1), 7),
        (Contact::new(0, 258, 1), 7),
        (Contact::new(9, 9, 1), 8),
        (Contact::new(0, 1, 1025), 9),
    ] {
        let refused = |error: Error| assert_eq!(error.number(), Some(number), "{error}");
        refused(herd.judge(contact).unwrap_err());
        refused(herd.add(contact).unwrap_err());
        refused(herd.remove(contact).unwrap_err());
        refused(herd.extend([Contact::new(3, 4, 5), contact]).unwrap_err());
        refused(herd.claimed(0, 1, 1..=1, [contact]).unwrap_err());
    }
    assert!(*herd == before);
}

/// Adds stays to the largest herd, and joins it into what it was before.
fn join_largest(asked: &mut Asked) {
    let mut before = asked.herd.clone();
    let stays = [Stay::new(255, 63, 1, 1024), Stay::new(0, 63, 1024, 1024)];
    let contacts = asked.journeys.contacts();
    let new = model::met(&stays).difference(contacts).count();
    assert_eq!(asked.herd.stays(&stays).unwrap(), new);
    assert_eq!(asked.herd.held(), contacts.len() + new);
    assert!(asked.herd != before);
    assert_eq!(before.join(&asked.herd).unwrap(), new);
    assert!(asked.herd == before);
    assert!(before.reach(0, 255, 1024..=1024).unwrap());
}

/// Writes the log of the largest herd and reads it again.
fn there_and_back(asked: &Asked) {
    let mut written = Vec::new();
    asked.herd.write_log(&mut written).unwrap();
    let contacts = asked.journeys.contacts().iter().copied();
    assert_eq!(written, bytes(&words::log(asked.opening, contacts)));
    assert!(Herd::read_log(&written[..]).unwrap() == asked.herd);
}

#[test]
fn the_largest_herds() {
    let mut random = Random::new(3_001);
    let mut met = Met::default();
    for carry in [256, 1] {
        let opening = Opening::new(256, 1024, carry);
        let list = contacts_of_largest(&mut random, opening);
        let contacts: Contacts = list.iter().copied().collect();
        let mut herd = opened(opening);
        assert_eq!(herd.extend(list).unwrap(), contacts.len());
        let journeys = Journeys::new(opening, contacts);
        let mut asked = Asked {
            opening,
            herd,
            journeys,
        };
        compare_some(&mut random, &asked, &mut met);
        if carry == 1 {
            compare_whole(&asked, some_pairs(&mut random, &asked)[0].0);
        } else {
            refuse_contacts(&mut asked.herd);
        }
        there_and_back(&asked);
        change_largest(&mut asked);
        join_largest(&mut asked);
    }
    met.answers(8, "reach", &["yes", "no"]);
    met.answers(2, "claimed", &["yes", "no"]);
    met.answers(6, "chain", &["none", "one contact", "several contacts"]);
    met.answers(6, "earliest", &["none", "one contact", "several contacts"]);
    met.answers(6, "latest", &["none", "one contact", "several contacts"]);
    met.answers(1, "reached", &["none", "some"]);
}

#[test]
fn one_animal_alone() {
    for (ticks, carry) in [(1, 1), (1, 256), (7, 2), (1024, 1), (1024, 256)] {
        let opening = Opening::new(1, ticks, carry);
        let mut herd = opened(opening);
        let calendar = herd.calendar();
        assert!(herd.connected(calendar.clone()).unwrap());
        assert_eq!(herd.reached(0, calendar.clone()).unwrap(), []);
        assert_eq!(herd.trace(0, calendar.clone()).unwrap(), []);
        assert_eq!(herd.trace_back(0, calendar.clone()).unwrap(), []);
        for (from, to, number) in [(0, 0, 8), (0, 1, 7), (1, 0, 7), (1, 1, 7)] {
            let error = herd.add((from, to, 1)).unwrap_err();
            assert_eq!(error.number(), Some(number), "{error}");
            let error = herd.chain(from, to, calendar.clone()).unwrap_err();
            assert_eq!(error.number(), Some(number), "{error}");
            let error = herd.intervals(from, to).unwrap_err();
            assert_eq!(error.number(), Some(number), "{error}");
        }
        assert_eq!(
            herd.stays(&[Stay::new(0, 0, 1, ticks), Stay::new(0, 0, 1, 1)])
                .unwrap(),
            0
        );
        assert_eq!(herd.extend([] as [Contact; 0]).unwrap(), 0);
        let copy = herd.clone();
        assert_eq!(herd.join(&copy).unwrap(), 0);
        assert_eq!((herd.held(), herd.contacts().unwrap()), (0, Vec::new()));
        let mut written = Vec::new();
        herd.write_log(&mut written).unwrap();
        assert_eq!(written, bytes(&words::log(opening, [])));
        assert_eq!(Herd::read_log(&written[..]).unwrap(), herd);
        assert_eq!(herd, opened(opening));
    }
}

#[test]
fn one_tick_with_every_contact() {
    for (animals, carry) in [(2, 1), (2, 256), (33, 256), (256, 1), (256, 256)] {
        let opening = Opening::new(animals, 1, carry);
        let legal = cases::legal_contacts(opening);
        let mut herd = extended(opening, &legal);
        let last = animals - 1;
        assert_eq!(herd.held(), legal.len());
        assert_eq!(herd.contacts().unwrap(), legal);
        assert!(herd.connected(1..=1).unwrap());
        let others: Vec<u32> = (0..last).collect();
        assert_eq!(herd.reached(last, 1..=1).unwrap(), others);
        let contact = Contact::new(last, 0, 1);
        assert_eq!(herd.chain(last, 0, 1..=1).unwrap(), Some(vec![contact]));
        let only = Interval::new(1, 1 + carry);
        assert_eq!(herd.intervals(last, 0).unwrap(), [only]);
        for tick in 1..=1 + carry {
            let earliest = (tick == 1).then_some(only);
            let latest = (tick == 1 + carry).then_some(only);
            assert_eq!(herd.earliest(last, 0, tick).unwrap(), earliest);
            assert_eq!(herd.latest(last, 0, tick).unwrap(), latest);
        }
        assert_eq!(
            herd.latest(last, 0, 2 + carry).unwrap_err().number(),
            Some(9)
        );
        assert_eq!(herd.trace(last, 1..=1).unwrap().len(), last as usize);
        assert_eq!(herd.trace_back(last, 1..=1).unwrap().len(), last as usize);
        herd.remove(contact).unwrap();
        assert!(!herd.connected(1..=1).unwrap());
        assert_eq!(herd.reached(last, 1..=1).unwrap(), others[1..]);
        assert_eq!(herd.held(), legal.len() - 1);
    }
}

#[test]
fn every_contact_of_the_longest_calendar() {
    for carry in [1, 2, 256] {
        let opening = Opening::new(2, 1024, carry);
        let mut herd = extended(opening, &cases::legal_contacts(opening));
        assert_eq!(herd.held(), 2048);
        let rows: Vec<Interval> = (1..=1024).map(|t| Interval::new(t, t + carry)).collect();
        assert_eq!(herd.intervals(0, 1).unwrap(), rows);
        assert_eq!(herd.intervals(1, 0).unwrap(), rows);
        assert_eq!(herd.contacts().unwrap(), cases::legal_contacts(opening));
        let end = opening.last_arrival();
        assert_eq!(herd.latest(1, 0, end).unwrap(), rows.last().copied());
        assert_eq!(herd.earliest(1, 0, 1024).unwrap(), rows.last().copied());
        herd.remove((1, 0, 1024)).unwrap();
        assert_eq!(herd.intervals(1, 0).unwrap(), rows[..1023]);
        assert_eq!(herd.latest(1, 0, end).unwrap(), Some(rows[1022]));
    }
}

#[test]
fn more_contacts_than_an_end_word_can_count() {
    let most = (1 << 26) - 1;
    let opening = Opening::new(2, 2, 1);
    for (held, given) in [
        (0, most),
        (0, most + 1),
        (1, most - 1),
        (1, most),
        (2, most + 9),
    ] {
        let legal = cases::legal_contacts(opening);
        let mut herd = extended(opening, &legal[..held]);
        let many = (0..given).map(|place| legal[place % 3]);
        assert_eq!(herd.extend(many).unwrap(), 3 - held, "{held} {given}");
        assert_eq!(herd, extended(opening, &legal[..3]));
    }
    let many = (0..most + 1).map(|place| (0, if place == most { 2 } else { 1 }, 1));
    let mut herd = opened(opening);
    assert_eq!(herd.extend(many).unwrap_err().number(), Some(7));
    assert_eq!(herd, opened(opening));
}
