//! Lists of changes of a herd, good ones and such as are refused, compared with a set of contacts.

use crate::met::Met;
use crate::{built, bytes, extended, opened, pairs};
use herd::{Added, Contact, Error, Herd, Stay};
use herd_testing::cases;
use herd_testing::check;
use herd_testing::model::{self, Contacts};
use herd_testing::random::Random;
use herd_testing::suite::draws;
use herd_testing::words::{self, Opening};

/// A herd, and the contacts that it must hold.
struct Kept {
    opening: Opening,
    herd: Herd,
    contacts: Contacts,
}

impl Kept {
    /// The herd with these numbers that holds no contact.
    fn new(opening: Opening) -> Kept {
        Kept {
            opening,
            herd: opened(opening),
            contacts: Contacts::new(),
        }
    }

    /// Makes one drawn change.
    fn change(&mut self, random: &mut Random, met: &mut Met) {
        match random.below(8) {
            0 | 1 => self.add(self.contact(random), met),
            2 => self.extend(self.list(random), met),
            3 | 4 => self.remove(self.contact(random), met),
            5 => self.join(random, met),
            6 => self.stays(self.stay_list(random), met),
            _ => self.there_and_back(met),
        }
    }

    /// Adds the contact.
    fn add(&mut self, contact: Contact, met: &mut Met) {
        let before = self.herd.clone();
        let cells = model::minimal_intervals(self.opening, &self.contacts);
        let added = self.herd.add(contact);
        if let Err(number) = judged(self.opening, contact) {
            return self.refused("add", added.unwrap_err(), number, &before, met);
        }
        if self.contacts.insert(contact) {
            let after = model::minimal_intervals(self.opening, &self.contacts);
            let changed = model::changed_pairs(&cells, &after);
            assert_eq!(added.unwrap(), Added::New { changed }, "{contact:?}");
            met.answer("add", if changed > 1 { "new to several" } else { "new" });
        } else {
            assert_eq!(added.unwrap(), Added::Known, "{contact:?}");
            assert_eq!(self.herd, before, "{contact:?}");
            met.answer("add", "known");
        }
    }

    /// Adds all contacts of the list.
    fn extend(&mut self, list: Vec<Contact>, met: &mut Met) {
        let before = self.herd.clone();
        let places = list.iter().map(|&contact| judged(self.opening, contact));
        let wrong = places
            .enumerate()
            .find_map(|(i, judged)| Some((i, judged.err()?)));
        let added = self.herd.extend(list.clone());
        if let Some((place, number)) = wrong {
            let behind = list[..place].iter().any(|c| !self.contacts.contains(c));
            met.yes_or_no("refused behind a new contact", behind);
            return self.refused("extend", added.unwrap_err(), number, &before, met);
        }
        let new = self.gain(&list);
        assert_eq!(added.unwrap(), new, "{list:?}");
        let all = new == list.len();
        let some = if all { "all new" } else { "some new" };
        met.answer("extend", if new == 0 { "none new" } else { some });
    }

    /// Takes the contact out.
    fn remove(&mut self, contact: Contact, met: &mut Met) {
        let before = self.herd.clone();
        let removed = self.herd.remove(contact);
        let number = judged(self.opening, contact).err();
        let not_held = (!self.contacts.contains(&contact)).then_some(21);
        if let Some(number) = number.or(not_held) {
            return self.refused("remove", removed.unwrap_err(), number, &before, met);
        }
        assert!(removed.is_ok(), "{contact:?}: {removed:?}");
        self.contacts.remove(&contact);
        met.answer("remove", "done");
    }

    /// Adds the contacts of another herd, which is opened alike or not.
    fn join(&mut self, random: &mut Random, met: &mut Met) {
        let alike = !random.once_in(4);
        let opening = match alike {
            true => self.opening,
            false => cases::other_opening(random, self.opening),
        };
        let mut contacts: Contacts = cases::log_contacts(random, opening, 10)
            .into_iter()
            .collect();
        if alike {
            let shared = self.contacts.iter().filter(|_| random.once_in(3));
            contacts.extend(shared);
        }
        let other = built(random, opening, &contacts);
        let (before, other_before) = (self.herd.clone(), other.clone());
        let joined = self.herd.join(&other);
        assert_eq!(other, other_before);
        if !alike {
            return self.refused("join", joined.unwrap_err(), 17, &before, met);
        }
        let new = self.gain(&Vec::from_iter(contacts));
        assert_eq!(joined.unwrap(), new);
        met.answer("join", if new == 0 { "none new" } else { "some new" });
    }

    /// Adds the contacts of the stays.
    fn stays(&mut self, list: Vec<Stay>, met: &mut Met) {
        let before = self.herd.clone();
        let stayed = self.herd.stays(&list);
        if let Err(number) = check::stays(self.opening, Stay::words(&list)) {
            return self.refused("stays", stayed.unwrap_err(), number, &before, met);
        }
        let new = self.gain(&Vec::from_iter(model::met(&list)));
        assert_eq!(stayed.unwrap(), new, "{list:?}");
        met.answer("stays", if new == 0 { "none new" } else { "some new" });
    }

    /// Writes the log, and goes on with the herd that is read from it.
    fn there_and_back(&mut self, met: &mut Met) {
        let mut written = Vec::new();
        self.herd.write_log(&mut written).unwrap();
        let log = words::log(self.opening, self.contacts.iter().copied());
        assert_eq!(written, bytes(&log));
        let read = Herd::read_log(&written[..]).unwrap();
        assert_eq!(read, self.herd);
        self.herd = read;
        met.answer("log", "read");
    }

    /// Puts the contacts into the set, and says how many were not in it.
    fn gain(&mut self, contacts: &[Contact]) -> usize {
        let before = self.contacts.len();
        self.contacts.extend(contacts);
        self.contacts.len() - before
    }

    /// Fails unless the call was refused with the number and left the herd as it was before.
    #[track_caller]
    fn refused(&self, call: &'static str, error: Error, number: u32, before: &Herd, met: &mut Met) {
        assert_eq!(error.number(), Some(number), "{call}: {error}");
        assert_eq!(&self.herd, before, "{call}: {error}");
        met.refusal(call, number);
    }

    /// Compares what the herd holds, and the herd with one that is opened and filled anew.
    #[track_caller]
    fn compare(&self, random: &mut Random) {
        let held: Vec<Contact> = self.contacts.iter().copied().collect();
        assert_eq!(self.herd.held(), held.len());
        assert_eq!(self.herd.contacts().unwrap(), held);
        let mut order = held.clone();
        order.extend(held.iter().filter(|_| random.once_in(4)));
        random.shuffle(&mut order);
        assert_eq!(self.herd, extended(self.opening, &order), "{order:?}");
        let cells = model::minimal_intervals(self.opening, &self.contacts);
        for (u, v) in pairs(self.opening) {
            let cell = &cells[self.opening.pair(u, v)];
            assert_eq!(&self.herd.intervals(u, v).unwrap(), cell, "{u} {v}");
        }
    }

    /// A contact: often a held one, and now and then one that is not of the herd's animals and ticks.
    fn contact(&self, random: &mut Random) -> Contact {
        let held: Vec<Contact> = self.contacts.iter().copied().collect();
        if !held.is_empty() && random.once_in(3) {
            return random.one_of(&held);
        }
        let mut contact = Contact::new(
            draws::animal(random, self.opening),
            draws::animal(random, self.opening),
            random.between(1, self.opening.ticks),
        );
        if random.once_in(5) {
            let last = self.opening.ticks;
            contact.tick = random.one_of(&[0, last + 1, last + 1024, u32::MAX]);
        }
        contact
    }

    /// Contacts: mostly good ones, some of them held.
    fn list(&self, random: &mut Random) -> Vec<Contact> {
        let mut list = cases::log_contacts(random, self.opening, 12);
        let held = self.contacts.iter().filter(|_| random.once_in(6));
        list.extend(held);
        if random.once_in(2) {
            let contact = self.contact(random);
            list.insert(random.below(list.len() + 1), contact);
        }
        list
    }

    /// Stays: mostly good ones.
    fn stay_list(&self, random: &mut Random) -> Vec<Stay> {
        let mut list = cases::stays(random, self.opening, 6);
        if random.once_in(3) && !list.is_empty() {
            let place = random.below(list.len());
            list[place] = random.one_of(&cases::illegal_stays(self.opening, list[place]));
        }
        list
    }
}

/// Whether the contact is of the herd's animals and ticks, or the number of the refusal.
fn judged(opening: Opening, contact: Contact) -> Result<Contact, u32> {
    check::contact(opening, contact.from, contact.to, contact.tick)
}

/// Fails where a kind of change was met less often.
#[track_caller]
fn at_least(met: &Met, times: usize) {
    met.answers(times, "add", &["new", "new to several", "known"]);
    met.refusals(times, "add", &[7, 8, 9]);
    met.answers(times, "extend", &["none new", "some new", "all new"]);
    met.refusals(times, "extend", &[7, 8, 9]);
    met.answers(times, "refused behind a new contact", &["yes", "no"]);
    met.answers(times, "remove", &["done"]);
    met.refusals(times, "remove", &[7, 8, 9, 21]);
    met.answers(times, "join", &["none new", "some new"]);
    met.refusals(times, "join", &[17]);
    met.answers(times, "stays", &["none new", "some new"]);
    met.refusals(times, "stays", &[18]);
    met.answers(times, "log", &["read"]);
}

#[test]
fn lists_of_changes_of_small_herds() {
    let mut random = Random::new(2_401);
    let mut met = Met::default();
    for _ in 0..2_500 {
        let mut kept = Kept::new(draws::opening(&mut random));
        for _ in 0..30 {
            kept.change(&mut random, &mut met);
            kept.compare(&mut random);
        }
    }
    at_least(&met, 300);
}

#[test]
fn lists_of_changes_of_longer_herds() {
    let mut random = Random::new(2_402);
    let mut met = Met::default();
    for _ in 0..250 {
        let mut kept = Kept::new(cases::longer_opening(&mut random));
        for _ in 0..40 {
            kept.change(&mut random, &mut met);
            kept.compare(&mut random);
        }
    }
    at_least(&met, 25);
}

#[test]
fn contacts_come_out_again_in_any_order() {
    let mut random = Random::new(2_403);
    let mut met = Met::default();
    for _ in 0..200 {
        let opening = cases::opening_with_time(&mut random);
        let contacts: Contacts = draws::contacts(&mut random, opening).into_iter().collect();
        let mut kept = Kept {
            opening,
            herd: built(&mut random, opening, &contacts),
            contacts: contacts.clone(),
        };
        let mut order = Vec::from_iter(contacts);
        random.shuffle(&mut order);
        for contact in order {
            kept.remove(contact, &mut met);
            kept.compare(&mut random);
        }
        assert_eq!(kept.herd, opened(opening));
    }
    met.answers(2_000, "remove", &["done"]);
}
