//! Contacts, stays and herds that are none of a herd's: the error names the first of them, and nothing is loaded.

use crate::errors::{edges, same, Both, OPENINGS};
use crate::faults;
use crate::met::Met;
use crate::{built, opened};
use herd::calls::{self, Added, Done, Joined};
use herd::{Contact, Error, Herd, Stay};
use herd_testing::cases;
use herd_testing::random::Random;
use herd_testing::suite::draws;
use herd_testing::suite::Reply;
use herd_testing::words::Opening;

/// The error of a call on a copy of the herd, which it must leave as it was; none where the call is not refused.
#[track_caller]
fn refused<T>(herd: &Herd, call: impl FnOnce(&mut Herd) -> Result<T, Error>) -> Option<Error> {
    let mut copy = herd.clone();
    let error = call(&mut copy).err()?;
    assert_eq!(&copy, herd, "{error}");
    Some(error)
}

/// The number with which adding the first contact that is refused is refused, on a copy of the table.
fn raw_add(both: &Both, contacts: &[Contact]) -> Reply {
    for &Contact { from, to, tick } in contacts {
        let mut table = both.table.clone();
        let added = calls::add(&mut table, from, to, tick);
        if let Added::Refused(number) = added {
            return Reply::Refused(number);
        }
    }
    Reply::Done
}

/// Gives the contact to every call that takes contacts, and compares the errors.
#[track_caller]
fn compare_contact(both: &Both, contact: Contact, met: &mut Met) {
    let (opening, herd, case) = (both.opening, &both.herd, (both.opening, contact));
    let raw = raw_add(both, &[contact]);
    let fault = || faults::of_contact(opening, contact);
    let found = herd.judge(contact).err();
    same(met, "judge", found, raw, fault(), case);
    let found = refused(herd, |herd| herd.add(contact));
    same(met, "add", found, raw, fault(), case);
    let found = refused(herd, |herd| herd.extend([contact]));
    same(met, "extend", found, raw, fault(), case);
    let found = herd.claimed(0, 1, 1..=1, [contact]).err();
    same(met, "claimed", found, raw, fault(), case);

    let (mut table, mut work) = (both.table.clone(), vec![0; both.table.len()]);
    let Contact { from, to, tick } = contact;
    let raw = calls::remove(&mut table, &mut work, from, to, tick);
    let not_held = (raw == Done::Refused(21)).then_some(Error::NotHeld(contact));
    let found = refused(herd, |herd| herd.remove(contact));
    same(met, "remove", found, raw.into(), fault().or(not_held), case);
}

#[test]
fn contacts_with_numbers_at_the_edges() {
    let mut random = Random::new(2_701);
    let mut met = Met::default();
    for (animals, ticks, carry) in OPENINGS {
        let opening = Opening::new(animals, ticks, carry);
        let contacts = cases::few_contacts(&mut random, opening, 20);
        let both = Both::new(opening, &contacts);
        let edges = edges(opening);
        let times = if animals > 10 { 150 } else { 800 };
        for _ in 0..times {
            let mut drawn = || match random.once_in(3) {
                true => random.one_of(&edges),
                false => random.between(0, animals - 1),
            };
            let (from, to) = (drawn(), drawn());
            let tick = match random.once_in(3) {
                true => random.one_of(&edges),
                false => random.between(1, ticks),
            };
            compare_contact(&both, Contact::new(from, to, tick), &mut met);
        }
    }
    for call in ["judge", "add", "extend", "claimed", "remove"] {
        met.refusals(100, call, &[7, 8, 9]);
        met.answers(10, call, &["no error"]);
    }
    met.refusals(100, "remove", &[21]);
}

/// Numbers around the multiples of 256 and of 1,024 and around every higher power of two, at which the fields of a contact
/// word and the word itself end.
fn around_fields() -> Vec<u32> {
    let mut ends: Vec<u64> = (1..=16).flat_map(|k| [256 * k, 1024 * k]).collect();
    ends.extend((8..=32).map(|power| 1 << power));
    ends.extend((1..=4).map(|k| k * 16_384 + 256 * k));
    let near = ends.iter().flat_map(|end| end - 3..=end + 3);
    let mut near: Vec<u32> = near.filter_map(|number| number.try_into().ok()).collect();
    near.sort_unstable();
    near.dedup();
    near
}

/// Herds that hold every contact, so that a contact packed into another one would be found, or none, so that it would be
/// seen.
fn full_and_empty() -> Vec<Both> {
    let mut herds = Vec::new();
    for (animals, ticks, carry) in [(4, 6, 1), (3, 1024, 2), (256, 1, 1)] {
        let opening = Opening::new(animals, ticks, carry);
        herds.push(Both::new(opening, &[]));
        if animals < 10 {
            herds.push(Both::new(opening, &cases::legal_contacts(opening)));
        }
    }
    herds
}

/// The contact with the number in place of one or two of its own.
fn with_number(legal: Contact, number: u32) -> [Contact; 5] {
    let Contact { from, to, tick } = legal;
    [
        Contact::new(number, to, tick),
        Contact::new(from, number, tick),
        Contact::new(from, to, number),
        Contact::new(number, number, tick),
        Contact::new(from, number, number),
    ]
}

#[test]
fn no_contact_is_packed_into_another_one() {
    let mut random = Random::new(2_702);
    let mut met = Met::default();
    let numbers = around_fields();
    let listed = [258, 1025, 16_384, 1 << 22, u32::MAX];
    assert!(listed.iter().all(|number| numbers.contains(number)));
    for both in full_and_empty() {
        let opening = both.opening;
        let rarely = if opening.table_words() > 5_000 { 10 } else { 1 };
        for &number in &numbers {
            let legal = cases::contact(&mut random, opening);
            let contacts = with_number(legal, number).into_iter();
            let wrong = contacts.filter(|&c| faults::of_contact(opening, c).is_some());
            if listed.contains(&number) || random.once_in(rarely) {
                wrong.for_each(|contact| compare_contact(&both, contact, &mut met));
            }
        }
    }
    for call in ["judge", "add", "extend", "claimed", "remove"] {
        met.refusals(1_000, call, &[7]);
        met.refusals(200, call, &[9]);
    }
}

/// Contacts of which some are none of the herd's.
fn mixed(random: &mut Random, opening: Opening) -> Vec<Contact> {
    let mut list = cases::log_contacts(random, opening, 8);
    for _ in 0..random.below(4) {
        let (from, to) = (
            draws::animal(random, opening),
            draws::animal(random, opening),
        );
        let contact = Contact::new(from, to, draws::tick(random, opening.ticks));
        list.insert(random.below(list.len() + 1), contact);
    }
    list
}

#[test]
fn the_first_wrong_contact_of_a_list_is_named() {
    let mut random = Random::new(2_703);
    let mut met = Met::default();
    for _ in 0..1_500 {
        let opening = cases::opening_with_pairs(&mut random);
        let contacts = cases::few_contacts(&mut random, opening, 10);
        let both = Both::new(opening, &contacts);
        for _ in 0..4 {
            let list = mixed(&mut random, opening);
            let raw = raw_add(&both, &list);
            let fault = || faults::of_contacts(opening, &list);
            let found = refused(&both.herd, |herd| herd.extend(list.clone()));
            same(&mut met, "extend", found, raw, fault(), (opening, &list));
            let tuples = list.iter().map(|c| (c.from, c.to, c.tick));
            let found = refused(&both.herd, |herd| herd.extend(tuples));
            same(&mut met, "extend", found, raw, fault(), (opening, &list));
            let found = both.herd.claimed(0, 1, 1..=1, list.clone()).err();
            same(&mut met, "claimed", found, raw, fault(), (opening, &list));
            if fault().is_some() {
                let found = both.herd.claimed(0, 0, 0..=0, list.clone()).err();
                same(
                    &mut met,
                    "claimed wrongly",
                    found,
                    raw,
                    fault(),
                    (opening, &list),
                );
            }
        }
    }
    for call in ["extend", "claimed", "claimed wrongly"] {
        met.refusals(200, call, &[7, 8, 9]);
    }
    met.answers(500, "extend", &["no error"]);
}

/// Stays of which some are none of the herd's.
fn mixed_stays(random: &mut Random, opening: Opening) -> Vec<Stay> {
    let mut list = cases::stays(random, opening, 8);
    let edges = edges(opening);
    for _ in 0..random.below(4) {
        let pen = random.between(0, 63);
        let stay = cases::stay(random, opening, pen, 4);
        let mut wrong = random.one_of(&cases::illegal_stays(opening, stay));
        if random.once_in(2) {
            let mut number = || random.one_of(&edges);
            wrong = Stay::new(number(), number(), number(), number());
        }
        list.insert(random.below(list.len() + 1), wrong);
    }
    list
}

/// Judges each stay of the list alone, and compares the errors with what the call on lent words says of it alone.
fn compare_stays(both: &Both, list: &[Stay], met: &mut Met) {
    for &stay in list {
        let raw = calls::stays(&mut both.table.clone(), Stay::words(&[stay]));
        let fault = faults::of_stay(both.opening, 0, stay);
        let found = both.herd.judge_stay(stay).err();
        same(met, "judge stay", found, raw.into(), fault, stay);
    }
}

#[test]
fn the_first_wrong_stay_of_a_list_is_named() {
    let mut random = Random::new(2_704);
    let mut met = Met::default();
    for _ in 0..3_000 {
        let opening = draws::opening(&mut random);
        let contacts = cases::few_contacts(&mut random, opening, 6);
        let both = Both::new(opening, &contacts);
        let list = mixed_stays(&mut random, opening);
        let mut table = both.table.clone();
        let raw = calls::stays(&mut table, Stay::words(&list));
        let fault = faults::of_stays(opening, &list);
        if let Some(Error::Stay { place, reason, .. }) = &fault {
            met.yes_or_no("a stay behind the first", *place > 0);
            met.refusal("the reason of a stay", reason.number().expect("a number"));
        }
        compare_stays(&both, &list, &mut met);
        let found = refused(&both.herd, |herd| herd.stays(&list));
        same(
            &mut met,
            "stays",
            found,
            raw.into(),
            fault,
            (opening, &list),
        );
    }
    met.answers(300, "stays", &["no error"]);
    met.refusals(300, "stays", &[18]);
    met.answers(1_000, "judge stay", &["no error"]);
    met.refusals(1_000, "judge stay", &[18]);
    met.answers(100, "a stay behind the first", &["yes", "no"]);
    met.refusals(50, "the reason of a stay", &[7, 9, 18, 19]);
}

#[test]
fn herds_that_are_not_opened_alike_are_not_joined() {
    let mut random = Random::new(2_705);
    let mut met = Met::default();
    for _ in 0..1_000 {
        let opening = draws::opening(&mut random);
        let contacts = cases::few_contacts(&mut random, opening, 10);
        let both = Both::new(opening, &contacts);
        let other = match random.once_in(4) {
            true => draws::opening(&mut random),
            false => cases::other_opening(&mut random, opening),
        };
        let others = cases::few_contacts(&mut random, other, 10)
            .into_iter()
            .collect();
        let second = built(&mut random, other, &others);
        let mut table = both.table.clone();
        let raw = calls::join(&mut table, &Both::new(other, &Vec::from_iter(others)).table);
        let of = |opening: Opening| [opening.animals, opening.ticks, opening.carry];
        let fault = (raw == Joined::Refused(17)).then_some(Error::DifferentOpenings {
            first: of(opening),
            second: of(other),
        });
        let found = refused(&both.herd, |herd| herd.join(&second));
        same(&mut met, "join", found, raw.into(), fault, (opening, other));
    }
    met.refusals(900, "join", &[17]);
    assert!(opened(Opening::new(1, 1, 1))
        .join(&opened(Opening::new(1, 1, 1)))
        .is_ok());
}
