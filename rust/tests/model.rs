//! The plain search and the rule on stored intervals themselves, on document 01's cases and against each other.

use herd::calls::{Added, Done, Joined, Read, StaysAdded};
use herd_testing::calls::{self, Known};
use herd_testing::cases;
use herd_testing::contents::Contents;
use herd_testing::listing::Listing;
use herd_testing::model::{self, Contacts, Journeys};
use herd_testing::random::Random;
use herd_testing::rule::Stored;
use herd_testing::suite::{draws, Export, Lent};
use herd_testing::words::{self, Cells, Contact, Interval, Opening, Stay, Window, LAST_PEN};
use std::collections::BTreeSet;
use std::fmt::Debug;

/// The contacts of document 01's session.
fn session() -> Contacts {
    words::contacts([(0, 1, 1), (0, 1, 2), (1, 3, 4)]).into()
}

/// The minimal intervals of the pair (x, y), as pairs of numbers.
fn pair(opening: Opening, contacts: &Contacts, x: u32, y: u32) -> Vec<(u32, u32)> {
    let cells = model::minimal_intervals(opening, contacts);
    let cell = &cells[opening.pair(x, y)];
    cell.iter().map(|i| (i.departure, i.arrival)).collect()
}

#[test]
fn session_of_document_01() {
    let opening = Opening::new(4, 6, 1);
    let cells = model::minimal_intervals(opening, &session());
    assert_eq!(cells.iter().filter(|cell| !cell.is_empty()).count(), 3);
    assert_eq!(pair(opening, &session(), 0, 1), [(1, 2), (2, 3)]);
    assert_eq!(pair(opening, &session(), 0, 3), [(2, 5)]);
    assert_eq!(pair(opening, &session(), 1, 3), [(4, 5)]);
    assert_eq!(words::table(opening, &cells).len(), 113);
    let log = [
        0x800C_0005,
        0x4000_0400,
        0x4000_0401,
        0x4004_0C03,
        0xC000_0003,
    ];
    assert_eq!(words::log(opening, session()), log);
    let journeys = Journeys::new(opening, session());
    let p4_and_p5 = Some(Interval::new(2, 5));
    assert_eq!(journeys.earliest(0, 3, 1), p4_and_p5);
    assert_eq!(journeys.earliest(0, 3, 2), p4_and_p5);
    assert_eq!(journeys.earliest(0, 3, 3), None);
    assert_eq!(journeys.latest(0, 3, 7), p4_and_p5);
    assert_eq!(journeys.latest(0, 3, 5), p4_and_p5);
    assert_eq!(journeys.latest(0, 3, 4), None);
}

#[test]
fn longer_carry_times_of_document_01() {
    assert_eq!(pair(Opening::new(4, 6, 2), &session(), 0, 3), [(2, 6)]);
    assert_eq!(pair(Opening::new(4, 6, 3), &session(), 0, 3), [(1, 7)]);
}

#[test]
fn five_animals_of_document_01() {
    let opening = Opening::new(5, 6, 1);
    let listed = [(0, 2, 1), (2, 3, 2), (0, 1, 1), (1, 3, 4), (3, 4, 6)];
    let contacts = words::contacts(listed).into();
    assert_eq!(pair(opening, &contacts, 0, 3), [(1, 3)]);
    assert_eq!(pair(opening, &contacts, 0, 4), [(1, 7)]);
    let journeys = Journeys::new(opening, contacts);
    let by_two = Some(Interval::new(1, 3));
    assert_eq!(journeys.earliest(0, 3, 1), by_two);
    assert_eq!(journeys.latest(0, 3, 7), by_two);
    assert_eq!(journeys.latest(0, 4, 7), Some(Interval::new(1, 7)));
}

/// The intervals of every journey of each ordered pair, by listing every journey.
fn listed(opening: Opening, contacts: &Contacts) -> Cells {
    let listing = Listing::new(opening, contacts);
    let pairs = cases::every_two(0, opening.animals - 1);
    pairs.map(|(u, v)| listing.intervals(u, v)).collect()
}

/// Those of the intervals inside which no other one lies, by departure.
fn minimal(intervals: &[Interval]) -> Vec<Interval> {
    let inside = |j: &Interval, i: &Interval| i.departure <= j.departure && j.arrival <= i.arrival;
    let alone = |i: &&Interval| !intervals.iter().any(|j| j != *i && inside(j, i));
    let minimal: BTreeSet<Interval> = intervals.iter().filter(alone).copied().collect();
    minimal.into_iter().collect()
}

/// Two to four animals, up to so many ticks, a carry time of 1 to 3, and fewer than so many contacts.
fn drawn(random: &mut Random, ticks: u32, most: usize) -> (Opening, Contacts) {
    let opening = Opening::new(
        random.between(2, 4),
        random.between(1, ticks),
        random.between(1, 3),
    );
    let number = random.below(most);
    let contacts = (0..number).map(|_| cases::contact(random, opening));
    (opening, contacts.collect())
}

#[test]
fn search_finds_what_listing_every_journey_finds() {
    let mut random = Random::new(201);
    for round in 0..3_000 {
        let (ticks, most) = if round % 3 == 0 { (9, 18) } else { (5, 10) };
        let (opening, contacts) = drawn(&mut random, ticks, most);
        let mut expected = listed(opening, &contacts);
        for (place, cell) in expected.iter_mut().enumerate() {
            let is_one = place % (opening.animals as usize + 1) == 0;
            *cell = if is_one { Vec::new() } else { minimal(cell) };
        }
        let found = model::minimal_intervals(opening, &contacts);
        assert_eq!(found, expected, "{opening:?} {contacts:?}");
    }
}

#[test]
fn every_list_of_contacts_that_is_a_journey_is_listed() {
    let mut random = Random::new(209);
    let mut lengths = [0; 4];
    for _ in 0..300 {
        let carry = random.one_of(&[1, 1, 1, 2, 3]);
        let opening = Opening::new(random.between(2, 4), random.between(2, 7), carry);
        let contacts = cases::few_contacts(&mut random, opening, 7);
        let contacts: Contacts = contacts.into_iter().collect();
        let listing = Listing::new(opening, &contacts);
        let mut rows: Vec<Vec<Contact>> = vec![Vec::new()];
        let mut journeys = BTreeSet::new();
        for length in lengths.iter_mut() {
            let longer = |row: &Vec<Contact>| {
                let row = row.clone();
                let longer = move |&contact: &Contact| [&row[..], &[contact]].concat();
                contacts.iter().map(longer)
            };
            rows = rows.iter().flat_map(longer).collect();
            let is_journey = |row: &&Vec<Contact>| words::journey(opening.carry, row).is_some();
            let found = rows.iter().filter(is_journey).cloned();
            let before = journeys.len();
            journeys.extend(found);
            *length += journeys.len() - before;
        }
        let short = listing
            .journeys()
            .iter()
            .filter(|journey| journey.len() <= 4);
        let short: Vec<&Vec<Contact>> = short.collect();
        let different: BTreeSet<Vec<Contact>> = short.iter().copied().cloned().collect();
        assert_eq!(short.len(), different.len(), "{opening:?} {contacts:?}");
        assert_eq!(different, journeys, "{opening:?} {contacts:?}");
    }
    assert!(lengths.iter().all(|&listed| listed > 20), "{lengths:?}");
}

#[test]
fn answers_are_those_of_listing_every_journey() {
    let mut random = Random::new(203);
    let (mut yes, mut no, mut chains) = (0, 0, 0);
    for _ in 0..1_000 {
        let carry = random.one_of(&[1, 1, 1, 2, 3, 7]);
        let opening = Opening::new(random.between(1, 4), random.between(1, 7), carry);
        let contacts = cases::few_contacts(&mut random, opening, 9);
        let contacts: Contacts = contacts.into_iter().collect();
        let listing = Listing::new(opening, &contacts);
        let found = Journeys::new(opening, contacts.clone());
        let n = opening.animals;
        for window in cases::windows(opening) {
            let case = (opening, &contacts, window);
            for x in 0..n {
                let reached = listing.reached(x, window);
                assert_eq!(found.reached(x, window), reached, "{case:?}");
                for y in (0..n).filter(|&y| y != x) {
                    let reaches = reached.contains(&y);
                    assert_eq!(found.reaches(x, y, window), reaches, "{case:?}");
                    let chain = found.chain(x, y, window);
                    assert_eq!(chain.as_deref(), listing.chain(x, y, window), "{case:?}");
                    (yes, no) = (yes + u32::from(reaches), no + u32::from(!reaches));
                    chains += u32::from(chain.is_some_and(|chain| chain.len() > 1));
                }
            }
            assert_eq!(found.connects(window), listing.connects(window), "{case:?}");
        }
    }
    assert!(
        yes > 10_000 && no > 10_000 && chains > 1_000,
        "{yes} {no} {chains}"
    );
}

/// Fails unless the interval told is the only minimal one that is asked for and than which none asked for is better, and
/// one is told exactly where one is asked for. Whether another one asked for is as good as it.
#[track_caller]
fn is_the_best(
    told: Option<Interval>,
    (all, minimal): (&[Interval], &[Interval]),
    is_asked: impl Fn(&Interval) -> bool,
    better: impl Fn(&Interval, &Interval) -> bool,
    case: impl Debug,
) -> bool {
    let asked: Vec<&Interval> = all.iter().filter(|i| is_asked(i)).collect();
    let best = |i: &&Interval| asked.contains(i) && !asked.iter().any(|j| better(j, i));
    let expected: Vec<Interval> = minimal.iter().filter(best).copied().collect();
    assert_eq!(Vec::from_iter(told), expected, "{case:?}");
    assert_eq!(told.is_some(), !asked.is_empty(), "{case:?}");
    told.is_some_and(|i| asked.iter().any(|&j| *j != i && !better(&i, j)))
}

#[test]
fn earliest_and_latest_are_the_minimal_intervals_of_listing_every_journey() {
    let mut random = Random::new(206);
    let (mut found, mut nothing) = (0, 0);
    let (mut other_departures, mut other_arrivals) = (0, 0);
    for _ in 0..2_000 {
        let (opening, contacts) = drawn(&mut random, 9, 18);
        let n = opening.animals;
        let journeys = Journeys::new(opening, contacts.clone());
        for (pair, all) in (0..).zip(&listed(opening, &contacts)) {
            let (x, y) = (pair / n, pair % n);
            let intervals = (&all[..], &minimal(all)[..]);
            for tick in (1..=opening.last_arrival()).filter(|_| x != y) {
                let case = (opening, &contacts, x, y, tick);
                let earliest = journeys.earliest(x, y, tick);
                other_departures += u32::from(is_the_best(
                    earliest,
                    intervals,
                    |i| i.departure >= tick,
                    |j, i| j.arrival < i.arrival,
                    case,
                ));
                let latest = journeys.latest(x, y, tick);
                other_arrivals += u32::from(is_the_best(
                    latest,
                    intervals,
                    |i| i.arrival <= tick,
                    |j, i| j.departure > i.departure,
                    case,
                ));
                for told in [earliest, latest] {
                    found += u32::from(told.is_some());
                    nothing += u32::from(told.is_none());
                }
            }
        }
    }
    assert!(found > 10_000 && nothing > 10_000, "{found} {nothing}");
    let others = (other_departures, other_arrivals);
    assert!(others.0 > 500 && others.1 > 500, "{others:?}");
}

#[test]
fn claimed_chains_are_those_of_listing_every_journey() {
    let mut random = Random::new(205);
    let (mut yes, mut no) = (0, 0);
    for _ in 0..300 {
        let opening = Opening::new(random.between(2, 3), random.between(2, 4), 1);
        let contacts = cases::log_contacts(&mut random, opening, 6);
        let contacts: Contacts = contacts.into_iter().collect();
        let legal = cases::legal_contacts(opening);
        let listing = Listing::new(opening, &contacts);
        let found = Journeys::new(opening, contacts.clone());
        let windows = cases::windows(opening);
        for _ in 0..200 {
            let length = random.below(4);
            let claim: Vec<Contact> = (0..length).map(|_| random.one_of(&legal)).collect();
            let (u, v) = cases::pair(&mut random, opening);
            let window = match random.once_in(2) {
                true => Window::whole(opening),
                false => random.one_of(&windows),
            };
            let expected = listing.spells(u, v, window, &claim);
            let spelled = found.spells(u, v, window, &words::contact_words(&claim));
            assert_eq!(spelled, expected, "{opening:?} {contacts:?} {claim:?}");
            (yes, no) = (yes + u32::from(spelled), no + u32::from(!spelled));
        }
    }
    assert!(yes > 500 && no > 5_000, "{yes} {no}");
}

#[test]
fn search_and_rule_answer_alike() {
    let mut random = Random::new(1024);
    let (mut chains, mut found) = (0, 0);
    for _ in 0..1_500 {
        let opening = cases::opening_with_time(&mut random);
        let contacts: Contacts = cases::crowded_contacts(&mut random, opening)
            .into_iter()
            .collect();
        let lent = Lent::fresh(opening, contacts.clone());
        let (searched, ruled) = (&lent.known, Known::by_words(&lent.words));
        for export in Export::ON_OPEN_TABLES {
            for _ in 0..12 {
                let call = lent.draw(&mut random, export);
                let outcome = call.expected(&lent.words, searched);
                assert_eq!(outcome, call.expected(&lent.words, &ruled), "{call:?}");
            }
        }
        let journeys = Journeys::new(opening, contacts);
        for _ in 0..40 {
            let (u, v) = cases::pair(&mut random, opening);
            let first = random.between(1, opening.ticks);
            let window = Window::new(first, random.between(first, opening.ticks));
            let chain = journeys.chain(u, v, window);
            assert_eq!(chain.is_some(), journeys.reaches(u, v, window));
            if let Some(chain) = chain {
                is_the_chain(&journeys, &chain, (u, v), window);
                chains += u32::from(chain.len() > 1);
            }
            found += u32::from(journeys.earliest(u, v, first).is_some());
        }
    }
    assert!(chains > 500 && found > 5_000, "{chains} {found}");
}

/// Fails unless the contacts form a journey of the set between the pair, with the earliest arrival in the window and the
/// latest departure to it, of at most n−1 contacts.
fn is_the_chain(journeys: &Journeys, chain: &[Contact], (u, v): (u32, u32), window: Window) {
    let opening = journeys.opening();
    let case = (opening, journeys.contacts(), chain, window);
    let is_held_inside = |&c: &Contact| journeys.holds(c) && window.has(c);
    assert!(chain.iter().all(is_held_inside), "{case:?}");
    let taken = words::journey(opening.carry, chain).unwrap_or_else(|| panic!("{case:?}"));
    assert_eq!(words::ends(chain), (u, v), "{case:?}");
    let earliest = journeys.earliest(u, v, window.first);
    assert_eq!(earliest, Some(taken), "{case:?}");
    let latest = journeys.latest(u, v, taken.arrival);
    assert_eq!(latest, Some(taken), "{case:?}");
    assert!(chain.len() < opening.animals as usize, "{case:?}");
}

#[test]
fn rule_builds_what_the_search_finds() {
    let mut random = Random::new(202);
    for _ in 0..500 {
        let opening = cases::opening_with_pairs(&mut random);
        let mut contacts = Contacts::new();
        let mut stored = Stored::new(opening, vec![Vec::new(); opening.pairs()]);
        for _ in 0..random.below(30) {
            let contact = cases::contact(&mut random, opening);
            let found = Journeys::new(opening, contacts.clone()).add(contact);
            let ruled = stored.add(contact);
            assert_eq!(ruled, found, "{opening:?} {contacts:?} {contact:?}");
            contacts.insert(contact);
            stored = Stored::new(opening, ruled.0);
        }
    }
}

#[test]
fn every_legal_contact_makes_full_cells() {
    for (animals, ticks, carry) in [(1, 3, 1), (2, 5, 1), (3, 4, 2), (5, 7, 1), (4, 6, 9)] {
        let opening = Opening::new(animals, ticks, carry);
        let contacts = cases::legal_contacts(opening).into_iter().collect();
        let found = model::minimal_intervals(opening, &contacts);
        assert_eq!(found, cases::full_cells(opening), "{opening:?}");
    }
}

#[test]
fn reading_is_opening_and_adding_all() {
    let mut random = Random::new(204);
    for _ in 0..1_000 {
        let opening = cases::opening(&mut random);
        let (n, ticks, carry) = (opening.animals, opening.ticks, opening.carry);
        let contacts = cases::log_contacts(&mut random, opening, 20);
        let before = random.words(opening.table_words());
        let (_, mut table) = calls::open(&before, n, ticks, carry);
        let mut new = 0;
        for contact in &contacts {
            let (added, after) = calls::add(&table, contact.from, contact.to, contact.tick);
            new += u32::from(matches!(added, Added::New(_)));
            table = after;
        }
        let (answer, read) = calls::read_log(&words::log(opening, contacts), &before);
        assert_eq!(answer, Read::Contacts(new), "{opening:?}");
        assert_eq!(read, table, "{opening:?}");
    }
}

#[test]
fn joining_is_adding_what_the_second_holds() {
    let mut random = Random::new(207);
    for round in 0..1_500 {
        let opening = draws::opening(&mut random);
        let first = words::table(opening, &draws::cells(&mut random, opening));
        let cells = draws::cells(&mut random, opening);
        let second = words::table(opening, &cells);
        let mut held = cases::legal_contacts(opening);
        held.retain(|c| cells[opening.pair(c.from, c.to)].contains(&c.interval(opening.carry)));
        if round % 2 == 0 {
            held.reverse();
        }
        let (mut table, mut new) = (first.clone(), 0);
        for contact in &held {
            let (added, after) = calls::add(&table, contact.from, contact.to, contact.tick);
            new += u32::from(matches!(added, Added::New(_)));
            table = after;
        }
        let (answer, joined) = calls::join(&first, &second);
        assert_eq!(answer, Joined::New(new), "{opening:?} {held:?}");
        assert_eq!(joined, table, "{opening:?} {held:?}");
    }
}

#[test]
fn removing_is_opening_and_adding_what_is_left() {
    let mut random = Random::new(210);
    let (mut done, mut refused) = (0, 0);
    for round in 0..1_500 {
        let opening = draws::opening(&mut random);
        let cells = match round % 2 {
            0 => draws::cells(&mut random, opening),
            _ => {
                let contacts = draws::contacts(&mut random, opening);
                model::minimal_intervals(opening, &contacts.into_iter().collect())
            }
        };
        let first = words::table(opening, &cells);
        let work = random.words(first.len());
        let mut legal = cases::legal_contacts(opening);
        random.shuffle(&mut legal);
        let held =
            |c: &Contact| cells[opening.pair(c.from, c.to)].contains(&c.interval(opening.carry));
        for removed in legal.iter().take(6) {
            let (u, v, t) = (removed.from, removed.to, removed.tick);
            let (answer, [table, other]) = calls::remove(&first, &work, u, v, t);
            if !held(removed) {
                assert_eq!(answer, Done::Refused(21), "{opening:?} {removed:?}");
                assert_eq!((&table, &other), (&first, &work), "{opening:?}");
                refused += 1;
                continue;
            }
            let (n, ticks, carry) = (opening.animals, opening.ticks, opening.carry);
            let (_, mut left) = calls::open(&work, n, ticks, carry);
            for contact in legal.iter().filter(|c| held(c) && *c != removed) {
                let (u, v, t) = (contact.from, contact.to, contact.tick);
                left = calls::add(&left, u, v, t).1;
            }
            assert_eq!(answer, Done::Done, "{opening:?} {removed:?}");
            assert_eq!((&table, &other), (&left, &left), "{opening:?} {removed:?}");
            done += 1;
        }
    }
    assert!(done > 1_000 && refused > 1_000, "{done} {refused}");
}

/// The contacts of the stays, by listing the animals of each pen at each tick.
fn met_by_pens(opening: Opening, stays: &[Stay]) -> Vec<Contact> {
    let mut contacts = Vec::new();
    for tick in 1..=opening.ticks {
        for pen in 0..=LAST_PEN {
            let here = |stay: &&Stay| stay.pen == pen && stay.first <= tick && tick <= stay.last;
            let animals = stays.iter().filter(here).map(|stay| stay.animal);
            let animals: BTreeSet<u32> = animals.collect();
            for &u in &animals {
                let others = animals.iter().filter(|&&v| v != u);
                contacts.extend(others.map(|&v| Contact::new(u, v, tick)));
            }
        }
    }
    contacts
}

#[test]
fn stays_add_the_animals_of_one_pen_to_each_other() {
    let mut random = Random::new(208);
    let (mut new, mut refused) = (0, 0);
    for round in 0..1_500 {
        let opening = draws::opening(&mut random);
        let first = words::table(opening, &draws::cells(&mut random, opening));
        let list = cases::stays(&mut random, opening, 8);
        let mut contacts = met_by_pens(opening, &list);
        if round % 2 == 0 {
            contacts.reverse();
        }
        let (mut table, mut number) = (first.clone(), 0);
        for contact in &contacts {
            let (added, after) = calls::add(&table, contact.from, contact.to, contact.tick);
            number += u32::from(matches!(added, Added::New(_)));
            table = after;
        }
        let (answer, after) = calls::stays(&first, Stay::words(&list));
        assert_eq!(answer, StaysAdded::New(number), "{opening:?} {list:?}");
        assert_eq!(after, table, "{opening:?} {list:?}");
        new += number;
        for stay in &list {
            for illegal in cases::illegal_stays(opening, *stay) {
                let list = [&list[..], &[illegal]].concat();
                let outcome = calls::stays(&first, Stay::words(&list));
                assert_eq!(outcome, (StaysAdded::Refused(18), first.clone()));
                refused += 1;
            }
        }
    }
    assert!(new > 3_000 && refused > 100_000, "{new} {refused}");
}

#[test]
fn log_words_are_told_apart() {
    let contact = Contact::new(255, 0, 1024);
    let word = words::contact_word(contact);
    assert_eq!(words::read_contact(word), Some(contact));
    assert_eq!(words::read_end(0xC3FF_FFFF), Some(67_108_863));
    for bit in 26..32 {
        assert_eq!(words::read_contact(word ^ 1 << bit), None, "{bit}");
        assert_eq!(words::read_end(0xC000_0000 ^ 1 << bit), None, "{bit}");
    }
}
