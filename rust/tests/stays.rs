//! Adding the contacts of stays: who shared a pen, adding singly in any order, and the checks of table and records.

use herd::calls::{Added, Read, StaysAdded};
use herd::Stay;
use herd_testing::calls::Known;
use herd_testing::cases;
use herd_testing::check;
use herd_testing::compare::same_words;
use herd_testing::contents::Contents;
use herd_testing::model::{self, Contacts};
use herd_testing::random::Random;
use herd_testing::suite::{draws, Call, Export, Lent, Reply, Suite};
use herd_testing::words::{self, stays, Contact, Opening, LAST_PEN};

/// The refusals of a list of stays.
const REFUSALS: [u32; 3] = [5, 6, 18];

/// The call with these stays.
fn call(list: &[Stay]) -> Call {
    Call::Stays(Stay::words(list).to_vec())
}

/// Adds the stays to the table, compares, and fails unless so many contacts were new.
#[track_caller]
fn require(suite: &mut Suite, lent: &Lent, list: &[Stay], new: usize) {
    suite.require(lent, &call(list), Reply::StaysAdded(new as u32));
}

/// Adds the stays of the words, compares, and fails unless it is refused with 18 and the table keeps its words.
#[track_caller]
fn require_18(suite: &mut Suite, lent: &Lent, words: &[u32]) {
    suite.require(lent, &Call::Stays(words.to_vec()), Reply::Refused(18));
    let mut table = lent.words.clone();
    assert_eq!(
        herd::calls::stays(&mut table, words),
        StaysAdded::Refused(18)
    );
    same_words(&table, &lent.words, words);
}

/// The answer to the stays, and the words of the table afterwards.
fn added(table: &[u32], list: &[Stay]) -> (StaysAdded, Vec<u32>) {
    let mut after = table.to_vec();
    let answer = herd::calls::stays(&mut after, Stay::words(list));
    (answer, after)
}

/// The table without a contact.
fn empty(opening: Opening) -> Lent {
    Lent::fresh(opening, Contacts::new())
}

/// How many contacts of the stays the table does not hold.
fn new_to(lent: &Lent, list: &[Stay]) -> usize {
    let met = model::met(list);
    met.iter().filter(|c| !lent.held.contains(c)).count()
}

/// The contacts of the table and those of the stays.
fn both(lent: &Lent, list: &[Stay]) -> Contacts {
    let mut contacts = model::met(list);
    contacts.extend(&lent.held);
    contacts
}

/// A table that adds built in even rounds, and one that no adds built in odd ones.
fn drawn(random: &mut Random, round: u32) -> Lent {
    match round % 2 {
        0 => draws::built(random),
        _ => draws::stored(random),
    }
}

/// A name, a list of stays, and its contacts, those one way alone.
type Named = (&'static str, Vec<Stay>, Vec<(u32, u32, u32)>);

/// Named lists of stays for four animals or more and six ticks.
fn named() -> Vec<Named> {
    vec![
        ("no record", vec![], vec![]),
        ("one record", stays([(0, 5, 2, 4)]).into(), vec![]),
        (
            "one pen",
            stays([(0, 5, 1, 3), (1, 5, 2, 4)]).into(),
            vec![(0, 1, 2), (0, 1, 3)],
        ),
        (
            "two pens",
            stays([(0, 5, 1, 3), (1, 6, 2, 4)]).into(),
            vec![],
        ),
        (
            "the last pen",
            stays([(2, 63, 2, 3), (3, 63, 3, 3)]).into(),
            vec![(2, 3, 3)],
        ),
        (
            "pens far apart",
            stays([(0, 0, 1, 6), (1, 32, 1, 6), (2, 31, 1, 6), (3, 63, 1, 6)]).into(),
            vec![],
        ),
        (
            "stays of one tick",
            stays([(0, 5, 2, 2), (1, 5, 2, 2)]).into(),
            vec![(0, 1, 2)],
        ),
        (
            "stays of one tick, one behind the other",
            stays([(0, 5, 2, 2), (1, 5, 3, 3)]).into(),
            vec![],
        ),
        (
            "one tick inside a longer stay",
            stays([(0, 5, 1, 6), (3, 5, 4, 4)]).into(),
            vec![(0, 3, 4)],
        ),
        (
            "the first tick",
            stays([(1, 5, 1, 1), (3, 5, 1, 2)]).into(),
            vec![(1, 3, 1)],
        ),
        (
            "the last tick",
            stays([(1, 5, 6, 6), (3, 5, 5, 6)]).into(),
            vec![(1, 3, 6)],
        ),
        (
            "the whole calendar",
            stays([(2, 5, 1, 6), (3, 5, 1, 6)]).into(),
            (1..=6).map(|tick| (2, 3, tick)).collect(),
        ),
        (
            "ends that touch",
            stays([(0, 5, 1, 3), (1, 5, 3, 5)]).into(),
            vec![(0, 1, 3)],
        ),
        (
            "ends that just do not touch",
            stays([(0, 5, 1, 3), (1, 5, 4, 5)]).into(),
            vec![],
        ),
        (
            "three in one pen",
            stays([(0, 5, 1, 4), (1, 5, 2, 5), (2, 5, 4, 6)]).into(),
            vec![
                (0, 1, 2),
                (0, 1, 3),
                (0, 1, 4),
                (0, 2, 4),
                (1, 2, 4),
                (1, 2, 5),
            ],
        ),
        (
            "one animal alone, in overlapping stays and two pens",
            stays([(1, 5, 1, 4), (1, 5, 2, 6), (1, 6, 3, 3)]).into(),
            vec![],
        ),
        (
            "overlapping stays of one animal in one pen",
            stays([(0, 5, 1, 3), (0, 5, 2, 5), (1, 5, 3, 6)]).into(),
            vec![(0, 1, 3), (0, 1, 4), (0, 1, 5)],
        ),
        (
            "stays of one animal, one behind the other",
            stays([(0, 5, 1, 2), (0, 5, 3, 4), (1, 5, 2, 3)]).into(),
            vec![(0, 1, 2), (0, 1, 3)],
        ),
        (
            "a gap between the stays of one animal",
            stays([(0, 5, 1, 2), (0, 5, 5, 6), (1, 5, 1, 6)]).into(),
            vec![(0, 1, 1), (0, 1, 2), (0, 1, 5), (0, 1, 6)],
        ),
        (
            "one animal in two pens at once",
            stays([(0, 5, 2, 4), (0, 6, 3, 5), (1, 5, 1, 6), (2, 6, 1, 6)]).into(),
            vec![
                (0, 1, 2),
                (0, 1, 3),
                (0, 1, 4),
                (0, 2, 3),
                (0, 2, 4),
                (0, 2, 5),
            ],
        ),
        (
            "two animals together in two pens at once",
            stays([(0, 5, 1, 3), (0, 6, 2, 4), (1, 5, 1, 3), (1, 6, 2, 4)]).into(),
            vec![(0, 1, 1), (0, 1, 2), (0, 1, 3), (0, 1, 4)],
        ),
        (
            "two animals in the same two pens, never at once",
            stays([(0, 5, 1, 3), (0, 6, 4, 6), (1, 6, 1, 3), (1, 5, 4, 6)]).into(),
            vec![],
        ),
        (
            "two animals together in one pen and later in another",
            stays([(0, 0, 1, 2), (1, 0, 2, 3), (0, 63, 4, 6), (1, 63, 5, 6)]).into(),
            vec![(0, 1, 2), (0, 1, 5), (0, 1, 6)],
        ),
        (
            "repeated records",
            stays([
                (0, 5, 2, 3),
                (1, 5, 3, 4),
                (0, 5, 2, 3),
                (1, 5, 3, 4),
                (1, 5, 3, 4),
            ])
            .into(),
            vec![(0, 1, 3)],
        ),
    ]
}

#[test]
fn named_lists() {
    let mut suite = Suite::default();
    for (animals, carry) in [(4, 1), (4, 2), (4, 5), (5, 6), (4, 255), (4, 256)] {
        let opening = Opening::new(animals, 6, carry);
        let lent = empty(opening);
        for (name, mut list, one_way) in named() {
            let mut contacts = Contacts::new();
            for (u, v, t) in one_way {
                contacts.extend(words::contacts([(u, v, t), (v, u, t)]));
            }
            let fresh = model::fresh_table(opening, &contacts);
            for _ in 0..2 {
                require(&mut suite, &lent, &list, contacts.len());
                let (answer, after) = added(&lent.words, &list);
                assert_eq!(answer, StaysAdded::New(contacts.len() as u32), "{name}");
                same_words(&after, &fresh, (opening, name));
                list.reverse();
            }
        }
    }
}

#[test]
fn a_list_is_lent_as_its_words() {
    assert_eq!(Stay::words(&[]), []);
    let list = stays([(1, 2, 3, 4), (5, 6, 7, 8), (u32::MAX, 0, 9, 1 << 31)]);
    let words = [1, 2, 3, 4, 5, 6, 7, 8, u32::MAX, 0, 9, 1 << 31];
    assert_eq!(Stay::words(&list), words);
}

#[test]
fn every_two_pens() {
    let mut suite = Suite::default();
    let lent = empty(Opening::new(2, 1, 1));
    let pens: Vec<u32> = (0..=LAST_PEN + 2).chain([127, 128, u32::MAX]).collect();
    for &one in &pens {
        for &other in &pens {
            let list = stays([(0, one, 1, 1), (1, other, 1, 1)]);
            let reply = if one > LAST_PEN || other > LAST_PEN {
                Reply::Refused(18)
            } else if one == other {
                Reply::StaysAdded(2)
            } else {
                Reply::StaysAdded(0)
            };
            suite.require(&lent, &call(&list), reply);
        }
    }
}

#[test]
fn all_pens_at_once() {
    let mut suite = Suite::default();
    let lent = empty(Opening::new(128, 3, 1));
    let (mut list, mut contacts) = (Vec::new(), Contacts::new());
    for pen in 0..=LAST_PEN {
        list.extend(stays([(pen, pen, 1, 2), (pen + 64, pen, 2, 3)]));
        contacts.extend(words::contacts([(pen, pen + 64, 2), (pen + 64, pen, 2)]));
    }
    require(&mut suite, &lent, &list, 128);
    let after = added(&lent.words, &list).1;
    let fresh = model::fresh_table(lent.opening, &contacts);
    same_words(&after, &fresh, "two animals in each pen");
    for (animals, ticks, carry) in [(2, 3, 1), (5, 7, 3), (3, 2, 256)] {
        let lent = empty(Opening::new(animals, ticks, carry));
        let mut list = Vec::new();
        for pen in 0..=LAST_PEN {
            list.extend((0..animals).map(|animal| Stay::new(animal, pen, 1, ticks)));
        }
        let every = (animals * (animals - 1) * ticks) as usize;
        require(&mut suite, &lent, &list, every);
        let full = words::table(lent.opening, &cases::full_cells(lent.opening));
        let after = added(&lent.words, &list).1;
        same_words(&after, &full, "every animal in every pen");
    }
}

/// Every stay of the animals in two pens.
fn every_stay(opening: Opening) -> Vec<Stay> {
    let mut every = Vec::new();
    for animal in 0..opening.animals {
        for pen in [31, 63] {
            for first in 1..=opening.ticks {
                let lasts = first..=opening.ticks;
                every.extend(lasts.map(|last| Stay::new(animal, pen, first, last)));
            }
        }
    }
    every
}

#[test]
fn every_two_stays_of_a_short_calendar() {
    let mut suite = Suite::default();
    for (ticks, carry) in [(1, 1), (2, 3), (4, 1), (5, 2)] {
        let lent = empty(Opening::new(3, ticks, carry));
        let every = every_stay(lent.opening);
        for one in &every {
            for other in &every {
                let first = one.first.max(other.first);
                let behind = one.last.min(other.last) + 1;
                let meet = one.animal != other.animal && one.pen == other.pen;
                let shared = if meet {
                    behind.saturating_sub(first)
                } else {
                    0
                };
                require(&mut suite, &lent, &[*one, *other], 2 * shared as usize);
            }
        }
    }
}

#[test]
fn three_and_four_stays_of_a_short_calendar() {
    let mut random = Random::new(1_401);
    let mut suite = Suite::default();
    for (ticks, carry) in [(1, 2), (3, 1), (4, 1), (6, 2)] {
        let opening = Opening::new(3, ticks, carry);
        let every = every_stay(opening);
        let (mut with_new, mut with_known) = (0, 0);
        for round in 0..10_000 {
            let list: Vec<Stay> = (0..3 + round % 2).map(|_| random.one_of(&every)).collect();
            let contacts = cases::log_contacts(&mut random, opening, 3);
            let lent = Lent::fresh(opening, contacts.into_iter().collect());
            let new = new_to(&lent, &list);
            require(&mut suite, &lent, &list, new);
            with_new += u32::from(new > 0);
            with_known += u32::from(new < model::met(&list).len());
        }
        let counted = (opening, with_new, with_known);
        assert!(with_new > 5_000 && with_known > 1_000, "{counted:?}");
    }
}

/// Whether the list has two records at different places for which this holds, in one order or the other.
fn any_two(list: &[Stay], holds: impl Fn(&Stay, &Stay) -> bool) -> bool {
    let mut places = 0..list.len();
    places.any(|one| {
        let mut others = (0..list.len()).filter(|&other| other != one);
        others.any(|other| holds(&list[one], &list[other]))
    })
}

/// Whether a stay begins at the tick at which a stay of another animal in its pen ends.
fn any_touch(list: &[Stay]) -> bool {
    any_two(list, |one, other| {
        one.animal != other.animal && one.pen == other.pen && one.last == other.first
    })
}

/// Whether two stays of one animal share a tick.
fn any_overlap(list: &[Stay]) -> bool {
    any_two(list, |one, other| {
        one.animal == other.animal && one.first <= other.first && other.first <= one.last
    })
}

/// Whether the table afterwards has an interval that neither the table before nor the contacts alone have.
fn any_across(before: &[u32], contacts: &Contacts, after: &[u32]) -> bool {
    let before = check::open_table(before).expect("a well-formed table");
    let after = check::open_table(after).expect("a well-formed table");
    let alone = model::minimal_intervals(before.opening(), contacts);
    let mut cells = after.cells().iter().zip(before.cells()).zip(&alone);
    cells.any(|((after, before), alone)| {
        let mut rows = after.iter();
        rows.any(|row| !before.contains(row) && !alone.contains(row))
    })
}

#[test]
fn tables_that_adds_built() {
    let mut random = Random::new(1_402);
    let mut suite = Suite::default();
    let (mut across, mut known, mut slow, mut last) = (0, 0, 0, 0);
    let (mut touching, mut overlapping, mut repeated) = (0, 0, 0);
    for _ in 0..8_000 {
        let lent = draws::built(&mut random);
        let opening = lent.opening;
        let list = cases::stays(&mut random, opening, 8);
        let (met, new) = (model::met(&list), new_to(&lent, &list));
        require(&mut suite, &lent, &list, new);
        let (answer, after) = added(&lent.words, &list);
        assert_eq!(answer, StaysAdded::New(new as u32));
        let all = both(&lent, &list);
        same_words(&after, &model::fresh_table(opening, &all), (opening, &list));
        across += u32::from(any_across(&lent.words, &met, &after));
        known += u32::from(new < met.len());
        slow += u32::from(opening.carry >= opening.ticks && !met.is_empty());
        last += u32::from(met.iter().any(|contact| contact.tick == opening.ticks));
        touching += u32::from(any_touch(&list));
        overlapping += u32::from(any_overlap(&list));
        repeated += u32::from(any_two(&list, |one, other| one == other));
    }
    let tables = [across, known, slow, last];
    assert!(tables.iter().all(|&times| times > 400), "{tables:?}");
    let lists = [touching, overlapping, repeated];
    assert!(lists.iter().all(|&times| times > 400), "{lists:?}");
}

#[test]
fn tables_that_no_adds_built() {
    let mut random = Random::new(1_403);
    let mut suite = Suite::default();
    let (mut new, mut apart) = (0, 0);
    for _ in 0..8_000 {
        let lent = draws::stored(&mut random);
        let list = cases::stays(&mut random, lent.opening, 8);
        require(&mut suite, &lent, &list, new_to(&lent, &list));
        let after = added(&lent.words, &list).1;
        let fresh = model::fresh_table(lent.opening, &both(&lent, &list));
        new += u32::from(new_to(&lent, &list) > 0);
        apart += u32::from(after != fresh && after != lent.words);
    }
    assert!(new > 2_000 && apart > 1_000, "{new} {apart}");
}

/// The table after adds of the contacts in this order, and how many were answered new.
fn added_singly(table: &[u32], contacts: &[Contact]) -> (StaysAdded, Vec<u32>) {
    let mut after = table.to_vec();
    let mut new = 0;
    for contact in contacts {
        match herd::calls::add(&mut after, contact.from, contact.to, contact.tick) {
            Added::New(_) => new += 1,
            Added::Known(_) => (),
            Added::Refused(number) => panic!("{contact:?}: refused {number}"),
        }
    }
    (StaysAdded::New(new), after)
}

#[test]
fn stays_are_added_singly_in_any_order() {
    let mut random = Random::new(1_404);
    let mut changed = 0;
    for round in 0..6_000 {
        let lent = drawn(&mut random, round);
        let list = cases::stays(&mut random, lent.opening, 8);
        let (answer, after) = added(&lent.words, &list);
        let log_order = Vec::from_iter(model::met(&list));
        let mut reverse = log_order.clone();
        reverse.reverse();
        let mut shuffled = log_order.clone();
        random.shuffle(&mut shuffled);
        for order in [log_order, reverse, shuffled] {
            let singly = added_singly(&lent.words, &order);
            assert_eq!(singly.0, answer, "{:?} {list:?}", lent.opening);
            same_words(&singly.1, &after, (lent.opening, &list, &order));
        }
        changed += u32::from(after != lent.words);
    }
    assert!(changed > 2_000, "{changed}");
}

#[test]
fn order_and_repeats_do_not_matter() {
    let mut random = Random::new(1_405);
    let mut changed = 0;
    for round in 0..3_000 {
        let lent = drawn(&mut random, round);
        let list = cases::stays(&mut random, lent.opening, 8);
        let expected = added(&lent.words, &list);
        let mut doubled = [&list[..], &list].concat();
        for _ in 0..3 {
            random.shuffle(&mut doubled);
            let mut other = doubled.clone();
            for place in 0..other.len() {
                if random.once_in(4) {
                    other.push(other[place]);
                }
            }
            let (answer, after) = added(&lent.words, &other);
            assert_eq!(answer, expected.0, "{:?} {list:?}", lent.opening);
            same_words(&after, &expected.1, (lent.opening, &list, &other));
        }
        changed += u32::from(expected.1 != lent.words);
    }
    assert!(changed > 1_000, "{changed}");
}

#[test]
fn animals_together_in_two_pens_at_once() {
    let mut random = Random::new(1_406);
    let mut suite = Suite::default();
    let mut new = 0;
    for round in 0..3_000 {
        let lent = drawn(&mut random, round);
        let mut list = cases::stays(&mut random, lent.opening, 8);
        list.iter_mut().for_each(|stay| stay.pen &= !1);
        let mut again = list.clone();
        again.iter_mut().for_each(|stay| stay.pen |= 1);
        let mut both = [&list[..], &again].concat();
        random.shuffle(&mut both);
        require(&mut suite, &lent, &both, new_to(&lent, &list));
        let (answer, after) = added(&lent.words, &both);
        let alone = added(&lent.words, &list);
        assert_eq!(answer, alone.0, "{:?} {list:?}", lent.opening);
        same_words(&after, &alone.1, (lent.opening, &both));
        new += u32::from(new_to(&lent, &list) > 0);
    }
    assert!(new > 1_000, "{new}");
}

#[test]
fn longer_stays_in_pieces() {
    let mut random = Random::new(1_407);
    let (mut changed, mut longer) = (0, 0);
    for round in 0..2_000 {
        let lent = drawn(&mut random, round);
        let list = cases::stays(&mut random, lent.opening, 8);
        let mut pieces = Vec::new();
        for stay in &list {
            let ticks = stay.first..=stay.last;
            pieces.extend(ticks.map(|tick| Stay::new(stay.animal, stay.pen, tick, tick)));
        }
        let (answer, after) = added(&lent.words, &pieces);
        let whole = added(&lent.words, &list);
        assert_eq!(answer, whole.0, "{:?} {list:?}", lent.opening);
        same_words(&after, &whole.1, (lent.opening, &list));
        let is_changed = after != lent.words;
        changed += u32::from(is_changed);
        longer += u32::from(is_changed && pieces.len() > list.len());
    }
    assert!(changed > 700 && longer > 400, "{changed} {longer}");
}

#[test]
fn the_same_list_twice() {
    let mut random = Random::new(1_408);
    let mut suite = Suite::default();
    let mut changed = 0;
    for round in 0..3_000 {
        let lent = drawn(&mut random, round);
        let list = cases::stays(&mut random, lent.opening, 8);
        let once = lent.with(added(&lent.words, &list).1);
        require(&mut suite, &once, &list, 0);
        let (answer, twice) = added(&once.words, &list);
        assert_eq!(answer, StaysAdded::New(0), "{:?}", lent.opening);
        same_words(&twice, &once.words, (lent.opening, &list));
        changed += u32::from(once.words != lent.words);
    }
    assert!(changed > 1_000, "{changed}");
}

#[test]
fn lists_of_no_record_and_of_one() {
    let mut random = Random::new(1_409);
    let mut suite = Suite::default();
    for round in 0..1_500 {
        let lent = drawn(&mut random, round);
        let list = [cases::stay(&mut random, lent.opening, 0, 12)];
        for list in [&[][..], &list] {
            require(&mut suite, &lent, list, 0);
            let after = added(&lent.words, list).1;
            same_words(&after, &lent.words, (lent.opening, list));
        }
    }
}

#[test]
fn one_animal_meets_nobody() {
    let mut random = Random::new(1_410);
    let mut suite = Suite::default();
    for ticks in [1, 2, 7, 1023, 1024] {
        for carry in [1, 2, 255, 256] {
            let lent = empty(Opening::new(1, ticks, carry));
            for _ in 0..20 {
                let mut list = cases::stays(&mut random, lent.opening, 20);
                list.push(Stay::new(0, LAST_PEN, 1, ticks));
                require(&mut suite, &lent, &list, 0);
                let place = random.below(list.len());
                for illegal in cases::illegal_stays(lent.opening, list[place]) {
                    let mut list = list.clone();
                    list[place] = illegal;
                    require_18(&mut suite, &lent, Stay::words(&list));
                }
            }
        }
    }
}

/// A table, and a list of two legal stays or more with a contact that is new to it.
fn with_news(random: &mut Random, round: u32) -> (Lent, Vec<Stay>) {
    loop {
        let lent = drawn(random, round);
        let list = cases::stays(random, lent.opening, 6);
        if new_to(&lent, &list) > 0 {
            return (lent, list);
        }
    }
}

#[test]
fn illegal_records_first_in_the_middle_and_last() {
    let mut random = Random::new(1_411);
    let mut suite = Suite::default();
    for round in 0..400 {
        let (lent, list) = with_news(&mut random, round);
        require(&mut suite, &lent, &list, new_to(&lent, &list));
        let stay = random.one_of(&list);
        for illegal in cases::illegal_stays(lent.opening, stay) {
            let middle = random.between(1, list.len() as u32 - 1) as usize;
            for place in [0, middle, list.len()] {
                let mut list = list.clone();
                list.insert(place, illegal);
                require_18(&mut suite, &lent, Stay::words(&list));
            }
            require_18(&mut suite, &lent, Stay::words(&[illegal]));
            require_18(&mut suite, &lent, Stay::words(&[illegal; 3]));
        }
    }
}

#[test]
fn incomplete_records_alone_and_behind_others() {
    let mut random = Random::new(1_412);
    let mut suite = Suite::default();
    for round in 0..800 {
        let (lent, list) = with_news(&mut random, round);
        let words = Stay::words(&list);
        for length in 0..=words.len() {
            let cut = &words[..length];
            if length % 4 == 0 {
                let whole = &list[..length / 4];
                require(&mut suite, &lent, whole, new_to(&lent, whole));
            } else {
                require_18(&mut suite, &lent, cut);
            }
        }
        let first = &words[..4];
        for more in 1..=3 {
            require_18(&mut suite, &lent, &[words, &first[..more]].concat());
            for other in [0, 1, 63, u32::MAX, random.word()] {
                let alone = vec![other; more];
                require_18(&mut suite, &lent, &alone);
                require_18(&mut suite, &lent, &[words, &alone].concat());
            }
        }
    }
}

/// The words of every record with one number of each list.
fn every_record(numbers: [&[u32]; 4]) -> Vec<Vec<u32>> {
    let mut records = vec![Vec::new()];
    for choices in numbers {
        let mut longer = Vec::new();
        for record in &records {
            let with = |number: &u32| [&record[..], &[*number]].concat();
            longer.extend(choices.iter().map(with));
        }
        records = longer;
    }
    records
}

#[test]
fn numbers_at_their_edges() {
    let mut suite = Suite::default();
    for (animals, ticks, carry) in [(1, 1, 1), (2, 1, 256), (2, 5, 1), (3, 4, 2)] {
        let lent = empty(Opening::new(animals, ticks, carry));
        let beside = [0, LAST_PEN].map(|pen| Stay::new(0, pen, 1, ticks));
        let (before, behind) = Stay::words(&beside).split_at(4);
        let far = [1 << 8, 1 << 16, 1 << 31, u32::MAX - 1, u32::MAX];
        let edges = |near: &[u32]| [near, &far].concat();
        let animal = edges(&[0, 1, animals - 1, animals, animals + 1]);
        let pen = edges(&[0, 1, 62, 63, 64, 65]);
        let tick = edges(&[0, 1, 2, ticks, ticks + 1, ticks + carry]);
        for record in every_record([&animal, &pen, &tick, &tick]) {
            let list = [before, &record, behind].concat();
            suite.compare(&lent, &Call::Stays(list));
        }
    }
    suite.at_least(100, &[Export::Stays], &[18]);
    let is_new = |reply| matches!(reply, Reply::StaysAdded(1..));
    let new = suite.times(Export::Stays, is_new);
    assert!(new > 50, "{new}");
}

#[test]
fn checks_run_in_order() {
    let mut random = Random::new(1_413);
    let mut suite = Suite::default();
    for round in 0..600 {
        let (lent, list) = with_news(&mut random, round);
        let wrong_cell = cases::refused_6(&mut random, lent.opening, &lent.words);
        let tables = [
            (lent.words.clone(), None),
            (wrong_cell.clone(), Some(6)),
            (cases::refused_5(&mut random, &lent.words), Some(5)),
            (cases::refused_5(&mut random, &wrong_cell), Some(5)),
        ];
        let words = Stay::words(&list);
        let mut illegal = list.clone();
        let place = random.below(list.len());
        illegal[place] = random.one_of(&cases::illegal_stays(lent.opening, list[place]));
        let lists = [
            (words.to_vec(), None),
            (Vec::new(), None),
            (Stay::words(&illegal).to_vec(), Some(18)),
            (words[..words.len() - 1].to_vec(), Some(18)),
            (vec![u32::MAX; 1 + random.below(9)], Some(18)),
        ];
        for (table, of_table) in tables {
            let lent = lent.with(table);
            for (words, of_stays) in &lists {
                let reply = suite.compare_at_guards(&lent, &Call::Stays(words.clone()));
                let refused = match reply {
                    Reply::Refused(number) => Some(number),
                    _ => None,
                };
                assert_eq!(refused, of_table.or(*of_stays), "{words:?}");
            }
        }
    }
    suite.at_least(600, &[Export::Stays], &REFUSALS);
}

#[test]
fn every_bit_of_the_stays() {
    let mut random = Random::new(1_414);
    let mut suite = Suite::default();
    for round in 0..60 {
        let (lent, list) = with_news(&mut random, round);
        let words = Stay::words(&list);
        for place in 0..words.len() {
            for bit in 0..32 {
                let mut words = words.to_vec();
                words[place] ^= 1 << bit;
                suite.compare(&lent, &Call::Stays(words));
            }
        }
    }
    suite.at_least(1_000, &[Export::Stays], &[18]);
}

#[test]
fn every_bit_of_the_table() {
    let mut random = Random::new(1_415);
    let mut suite = Suite::default();
    for round in 0..40 {
        let (lent, list) = with_news(&mut random, round);
        for place in 0..lent.words.len().min(300) {
            for bit in 0..32 {
                let mut words = lent.words.clone();
                words[place] ^= 1 << bit;
                suite.compare(&lent.with(words), &call(&list));
            }
        }
    }
    suite.at_least(500, &[Export::Stays], &[5, 6]);
}

#[test]
fn random_words_in_both() {
    let mut random = Random::new(1_416);
    let mut suite = Suite::default();
    for _ in 0..60_000 {
        let opening = draws::opening(&mut random);
        let contacts = cases::log_contacts(&mut random, opening, 8);
        let cells = cases::lone_cells(&mut random, opening, &contacts);
        let mut table = words::table(opening, &cells);
        if random.once_in(3) {
            table = cases::damaged(&mut random, &table);
        }
        let stays = match random.below(3) {
            0 => {
                let (number, low) = (random.below(13), random.word() & 0x0F);
                let words = random.words(number);
                words.iter().map(|word| word & low).collect()
            }
            _ => draws::stays(&mut random, opening),
        };
        suite.compare(&Lent::words(opening, table), &Call::Stays(stays));
    }
    suite.at_least(2_000, &[Export::Stays], &REFUSALS);
}

#[test]
fn thousands_of_records() {
    let mut random = Random::new(1_417);
    let mut suite = Suite::default();
    for (animals, ticks, carry, records, longest, least) in [
        (5, 12, 1, 5_000, 1, 200),
        (12, 40, 2, 3_000, 4, 4_000),
        (30, 30, 1, 2_000, 2, 3_000),
        (9, 60, 256, 2_500, 60, 4_000),
        (1, 9, 1, 4_000, 9, 0),
    ] {
        let opening = Opening::new(animals, ticks, carry);
        let contacts = cases::log_contacts(&mut random, opening, 30);
        let lent = Lent::fresh(opening, contacts.into_iter().collect());
        let mut list = Vec::new();
        for _ in 0..records {
            let pen = random.between(0, LAST_PEN);
            list.push(cases::stay(&mut random, opening, pen, longest));
        }
        let new = new_to(&lent, &list);
        assert!(new >= least, "{opening:?} {new}");
        require(&mut suite, &lent, &list, new);
        let mut illegal = list.clone();
        let place = random.one_of(&[0, records / 2, records - 1]);
        illegal[place].pen = LAST_PEN + 1;
        require_18(&mut suite, &lent, Stay::words(&illegal));
        let words = Stay::words(&list);
        require_18(&mut suite, &lent, &words[..words.len() - 1]);
    }
}

#[test]
fn thousands_of_records_that_share_nothing_or_one_tick() {
    let mut random = Random::new(1_421);
    let mut suite = Suite::default();
    let opening = Opening::new(40, 60, 3);
    let mut apart = Vec::new();
    for pen in 0..=LAST_PEN {
        for tick in 1..=opening.ticks {
            let animal = random.between(0, opening.animals - 1);
            apart.push(Stay::new(animal, pen, tick, tick));
        }
    }
    random.shuffle(&mut apart);
    let lent = empty(opening);
    require(&mut suite, &lent, &apart, 0);
    let after = added(&lent.words, &apart).1;
    same_words(&after, &lent.words, "records that share nothing");
    let mut together = [stays([(3, 9, 7, 8)]), stays([(39, 9, 8, 9)])].concat();
    together = together.repeat(2_500);
    require(&mut suite, &lent, &together, 2);
}

#[test]
fn wide_tables() {
    let mut random = Random::new(1_418);
    let mut suite = Suite::default();
    let mut all_new = 0;
    for (animals, ticks, carry) in [
        (2, 1024, 1),
        (2, 1024, 256),
        (3, 1023, 2),
        (4, 600, 100),
        (5, 20, 256),
        (12, 64, 3),
        (65, 6, 2),
        (129, 4, 1),
        (255, 3, 1),
        (256, 1, 256),
        (256, 4, 1),
    ] {
        let opening = Opening::new(animals, ticks, carry);
        let contacts = cases::following_contacts(&mut random, opening, 40);
        let fresh = Lent::fresh(opening, contacts.iter().copied().collect());
        let cells = cases::lone_cells(&mut random, opening, &contacts);
        for lent in [fresh, Lent::stored(opening, &cells)] {
            let mut list = cases::stays(&mut random, opening, 12);
            let late = ticks.max(3) - 2;
            let last = animals - 1;
            list.extend(stays([(last, 63, late, ticks), (0, 63, ticks, ticks)]));
            list.extend(stays([(last / 2, 0, 1, 1), (last, 0, 1, 1)]));
            random.shuffle(&mut list);
            let new = new_to(&lent, &list);
            assert!(new > 0, "{opening:?} {list:?}");
            require(&mut suite, &lent, &list, new);
            all_new += new;
            for illegal in cases::illegal_stays(opening, list[0]) {
                let list = [&list[..], &[illegal]].concat();
                require_18(&mut suite, &lent, Stay::words(&list));
            }
        }
    }
    assert!(all_new > 150, "{all_new}");
}

#[test]
fn every_legal_contact() {
    let mut random = Random::new(1_419);
    for (animals, ticks, carry) in [
        (2, 1, 1),
        (2, 1024, 1),
        (2, 1024, 256),
        (3, 200, 1),
        (7, 12, 14),
        (12, 40, 1),
        (256, 2, 2),
    ] {
        let opening = Opening::new(animals, ticks, carry);
        let full = words::table(opening, &cases::full_cells(opening));
        let whole = |animal| Stay::new(animal, LAST_PEN, 1, ticks);
        let mut list: Vec<Stay> = (0..animals).map(whole).collect();
        random.shuffle(&mut list);
        let every = animals * (animals - 1) * ticks;
        let (answer, after) = added(&empty(opening).words, &list);
        assert_eq!(answer, StaysAdded::New(every), "{opening:?}");
        same_words(&after, &full, opening);
        let (answer, after) = added(&full, &list);
        assert_eq!(answer, StaysAdded::New(0), "{opening:?}");
        same_words(&after, &full, opening);
        let half = added(&empty(opening).words, &list[1..]).1;
        let (answer, after) = added(&half, &list);
        let with_the_first = 2 * (animals - 1) * ticks;
        assert_eq!(answer, StaysAdded::New(with_the_first), "{opening:?}");
        same_words(&after, &full, opening);
    }
}

/// The contacts that the call adds to a table with this opening; none where it is refused.
fn contacts_of(opening: Opening, call: &Call) -> Vec<Contact> {
    match call {
        Call::Add(u, v, t) => Vec::from_iter(check::contact(opening, *u, *v, *t)),
        Call::Join(second) => {
            let known = Known::by_words(second);
            let second = known.contents().ok();
            let same = second.filter(|second| second.opening() == opening);
            same.map_or(Vec::new(), |second| second.held())
        }
        Call::Stays(words) => {
            let list = check::stays(opening, words);
            list.map_or(Vec::new(), |list| Vec::from_iter(model::met(&list)))
        }
        other => panic!("{other:?} adds nothing"),
    }
}

/// The number of new contacts that an add, a join or a list of stays answers.
fn new_contacts(reply: Reply) -> usize {
    match reply {
        Reply::New(_) => 1,
        Reply::Joined(new) | Reply::StaysAdded(new) => new as usize,
        _ => 0,
    }
}

/// The table after these calls on an empty one, its contacts, and the answers, which must tell how many were new.
fn after_all(opening: Opening, calls: &[Call]) -> (Vec<u32>, Contacts, Vec<Reply>) {
    let (mut table, mut held) = (empty(opening).words, Contacts::new());
    let mut replies = Vec::new();
    for call in calls {
        let before = held.len();
        held.extend(contacts_of(opening, call));
        let made = call.made(&table);
        let new = new_contacts(made.reply);
        assert_eq!(new, held.len() - before, "{opening:?} {call:?}");
        table = made.table;
        replies.push(made.reply);
    }
    (table, held, replies)
}

/// The table into which the log of these contacts was read.
fn read(random: &mut Random, opening: Opening, contacts: &Contacts) -> Vec<u32> {
    let mut table = random.words(opening.table_words());
    let log = words::log(opening, contacts.iter().copied());
    let answer = herd::calls::read_log(&log, &mut table);
    assert_eq!(answer, Read::Contacts(contacts.len() as u32), "{opening:?}");
    table
}

#[test]
fn adds_joins_and_stays_in_any_order() {
    let mut random = Random::new(1_420);
    let exports = [Export::Add, Export::Join, Export::Stays];
    let (mut refused, mut by_each) = (0, [0; 3]);
    for _ in 0..2_000 {
        let lent = empty(draws::opening(&mut random));
        let opening = lent.opening;
        let mut calls = Vec::new();
        for _ in 0..random.between(1, 12) {
            let export = random.one_of(&exports);
            calls.push(lent.draw(&mut random, export));
        }
        let (mut tables, mut all) = (Vec::new(), Contacts::new());
        for _ in 0..2 {
            let (table, held, replies) = after_all(opening, &calls);
            for (call, reply) in calls.iter().zip(replies) {
                refused += u32::from(matches!(reply, Reply::Refused(_)));
                let export = exports.iter().position(|&export| export == call.export());
                by_each[export.expect("one of the three")] += new_contacts(reply);
            }
            tables.push(table);
            all = held;
            random.shuffle(&mut calls);
        }
        same_words(&tables[0], &tables[1], (opening, &calls));
        same_words(&tables[0], &model::fresh_table(opening, &all), opening);
        same_words(&tables[0], &read(&mut random, opening, &all), opening);
    }
    assert!(refused > 2_000, "{refused}");
    assert!(by_each.iter().all(|&new| new > 4_000), "{by_each:?}");
}

#[test]
fn empty_slices() {
    assert_eq!(herd::calls::stays(&mut [], &[]), StaysAdded::Refused(5));
    let words = [0, 0, 1, 1];
    assert_eq!(herd::calls::stays(&mut [], &words), StaysAdded::Refused(5));
    let mut table = empty(Opening::new(1, 1, 1)).words;
    assert_eq!(herd::calls::stays(&mut table, &[]), StaysAdded::New(0));
    assert_eq!(herd::calls::stays(&mut table, &words), StaysAdded::New(0));
    let incomplete = &words[1..];
    assert_eq!(
        herd::calls::stays(&mut table, incomplete),
        StaysAdded::Refused(18)
    );
    assert_eq!(table, [0x8000_0000, 0xC000_0000, 0]);
}
