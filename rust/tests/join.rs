//! Joining two tables: what both hold together, adding singly in any order, and the checks of either.

use herd::calls::{Added, Joined, Written};
use herd_testing::cases;
use herd_testing::check;
use herd_testing::compare::same_words;
use herd_testing::model::{self, Contacts};
use herd_testing::random::Random;
use herd_testing::suite::{draws, Call, Export, Lent, Reply, Suite};
use herd_testing::words::{self, Cells, Contact, Interval, Opening};

/// The refusals of a join.
const REFUSALS: [u32; 3] = [5, 6, 17];

/// Joins the second table into the first, and compares.
#[track_caller]
fn compare(suite: &mut Suite, first: &Lent, second: &[u32]) -> Reply {
    suite.compare(first, &Call::Join(second.to_vec()))
}

/// Joins the second table into the first, compares, and fails unless so many contacts were new.
#[track_caller]
fn require(suite: &mut Suite, first: &Lent, second: &Lent, new: usize) {
    let call = Call::Join(second.words.clone());
    suite.require(first, &call, Reply::Joined(new as u32));
}

/// The answer of a join, and the words of the first table afterwards; those of the second stay.
#[track_caller]
fn joined(first: &[u32], second: &[u32]) -> (Joined, Vec<u32>) {
    let (mut after, lent) = (first.to_vec(), second.to_vec());
    let answer = herd::calls::join(&mut after, &lent);
    same_words(&lent, second, "the second table");
    (answer, after)
}

/// The cells of a well-formed table.
fn cells(lent: &Lent) -> Cells {
    let stored = check::open_table(&lent.words).expect("a well-formed table");
    stored.cells().clone()
}

/// The contacts of the second table that the first does not hold.
fn new_to(first: &Lent, second: &Lent) -> usize {
    let second = second.held.iter();
    second.filter(|c| !first.held.contains(c)).count()
}

/// The contacts of both tables.
fn both(first: &Lent, second: &Lent) -> Contacts {
    first.held.iter().chain(&second.held).copied().collect()
}

/// Two tables with these numbers that adds built, which hold some contacts alike.
fn two_built(random: &mut Random, opening: Opening) -> [Lent; 2] {
    let first = draws::contacts(random, opening);
    let mut second = draws::contacts(random, opening);
    let shared = first.iter().filter(|_| random.once_in(4));
    second.extend(shared);
    [first, second].map(|contacts| Lent::built(random, opening, &contacts))
}

/// Two tables with these numbers, of which at least one was not built by adds.
fn two_stored(random: &mut Random, opening: Opening) -> [Lent; 2] {
    let [mut first, mut second] = two_built(random, opening);
    let which = random.below(4);
    if which != 0 {
        first = Lent::stored(opening, &draws::cells(random, opening));
    }
    if which != 1 {
        second = Lent::stored(opening, &draws::cells(random, opening));
    }
    [first, second]
}

/// A small opening; with long carry times, and with one animal now and then.
fn small(random: &mut Random) -> Opening {
    if random.once_in(2) {
        cases::opening(random)
    } else {
        draws::opening(random)
    }
}

#[test]
fn tables_that_adds_built() {
    let mut random = Random::new(1_301);
    let mut suite = Suite::default();
    let (mut across, mut slow, mut shared, mut last) = (0, 0, 0, 0);
    for _ in 0..4_000 {
        let opening = small(&mut random);
        let [first, second] = two_built(&mut random, opening);
        let fresh = model::minimal_intervals(opening, &both(&first, &second));
        let together = words::table(opening, &fresh);
        for (one, other) in [(&first, &second), (&second, &first)] {
            require(&mut suite, one, other, new_to(one, other));
            let (answer, after) = joined(&one.words, &other.words);
            assert_eq!(answer, Joined::New(new_to(one, other) as u32));
            same_words(&after, &together, (opening, &one.held, &other.held));
        }
        let (one, other) = (cells(&first), cells(&second));
        let of_neither = |pair: usize| {
            let mut rows = fresh[pair].iter();
            rows.any(|row| !one[pair].contains(row) && !other[pair].contains(row))
        };
        across += u32::from((0..opening.pairs()).any(of_neither));
        slow += u32::from(opening.carry >= opening.ticks);
        shared += u32::from(new_to(&first, &second) < second.held.len());
        last += u32::from(second.held.iter().any(|c| c.tick == opening.ticks));
    }
    suite.at_least(8_000, &[Export::Join], &[]);
    let met = [across, slow, shared, last];
    assert!(met.iter().all(|&times| times > 500), "{met:?}");
}

#[test]
fn every_pair_of_sets_of_small_tables() {
    let mut random = Random::new(1_302);
    let mut suite = Suite::default();
    for (animals, ticks, carry, every) in [
        (2, 1, 1, true),
        (2, 2, 3, true),
        (2, 3, 1, true),
        (2, 3, 2, true),
        (2, 4, 1, true),
        (3, 1, 1, true),
        (3, 2, 1, false),
        (3, 2, 2, false),
        (3, 3, 1, false),
    ] {
        let opening = Opening::new(animals, ticks, carry);
        let legal = cases::legal_contacts(opening);
        let sets = 1usize << legal.len();
        let set = |bits| cases::chosen(&legal, bits).into_iter().collect();
        let numbers: Vec<usize> = if every {
            (0..sets).collect()
        } else {
            (0..100).map(|_| random.below(sets)).collect()
        };
        let fresh = numbers.iter().map(|&bits| Lent::fresh(opening, set(bits)));
        let fresh: Vec<Lent> = fresh.collect();
        for (&one, first) in numbers.iter().zip(&fresh) {
            for (&other, second) in numbers.iter().zip(&fresh) {
                let new = (other & !one).count_ones();
                require(&mut suite, first, second, new as usize);
            }
        }
    }
}

#[test]
fn tables_that_no_adds_built() {
    let mut random = Random::new(1_303);
    let mut suite = Suite::default();
    let (mut longer, mut apart) = (0, 0);
    for _ in 0..6_000 {
        let opening = small(&mut random);
        let [first, second] = two_stored(&mut random, opening);
        require(&mut suite, &first, &second, new_to(&first, &second));
        let after = joined(&first.words, &second.words).1;
        let fresh = model::fresh_table(opening, &both(&first, &second));
        apart += u32::from(after != fresh);
        let rows: usize = cells(&second).iter().map(Vec::len).sum();
        longer += rows - second.held.len();
    }
    assert!(longer > 20_000 && apart > 1_000, "{longer} {apart}");
}

/// Every list of rows that a cell of a table with this opening can have.
fn every_cell(opening: Opening) -> Vec<Vec<Interval>> {
    let mut cells = vec![Vec::new()];
    for departure in 1..=opening.ticks {
        let mut longer = Vec::new();
        for arrival in departure + opening.carry..=opening.last_arrival() {
            for cell in &cells {
                let last = cell.last().map_or(0, |last: &Interval| last.arrival);
                if last < arrival {
                    let mut cell = cell.clone();
                    cell.push(Interval::new(departure, arrival));
                    longer.push(cell);
                }
            }
        }
        cells.extend(longer);
    }
    cells
}

/// The table whose cells, in their order, have the rows of these places.
fn chosen(opening: Opening, every: &[Vec<Interval>], mut places: usize) -> Lent {
    let mut cells = Cells::new();
    for u in 0..opening.animals {
        for v in 0..opening.animals {
            if u == v {
                cells.push(Vec::new());
            } else {
                cells.push(every[places % every.len()].clone());
                places /= every.len();
            }
        }
    }
    Lent::stored(opening, &cells)
}

#[test]
fn every_pair_of_small_well_formed_tables() {
    let mut random = Random::new(1_304);
    let mut suite = Suite::default();
    for (animals, ticks, carry, cells, all) in [
        (2, 1, 2, 2, true),
        (2, 2, 1, 5, true),
        (2, 2, 3, 5, true),
        (2, 3, 1, 14, true),
        (3, 1, 1, 2, true),
        (3, 2, 1, 5, false),
        (3, 3, 1, 14, false),
        (3, 4, 2, 42, false),
    ] {
        let opening = Opening::new(animals, ticks, carry);
        let every = every_cell(opening);
        assert_eq!(every.len(), cells, "{opening:?}");
        let tables = cells.pow(animals * (animals - 1));
        let places: Vec<usize> = if all {
            (0..tables).collect()
        } else {
            (0..120).map(|_| random.below(tables)).collect()
        };
        let lent = places.iter().map(|&place| chosen(opening, &every, place));
        let lent: Vec<Lent> = lent.collect();
        for first in &lent {
            for second in &lent {
                require(&mut suite, first, second, new_to(first, second));
            }
        }
    }
}

/// The number of contacts that the table's log lists.
fn contacts_listed(opening: Opening, table: &[u32]) -> u32 {
    let mut buffer = vec![0; opening.table_words() + 1];
    match herd::calls::write_log(table, &mut buffer) {
        Written::Written(words) => words - 2,
        Written::Refused(number) => panic!("{opening:?}: refused {number}"),
    }
}

/// The first table after adds of the contacts in this order, and how many were answered new.
fn added(first: &[u32], contacts: &[Contact]) -> (Joined, Vec<u32>) {
    let mut after = first.to_vec();
    let mut new = 0;
    for contact in contacts {
        match herd::calls::add(&mut after, contact.from, contact.to, contact.tick) {
            Added::New(_) => new += 1,
            Added::Known(_) => (),
            Added::Refused(number) => panic!("{contact:?}: refused {number}"),
        }
    }
    (Joined::New(new), after)
}

#[test]
fn joining_is_adding_singly_in_any_order() {
    let mut random = Random::new(1_305);
    let mut suite = Suite::default();
    let mut changed = 0;
    for round in 0..6_000 {
        let opening = small(&mut random);
        let [first, second] = match round % 3 {
            0 => two_built(&mut random, opening),
            _ => two_stored(&mut random, opening),
        };
        compare(&mut suite, &first, &second.words);
        let (answer, after) = joined(&first.words, &second.words);
        let log_order = second.held.clone();
        let mut reverse = log_order.clone();
        reverse.reverse();
        let mut by_cell = log_order.clone();
        by_cell.sort_by_key(|c| (c.from, c.to, c.tick));
        let mut drawn = log_order.clone();
        random.shuffle(&mut drawn);
        for order in [log_order, reverse, by_cell, drawn] {
            let singly = added(&first.words, &order);
            assert_eq!(singly.0, answer, "{opening:?} {order:?}");
            same_words(&singly.1, &after, (opening, &order));
        }
        let before = contacts_listed(opening, &first.words);
        let new = contacts_listed(opening, &after) - before;
        assert_eq!(answer, Joined::New(new), "{opening:?}");
        changed += u32::from(after != first.words);
    }
    assert!(changed > 3_000, "{changed}");
}

#[test]
fn three_tables_in_any_order() {
    let mut random = Random::new(1_306);
    for _ in 0..800 {
        let opening = small(&mut random);
        let [first, second] = two_built(&mut random, opening);
        let [third, _] = two_built(&mut random, opening);
        let mut all = both(&first, &second);
        all.extend(&third.held);
        let fresh = model::fresh_table(opening, &all);
        let tables = [&first.words[..], &second.words, &third.words];
        for order in cases::orders(&tables) {
            let two = joined(order[0], order[1]).1;
            let case = (opening, &first.held, &second.held, &third.held);
            same_words(&joined(&two, order[2]).1, &fresh, case);
            same_words(&joined(order[2], &two).1, &fresh, case);
        }
    }
}

#[test]
fn equal_tables_have_nothing_new() {
    let mut random = Random::new(1_307);
    let mut suite = Suite::default();
    let mut changed = 0;
    for _ in 0..3_000 {
        let built = draws::built(&mut random);
        require(&mut suite, &built, &built, 0);
        let after = joined(&built.words, &built.words).1;
        same_words(&after, &built.words, built.opening);
        let stored = draws::stored(&mut random);
        require(&mut suite, &stored, &stored, 0);
        let after = joined(&stored.words, &stored.words).1;
        changed += u32::from(after != stored.words);
    }
    assert!(changed > 300, "{changed}");
}

#[test]
fn the_same_table_twice() {
    let mut random = Random::new(1_308);
    for round in 0..2_000 {
        let opening = small(&mut random);
        let [first, second] = match round % 2 {
            0 => two_built(&mut random, opening),
            _ => two_stored(&mut random, opening),
        };
        let once = joined(&first.words, &second.words).1;
        let (answer, twice) = joined(&once, &second.words);
        assert_eq!(answer, Joined::New(0), "{opening:?}");
        same_words(&twice, &once, opening);
    }
}

#[test]
fn empty_tables() {
    let mut random = Random::new(1_309);
    let mut suite = Suite::default();
    for round in 0..2_000 {
        let opening = small(&mut random);
        let empty = Lent::fresh(opening, Contacts::new());
        require(&mut suite, &empty, &empty, 0);
        let [_, other] = match round % 2 {
            0 => two_built(&mut random, opening),
            _ => two_stored(&mut random, opening),
        };
        require(&mut suite, &empty, &other, other.held.len());
        let held = other.held.iter().copied().collect();
        let fresh = model::fresh_table(opening, &held);
        let after = joined(&empty.words, &other.words).1;
        same_words(&after, &fresh, (opening, &other.held));
        require(&mut suite, &other, &empty, 0);
        let after = joined(&other.words, &empty.words).1;
        same_words(&after, &other.words, (opening, &other.held));
    }
}

#[test]
fn one_animal_has_nothing_to_join() {
    let mut suite = Suite::default();
    for ticks in [1, 2, 7, 1023, 1024] {
        for carry in [1, 2, 255, 256] {
            let opening = Opening::new(1, ticks, carry);
            let lent = Lent::fresh(opening, Contacts::new());
            require(&mut suite, &lent, &lent, 0);
            let after = joined(&lent.words, &lent.words).1;
            same_words(&after, &lent.words, opening);
        }
    }
}

#[test]
fn the_last_tick_is_joined() {
    let mut random = Random::new(1_310);
    let mut suite = Suite::default();
    for (animals, ticks, carry) in [
        (2, 1, 1),
        (2, 1, 256),
        (3, 2, 1),
        (5, 12, 3),
        (4, 6, 6),
        (2, 1024, 256),
        (256, 2, 1),
    ] {
        let opening = Opening::new(animals, ticks, carry);
        for _ in 0..4 {
            let mut contact = cases::contact(&mut random, opening);
            contact.tick = ticks;
            let last = Lent::fresh(opening, [contact].into());
            let mut contacts = cases::log_contacts(&mut random, opening, 20);
            contacts.retain(|&other| other != contact);
            let first = Lent::fresh(opening, contacts.into_iter().collect());
            require(&mut suite, &first, &last, 1);
            require(&mut suite, &last, &first, first.held.len());
        }
    }
}

#[test]
fn wide_tables() {
    let mut random = Random::new(1_311);
    let mut suite = Suite::default();
    for (animals, ticks, carry) in [
        (2, 1024, 1),
        (2, 1024, 256),
        (3, 1024, 256),
        (3, 1023, 2),
        (4, 600, 100),
        (5, 20, 256),
        (12, 64, 3),
        (40, 30, 2),
        (255, 3, 1),
        (256, 1, 256),
        (256, 4, 1),
    ] {
        let opening = Opening::new(animals, ticks, carry);
        let mut drawn = || {
            let mut contacts = cases::following_contacts(&mut random, opening, 60);
            contacts.push(Contact::new(animals - 1, 0, ticks));
            contacts
        };
        let [first, second] = [drawn(), drawn()].map(|contacts| contacts.into_iter().collect());
        let [first, second] = [first, second].map(|contacts| Lent::fresh(opening, contacts));
        require(&mut suite, &first, &second, new_to(&first, &second));
        require(&mut suite, &second, &first, new_to(&second, &first));
        let cells = cases::lone_cells(&mut random, opening, &second.held);
        let lone = Lent::stored(opening, &cells);
        require(&mut suite, &lone, &first, new_to(&lone, &first));
        require(&mut suite, &first, &lone, new_to(&first, &lone));
    }
}

#[test]
fn long_cells_that_no_adds_built() {
    let mut random = Random::new(1_312);
    let mut suite = Suite::default();
    for (animals, ticks, carry) in [(2, 1024, 256), (2, 1023, 1), (3, 300, 7), (8, 40, 256)] {
        let opening = Opening::new(animals, ticks, carry);
        let mut drawn = || Lent::stored(opening, &cases::cells(&mut random, opening));
        let (first, second) = (drawn(), drawn());
        require(&mut suite, &first, &second, new_to(&first, &second));
    }
}

#[test]
fn halves_of_every_legal_contact() {
    let mut random = Random::new(1_313);
    for (animals, ticks, carry) in [
        (2, 1, 1),
        (2, 1024, 1),
        (2, 1024, 256),
        (3, 200, 1),
        (7, 12, 14),
        (12, 40, 1),
        (256, 2, 2),
    ] {
        let opening = Opening::new(animals, ticks, carry);
        let full = words::table(opening, &cases::full_cells(opening));
        let mut legal = cases::legal_contacts(opening);
        random.shuffle(&mut legal);
        let (one, other) = legal.split_at(legal.len() / 2);
        let [one, other] = [one, other].map(|half| {
            let log = words::log(opening, half.iter().copied());
            let mut table = random.words(full.len());
            let read = herd::calls::read_log(&log, &mut table);
            assert_eq!(read, herd::calls::Read::Contacts(half.len() as u32));
            table
        });
        let empty = model::fresh_table(opening, &Contacts::new());
        let half = legal.len() / 2;
        for (first, second, new) in [
            (&one, &other, legal.len() - half),
            (&other, &one, half),
            (&one, &full, legal.len() - half),
            (&empty, &full, legal.len()),
            (&full, &one, 0),
        ] {
            let (answer, after) = joined(first, second);
            assert_eq!(answer, Joined::New(new as u32), "{opening:?}");
            same_words(&after, &full, opening);
        }
    }
}

#[test]
fn checks_run_in_order() {
    let mut random = Random::new(1_314);
    let mut suite = Suite::default();
    for _ in 0..600 {
        let opening = small(&mut random);
        let [first, second] = two_stored(&mut random, opening);
        let other = cases::other_opening(&mut random, opening);
        let other = Lent::stored(other, &draws::cells(&mut random, other));
        let mut damaged = |lent: &Lent, refusal| {
            let wrong_cell = cases::refused_6(&mut random, lent.opening, &lent.words);
            match refusal {
                Some(5) if random.once_in(2) => cases::refused_5(&mut random, &wrong_cell),
                Some(5) => cases::refused_5(&mut random, &lent.words),
                Some(_) => wrong_cell,
                None => lent.words.clone(),
            }
        };
        let refusals = [None, Some(5), Some(6)];
        for of_first in refusals {
            let first = first.with(damaged(&first, of_first));
            for of_second in refusals {
                for (second, differs) in [(&second, None), (&other, Some(17))] {
                    let second = damaged(second, of_second);
                    let reply = suite.compare_at_guards(&first, &Call::Join(second));
                    let refused = match reply {
                        Reply::Refused(number) => Some(number),
                        _ => None,
                    };
                    assert_eq!(refused, of_first.or(of_second).or(differs));
                }
            }
        }
    }
    suite.at_least(600, &[Export::Join], &REFUSALS);
}

#[test]
fn different_openings_are_refused() {
    let mut random = Random::new(1_315);
    let mut suite = Suite::default();
    for (one, other) in [
        ((3, 4, 2), (2, 4, 2)),
        ((3, 4, 2), (4, 4, 2)),
        ((3, 4, 2), (3, 3, 2)),
        ((3, 4, 2), (3, 5, 2)),
        ((3, 4, 2), (3, 4, 1)),
        ((3, 4, 2), (3, 4, 3)),
        ((3, 4, 2), (3, 2, 4)),
        ((3, 4, 2), (4, 3, 2)),
        ((1, 7, 1), (2, 1, 1)),
        ((1, 71, 5), (6, 1, 5)),
        ((2, 17, 9), (3, 7, 9)),
        ((255, 1, 1), (256, 1, 1)),
        ((2, 1023, 1), (2, 1024, 1)),
        ((2, 6, 255), (2, 6, 256)),
        ((2, 3, 1), (2, 3, 256)),
    ] {
        let [one, other] = [one, other].map(|(n, ticks, carry)| {
            let opening = Opening::new(n, ticks, carry);
            let contacts = cases::log_contacts(&mut random, opening, 12);
            let built = Lent::built(&mut random, opening, &contacts);
            let empty = Lent::fresh(opening, Contacts::new());
            [built, empty]
        });
        for one in &one {
            for other in &other {
                for (first, second) in [(one, other), (other, one)] {
                    let call = Call::Join(second.words.clone());
                    suite.require(first, &call, Reply::Refused(17));
                }
            }
        }
    }
}

#[test]
fn wrong_lengths_of_either() {
    let mut random = Random::new(1_316);
    let mut suite = Suite::default();
    for _ in 0..500 {
        let opening = small(&mut random);
        let [first, second] = two_stored(&mut random, opening);
        let right = opening.table_words();
        let [longer, other] = [&first, &second].map(|lent| {
            let more = random.one_of(&[0, 0xC000_0000, u32::MAX]);
            [&lent.words[..], &[more], &lent.words].concat()
        });
        let anywhere = random.below(longer.len());
        for length in [0, 1, right - 1, right, right + 1, longer.len(), anywhere] {
            for beside in [0, 1, right - 1, right, right + 1] {
                let lent = first.with(longer[..length].to_vec());
                let reply = compare(&mut suite, &lent, &other[..beside]);
                let refused = reply == Reply::Refused(5);
                assert_eq!(refused, (length, beside) != (right, right));
            }
        }
    }
    suite.at_least(500, &[Export::Join], &[5]);
}

#[test]
fn every_bit_of_either_table() {
    let mut random = Random::new(1_317);
    let mut suite = Suite::default();
    for _ in 0..40 {
        let mut opening = small(&mut random);
        opening.animals = opening.animals.min(3);
        let [first, second] = two_stored(&mut random, opening);
        for place in 0..opening.table_words() {
            for bit in 0..32 {
                let mut words = first.words.clone();
                words[place] ^= 1 << bit;
                compare(&mut suite, &first.with(words), &second.words);
                let mut words = second.words.clone();
                words[place] ^= 1 << bit;
                compare(&mut suite, &first, &words);
            }
        }
    }
    suite.at_least(50, &[Export::Join], &REFUSALS);
}

#[test]
fn random_words_in_both() {
    let mut random = Random::new(1_318);
    let mut suite = Suite::default();
    for _ in 0..60_000 {
        let opening = small(&mut random);
        let other = match random.below(4) {
            0 => cases::other_opening(&mut random, opening),
            _ => opening,
        };
        let [first, second] = [opening, other].map(|opening| {
            let contacts = cases::log_contacts(&mut random, opening, 8);
            let cells = cases::lone_cells(&mut random, opening, &contacts);
            let table = words::table(opening, &cells);
            match random.below(3) {
                0 => cases::damaged(&mut random, &table),
                _ => table,
            }
        });
        compare(&mut suite, &Lent::words(opening, first), &second);
    }
    suite.at_least(2_000, &[Export::Join], &REFUSALS);
}

#[test]
fn empty_slices() {
    assert_eq!(herd::calls::join(&mut [], &[]), Joined::Refused(5));
    let mut table = model::fresh_table(Opening::new(1, 1, 1), &Contacts::new());
    assert_eq!(herd::calls::join(&mut [], &table), Joined::Refused(5));
    assert_eq!(herd::calls::join(&mut table, &[]), Joined::Refused(5));
    assert_eq!(table, [0x8000_0000, 0xC000_0000, 0]);
}
