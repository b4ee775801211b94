//! Writing logs: buffers of every length about the log's own, on tables of every kind.

use herd::calls::{write_log, Written};
use herd_testing::cases;
use herd_testing::model::Contacts;
use herd_testing::random::Random;
use herd_testing::suite::{draws, Call, Export, Lent, Reply, Suite};
use herd_testing::words::{Contact, Opening};

/// Writes into buffers of every length about the log's own, and compares.
fn compare(suite: &mut Suite, random: &mut Random, lent: &Lent) {
    let contacts = lent.held.len();
    for room in [
        0,
        1,
        contacts,
        contacts + 1,
        contacts + 2,
        contacts + 3,
        contacts + 5,
        contacts + 40,
    ] {
        let buffer = random.words(room);
        let reply = if room < contacts + 2 {
            Reply::Refused(15)
        } else {
            Reply::Written(contacts as u32 + 2)
        };
        suite.require(lent, &Call::WriteLog(buffer), reply);
    }
}

#[test]
fn sets_of_contacts() {
    let mut random = Random::new(801);
    let mut suite = Suite::default();
    for _ in 0..2_000 {
        let lent = draws::built(&mut random);
        compare(&mut suite, &mut random, &lent);
    }
    suite.at_least(1_000, &[Export::WriteLog], &[15]);
}

#[test]
fn tables_without_contacts() {
    let mut random = Random::new(802);
    let mut suite = Suite::default();
    for (animals, ticks, carry) in [
        (1, 1, 1),
        (1, 1024, 256),
        (2, 1, 1),
        (2, 1024, 1),
        (7, 5, 3),
        (256, 1, 9),
    ] {
        let opening = Opening::new(animals, ticks, carry);
        let lent = Lent::fresh(opening, Contacts::new());
        compare(&mut suite, &mut random, &lent);
    }
}

#[test]
fn tables_of_every_legal_contact() {
    let mut random = Random::new(803);
    let mut suite = Suite::default();
    for (animals, ticks, carry) in [
        (2, 1, 1),
        (3, 5, 2),
        (7, 12, 14),
        (2, 1024, 256),
        (16, 64, 1),
        (256, 2, 1),
    ] {
        let opening = Opening::new(animals, ticks, carry);
        let lent = Lent::stored(opening, &cases::full_cells(opening));
        assert_eq!(lent.held, cases::legal_contacts(opening), "{opening:?}");
        compare(&mut suite, &mut random, &lent);
    }
}

#[test]
fn tables_that_no_adds_built() {
    let mut random = Random::new(804);
    let mut suite = Suite::default();
    let mut longer = 0;
    for _ in 0..4_000 {
        let opening = cases::opening(&mut random);
        let cells = cases::cells(&mut random, opening);
        let mut held: Vec<Contact> = cases::legal_contacts(opening);
        held.retain(|c| cells[opening.pair(c.from, c.to)].contains(&c.interval(opening.carry)));
        let lent = Lent::stored(opening, &cells);
        assert_eq!(lent.held, held, "{opening:?} {cells:?}");
        longer += cells.iter().map(Vec::len).sum::<usize>() - held.len();
        compare(&mut suite, &mut random, &lent);
    }
    assert!(longer > 10_000, "{longer}");
}

#[test]
fn long_cells_that_no_adds_built() {
    let mut random = Random::new(805);
    let mut suite = Suite::default();
    for (animals, ticks, carry) in [
        (2, 1024, 256),
        (3, 1024, 1),
        (4, 500, 7),
        (40, 30, 2),
        (256, 3, 1),
    ] {
        let opening = Opening::new(animals, ticks, carry);
        for _ in 0..4 {
            let lent = Lent::stored(opening, &cases::cells(&mut random, opening));
            compare(&mut suite, &mut random, &lent);
        }
    }
}

#[test]
fn empty_slices() {
    assert_eq!(write_log(&[], &mut []), Written::Refused(5));
    let mut buffer = [1, 2, 3];
    assert_eq!(write_log(&[], &mut buffer), Written::Refused(5));
    assert_eq!(buffer, [1, 2, 3]);
}
