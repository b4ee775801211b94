//! The session, the marked examples and the unmarked ones of document 01, with the windows of document 02, in every
//! loading order.

use herd::calls::{Added, Chain, Done, Joined, Opened, Reached, Read, Written};
use herd_testing::cases::{self, orders};
use herd_testing::compare::same_words;
use herd_testing::model;
use herd_testing::random::Random;
use herd_testing::suite::{Call, Export, Lent, Reply, Suite};
use herd_testing::words::{self, contacts, Contact, Interval, Opening, Window};

/// The session's log.
const LOG: [u32; 5] = [
    0x800C_0005,
    0x4000_0400,
    0x4000_0401,
    0x4004_0C03,
    0xC000_0003,
];

/// The contacts of the session.
fn session() -> [Contact; 3] {
    contacts([(0, 1, 1), (0, 1, 2), (1, 3, 4)])
}

/// The words of the session's table.
fn session_table() -> Vec<u32> {
    let mut table = vec![0; 113];
    table[0] = 0x800C_0005;
    for cell in table[1..].chunks_mut(7) {
        cell[0] = 0xC000_0000;
    }
    table[8..11].copy_from_slice(&[0xC000_0002, 0x4000_0802, 0x4000_1003]);
    table[22..24].copy_from_slice(&[0xC000_0001, 0x4000_1005]);
    table[50..52].copy_from_slice(&[0xC000_0001, 0x4000_2005]);
    table
}

#[test]
fn words_of_the_session() {
    let mut random = Random::new(1);
    for order in orders(&[LOG[1], LOG[2], LOG[3]]) {
        let mut table = random.words(113);
        let log = [&LOG[..1], &order, &LOG[4..]].concat();
        assert_eq!(herd::calls::read_log(&log, &mut table), Read::Contacts(3));
        same_words(&table, &session_table(), &order);
        let [a, b, c] = [order[0], order[1], order[2]];
        let repeated = [LOG[0], a, b, b, c, a, a, 0xC000_0006];
        table = random.words(113);
        assert_eq!(
            herd::calls::read_log(&repeated, &mut table),
            Read::Contacts(3)
        );
        same_words(&table, &session_table(), &order);
    }
    for order in orders(&session()) {
        let mut table = random.words(113);
        assert_eq!(herd::calls::open(&mut table, 4, 6, 1), Opened::Opened);
        for contact in &order {
            let added = herd::calls::add(&mut table, contact.from, contact.to, contact.tick);
            assert!(matches!(added, Added::New(_)), "{order:?} {added:?}");
        }
        same_words(&table, &session_table(), &order);
        let mut buffer = [9; 6];
        let written = herd::calls::write_log(&table, &mut buffer);
        assert_eq!(written, Written::Written(5));
        assert_eq!(buffer[..5], LOG);
        assert_eq!(buffer[5], 9);
        let mut buffer = [7; 5];
        let chain = herd::calls::chain(&table, 0, 3, 1, 6, &mut buffer);
        assert_eq!(chain, Chain::Contacts(2));
        assert_eq!(buffer, [0x4000_0401, 0x4004_0C03, 7, 7, 7]);
        let mut set = [7; 9];
        let reached = herd::calls::reached(&table, 0, 1, 6, &mut set);
        assert_eq!(reached, Reached::Animals(2));
        assert_eq!(set, [0b1010, 0, 0, 0, 0, 0, 0, 0, 7]);
    }
}

#[test]
fn the_session_in_two_yards() {
    let mut random = Random::new(5);
    let opening = Opening::new(4, 6, 1);
    for turn in 0..27 {
        let yards = [turn % 3, turn / 3 % 3, turn / 9];
        let all_but_those_of = |other: u32| -> Vec<Contact> {
            let listed = session().into_iter().zip(yards);
            let here = listed.filter(|&(_, yard)| yard != other);
            here.map(|(contact, _)| contact).collect()
        };
        let (first, second) = (all_but_those_of(1), all_but_those_of(2));
        let new = 3 - first.len() as u32;
        let mut joined = Lent::built(&mut random, opening, &first).words;
        let second = Lent::built(&mut random, opening, &second).words;
        assert_eq!(herd::calls::join(&mut joined, &second), Joined::New(new));
        same_words(&joined, &session_table(), yards);
    }
}

#[test]
fn contacts_of_the_session_come_out_again() {
    let mut random = Random::new(6);
    let one_row = |table: &mut [u32], start: usize, row: u32| {
        table[start..start + 3].copy_from_slice(&[0xC000_0001, row, 0]);
    };
    let mut without: Vec<Vec<u32>> = session().map(|_| session_table()).into();
    one_row(&mut without[0], 8, 0x4000_1003);
    one_row(&mut without[1], 8, 0x4000_0802);
    one_row(&mut without[1], 22, 0x4000_0805);
    without[2][22..24].copy_from_slice(&[0xC000_0000, 0]);
    without[2][50..52].copy_from_slice(&[0xC000_0000, 0]);
    for (contact, without) in session().into_iter().zip(without) {
        let (u, v, t) = (contact.from, contact.to, contact.tick);
        let (mut table, mut work) = (session_table(), random.words(113));
        assert_eq!(
            herd::calls::remove(&mut table, &mut work, u, v, t),
            Done::Done
        );
        same_words(&table, &without, contact);
        same_words(&work, &without, contact);
        let again = herd::calls::remove(&mut table, &mut work, u, v, t);
        assert_eq!(again, Done::Refused(21), "{contact:?}");
        assert!(matches!(
            herd::calls::add(&mut table, u, v, t),
            Added::New(_)
        ));
        same_words(&table, &session_table(), contact);
    }
    let mut opened = random.words(113);
    assert_eq!(herd::calls::open(&mut opened, 4, 6, 1), Opened::Opened);
    for order in orders(&session()) {
        let (mut table, mut work) = (session_table(), random.words(113));
        for contact in &order {
            let (u, v, t) = (contact.from, contact.to, contact.tick);
            assert_eq!(
                herd::calls::remove(&mut table, &mut work, u, v, t),
                Done::Done
            );
        }
        same_words(&table, &opened, &order);
        same_words(&work, &opened, &order);
    }
}

#[test]
fn a_misread_tag_comes_out_again() {
    let mut random = Random::new(7);
    let opening = Opening::new(22, 21, 2);
    let tag = |contact: Contact, one: u32, other: u32| {
        let read = |animal| if animal == one { other } else { animal };
        Contact::new(read(contact.from), read(contact.to), contact.tick)
    };
    let mut misread = 0;
    for _ in 0..20 {
        let mut right = cases::following_contacts(&mut random, opening, 60);
        right.extend((1..=7).map(|day| Contact::new(12, day, 3 * day)));
        right.retain(|contact| contact.from != 21 && contact.to != 21);
        let noted: Vec<Contact> = right.iter().map(|&c| tag(c, 12, 21)).collect();
        let Lent {
            words: mut table,
            held,
            ..
        } = Lent::built(&mut random, opening, &noted);
        let mut work = random.words(table.len());
        for noted in held.iter().filter(|c| c.from == 21 || c.to == 21) {
            let (u, v, t) = (noted.from, noted.to, noted.tick);
            assert_eq!(
                herd::calls::remove(&mut table, &mut work, u, v, t),
                Done::Done
            );
            let Contact { from, to, tick } = tag(*noted, 21, 12);
            let added = herd::calls::add(&mut table, from, to, tick);
            assert!(matches!(added, Added::New(_)), "{noted:?} {added:?}");
            misread += 1;
        }
        let fresh = model::fresh_table(opening, &right.iter().copied().collect());
        same_words(&table, &fresh, &right);
    }
    assert!(misread > 200, "{misread}");
}

#[test]
fn marked_and_unmarked_answers_of_the_session() {
    let at = |departure, arrival| Reply::At(Interval::new(departure, arrival));
    let reached = |u, first, last| Call::Reached(u, first, last, vec![7; 8]);
    let chain = |u, v, first, last, room| Call::Chain(u, v, first, last, vec![7; room]);
    let claimed =
        |u, v, first, last, chain: &[u32]| Call::Claimed(u, v, first, last, chain.to_vec());
    let remove = |u, v, t, words| Call::Remove(u, v, t, vec![7; words]);
    let (p6, other) = ([LOG[2], LOG[3]], [LOG[1], LOG[3]]);
    let asked = [
        ("P1", Call::Reach(0, 3, 1, 4), Reply::Yes),
        ("P1", Call::Reach(0, 3, 2, 4), Reply::Yes),
        ("P2", Call::Reach(0, 3, 1, 3), Reply::No),
        ("P2", Call::Reach(0, 3, 3, 6), Reply::No),
        ("P3", Call::Reach(3, 0, 1, 6), Reply::No),
        ("P4", Call::Earliest(0, 3, 2), at(2, 5)),
        ("P4", Call::Earliest(0, 3, 3), Reply::Nothing),
        ("P5", Call::Latest(0, 3, 5), at(2, 5)),
        ("P5", Call::Latest(0, 3, 4), Reply::Nothing),
        ("P6", chain(0, 3, 1, 6, 3), Reply::Chain(2)),
        ("whole window", Call::Reach(0, 3, 1, 6), Reply::Yes),
        ("one tick more", Call::Reach(0, 3, 1, 7), Reply::Refused(9)),
        ("from tick 0", Call::Reach(0, 3, 0, 4), Reply::Refused(9)),
        ("last first", Call::Reach(0, 3, 4, 2), Reply::Refused(19)),
        ("last first", Call::Reach(0, 3, 6, 1), Reply::Refused(19)),
        ("and past it", Call::Reach(0, 3, 7, 1), Reply::Refused(9)),
        ("and tick 0", Call::Reach(0, 3, 4, 0), Reply::Refused(9)),
        ("one tick", Call::Reach(0, 1, 2, 2), Reply::Yes),
        ("one animal", Call::Reach(3, 3, 1, 4), Reply::Refused(8)),
        ("animal 4", Call::Reach(0, 4, 1, 4), Reply::Refused(7)),
        ("from 1", Call::Earliest(0, 3, 1), at(2, 5)),
        ("from 1", Call::Earliest(0, 1, 1), at(1, 2)),
        ("from 2", Call::Earliest(0, 1, 2), at(2, 3)),
        ("from 3", Call::Earliest(0, 1, 3), Reply::Nothing),
        ("last tick", Call::Earliest(0, 3, 7), Reply::Nothing),
        ("one tick more", Call::Earliest(0, 3, 8), Reply::Refused(9)),
        ("tick 0", Call::Earliest(0, 3, 0), Reply::Refused(9)),
        ("by the last tick", Call::Latest(0, 3, 7), at(2, 5)),
        ("by the last tick", Call::Latest(0, 1, 7), at(2, 3)),
        ("by tick 3", Call::Latest(0, 1, 3), at(2, 3)),
        ("by tick 2", Call::Latest(0, 1, 2), at(1, 2)),
        ("by tick 1", Call::Latest(0, 1, 1), Reply::Nothing),
        ("one tick more", Call::Latest(0, 3, 8), Reply::Refused(9)),
        ("tick 0", Call::Latest(0, 3, 0), Reply::Refused(9)),
        ("all", reached(0, 1, 6), Reply::Animals(2)),
        ("from 3 on", reached(0, 3, 6), Reply::Animals(0)),
        ("by 3", reached(0, 1, 3), Reply::Animals(1)),
        ("animal 4", reached(4, 1, 6), Reply::Refused(7)),
        ("one tick more", reached(0, 1, 7), Reply::Refused(9)),
        ("last first", reached(0, 2, 1), Reply::Refused(19)),
        ("and past it", reached(0, 7, 1), Reply::Refused(9)),
        ("one tick", reached(0, 2, 2), Reply::Animals(1)),
        ("all", Call::Connected(1, 6), Reply::No),
        ("tightest", Call::Connected(2, 4), Reply::No),
        ("last tick", Call::Connected(6, 6), Reply::No),
        ("one tick more", Call::Connected(1, 7), Reply::Refused(9)),
        ("last first", Call::Connected(6, 5), Reply::Refused(19)),
        ("and tick 0", Call::Connected(6, 0), Reply::Refused(9)),
        ("tightest", chain(0, 3, 2, 4, 4), Reply::Chain(2)),
        ("later", chain(0, 3, 3, 6, 5), Reply::NoJourney),
        ("shorter", chain(0, 3, 1, 3, 9), Reply::NoJourney),
        ("backward", chain(3, 0, 1, 6, 3), Reply::NoJourney),
        ("first of two", chain(0, 1, 1, 6, 3), Reply::Chain(1)),
        ("second of two", chain(0, 1, 2, 6, 3), Reply::Chain(1)),
        ("short buffer", chain(0, 3, 1, 6, 2), Reply::Refused(10)),
        ("no buffer", chain(0, 3, 1, 6, 0), Reply::Refused(10)),
        ("one tick more", chain(0, 3, 1, 7, 3), Reply::Refused(9)),
        ("and no buffer", chain(0, 3, 1, 7, 0), Reply::Refused(9)),
        ("last first", chain(0, 3, 4, 2, 3), Reply::Refused(19)),
        ("and no buffer", chain(0, 3, 4, 2, 0), Reply::Refused(19)),
        ("and past it", chain(0, 3, 7, 2, 0), Reply::Refused(9)),
        ("one tick", chain(0, 1, 2, 2, 3), Reply::Chain(1)),
        ("P6 claimed", claimed(0, 3, 1, 6, &p6), Reply::Yes),
        ("tightest", claimed(0, 3, 2, 4, &p6), Reply::Yes),
        ("later", claimed(0, 3, 3, 6, &p6), Reply::No),
        ("shorter", claimed(0, 3, 1, 3, &p6), Reply::No),
        ("other way", claimed(0, 3, 1, 6, &other), Reply::Yes),
        ("to 1", claimed(0, 1, 1, 6, &p6), Reply::No),
        ("half", claimed(0, 3, 1, 6, &p6[..1]), Reply::No),
        ("nothing", claimed(0, 3, 1, 6, &[]), Reply::No),
        ("one tick more", claimed(0, 3, 1, 7, &p6), Reply::Refused(9)),
        ("last first", claimed(0, 3, 4, 2, &p6), Reply::Refused(19)),
        ("and tick 0", claimed(0, 3, 4, 0, &p6), Reply::Refused(9)),
        ("one tick", claimed(0, 1, 2, 2, &p6[..1]), Reply::Yes),
        ("first", remove(0, 1, 1, 113), Reply::Done),
        ("second", remove(0, 1, 2, 113), Reply::Done),
        ("last", remove(1, 3, 4, 113), Reply::Done),
        ("another tick", remove(0, 1, 3, 113), Reply::Refused(21)),
        ("turned round", remove(1, 0, 1, 113), Reply::Refused(21)),
        ("of two contacts", remove(0, 3, 2, 113), Reply::Refused(21)),
        ("last tick", remove(0, 1, 6, 113), Reply::Refused(21)),
        ("one tick more", remove(0, 1, 7, 113), Reply::Refused(9)),
        ("tick 0", remove(0, 1, 0, 113), Reply::Refused(9)),
        ("one animal", remove(1, 1, 0, 113), Reply::Refused(8)),
        ("animal 4", remove(4, 4, 0, 113), Reply::Refused(7)),
        ("a word less", remove(0, 1, 1, 112), Reply::Refused(20)),
        ("a word more", remove(0, 1, 1, 114), Reply::Refused(20)),
        ("and animal 4", remove(4, 4, 0, 114), Reply::Refused(20)),
    ];
    let mut random = Random::new(2);
    let mut suite = Suite::default();
    for order in orders(&session()) {
        let lent = Lent::built(&mut random, Opening::new(4, 6, 1), &order);
        for (_, call, reply) in &asked {
            suite.require(&lent, call, *reply);
        }
    }
    let lent = Lent::built(&mut random, Opening::new(4, 6, 1), &session());
    suite.require(&lent, &Call::Add(2, 0, 6), Reply::New(1));
    suite.require(&lent, &Call::Add(2, 0, 7), Reply::Refused(9));
    suite.require(&lent, &Call::Add(0, 1, 1), Reply::Known(0));
}

#[test]
fn longer_carry_times() {
    let mut random = Random::new(3);
    let mut suite = Suite::default();
    for (carry, departure, arrival) in [(1, 2, 5), (2, 2, 6), (3, 1, 7)] {
        let opening = Opening::new(4, 6, carry);
        for order in orders(&session()) {
            let lent = Lent::built(&mut random, opening, &order);
            let log = words::log(opening, order.clone());
            suite.require(&lent, &Call::ReadLog(log), Reply::Read(3));
            let start = opening.cell_start(0, 3);
            let interval = Interval::new(departure, arrival);
            let cell = words::interval_word(interval);
            assert_eq!(lent.words[start..start + 3], [0xC000_0001, cell, 0]);
            let way = contacts([(0, 1, departure), (1, 3, 4)]);
            let cells = model::minimal_intervals(opening, &order.iter().copied().collect());
            assert_eq!(cells[opening.pair(0, 3)], [interval]);
            let Window { first, last } = Window::around(&way);
            assert_eq!((first, last), (departure, arrival - carry));
            let (u, v) = (0, 3);
            for (first, last, fits) in [
                (first, last, true),
                (1, 6, true),
                (first, last - 1, false),
                (1, last - 1, false),
                (first + 1, last, false),
                (first + 1, 6, false),
            ] {
                let (yes, number) = match fits {
                    true => (Reply::Yes, Reply::Chain(2)),
                    false => (Reply::No, Reply::NoJourney),
                };
                suite.require(&lent, &Call::Reach(u, v, first, last), yes);
                let chain = words::contact_words(&way);
                let claimed = Call::Claimed(u, v, first, last, chain);
                suite.require(&lent, &claimed, yes);
                let buffer = random.words(4);
                let call = Call::Chain(u, v, first, last, buffer);
                suite.require(&lent, &call, number);
            }
            suite.require_rows(&lent, (u, v), &[interval]);
        }
    }
}

#[test]
fn adds_of_the_session_in_an_order_of_their_own() {
    for carry in 1..=3 {
        let mut table = vec![9; 113];
        assert_eq!(herd::calls::open(&mut table, 4, 6, carry), Opened::Opened);
        assert_eq!(herd::calls::add(&mut table, 1, 3, 4), Added::New(1));
        assert_eq!(herd::calls::add(&mut table, 0, 1, 1), Added::New(2));
        let joined = if carry < 3 { 2 } else { 1 };
        assert_eq!(herd::calls::add(&mut table, 0, 1, 2), Added::New(joined));
        assert_eq!(herd::calls::add(&mut table, 0, 1, 1), Added::Known(0));
    }
}

#[test]
fn five_animals() {
    let mut random = Random::new(4);
    let mut suite = Suite::default();
    let opening = Opening::new(5, 6, 1);
    let set = contacts([(0, 2, 1), (2, 3, 2), (0, 1, 1), (1, 3, 4), (3, 4, 6)]);
    let p9 = words::contact_words(&[set[2], set[3], set[4]]);
    let by_two = words::contact_words(&[set[0], set[1]]);
    let orders = orders(&set);
    assert_eq!(orders.len(), 120);
    for order in orders {
        let lent = Lent::built(&mut random, opening, &order);
        let log = words::log(opening, order.clone());
        suite.require(&lent, &Call::ReadLog(log), Reply::Read(5));
        for ((u, v), interval) in [((0, 3), (1, 3)), ((0, 4), (1, 7))] {
            let start = opening.cell_start(u, v);
            let interval = Interval::new(interval.0, interval.1);
            let cell = words::interval_word(interval);
            assert_eq!(lent.words[start..start + 3], [0xC000_0001, cell, 0]);
            suite.require_rows(&lent, (u, v), &[interval]);
        }
        for (question, expected) in [
            ((0, 4, 1, 6), &p9[..]),
            ((0, 3, 1, 6), &by_two),
            ((0, 4, 2, 6), &[]),
            ((0, 4, 1, 5), &[]),
        ] {
            let (u, v, first, last) = question;
            let mut buffer = [7; 6];
            let answer = herd::calls::chain(&lent.words, u, v, first, last, &mut buffer);
            let told = match expected.len() as u32 {
                0 => Chain::NoJourney,
                contacts => Chain::Contacts(contacts),
            };
            assert_eq!(answer, told, "{question:?} {order:?}");
            assert_eq!(buffer[..expected.len()], *expected, "{question:?}");
            assert!(buffer[expected.len()..].iter().all(|&word| word == 7));
        }
        suite.compare_every(&mut random, &lent, 12);
    }
    let all_but_connected = Export::ON_OPEN_TABLES.iter().copied();
    let all_but_connected: Vec<Export> = all_but_connected
        .filter(|&export| export != Export::Connected)
        .collect();
    let refusals = [7, 8, 9, 10, 15, 19, 20, 21];
    suite.at_least(20, &all_but_connected, &refusals);
}
