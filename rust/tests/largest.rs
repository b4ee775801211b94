//! Every call on the largest table: 256 animals, 1,024 ticks, carry time 256.

use herd::calls::{Added, Answer, Chain, Done, Found, Joined, Opened};
use herd::calls::{Reached, Read, StaysAdded, Written};
use herd::Stay;
use herd_testing::calls::accepted;
use herd_testing::compare::{same_table, same_words};
use herd_testing::model::{self, Contacts};
use herd_testing::words::{self, contacts, Cells, Contact, Interval, Opening};

/// The largest opening.
const LARGEST: Opening = Opening {
    animals: 256,
    ticks: 1024,
    carry: 256,
};

/// The answer with this departure and this arrival.
fn at(departure: u32, arrival: u32) -> Found {
    Found::At(Interval::new(departure, arrival))
}

/// Compares the cells of some animals.
fn same_cells(table: &[u32], cells: &Cells, animals: &[u32]) {
    for &x in animals {
        for &y in animals {
            let start = LARGEST.cell_start(x, y);
            let cell = &cells[LARGEST.pair(x, y)];
            assert_eq!(table[start], words::count_word(cell.len() as u32));
            for (row, &interval) in cell.iter().enumerate() {
                let word = words::interval_word(interval);
                assert_eq!(table[start + 1 + row], word, "{x} {y}");
            }
        }
    }
}

#[test]
fn opening_and_a_few_adds() {
    let length = LARGEST.table_words();
    assert_eq!(length, 67_174_401);
    let mut memory = vec![0x5555_5555; length + 1];

    for wrong in [length - 1, length + 1] {
        let answer = herd::calls::open(&mut memory[..wrong], 256, 1024, 256);
        assert_eq!(answer, Opened::Refused(4));
    }
    assert!(memory.iter().all(|&word| word == 0x5555_5555));
    let table = &mut memory[..length];
    assert_eq!(herd::calls::open(table, 256, 1024, 256), Opened::Opened);

    let mut set = Contacts::new();
    let mut intervals = model::minimal_intervals(LARGEST, &set);
    same_table(table, LARGEST, &intervals, "opened");
    for contact in contacts([
        (255, 0, 1024),
        (0, 255, 769),
        (7, 0, 513),
        (254, 7, 257),
        (254, 7, 1),
        (3, 254, 1),
        (7, 0, 512),
        (7, 0, 513),
        (255, 254, 1024),
    ]) {
        let new = set.insert(contact);
        let after = model::minimal_intervals(LARGEST, &set);
        let changed = model::changed_pairs(&intervals, &after);
        let answer = herd::calls::add(table, contact.from, contact.to, contact.tick);
        assert_eq!(answer, accepted(!new, changed), "{contact:?}");
        same_cells(table, &after, &[0, 3, 7, 254, 255]);
        intervals = after;
    }
    same_table(table, LARGEST, &intervals, "added");
    let joined = &intervals[LARGEST.pair(3, 255)];
    let four_contacts = [Interval::new(1, 1025)];
    assert_eq!(joined, &four_contacts);

    for ((u, v, t), number) in [
        ((256, 0, 1), 7),
        ((0, 256, 1), 7),
        ((255, 255, 1), 8),
        ((0, 1, 1025), 9),
    ] {
        assert_eq!(herd::calls::add(table, u, v, t), Added::Refused(number));
    }
    let last = length - 1;
    table[last] = 1;
    assert_eq!(herd::calls::add(table, 0, 1, 1), Added::Refused(6));
    table[last] = 0;
    assert_eq!(
        herd::calls::add(&mut table[..last], 0, 1, 1),
        Added::Refused(5)
    );
    assert_eq!(herd::calls::add(&mut memory, 0, 1, 1), Added::Refused(5));
    same_table(&memory[..length], LARGEST, &intervals, "refused");
    assert_eq!(memory[length], 0x5555_5555);
}

/// The largest table with four contacts that one journey follows and one more, and a word behind it.
fn asked() -> (Vec<u32>, [Contact; 5]) {
    let listed = contacts([
        (255, 0, 1024),
        (3, 254, 1),
        (254, 7, 257),
        (7, 0, 513),
        (0, 255, 769),
    ]);
    let mut memory = vec![0; LARGEST.table_words() + 1];
    let length = memory.len() - 1;
    let log = words::log(LARGEST, listed);
    let answer = herd::calls::read_log(&log, &mut memory[..length]);
    assert_eq!(answer, Read::Contacts(5));
    (memory, listed)
}

#[test]
fn questions_with_a_few_contacts() {
    let (mut memory, listed) = asked();
    let length = memory.len() - 1;
    let table = &memory[..length];
    let way = words::contact_words(&listed[1..]);
    for ((u, v, first, last), reach, claimed) in [
        ((3, 255, 1, 769), Answer::Yes, Answer::Yes),
        ((3, 255, 1, 768), Answer::No, Answer::No),
        ((3, 255, 2, 1024), Answer::No, Answer::No),
        ((255, 0, 1, 1024), Answer::Yes, Answer::No),
        ((255, 0, 1024, 1024), Answer::Yes, Answer::No),
        ((255, 0, 1, 1023), Answer::No, Answer::No),
        ((255, 254, 1, 1024), Answer::No, Answer::No),
        ((255, 0, 1024, 1025), Answer::Refused(9), Answer::Refused(9)),
        ((255, 0, 1025, 1025), Answer::Refused(9), Answer::Refused(9)),
        ((255, 0, 1024, 1280), Answer::Refused(9), Answer::Refused(9)),
        ((255, 0, 1025, 1024), Answer::Refused(9), Answer::Refused(9)),
        ((255, 0, 1024, 0), Answer::Refused(9), Answer::Refused(9)),
        ((255, 0, 1024, 1), Answer::Refused(19), Answer::Refused(19)),
        ((255, 0, 2, 1), Answer::Refused(19), Answer::Refused(19)),
        ((255, 255, 0, 1025), Answer::Refused(8), Answer::Refused(8)),
        ((256, 256, 0, 1025), Answer::Refused(7), Answer::Refused(7)),
    ] {
        let case = (u, v, first, last);
        let answer = herd::calls::reach(table, u, v, first, last);
        assert_eq!(answer, reach, "{case:?}");
        let answer = herd::calls::claimed(table, u, v, first, last, &way);
        assert_eq!(answer, claimed, "{case:?}");
    }
    for ((u, v, tick), earliest, latest) in [
        ((3, 255, 1), at(1, 1025), Found::Nothing),
        ((3, 255, 2), Found::Nothing, Found::Nothing),
        ((3, 255, 1024), Found::Nothing, Found::Nothing),
        ((3, 255, 1025), Found::Nothing, at(1, 1025)),
        ((3, 255, 1280), Found::Nothing, at(1, 1025)),
        ((255, 0, 1), at(1024, 1280), Found::Nothing),
        ((255, 0, 1024), at(1024, 1280), Found::Nothing),
        ((255, 0, 1025), Found::Nothing, Found::Nothing),
        ((255, 0, 1279), Found::Nothing, Found::Nothing),
        ((255, 0, 1280), Found::Nothing, at(1024, 1280)),
        ((255, 0, 1281), Found::Refused(9), Found::Refused(9)),
        ((255, 255, 0), Found::Refused(8), Found::Refused(8)),
        ((256, 256, 0), Found::Refused(7), Found::Refused(7)),
    ] {
        let case = (u, v, tick);
        assert_eq!(
            herd::calls::earliest(table, u, v, tick),
            earliest,
            "{case:?}"
        );
        assert_eq!(herd::calls::latest(table, u, v, tick), latest, "{case:?}");
    }
    let mut set = [7; 9];
    let reached = herd::calls::reached(table, 3, 1, 1024, &mut set);
    assert_eq!(reached, Reached::Animals(4));
    assert_eq!(set, [0x81, 0, 0, 0, 0, 0, 0, 0xC000_0000, 7]);
    for ((u, first, last), number) in [
        ((256, 1, 1025), 7),
        ((255, 1, 1025), 9),
        ((255, 1025, 1), 9),
        ((255, 1024, 1023), 19),
    ] {
        let reached = herd::calls::reached(table, u, first, last, &mut set);
        assert_eq!((reached, set[0]), (Reached::Refused(number), 0x81));
    }
    let reached = herd::calls::reached(table, 255, 1, 1024, &mut set);
    assert_eq!((reached, set[0]), (Reached::Animals(1), 1));
    assert_eq!(herd::calls::connected(table, 1, 1024), Answer::No);
    assert_eq!(herd::calls::connected(table, 1, 1025), Answer::Refused(9));
    assert_eq!(herd::calls::connected(table, 1024, 1), Answer::Refused(19));

    let mut buffer = vec![7; 256];
    for ((u, v, first, last), room, answer) in [
        ((3, 255, 1, 1024), 254, Chain::Refused(10)),
        ((3, 255, 1, 768), 255, Chain::NoJourney),
        ((3, 255, 2, 1024), 255, Chain::NoJourney),
        ((255, 254, 1, 1024), 256, Chain::NoJourney),
        ((255, 0, 1024, 1025), 254, Chain::Refused(9)),
        ((255, 0, 1024, 1280), 256, Chain::Refused(9)),
        ((255, 0, 1025, 1), 254, Chain::Refused(9)),
        ((255, 0, 1024, 1), 254, Chain::Refused(19)),
        ((255, 0, 1024, 1023), 256, Chain::Refused(19)),
        ((255, 255, 0, 1025), 256, Chain::Refused(8)),
        ((256, 256, 0, 1025), 256, Chain::Refused(7)),
    ] {
        let found = herd::calls::chain(table, u, v, first, last, &mut buffer[..room]);
        assert_eq!(found, answer, "{u} {v} {first} {last} {room}");
        assert!(buffer.iter().all(|&word| word == 7), "{u} {v} {first}");
    }
    let found = herd::calls::chain(table, 3, 255, 1, 769, &mut buffer[..255]);
    assert_eq!(found, Chain::Contacts(4));
    same_words(&buffer[..4], &way, "four contacts");
    let found = herd::calls::chain(table, 255, 0, 1024, 1024, &mut buffer);
    assert_eq!(found, Chain::Contacts(1));
    assert_eq!(buffer[0], words::contact_word(listed[0]));
    same_words(&buffer[1..4], &way[1..], "three words stay");
    assert!(buffer[4..].iter().all(|&word| word == 7));

    let cells = model::minimal_intervals(LARGEST, &listed.into());
    same_table(table, LARGEST, &cells, "asked");
    memory[length - 1] = 1;
    for (words, number) in [(length, 6), (length - 1, 5), (length + 1, 5)] {
        let table = &memory[..words];
        let refused = Answer::Refused(number);
        assert_eq!(herd::calls::reach(table, 256, 256, 0, 0), refused);
        assert_eq!(herd::calls::claimed(table, 256, 256, 0, 0, &way), refused);
        assert_eq!(herd::calls::connected(table, 0, 0), refused);
        let refused = Found::Refused(number);
        assert_eq!(herd::calls::earliest(table, 256, 256, 0), refused);
        assert_eq!(herd::calls::latest(table, 256, 256, 0), refused);
        let found = herd::calls::chain(table, 256, 256, 0, 0, &mut buffer);
        assert_eq!(found, Chain::Refused(number));
        let reached = herd::calls::reached(table, 256, 0, 0, &mut set);
        assert_eq!(reached, Reached::Refused(number));
    }
}

#[test]
fn reading_a_log() {
    let listed = contacts([
        (255, 254, 1024),
        (254, 7, 257),
        (7, 0, 513),
        (0, 255, 769),
        (3, 254, 1),
        (254, 7, 1),
        (7, 0, 512),
        (7, 0, 513),
        (255, 0, 1024),
        (3, 254, 1),
    ]);
    let mut log = words::log(LARGEST, listed);
    let mut table = vec![0x5555_5555; LARGEST.table_words()];
    log[listed.len() + 1] += 1;
    assert_eq!(herd::calls::read_log(&log, &mut table), Read::Refused(14));
    assert!(table.iter().all(|&word| word == 0x5555_5555));
    log[listed.len() + 1] -= 1;
    assert_eq!(herd::calls::read_log(&log, &mut table), Read::Contacts(8));
    let cells = model::minimal_intervals(LARGEST, &listed.into());
    same_table(&table, LARGEST, &cells, "largest");
    let joined = &cells[LARGEST.pair(3, 255)];
    assert_eq!(joined, &[Interval::new(1, 1025)]);
}

#[test]
fn joining_two_tables() {
    let (mut first, listed) = asked();
    let more = contacts([(254, 7, 257), (255, 254, 1024), (0, 9, 1024), (7, 0, 512)]);
    let length = first.len() - 1;
    let mut second = vec![0x5555_5555; length];
    let read = herd::calls::read_log(&words::log(LARGEST, more), &mut second);
    assert_eq!(read, Read::Contacts(4));
    let before = model::minimal_intervals(LARGEST, &listed.into());
    let lent = model::minimal_intervals(LARGEST, &more.into());

    let (opening, last) = (second[0], length - 1);
    let other = words::opening_word(Opening {
        carry: 255,
        ..LARGEST
    });
    (second[0], second[last]) = (other, 1);
    for (of_first, words, number) in [(1, length - 1, 6), (0, length - 1, 5), (0, length, 6)] {
        first[last] = of_first;
        let joined = herd::calls::join(&mut first[..length], &second[..words]);
        assert_eq!(joined, Joined::Refused(number));
    }
    (second[0], second[last]) = (opening, 0);
    for words in [length - 1, length + 1] {
        let joined = herd::calls::join(&mut first[..words], &second);
        assert_eq!(joined, Joined::Refused(5));
    }
    let mut small = model::fresh_table(Opening::new(4, 6, 1), &Contacts::new());
    let joined = herd::calls::join(&mut first[..length], &small);
    assert_eq!(joined, Joined::Refused(17));
    assert_eq!(herd::calls::join(&mut small, &second), Joined::Refused(17));
    same_table(&first[..length], LARGEST, &before, "refused");

    let joined = herd::calls::join(&mut first[..length], &second);
    assert_eq!(joined, Joined::New(3));
    let both: Contacts = listed.into_iter().chain(more).collect();
    let cells = model::minimal_intervals(LARGEST, &both);
    same_table(&first[..length], LARGEST, &cells, "joined");
    same_table(&second, LARGEST, &lent, "only read");
    let across = &cells[LARGEST.pair(3, 9)];
    assert_eq!(across, &[Interval::new(1, 1280)]);
    assert_eq!(
        herd::calls::join(&mut second, &first[..length]),
        Joined::New(4)
    );
    same_words(&second, &first[..length], "either way");
    assert_eq!(first[length], 0);
}

#[test]
fn adding_the_contacts_of_stays() {
    let (mut memory, listed) = asked();
    let length = memory.len() - 1;
    let last = length - 1;
    let before = model::minimal_intervals(LARGEST, &listed.into());
    let list = words::stays([
        (255, 63, 1023, 1024),
        (9, 63, 1024, 1024),
        (3, 0, 1, 1),
        (254, 0, 1, 1),
        (255, 62, 1, 1024),
        (0, 63, 1, 1),
        (0, 63, 1024, 1024),
        (0, 61, 1024, 1024),
        (255, 61, 1024, 1024),
    ]);
    let words = Stay::words(&list);
    let incomplete = &words[..words.len() - 1];

    memory[last] = 1;
    for stays in [words, incomplete] {
        for (words, number) in [(length, 6), (length - 1, 5), (length + 1, 5)] {
            let added = herd::calls::stays(&mut memory[..words], stays);
            assert_eq!(added, StaysAdded::Refused(number));
        }
    }
    memory[last] = 0;
    let table = &mut memory[..length];
    assert_eq!(
        herd::calls::stays(table, incomplete),
        StaysAdded::Refused(18)
    );
    for illegal in words::stays([
        (256, 63, 1, 1024),
        (255, 64, 1, 1024),
        (255, 63, 0, 1024),
        (255, 63, 1, 1025),
        (255, 63, 1024, 1023),
    ]) {
        let list = [&list[..], &[illegal]].concat();
        let added = herd::calls::stays(table, Stay::words(&list));
        assert_eq!(added, StaysAdded::Refused(18), "{illegal:?}");
    }
    same_table(table, LARGEST, &before, "refused");

    assert_eq!(herd::calls::stays(table, &[]), StaysAdded::New(0));
    assert_eq!(herd::calls::stays(table, words), StaysAdded::New(6));
    let met = contacts([
        (255, 9, 1024),
        (9, 255, 1024),
        (0, 9, 1024),
        (9, 0, 1024),
        (0, 255, 1024),
        (254, 3, 1),
    ]);
    let all: Contacts = listed.into_iter().chain(met).collect();
    let cells = model::minimal_intervals(LARGEST, &all);
    same_table(table, LARGEST, &cells, "added");
    let through = &cells[LARGEST.pair(3, 9)];
    assert_eq!(through, &[Interval::new(1, 1280)]);
    assert_eq!(herd::calls::stays(table, words), StaysAdded::New(0));
    same_table(table, LARGEST, &cells, "added twice");
    assert_eq!(memory[length], 0);
}

#[test]
fn removing_a_contact() {
    let (mut memory, listed) = asked();
    let length = memory.len() - 1;
    let last = length - 1;
    let mut work = vec![0x5555_5555; length + 1];
    let before = model::minimal_intervals(LARGEST, &listed.into());

    memory[last] = 1;
    for (words, number) in [(length, 6), (length - 1, 5), (length + 1, 5)] {
        for lent in [length, length - 1] {
            let removed = herd::calls::remove(&mut memory[..words], &mut work[..lent], 256, 256, 0);
            assert_eq!(removed, Done::Refused(number), "{words} {lent}");
        }
    }
    memory[last] = 0;
    let table = &mut memory[..length];
    for lent in [0, 1, length - 1, length + 1] {
        let removed = herd::calls::remove(table, &mut work[..lent], 256, 256, 0);
        assert_eq!(removed, Done::Refused(20), "{lent}");
    }
    let work = &mut work[..length];
    for ((u, v, t), number) in [
        ((256, 256, 0), 7),
        ((255, 255, 0), 8),
        ((255, 0, 1025), 9),
        ((255, 0, 1023), 21),
        ((0, 255, 1024), 21),
        ((3, 255, 1), 21),
    ] {
        let removed = herd::calls::remove(table, work, u, v, t);
        assert_eq!(removed, Done::Refused(number), "{u} {v} {t}");
    }
    same_table(table, LARGEST, &before, "refused");
    assert!(work.iter().all(|&word| word == 0x5555_5555));

    let mut left: Contacts = listed.into();
    for (contact, joined) in [(listed[0], 1), (listed[2], 0)] {
        let (u, v, t) = (contact.from, contact.to, contact.tick);
        assert_eq!(herd::calls::remove(table, work, u, v, t), Done::Done);
        left.remove(&contact);
        let cells = model::minimal_intervals(LARGEST, &left);
        same_table(table, LARGEST, &cells, contact);
        same_words(work, table, contact);
        assert_eq!(cells[LARGEST.pair(3, 255)].len(), joined);
    }
    assert_eq!(memory[length], 0);
}

#[test]
fn writing_a_log() {
    let (memory, listed) = asked();
    let table = &memory[..memory.len() - 1];
    let sorted: Contacts = listed.into();
    let log = words::log(LARGEST, sorted);
    for room in [0, 1, 6, 7, 8, 47] {
        let mut buffer = vec![9; room];
        let answer = herd::calls::write_log(table, &mut buffer);
        if room < 7 {
            assert_eq!(answer, Written::Refused(15), "{room}");
            assert_eq!(buffer, vec![9; room]);
        } else {
            assert_eq!(answer, Written::Written(7), "{room}");
            same_words(&buffer[..7], &log, room);
            assert!(buffer[7..].iter().all(|&word| word == 9));
        }
    }
    let cells = model::minimal_intervals(LARGEST, &listed.into());
    same_table(table, LARGEST, &cells, "written");
}

#[test]
fn every_legal_contact() {
    let mut table = vec![0; LARGEST.table_words()];
    table[0] = words::opening_word(LARGEST);
    for u in 0..256 {
        for v in 0..256 {
            let start = LARGEST.cell_start(u, v);
            table[start] = words::count_word(if u == v { 0 } else { 1024 });
            for t in (1..=1024).filter(|_| u != v) {
                let interval = Contact::new(u, v, t).interval(LARGEST.carry);
                table[start + t as usize] = words::interval_word(interval);
            }
        }
    }
    let contacts = 256 * 255 * 1024;
    let mut buffer = vec![0x5555_5555; contacts + 3];
    let answer = herd::calls::write_log(&table, &mut buffer[..contacts + 1]);
    assert_eq!(answer, Written::Refused(15));
    assert!(buffer.iter().all(|&word| word == 0x5555_5555));
    let answer = herd::calls::write_log(&table, &mut buffer);
    assert_eq!(answer, Written::Written(contacts as u32 + 2));
    assert_eq!(buffer[0], words::opening_word(LARGEST));
    let end = words::end_word(contacts as u32);
    assert_eq!(buffer[contacts + 1..], [end, 0x5555_5555]);
    let mut place = 1;
    for t in 1..=1024 {
        for u in 0..256 {
            for v in (0..256).filter(|&v| v != u) {
                let word = words::contact_word(Contact::new(u, v, t));
                assert_eq!(buffer[place], word, "{u} {v} {t}");
                place += 1;
            }
        }
    }
    assert_eq!(
        herd::calls::add(&mut table, 255, 254, 1024),
        Added::Known(0)
    );
    let list = words::stays([(255, 63, 1023, 1024), (254, 63, 1024, 1024)]);
    let added = herd::calls::stays(&mut table, Stay::words(&list));
    assert_eq!(added, StaysAdded::New(0));
    for tick in [1, 512, 1024] {
        assert_eq!(herd::calls::connected(&table, tick, tick), Answer::Yes);
    }
    assert_eq!(
        herd::calls::connected(&table, 1024, 1025),
        Answer::Refused(9)
    );
    let mut set = [0; 8];
    let reached = herd::calls::reached(&table, 77, 512, 512, &mut set);
    assert_eq!(reached, Reached::Animals(255));
    let mut all_but_77 = [u32::MAX; 8];
    all_but_77[77 / 32] ^= 1 << (77 % 32);
    assert_eq!(set, all_but_77);
    let reached = herd::calls::reached(&table, 77, 512, 1025, &mut set);
    assert_eq!((reached, set), (Reached::Refused(9), all_but_77));
    for (tick, earliest, latest) in [
        (1, at(1, 257), Found::Nothing),
        (256, at(256, 512), Found::Nothing),
        (257, at(257, 513), at(1, 257)),
        (1023, at(1023, 1279), at(767, 1023)),
        (1024, at(1024, 1280), at(768, 1024)),
        (1025, Found::Nothing, at(769, 1025)),
        (1279, Found::Nothing, at(1023, 1279)),
        (1280, Found::Nothing, at(1024, 1280)),
    ] {
        assert_eq!(
            herd::calls::earliest(&table, 255, 254, tick),
            earliest,
            "{tick}"
        );
        assert_eq!(herd::calls::latest(&table, 0, 255, tick), latest, "{tick}");
    }
    let chain = herd::calls::chain(&table, 255, 0, 700, 700, &mut buffer);
    assert_eq!(chain, Chain::Contacts(1));
    let way = words::contact_word(Contact::new(255, 0, 700));
    assert_eq!(buffer[0], way);
    assert_eq!(
        herd::calls::claimed(&table, 255, 0, 700, 700, &[way]),
        Answer::Yes
    );

    let rows = LARGEST.cell_start(77, 78) + 1;
    table[rows - 1] = words::count_word(1023);
    table.copy_within(rows + 512..rows + 1024, rows + 511);
    table[rows + 1023] = 0;
    for (first, last, number, connected) in [
        (512, 512, 254, Answer::No),
        (511, 512, 255, Answer::Yes),
        (512, 513, 255, Answer::Yes),
    ] {
        let reached = herd::calls::reached(&table, 77, first, last, &mut set);
        assert_eq!(reached, Reached::Animals(number), "{first} {last}");
        assert_eq!(herd::calls::connected(&table, first, last), connected);
    }
}
