//! Every call with its lent words beside memory that cannot be read or written, and with lengths beyond 32 bits.

use herd::calls::{Added, Answer, Chain, Done, Found, Joined, Opened};
use herd::calls::{Reached, Read, StaysAdded, Written};
use herd_testing::cases;
use herd_testing::compare::same_words;
use herd_testing::guard::{Guarded, Memory, Place};
use herd_testing::model::{self, Contacts};
use herd_testing::random::Random;
use herd_testing::suite::{draws, Call, Export, Lent, Reply, Suite};
use herd_testing::words::{self, Opening, Stay, LAST_PEN};
use std::env;
use std::os::unix::process::ExitStatusExt;
use std::process::Command;
use std::sync::Mutex;

/// The refusals on a good table, and those of opening and of reading a log.
const ON_GOOD_TABLES: [u32; 18] = [
    1, 2, 3, 4, 7, 8, 9, 10, 11, 12, 13, 14, 15, 17, 18, 19, 20, 21,
];

/// A change of what memory may be used for stops all running threads, so the tests take turns.
static TURN: Mutex<()> = Mutex::new(());

/// Makes drawn calls of every kind at the guards, so many of each.
fn compare_drawn(suite: &mut Suite, random: &mut Random, lent: &Lent, times: usize) {
    for export in Export::ALL {
        for _ in 0..times {
            let call = lent.draw(random, export);
            suite.compare_at_guards(lent, &call);
        }
    }
}

/// Touches words at guards in the way of this name.
fn touch(way: &str) {
    let mut ends = Guarded::new(Place::EndsAtGuard, &[1, 2, 3]);
    let starts = Guarded::new(Place::StartsAtGuard, &[1, 2, 3]);
    let frozen = Guarded::new(Place::EndsAtGuard, &[1, 2, 3]).freeze();
    let (end, start) = (ends.as_mut_ptr(), starts.as_ptr());
    // SAFETY: what lies outside the words is asked for on purpose; the process must end there.
    unsafe {
        match way {
            "inside" => end.add(2).write_volatile(start.read_volatile() + frozen[2]),
            "read behind" => drop(end.add(3).read_volatile()),
            "write behind" => end.add(3).write_volatile(4),
            "read before" => drop(start.sub(1).read_volatile()),
            _ => frozen.as_ptr().cast_mut().write_volatile(4),
        }
    }
}

#[test]
fn touching_a_guard_ends_the_process() {
    if let Ok(way) = env::var("TOUCH") {
        return touch(&way);
    }
    for (way, signal) in [
        ("inside", None),
        ("read behind", Some(11)),
        ("write behind", Some(11)),
        ("read before", Some(11)),
        ("write frozen", Some(11)),
    ] {
        let mut child = Command::new(env::current_exe().expect("this program"));
        child.args(["--exact", "touching_a_guard_ends_the_process"]);
        let output = child.env("TOUCH", way).output().expect("a child");
        assert_eq!(output.status.signal(), signal, "{way}");
        assert_eq!(output.status.success(), signal.is_none(), "{way}");
    }
}

#[test]
fn tables_that_adds_built_stay_inside() {
    let _turn = TURN.lock();
    let mut random = Random::new(601);
    let mut suite = Suite::default();
    for _ in 0..2_000 {
        let lent = draws::built(&mut random);
        compare_drawn(&mut suite, &mut random, &lent, 3);
    }
    suite.at_least(30, &Export::ALL, &ON_GOOD_TABLES);
}

#[test]
fn tables_that_no_adds_built_stay_inside() {
    let _turn = TURN.lock();
    let mut random = Random::new(602);
    let mut suite = Suite::default();
    for _ in 0..2_000 {
        let lent = draws::stored(&mut random);
        compare_drawn(&mut suite, &mut random, &lent, 3);
    }
    suite.at_least(30, &Export::ALL, &ON_GOOD_TABLES);
}

#[test]
fn full_cells_stay_inside() {
    let _turn = TURN.lock();
    let mut random = Random::new(603);
    let mut suite = Suite::default();
    for ticks in [1, 2, 5, 8, 31] {
        for carry in [1, 3, 40] {
            let opening = Opening::new(3, ticks, carry);
            let mut cells = cases::full_cells(opening);
            let full = Lent::stored(opening, &cells);
            for contact in cases::legal_contacts(opening) {
                let (u, v, t) = (contact.from, contact.to, contact.tick);
                let reply = suite.compare_at_guards(&full, &Call::Add(u, v, t));
                assert_eq!(reply, Reply::Known(0), "{opening:?} {contact:?}");
            }
            let mut contacts = cases::legal_contacts(opening);
            let number = Reply::Read(contacts.len() as u32);
            for _ in 0..20 {
                random.shuffle(&mut contacts);
                let log = words::log(opening, contacts.clone());
                let reply = suite.compare_at_guards(&full, &Call::ReadLog(log));
                assert_eq!(reply, number, "{opening:?}");
                contacts.push(random.one_of(&contacts));
            }
            compare_drawn(&mut suite, &mut random, &full, 4);
            let pair = random.below(opening.pairs());
            cells[pair].retain(|_| random.once_in(2));
            let thinned = Lent::stored(opening, &cells);
            compare_drawn(&mut suite, &mut random, &thinned, 4);
            let gone = full.held.len() - thinned.held.len();
            for (first, second, new) in [
                (&full, &full, 0),
                (&full, &thinned, 0),
                (&thinned, &full, gone as u32),
            ] {
                let call = Call::Join(second.words.clone());
                let reply = suite.compare_at_guards(first, &call);
                assert_eq!(reply, Reply::Joined(new), "{opening:?}");
            }
            let together = [0, 1, 2].map(|animal| Stay::new(animal, LAST_PEN, 1, ticks));
            let call = Call::Stays(Stay::words(&together).to_vec());
            for (lent, new) in [(&full, 0), (&thinned, gone as u32)] {
                let reply = suite.compare_at_guards(lent, &call);
                assert_eq!(reply, Reply::StaysAdded(new), "{opening:?}");
            }
            for contact in [full.held[0], full.held[full.held.len() - 1]] {
                let (u, v, t) = (contact.from, contact.to, contact.tick);
                for (lent, held) in [(&full, true), (&thinned, thinned.held.contains(&contact))] {
                    let call = Call::Remove(u, v, t, full.words.clone());
                    let reply = suite.compare_at_guards(lent, &call);
                    let done = if held {
                        Reply::Done
                    } else {
                        Reply::Refused(21)
                    };
                    assert_eq!(reply, done, "{opening:?} {contact:?}");
                }
            }
        }
    }
}

#[test]
fn joined_tables_stay_inside() {
    let _turn = TURN.lock();
    let mut random = Random::new(608);
    let mut suite = Suite::default();
    for _ in 0..1_500 {
        let built = draws::built(&mut random);
        let contacts = draws::contacts(&mut random, built.opening);
        let second = model::fresh_table(built.opening, &contacts.into_iter().collect());
        suite.compare_at_guards(&built, &Call::Join(second));
        let stored = draws::stored(&mut random);
        let cells = draws::cells(&mut random, stored.opening);
        let second = words::table(stored.opening, &cells);
        suite.compare_at_guards(&stored, &Call::Join(second));
    }
    let new = suite.times(Export::Join, |reply| matches!(reply, Reply::Joined(1..)));
    assert!(new > 2_000, "{new}");
}

#[test]
fn lists_of_stays_stay_inside() {
    let _turn = TURN.lock();
    let mut random = Random::new(609);
    let mut suite = Suite::default();
    for _ in 0..1_500 {
        for lent in [draws::built(&mut random), draws::stored(&mut random)] {
            let list = cases::stays(&mut random, lent.opening, 12);
            let words = Stay::words(&list);
            suite.compare_at_guards(&lent, &Call::Stays(words.to_vec()));
            for less in (1..=3).filter(|&less| less < words.len()) {
                let cut = words[..words.len() - less].to_vec();
                let reply = suite.compare_at_guards(&lent, &Call::Stays(cut));
                assert_eq!(reply, Reply::Refused(18), "{list:?} without {less} words");
            }
        }
    }
    let is_new = |reply| matches!(reply, Reply::StaysAdded(1..));
    let new = suite.times(Export::Stays, is_new);
    assert!(new > 1_000, "{new}");
}

#[test]
fn removals_stay_inside() {
    let _turn = TURN.lock();
    let mut random = Random::new(610);
    let mut suite = Suite::default();
    for _ in 0..1_500 {
        for lent in [draws::built(&mut random), draws::stored(&mut random)] {
            let right = lent.words.len();
            for contact in [lent.held.first(), lent.held.last()].into_iter().flatten() {
                let (u, v, t) = (contact.from, contact.to, contact.tick);
                for (length, reply) in [
                    (right, Reply::Done),
                    (right - 1, Reply::Refused(20)),
                    (right + 1, Reply::Refused(20)),
                    (0, Reply::Refused(20)),
                ] {
                    let call = Call::Remove(u, v, t, random.words(length));
                    let answer = suite.compare_at_guards(&lent, &call);
                    assert_eq!(answer, reply, "{call:?}");
                }
            }
            let call = lent.draw(&mut random, Export::Remove);
            suite.compare_at_guards(&lent, &call);
        }
    }
    suite.at_least(100, &[Export::Remove], &[7, 8, 9, 20, 21]);
}

#[test]
fn wide_tables_stay_inside() {
    let _turn = TURN.lock();
    let mut random = Random::new(604);
    let mut suite = Suite::default();
    for (animals, ticks, carry) in [(1, 1024, 256), (2, 1024, 1), (8, 200, 3), (33, 7, 256)] {
        let opening = Opening::new(animals, ticks, carry);
        let lent = Lent::stored(opening, &cases::cells(&mut random, opening));
        compare_drawn(&mut suite, &mut random, &lent, 12);
    }
}

#[test]
fn wrong_words_stay_inside() {
    let _turn = TURN.lock();
    let mut random = Random::new(605);
    let mut suite = Suite::default();
    for round in 0..8_000 {
        let lent = draws::stored(&mut random);
        let opening = lent.opening;
        let mut words = lent.words.clone();
        let last = opening.cell_start(opening.animals - 1, opening.animals - 1);
        let anywhere = random.below(words.len());
        let place = random.one_of(&[0, 1, last, words.len() - 1, anywhere]);
        let wrong = random.word() & 0x07FF;
        let wrongs = [0xC000_0000 | wrong, u32::MAX, 0x8000_0000, 0x83FF_FFFF, 0];
        words[place] = random.one_of(&wrongs);
        words.truncate(words.len() - random.below(3).min(words.len()));
        let lent = lent.with(words);
        for turn in 0..3 {
            let export = Export::ALL[(3 * round + turn) % Export::ALL.len()];
            let call = lent.draw(&mut random, export);
            suite.compare_at_guards(&lent, &call);
        }
    }
    for export in Export::ON_OPEN_TABLES {
        for number in [5, 6] {
            let met = suite.times(export, |reply| reply == Reply::Refused(number));
            assert!(met > 100, "{export:?} {number}: {met}");
        }
    }
    suite.at_least(100, &[Export::Open, Export::ReadLog], &[4]);
}

#[test]
fn empty_slices_and_single_words_stay_inside() {
    let _turn = TURN.lock();
    let mut random = Random::new(606);
    let mut suite = Suite::default();
    for words in [&[][..], &[0x83FF_FFFF], &[0], &[0x8000_0000]] {
        for opening in [Opening::new(1, 1, 1), Opening::new(256, 1024, 256)] {
            let lent = Lent::words(opening, words.to_vec());
            for export in Export::ON_OPEN_TABLES {
                for _ in 0..6 {
                    let call = lent.draw(&mut random, export);
                    let reply = suite.compare_at_guards(&lent, &call);
                    assert_eq!(reply, Reply::Refused(5), "{call:?} on {words:08X?}");
                }
            }
        }
    }
}

#[test]
fn logs_of_no_word_one_and_two_stay_inside() {
    let _turn = TURN.lock();
    let mut suite = Suite::default();
    let opening = Opening::new(256, 1024, 256);
    let first = words::opening_word(opening);
    let end = words::end_word(0);
    for (log, number) in [
        (&[][..], 11),
        (&[first], 11),
        (&[end], 11),
        (&[end, end], 11),
        (&[first, end], 4),
        (&[first, u32::MAX], 4),
    ] {
        for table in [&[][..], &[7], &[first, end]] {
            let lent = Lent::words(opening, table.to_vec());
            let reply = suite.compare_at_guards(&lent, &Call::ReadLog(log.to_vec()));
            assert_eq!(reply, Reply::Refused(number), "{log:08X?}");
        }
    }
    let opening = Opening::new(1, 1, 1);
    let first = words::opening_word(opening);
    let lent = Lent::words(opening, vec![1, 2, 3]);
    for (last, expected) in [
        (end, Reply::Read(0)),
        (words::end_word(1), Reply::Refused(14)),
        (first, Reply::Refused(14)),
        (0, Reply::Refused(14)),
    ] {
        let log = vec![first, last];
        let reply = suite.compare_at_guards(&lent, &Call::ReadLog(log));
        assert_eq!(reply, expected, "{last:08X}");
    }
}

#[test]
fn openings_stay_inside() {
    let _turn = TURN.lock();
    let mut random = Random::new(607);
    let mut suite = Suite::default();
    for animals in 1..=5 {
        for ticks in [1, 2, 3, 7, 16, 33] {
            for carry in [1, 5, 256] {
                let opening = Opening::new(animals, ticks, carry);
                let right = opening.table_words();
                for length in [right, right - 1, right + 1, 0] {
                    let lent = Lent::words(opening, random.words(length));
                    let call = Call::Open(animals, ticks, carry);
                    suite.compare_at_guards(&lent, &call);
                    let contacts = cases::log_contacts(&mut random, opening, 30);
                    let log = words::log(opening, contacts);
                    suite.compare_at_guards(&lent, &Call::ReadLog(log));
                }
            }
        }
    }
    suite.at_least(90, &[Export::Open, Export::ReadLog], &[4]);
}

/// Memory of this many words and 2³² more, which begins with these words.
fn vast(words: &[u32]) -> Guarded {
    let mut vast = Guarded::zero(Place::StartsAtGuard, words.len() + (1 << 32));
    vast[..words.len()].copy_from_slice(words);
    vast
}

#[test]
fn tables_of_more_words_than_32_bits_count() {
    let _turn = TURN.lock();
    let opening = Opening::new(4, 6, 1);
    let table = words::table(opening, &cases::full_cells(opening));
    let mut lent = vast(&table);
    let mut buffer = [7; 80];
    assert_eq!(herd::calls::open(&mut lent, 4, 6, 1), Opened::Refused(4));
    let log = words::log(opening, cases::legal_contacts(opening));
    assert_eq!(herd::calls::read_log(&log, &mut lent), Read::Refused(4));
    assert_eq!(herd::calls::add(&mut lent, 0, 1, 1), Added::Refused(5));
    assert_eq!(herd::calls::join(&mut lent, &table), Joined::Refused(5));
    let stays = [0, 63, 1, 6, 1, 63, 1, 6];
    assert_eq!(
        herd::calls::stays(&mut lent, &stays),
        StaysAdded::Refused(5)
    );
    let mut work = table.clone();
    let removed = herd::calls::remove(&mut lent, &mut work, 0, 1, 1);
    assert_eq!((removed, &work), (Done::Refused(5), &table));
    let written = herd::calls::write_log(&lent, &mut buffer);
    assert_eq!(written, Written::Refused(5));
    assert_eq!(herd::calls::reach(&lent, 0, 1, 1, 6), Answer::Refused(5));
    assert_eq!(herd::calls::earliest(&lent, 0, 1, 1), Found::Refused(5));
    assert_eq!(herd::calls::latest(&lent, 0, 1, 7), Found::Refused(5));
    assert_eq!(herd::calls::connected(&lent, 1, 6), Answer::Refused(5));
    let reached = herd::calls::reached(&lent, 0, 1, 6, &mut buffer);
    assert_eq!(reached, Reached::Refused(5));
    let chain = herd::calls::chain(&lent, 0, 1, 1, 6, &mut buffer);
    assert_eq!(chain, Chain::Refused(5));
    let claimed = herd::calls::claimed(&lent, 0, 1, 1, 6, &[0x4000_0400]);
    assert_eq!(claimed, Answer::Refused(5));
    same_words(&lent[..table.len()], &table, "vast");
    assert!(lent[table.len()..10_000].iter().all(|&word| word == 0));
    assert_eq!(buffer, [7; 80]);
}

#[test]
fn more_words_beside_a_table_than_32_bits_count() {
    let _turn = TURN.lock();
    let opening = Opening::new(4, 6, 1);
    let table = words::table(opening, &cases::full_cells(opening));
    let log = words::log(opening, cases::legal_contacts(opening));
    let mut buffer = vast(&[]);
    let chain = herd::calls::chain(&table, 0, 1, 1, 6, &mut buffer);
    assert_eq!(chain, Chain::Contacts(1));
    assert_eq!(buffer[..4], [0x4000_0400, 0, 0, 0]);
    let reached = herd::calls::reached(&table, 0, 1, 6, &mut buffer);
    assert_eq!(reached, Reached::Animals(3));
    assert_eq!(buffer[..9], [0b1110, 0, 0, 0, 0, 0, 0, 0, 0]);
    let written = herd::calls::write_log(&table, &mut buffer);
    assert_eq!(written, Written::Written(log.len() as u32));
    same_words(&buffer[..log.len()], &log, "vast");
    assert!(buffer[log.len()..1_000].iter().all(|&word| word == 0));

    let chain = vast(&[0x4000_0400]);
    let claimed = herd::calls::claimed(&table, 0, 1, 1, 6, &chain);
    assert_eq!(claimed, Answer::No);
    let claimed = herd::calls::claimed(&table, 0, 1, 1, 6, &chain[..1]);
    assert_eq!(claimed, Answer::Yes);

    let second = vast(&table);
    let mut first = table.clone();
    assert_eq!(herd::calls::join(&mut first, &second), Joined::Refused(5));
    let joined = herd::calls::join(&mut first, &second[..table.len()]);
    assert_eq!((joined, first), (Joined::New(0), table.clone()));

    let mut work = vast(&table);
    let mut after = table.clone();
    let removed = herd::calls::remove(&mut after, &mut work, 0, 1, 1);
    assert_eq!((removed, &after), (Done::Refused(20), &table));
    same_words(&work[..table.len()], &table, "vast");
    assert!(work[table.len()..1_000].iter().all(|&word| word == 0));
    let removed = herd::calls::remove(&mut after, &mut work[..table.len()], 0, 1, 1);
    assert_eq!((removed, work[table.len()]), (Done::Done, 0));
    same_words(&work[..table.len()], &after, "vast");
    assert_ne!(after, table);

    let stays = vast(&[0, 63, 1, 6, 1, 63, 6, 6]);
    let mut after = model::fresh_table(opening, &Contacts::new());
    let empty = after.clone();
    let refused = StaysAdded::Refused(18);
    assert_eq!(herd::calls::stays(&mut after, &stays), refused);
    assert_eq!(herd::calls::stays(&mut after, &stays[..1 << 32]), refused);
    assert_eq!(after, empty);
    let added = herd::calls::stays(&mut after, &stays[..8]);
    assert_eq!(added, StaysAdded::New(2));

    let mut lent = vast(&log);
    let mut after = vec![5; table.len()];
    assert_eq!(herd::calls::read_log(&lent, &mut after), Read::Refused(12));
    assert_eq!(
        herd::calls::read_log(&lent, &mut after[1..]),
        Read::Refused(4)
    );
    lent[0] = 0;
    assert_eq!(herd::calls::read_log(&lent, &mut after), Read::Refused(11));
    assert_eq!(after, vec![5; table.len()]);
}
