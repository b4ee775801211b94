//! Reading logs of bytes, good and damaged ones, compared with the call on lent words and with the words of document 01.

use crate::faults;
use crate::met::Met;
use crate::{built, bytes, extended};
use herd::calls::{self, Read};
use herd::{Contact, Error, Herd};
use herd_testing::cases;
use herd_testing::model::Contacts;
use herd_testing::random::Random;
use herd_testing::suite::draws;
use herd_testing::words::{self, Opening};

/// The words that are read or written at a time.
pub const PIECE: usize = 1 << 14;

/// The words of the bytes, and how many bytes are left over.
fn whole_words(log: &[u8]) -> (Vec<u32>, usize) {
    let four = |bytes: &[u8]| {
        bytes
            .iter()
            .fold(0, |word, &byte| word << 8 | u32::from(byte))
    };
    let whole = log.chunks_exact(4);
    let rest = whole.remainder().len();
    (whole.map(four).collect(), rest)
}

/// The opening and the contacts of a log of bytes, or what is wrong with it.
fn judged(log: &[u8]) -> Result<(Opening, Vec<Contact>), Error> {
    let (words, rest) = whole_words(log);
    let bytes = log.len() as u64;
    let opening = match words.first() {
        Some(&first) => words::read_opening(first).ok_or(Error::NoOpeningWord)?,
        None if rest == 0 => return Err(Error::NoOpeningWord),
        None => return Err(Error::NotWholeWords { bytes }),
    };
    if rest > 0 {
        return Err(Error::NotWholeWords { bytes });
    }
    let [_, between @ .., last] = &words[..] else {
        return Err(Error::NothingBehindOpening);
    };
    let mut contacts = Vec::new();
    for (place, &word) in (1..).zip(between) {
        let none = Error::NoContactWord { place, word };
        let contact = words::read_contact(word).ok_or(none)?;
        contacts.push(contact);
        if let Some(reason) = faults::in_contact(opening, contact).map(Box::new) {
            return Err(Error::ContactWord {
                place,
                contact,
                reason,
            });
        }
    }
    if words::read_end(*last) == Some(between.len() as u32) {
        Ok((opening, contacts))
    } else {
        let (word, contacts) = (*last, between.len());
        Err(Error::WrongEnd { word, contacts })
    }
}

/// The number with which the call on lent words refuses the log, with a table of the length for its opening word; 11 where
/// there is none.
fn raw_refusal(log: &[u8]) -> Option<u32> {
    let (words, _) = whole_words(log);
    let opening = words.first().and_then(|&first| words::read_opening(first));
    let Some(opening) = opening else {
        return Some(11);
    };
    match calls::read_log(&words, &mut vec![0; opening.table_words()]) {
        Read::Refused(number) => Some(number),
        Read::Contacts(_) => None,
    }
}

/// Fails unless the bytes were read as they must be.
#[track_caller]
pub fn compare_read(read: Result<Herd, Error>, log: &[u8], met: &mut Met) {
    match (read, judged(log)) {
        (Ok(herd), Ok((opening, contacts))) => {
            assert_eq!(raw_refusal(log), None);
            assert_eq!(herd, extended(opening, &contacts), "{contacts:?}");
            let different: Contacts = contacts.iter().copied().collect();
            assert_eq!(herd.held(), different.len());
            let repeats = different.len() < contacts.len();
            met.answer("read", if repeats { "with repeats" } else { "without" });
        }
        (Err(found), Err(fault)) => {
            faults::same(&found, &fault, whole_words(log));
            match fault.number() {
                None => met.answer("read", "not whole words"),
                Some(number) => {
                    assert_eq!(raw_refusal(log), Some(number), "{found}");
                    met.refusal("read", number);
                }
            }
        }
        (read, judged) => panic!("{read:?} and not {judged:?}: {:?}", whole_words(log)),
    }
}

/// Reads the bytes, and compares.
#[track_caller]
fn compare(log: &[u8], met: &mut Met) {
    compare_read(Herd::read_log(log), log, met);
}

/// A small good log, in any order and with repeats.
fn small_log(random: &mut Random, most: usize) -> Vec<u32> {
    let opening = draws::opening(random);
    words::log(opening, cases::log_contacts(random, opening, most))
}

/// The log with some of its words damaged, but not so that it opens a large table: its first word says at most 32 animals
/// and 128 ticks.
pub fn damaged(random: &mut Random, log: &[u32]) -> Vec<u32> {
    let mut damaged = cases::damaged(random, log);
    if let Some(first) = damaged.first_mut() {
        *first &= !(0b111 << 23 | 0b111 << 7);
    }
    damaged
}

#[test]
fn good_logs_in_any_order_with_repeats() {
    let mut random = Random::new(2_801);
    let mut met = Met::default();
    for _ in 0..1_500 {
        let log = small_log(&mut random, 40);
        compare(&bytes(&log), &mut met);
    }
    for _ in 0..100 {
        let opening = cases::longer_opening(&mut random);
        let contacts = cases::log_contacts(&mut random, opening, 400);
        compare(&bytes(&words::log(opening, contacts)), &mut met);
    }
    met.answers(200, "read", &["with repeats", "without"]);
}

#[test]
fn every_part_of_small_logs_from_their_beginning() {
    let mut random = Random::new(2_802);
    let mut met = Met::default();
    for _ in 0..60 {
        let log = bytes(&small_log(&mut random, 12));
        for length in 0..=log.len() {
            compare(&log[..length], &mut met);
        }
        let longer = [&log[..], &log[..]].concat();
        for length in log.len() + 1..longer.len() {
            compare(&longer[..length], &mut met);
        }
    }
    met.answers(20, "read", &["with repeats", "without"]);
    met.answers(500, "read", &["not whole words"]);
    met.refusals(100, "read", &[11, 12, 14]);
}

#[test]
fn each_bit_of_small_logs_turned_over() {
    let mut random = Random::new(2_803);
    let mut met = Met::default();
    for _ in 0..40 {
        let log = bytes(&small_log(&mut random, 8));
        for bit in 0..8 * log.len() {
            let mut damaged = log.clone();
            damaged[bit / 8] ^= 1 << (bit % 8);
            compare(&damaged, &mut met);
        }
    }
    met.refusals(200, "read", &[11, 12, 13, 14]);
    met.answers(50, "read", &["with repeats", "without"]);
}

#[test]
fn damaged_logs() {
    let mut random = Random::new(2_804);
    let mut met = Met::default();
    for _ in 0..6_000 {
        let log = small_log(&mut random, 12);
        compare(&bytes(&damaged(&mut random, &log)), &mut met);
    }
    met.refusals(200, "read", &[11, 12, 13, 14]);
    met.answers(100, "read", &["with repeats", "without"]);
}

#[test]
fn one_wrong_word_at_every_place() {
    let mut random = Random::new(2_805);
    let mut met = Met::default();
    for _ in 0..60 {
        let opening = draws::opening(&mut random);
        let log = words::log(opening, cases::log_contacts(&mut random, opening, 12));
        let beyond = Contact::new(opening.animals.min(255), 0, 1);
        let late = Contact::new(0, 1, opening.ticks + 1);
        for wrong in [
            0,
            words::opening_word(opening),
            words::end_word(1),
            words::contact_word(Contact::new(0, 0, 1)),
            words::contact_word(beyond),
            words::contact_word(late),
            random.word(),
            words::contact_word(late) | 1 << random.between(26, 29),
        ] {
            for place in 1..log.len() {
                let mut damaged = log.clone();
                damaged[place] = wrong;
                compare(&bytes(&damaged), &mut met);
            }
        }
    }
    met.refusals(200, "read", &[12, 13, 14]);
}

#[test]
fn bytes_of_no_meaning() {
    let mut random = Random::new(2_806);
    let mut met = Met::default();
    for round in 0..3_000 {
        let length = random.below(60);
        let mut log: Vec<u8> = (0..length).map(|_| random.bits() as u8).collect();
        if random.once_in(2) && length >= 4 {
            let drawn = draws::opening(&mut random);
            let any = words::OPENING << 30 | random.word() & 0x03FF_FFFF;
            let first = if round < 40 {
                any
            } else {
                words::opening_word(drawn)
            };
            log[..4].copy_from_slice(&first.to_be_bytes());
        }
        compare(&log, &mut met);
    }
    met.answers(500, "read", &["not whole words"]);
    met.refusals(500, "read", &[11]);
    met.refusals(100, "read", &[12]);
    met.refusals(20, "read", &[14]);
}

/// A log of so many contacts of a small herd.
fn long_log(random: &mut Random, contacts: usize) -> Vec<u32> {
    let opening = Opening::new(3, 5, 1);
    let legal = cases::legal_contacts(opening);
    words::log(opening, (0..contacts).map(|_| random.one_of(&legal)))
}

#[test]
fn logs_of_several_pieces() {
    let mut random = Random::new(2_807);
    let mut met = Met::default();
    for pieces in [1, 2, 5] {
        for more in [-2i64, -1, 0, 1, 2] {
            let words = (pieces * PIECE as i64 + more) as usize;
            let log = long_log(&mut random, words - 2);
            assert_eq!(log.len(), words);
            compare(&bytes(&log), &mut met);
            let cut = bytes(&log).len() - random.between(1, 3) as usize;
            compare(&bytes(&log)[..cut], &mut met);
            for near in [
                1,
                2,
                words - 2,
                words - 1,
                (words - 2).min(PIECE - 1),
                (words - 2).min(PIECE),
            ] {
                let mut damaged = log.clone();
                damaged[near] ^= 1 << random.one_of(&[9, 17, 25, 26, 29, 30, 31]);
                compare(&bytes(&damaged), &mut met);
            }
        }
    }
    met.answers(15, "read", &["with repeats", "not whole words"]);
    met.refusals(10, "read", &[12, 13, 14]);
}

#[test]
fn written_logs_are_those_of_the_sorted_contacts_and_are_read_again() {
    let mut random = Random::new(2_808);
    let mut met = Met::default();
    for round in 0..1_000 {
        let mut opening = draws::opening(&mut random);
        let mut contacts: Contacts = draws::contacts(&mut random, opening).into_iter().collect();
        if round < 6 {
            opening = Opening::new(20, 50 + round, 1 + round);
            contacts = cases::legal_contacts(opening).into_iter().collect();
            contacts.retain(|_| !random.once_in(9 - round as usize));
        }
        let herd = built(&mut random, opening, &contacts);
        let mut written = Vec::new();
        herd.write_log(&mut written).unwrap();
        let log = bytes(&words::log(opening, contacts.iter().copied()));
        assert!(written == log, "{opening:?} {contacts:?}");
        assert_eq!(Herd::read_log(&written[..]).unwrap(), herd);
        let several = written.len() > 4 * PIECE;
        met.yes_or_no("several pieces", several);
    }
    met.answers(3, "several pieces", &["yes"]);
    met.answers(900, "several pieces", &["no"]);
}
