//! Readers that give few bytes at a time, are interrupted, fail or never end.

use crate::logs::{compare_read, damaged, PIECE};
use crate::met::Met;
use crate::{bytes, extended, faults};
use herd::{Contact, Error, Herd};
use herd_testing::cases;
use herd_testing::random::Random;
use herd_testing::suite::draws;
use herd_testing::words::{self, Opening};
use std::io::{self, ErrorKind, Read};

/// Kinds of errors that are not passed over.
pub const KINDS: [ErrorKind; 5] = [
    ErrorKind::UnexpectedEof,
    ErrorKind::PermissionDenied,
    ErrorKind::BrokenPipe,
    ErrorKind::WouldBlock,
    ErrorKind::Other,
];

/// Gives the bytes, few at a time, is interrupted now and then, and fails in the end where it has an error for that.
struct Source<'a> {
    bytes: &'a [u8],
    at_a_time: usize,
    interrupted: usize,
    fails: Option<ErrorKind>,
    calls: usize,
}

impl<'a> Source<'a> {
    /// Gives the bytes, so many at a time, and is not interrupted.
    fn new(bytes: &'a [u8], at_a_time: usize) -> Source<'a> {
        Source {
            bytes,
            at_a_time,
            interrupted: usize::MAX,
            fails: None,
            calls: 0,
        }
    }
}

impl Read for Source<'_> {
    fn read(&mut self, buffer: &mut [u8]) -> io::Result<usize> {
        self.calls += 1;
        if self.calls.is_multiple_of(self.interrupted) {
            return Err(ErrorKind::Interrupted.into());
        }
        if let Some(kind) = self.fails.filter(|_| self.bytes.is_empty()) {
            return Err(kind.into());
        }
        let given = self.at_a_time.min(buffer.len()).min(self.bytes.len());
        let (now, later) = self.bytes.split_at(given);
        buffer[..given].copy_from_slice(now);
        self.bytes = later;
        Ok(given)
    }
}

/// Gives one word and then another one for ever, and counts the bytes.
struct Endless<'a> {
    first: [u8; 4],
    then: [u8; 4],
    given: &'a mut u64,
}

impl<'a> Endless<'a> {
    /// Gives the first word, and then the second for ever.
    fn new(first: u32, then: u32, given: &'a mut u64) -> Endless<'a> {
        Endless {
            first: first.to_be_bytes(),
            then: then.to_be_bytes(),
            given,
        }
    }
}

impl Read for Endless<'_> {
    fn read(&mut self, buffer: &mut [u8]) -> io::Result<usize> {
        for byte in buffer.iter_mut() {
            let word = if *self.given < 4 {
                self.first
            } else {
                self.then
            };
            *byte = word[(*self.given % 4) as usize];
            *self.given += 1;
        }
        Ok(buffer.len())
    }
}

/// A log, good or damaged, now and then cut.
fn log(random: &mut Random) -> Vec<u8> {
    let opening = draws::opening(random);
    let mut log = words::log(opening, cases::log_contacts(random, opening, 12));
    if random.once_in(3) {
        log = damaged(random, &log);
    }
    let mut log = bytes(&log);
    if random.once_in(4) {
        log.truncate(random.below(log.len() + 1));
    }
    log
}

#[test]
fn readers_that_give_few_bytes_or_are_interrupted() {
    let mut random = Random::new(2_901);
    let mut met = Met::default();
    for _ in 0..1_500 {
        let log = log(&mut random);
        for at_a_time in [1, 2, 3, 4, 5, 7, 1000] {
            let mut source = Source::new(&log, at_a_time);
            source.interrupted = random.one_of(&[2, 3, 7, usize::MAX]);
            compare_read(Herd::read_log(&mut source), &log, &mut met);
        }
    }
    met.answers(500, "read", &["with repeats", "without", "not whole words"]);
    met.refusals(100, "read", &[11, 12, 13, 14]);
}

#[test]
fn long_logs_from_readers_that_give_few_bytes() {
    let mut met = Met::default();
    let opening = Opening::new(2, 9, 1);
    let legal = cases::legal_contacts(opening);
    for words in [PIECE - 1, PIECE, PIECE + 1, 2 * PIECE + 7] {
        let contacts = legal.iter().copied().cycle().take(words - 2);
        let log = bytes(&words::log(opening, contacts));
        for at_a_time in [1, 3, 1000, 4 * PIECE - 1, 4 * PIECE + 1] {
            let mut source = Source::new(&log, at_a_time);
            source.interrupted = 5;
            compare_read(Herd::read_log(&mut source), &log, &mut met);
        }
    }
    met.answers(20, "read", &["with repeats"]);
}

#[test]
fn readers_that_fail() {
    let mut random = Random::new(2_902);
    let opening = Opening::new(4, 6, 1);
    let mut failed = 0;
    for _ in 0..30 {
        let log = bytes(&words::log(
            opening,
            cases::log_contacts(&mut random, opening, 6),
        ));
        for length in 0..=log.len() {
            let mut source = Source::new(&log[..length], random.one_of(&[1, 3, 100]));
            let kind = random.one_of(&KINDS);
            source.fails = Some(kind);
            let error = Herd::read_log(&mut source).unwrap_err();
            faults::is_io(&error, kind);
            failed += 1;
        }
    }
    let long = bytes(&words::log(opening, [Contact::new(0, 1, 2); 2 * PIECE]));
    for length in [4 * PIECE - 1, 4 * PIECE, 4 * PIECE + 1, long.len()] {
        let mut source = Source::new(&long[..length], 1000);
        source.fails = Some(ErrorKind::BrokenPipe);
        let error = Herd::read_log(&mut source).unwrap_err();
        faults::is_io(&error, ErrorKind::BrokenPipe);
        failed += 1;
    }
    assert!(failed > 500, "{failed}");
}

/// The most contacts that an end word can count.
const MOST: u64 = (1 << 26) - 1;

#[test]
fn readers_that_never_end() {
    let opening = words::opening_word(Opening::new(2, 1, 1));
    let contact = words::contact_word(Contact::new(0, 1, 1));
    for then in [contact, 0] {
        let mut given = 0;
        let error = Herd::read_log(Endless::new(opening, then, &mut given)).unwrap_err();
        assert!(matches!(error, Error::LogTooLong), "{error:?}");
        assert_eq!(error.number(), None);
        faults::is_said(&error);
        let longest = 4 * (MOST + 2);
        assert!(
            given > longest && given <= longest + 4 * PIECE as u64,
            "{given}"
        );
    }
    for first in [0, contact, words::end_word(0), opening | 1 << 26, u32::MAX] {
        let mut given = 0;
        let error = Herd::read_log(Endless::new(first, opening, &mut given)).unwrap_err();
        assert!(matches!(error, Error::NoOpeningWord), "{error:?}");
        assert!(given <= 4 * PIECE as u64, "{given}");
    }
}

#[test]
fn the_longest_log_is_read_and_one_contact_more_is_too_long() {
    let opening = Opening::new(2, 1, 1);
    let contact = Contact::new(0, 1, 1);
    let first = words::opening_word(opening);
    for (contacts, longest) in [(MOST, true), (MOST + 1, false)] {
        let mut given = 0;
        let endless = Endless::new(first, words::contact_word(contact), &mut given);
        let end = (words::END << 30)
            .wrapping_add(contacts as u32)
            .to_be_bytes();
        let read = Herd::read_log(endless.take(4 * (1 + contacts)).chain(&end[..]));
        match read {
            Ok(herd) => assert!(longest && herd == extended(opening, &[contact])),
            Err(error) => assert!(!longest && matches!(error, Error::LogTooLong), "{error:?}"),
        }
    }
}
