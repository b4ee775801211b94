//! Writers that take few bytes at a time, are interrupted, or fail.

use crate::readers::KINDS;
use crate::{bytes, extended, faults};
use herd::{Contact, Herd};
use herd_testing::cases;
use herd_testing::random::Random;
use herd_testing::words::{self, Opening};
use std::io::{self, ErrorKind, Write};

/// Takes few bytes at a time, is interrupted now and then, takes no more than it has room for, and counts its flushes.
struct Sink {
    taken: Vec<u8>,
    at_a_time: usize,
    interrupted: usize,
    room: usize,
    full: Option<ErrorKind>,
    flush: Option<ErrorKind>,
    flushed: Vec<usize>,
    calls: usize,
}

impl Sink {
    /// Takes all bytes, so many at a time.
    fn new(at_a_time: usize) -> Sink {
        Sink {
            taken: Vec::new(),
            at_a_time,
            interrupted: usize::MAX,
            room: usize::MAX,
            full: None,
            flush: None,
            flushed: Vec::new(),
            calls: 0,
        }
    }
}

impl Write for Sink {
    fn write(&mut self, bytes: &[u8]) -> io::Result<usize> {
        self.calls += 1;
        if self.calls.is_multiple_of(self.interrupted) {
            return Err(ErrorKind::Interrupted.into());
        }
        let room = self.room - self.taken.len();
        if let Some(kind) = self.full.filter(|_| room == 0) {
            return Err(kind.into());
        }
        let taken = self.at_a_time.min(room).min(bytes.len());
        self.taken.extend(&bytes[..taken]);
        Ok(taken)
    }

    fn flush(&mut self) -> io::Result<()> {
        self.flushed.push(self.taken.len());
        self.flush.map_or(Ok(()), |kind| Err(kind.into()))
    }
}

/// Herds without a contact, with a few, and with a log of several pieces; and their logs.
fn written() -> Vec<(Herd, Vec<u8>)> {
    let (empty, few, many) = (
        Opening::new(1, 1, 1),
        Opening::new(4, 6, 1),
        Opening::new(18, 60, 2),
    );
    let lists = [
        (empty, Vec::new()),
        (
            few,
            words::contacts([(0, 1, 1), (0, 1, 2), (1, 3, 4)]).to_vec(),
        ),
        (many, cases::legal_contacts(many)),
    ];
    let both = |(opening, list): (Opening, Vec<Contact>)| {
        let log = bytes(&words::log(opening, list.iter().copied()));
        (extended(opening, &list), log)
    };
    lists.into_iter().map(both).collect()
}

#[test]
fn writers_that_take_few_bytes_or_are_interrupted() {
    for (herd, log) in written() {
        for at_a_time in [1, 2, 3, 5, 1000, usize::MAX] {
            for interrupted in [2, 7, usize::MAX] {
                let mut sink = Sink::new(at_a_time);
                sink.interrupted = interrupted;
                herd.write_log(&mut sink).unwrap();
                assert!(sink.taken == log, "{at_a_time} {interrupted}");
                assert_eq!(sink.flushed, [log.len()]);
            }
        }
    }
}

#[test]
fn writers_that_fail() {
    let mut random = Random::new(2_904);
    let mut failed = 0;
    for (herd, log) in written() {
        let rooms = (0..log.len()).filter(|room| log.len() < 100 || room % 7_919 == 0);
        for room in rooms {
            for full in KINDS.into_iter().map(Some).chain([None]) {
                let mut sink = Sink::new(random.one_of(&[1, 3, 100_000]));
                (sink.room, sink.full) = (room, full);
                let error = herd.write_log(&mut sink).unwrap_err();
                let kind = full.unwrap_or(ErrorKind::WriteZero);
                faults::is_io(&error, kind);
                assert!(sink.taken == log[..room], "{room}");
                failed += 1;
            }
        }
        for kind in KINDS {
            let mut sink = Sink::new(1000);
            sink.flush = Some(kind);
            let error = herd.write_log(&mut sink).unwrap_err();
            faults::is_io(&error, kind);
            assert!(sink.taken == log);
            failed += 1;
        }
    }
    assert!(failed > 200, "{failed}");
}
