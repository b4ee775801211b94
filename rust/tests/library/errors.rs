//! The errors of openings and questions with edge and drawn numbers, compared with the refusals of the calls on lent words.

use crate::faults;
use crate::met::Met;
use crate::{extended, opened};
use herd::calls::{self, Added, Opened};
use herd::{Contact, Error, Herd};
use herd_testing::cases;
use herd_testing::random::Random;
use herd_testing::suite::Reply;
use herd_testing::words::{Opening, SET_WORDS};
use std::fmt::Debug;

/// A herd, and the words of the same table, made by calls on lent words.
pub struct Both {
    pub opening: Opening,
    pub herd: Herd,
    pub table: Vec<u32>,
}

impl Both {
    /// The herd and the table with these numbers and contacts.
    pub fn new(opening: Opening, contacts: &[Contact]) -> Both {
        let mut table = vec![0; opening.table_words()];
        let (animals, ticks, carry) = (opening.animals, opening.ticks, opening.carry);
        assert_eq!(
            calls::open(&mut table, animals, ticks, carry),
            Opened::Opened
        );
        for &Contact { from, to, tick } in contacts {
            let added = calls::add(&mut table, from, to, tick);
            assert!(!matches!(added, Added::Refused(_)), "{opening:?} {added:?}");
        }
        Both {
            opening,
            herd: extended(opening, contacts),
            table,
        }
    }

    /// Asks every question with these numbers, and compares the errors.
    fn compare_questions(&self, [u, v, first, last]: [u32; 4], met: &mut Met) {
        self.compare_pair((u, v), (first, last), met);
        self.compare_animal(u, (first, last), met);
        self.compare_ticks((u, v), (first, last), met);
    }

    /// Asks the questions about a pair in a window, and whether all animals are connected in it.
    fn compare_pair(&self, (u, v): (u32, u32), (first, last): (u32, u32), met: &mut Met) {
        let (opening, herd, table) = (self.opening, &self.herd, &self.table);
        let case = (opening, u, v, first, last);
        let window = || first..=last;
        let in_window = || faults::of_window(opening, first, last);
        let fault = || faults::of_animals(opening, &[u, v]).or_else(in_window);
        let raw = calls::reach(table, u, v, first, last);
        let found = herd.reach(u, v, window()).err();
        same(met, "reach", found, raw.into(), fault(), case);
        let mut buffer = vec![0; opening.animals as usize - 1];
        let raw = calls::chain(table, u, v, first, last, &mut buffer);
        let found = herd.chain(u, v, window()).err();
        same(met, "chain", found, raw.into(), fault(), case);
        let raw = calls::claimed(table, u, v, first, last, &[]);
        let found = herd.claimed(u, v, window(), [] as [Contact; 0]).err();
        same(met, "claimed", found, raw.into(), fault(), case);
        let raw = calls::connected(table, first, last);
        let found = herd.connected(window()).err();
        same(met, "connected", found, raw.into(), in_window(), case);
    }

    /// Asks the questions about one animal in a window.
    fn compare_animal(&self, animal: u32, (first, last): (u32, u32), met: &mut Met) {
        let (opening, herd) = (self.opening, &self.herd);
        let case = (opening, animal, first, last);
        let window = || first..=last;
        let in_window = || faults::of_window(opening, first, last);
        let fault = || faults::of_animals(opening, &[animal]).or_else(in_window);
        let mut set = [0; SET_WORDS];
        let raw = calls::reached(&self.table, animal, first, last, &mut set).into();
        let found = herd.reached(animal, window()).err();
        same(met, "reached", found, raw, fault(), case);
        let found = herd.trace(animal, window()).err();
        same(met, "trace", found, raw, fault(), case);
        let found = herd.trace_back(animal, window()).err();
        same(met, "trace back", found, raw, fault(), case);
    }

    /// Asks the questions about a pair at a tick, and for its intervals.
    fn compare_ticks(&self, (u, v): (u32, u32), (first, last): (u32, u32), met: &mut Met) {
        let (opening, herd, table) = (self.opening, &self.herd, &self.table);
        let case = (opening, u, v, first, last);
        let of_pair = || faults::of_animals(opening, &[u, v]);
        let at_tick = |tick| faults::of_tick(tick, opening.last_arrival());
        let raw = calls::earliest(table, u, v, first);
        let fault = of_pair().or_else(|| at_tick(first));
        let found = herd.earliest(u, v, first).err();
        same(met, "earliest", found, raw.into(), fault, case);
        let raw = calls::latest(table, u, v, last);
        let fault = of_pair().or_else(|| at_tick(last));
        let found = herd.latest(u, v, last).err();
        same(met, "latest", found, raw.into(), fault, case);
        let raw = calls::reach(table, u, v, 1, 1);
        let found = herd.intervals(u, v).err();
        same(met, "intervals", found, raw.into(), of_pair(), case);
    }
}

/// Fails unless the call was refused for what is wrong, if anything, with the number that the call on lent words gave.
#[track_caller]
pub fn same(
    met: &mut Met,
    call: &'static str,
    found: Option<Error>,
    raw: Reply,
    fault: Option<Error>,
    case: impl Debug,
) {
    let number = match raw {
        Reply::Refused(number) => Some(number),
        _ => None,
    };
    let case = (call, case, raw);
    assert_eq!(fault.as_ref().and_then(Error::number), number, "{case:?}");
    match (found, fault) {
        (None, None) => met.answer(call, "no error"),
        (Some(found), Some(fault)) => {
            faults::same(&found, &fault, case);
            met.refusal(call, number.expect("a number"));
        }
        (found, fault) => panic!("{case:?}: {found:?} and not {fault:?}"),
    }
}

/// Numbers at the edges of animals, ticks and words.
pub fn edges(opening: Opening) -> Vec<u32> {
    let Opening { animals, ticks, .. } = opening;
    let mut edges = vec![
        0,
        1,
        2,
        65_535,
        65_536,
        65_537,
        1 << 31,
        u32::MAX - 1,
        u32::MAX,
    ];
    for end in [animals, ticks, opening.last_arrival(), 256, 1024, 1280] {
        edges.extend([end - 1, end, end + 1, end + 2]);
    }
    edges.sort_unstable();
    edges.dedup();
    edges
}

/// Openings at their limits and between, with small tables.
pub const OPENINGS: [(u32, u32, u32); 9] = [
    (1, 1, 1),
    (1, 1024, 256),
    (2, 1, 256),
    (2, 1024, 1),
    (3, 5, 2),
    (4, 6, 1),
    (7, 30, 31),
    (60, 3, 1),
    (256, 1, 9),
];

/// So many legal contacts, or none where there is one animal.
fn some_contacts(random: &mut Random, opening: Opening, number: usize) -> Vec<Contact> {
    let number = if opening.animals > 1 { number } else { 0 };
    let contacts = (0..number).map(|_| cases::contact(random, opening));
    contacts.collect()
}

/// Two animals and a window, now and then turned round, with edge numbers among them.
fn numbers(random: &mut Random, opening: Opening, edges: &[u32]) -> [u32; 4] {
    let Opening { animals, ticks, .. } = opening;
    let (one, other) = (random.between(1, ticks), random.between(1, ticks));
    let (u, v) = (
        random.between(0, animals - 1),
        random.between(0, animals - 1),
    );
    let mut numbers = [u, v, one.min(other), one.max(other)];
    if random.once_in(6) {
        numbers.swap(2, 3);
    }
    for number in &mut numbers {
        if random.once_in(4) {
            *number = random.one_of(edges);
        }
    }
    numbers
}

#[test]
fn questions_with_numbers_at_the_edges() {
    let mut random = Random::new(2_601);
    let mut met = Met::default();
    for (animals, ticks, carry) in OPENINGS {
        let opening = Opening::new(animals, ticks, carry);
        let contacts = some_contacts(&mut random, opening, 30);
        let both = Both::new(opening, &contacts);
        let edges = edges(opening);
        for _ in 0..if animals > 10 { 60 } else { 2_000 } {
            let numbers = numbers(&mut random, opening, &edges);
            both.compare_questions(numbers, &mut met);
        }
    }
    for call in ["reach", "chain", "claimed"] {
        met.refusals(100, call, &[7, 8, 9, 19]);
        met.answers(1_000, call, &["no error"]);
    }
    for call in ["reached", "trace", "trace back"] {
        met.refusals(100, call, &[7, 9, 19]);
        met.answers(1_000, call, &["no error"]);
    }
    for call in ["earliest", "latest"] {
        met.refusals(100, call, &[7, 8, 9]);
        met.answers(1_000, call, &["no error"]);
    }
    met.refusals(100, "connected", &[9, 19]);
    met.refusals(100, "intervals", &[7, 8]);
    met.answers(1_000, "intervals", &["no error"]);
}

#[test]
fn one_number_after_another_at_every_edge() {
    let mut met = Met::default();
    for (animals, ticks, carry) in [(4, 6, 1), (2, 1024, 256), (1, 3, 2)] {
        let opening = Opening::new(animals, ticks, carry);
        let contact = Contact::new(0, 1, 2);
        let contacts = if animals > 1 {
            vec![contact]
        } else {
            Vec::new()
        };
        let both = Both::new(opening, &contacts);
        for edge in edges(opening) {
            for place in 0..4 {
                let mut numbers = [0, 1, 1, ticks];
                numbers[place] = edge;
                both.compare_questions(numbers, &mut met);
            }
            both.compare_questions([edge, edge, 1, 1], &mut met);
            both.compare_questions([0, 1, edge, edge], &mut met);
            both.compare_questions([0, 1, edge, 1], &mut met);
        }
    }
    met.refusals(50, "reach", &[7, 9]);
    met.refusals(3, "reach", &[8, 19]);
    met.answers(20, "reach", &["no error"]);
}

/// Numbers at the limits of animals, ticks and carry time, and far beyond.
const LIMITS: [u32; 16] = [
    0,
    1,
    2,
    3,
    255,
    256,
    257,
    258,
    1023,
    1024,
    1025,
    1026,
    65_536,
    65_537,
    1 << 31,
    u32::MAX,
];

/// Opens a herd with these numbers, which are within the limits, and compares; unless it would be large.
fn compare_opened(opening: Opening, met: &mut Met) {
    if opening.table_words() < 600_000 {
        let herd = opened(opening);
        let numbers = Opening::new(herd.animals(), herd.ticks(), herd.carry());
        assert_eq!(numbers, opening);
        assert_eq!((herd.held(), herd.contacts().unwrap()), (0, Vec::new()));
        met.answer("open", "no error");
    }
}

#[test]
fn openings_beyond_the_limits() {
    let mut met = Met::default();
    let two = LIMITS
        .iter()
        .flat_map(|&one| LIMITS.map(|other| (one, other)));
    for (animals, ticks, carry) in two.flat_map(|(n, t)| LIMITS.map(|c| (n, t, c))) {
        let raw = calls::open(&mut [], animals, ticks, carry);
        let fault = match raw {
            Opened::Refused(1) => Error::Animals(animals),
            Opened::Refused(2) => Error::Ticks(ticks),
            Opened::Refused(3) => Error::Carry(carry),
            _ => {
                assert_eq!(raw, Opened::Refused(4), "{animals} {ticks} {carry}");
                compare_opened(Opening::new(animals, ticks, carry), &mut met);
                continue;
            }
        };
        let found = Herd::open(animals, ticks, carry).err();
        let case = (animals, ticks, carry);
        same(&mut met, "open", found, raw.into(), Some(fault), case);
    }
    met.answers(100, "open", &["no error"]);
    met.refusals(300, "open", &[1, 2, 3]);
}
