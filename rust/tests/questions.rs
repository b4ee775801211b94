//! Questions whose answers can be said by a formula.

use herd::calls::Found;
use herd_testing::cases;
use herd_testing::random::Random;
use herd_testing::suite::{Call, Export, Lent, Reply, Suite};
use herd_testing::words::{self, Contact, Interval, Opening};

/// Yes where it is so, else no.
fn answered(so: bool) -> Reply {
    if so {
        Reply::Yes
    } else {
        Reply::No
    }
}

#[test]
fn windows_and_ticks_at_the_edges_of_full_tables_and_of_every_second_and_third_contact() {
    let mut suite = Suite::default();
    let numbers = [(1, 1), (1, 256), (5, 1), (6, 9), (12, 3), (300, 256)];
    for ((ticks, carry), step) in numbers.into_iter().flat_map(|n| [1, 2, 3].map(|s| (n, s))) {
        let opening = Opening::new(2, ticks, carry);
        let end = opening.last_arrival();
        let mut cells = cases::full_cells(opening);
        for cell in &mut cells {
            cell.retain(|interval| interval.departure % step == 0);
        }
        let lent = Lent::stored(opening, &cells);
        let (u, v) = (1, 0);
        let has = |first, last| answered(last / step * step >= first);
        let mut ask = |first, last, reply: Reply| {
            suite.require(&lent, &Call::Reach(u, v, first, last), reply);
            suite.require(&lent, &Call::Connected(first, last), reply);
            let animals = match reply {
                Reply::Yes => Reply::Animals(1),
                Reply::No => Reply::Animals(0),
                refused => refused,
            };
            let set = vec![5; 8];
            let call = Call::Reached(u, first, last, set);
            suite.require(&lent, &call, animals);
        };
        for tick in 1..=ticks {
            for (first, last) in [
                (tick, tick),
                (tick, (tick + 1).min(ticks)),
                (tick, ticks),
                (1, tick),
            ] {
                ask(first, last, has(first, last));
            }
            ask(0, tick, Reply::Refused(9));
            ask(tick, 0, Reply::Refused(9));
        }
        for tick in 1..ticks {
            ask(tick + 1, tick, Reply::Refused(19));
            ask(ticks, tick, Reply::Refused(19));
        }
        for tick in ticks + 1..=end + 1 {
            ask(1, tick, Reply::Refused(9));
            ask(ticks, tick, Reply::Refused(9));
            ask(tick, tick, Reply::Refused(9));
            ask(tick, end, Reply::Refused(9));
            ask(tick, 1, Reply::Refused(9));
            ask(tick, ticks, Reply::Refused(9));
        }
        for tick in 1..=end {
            let leaving = |departure| Interval::new(departure, departure + carry);
            let next = tick.next_multiple_of(step);
            let before = tick.saturating_sub(carry) / step * step;
            let earliest = (next <= ticks).then(|| leaving(next));
            let latest = (before >= 1).then(|| leaving(before));
            suite.require_at_tick(&lent, (u, v), tick, earliest, latest);
        }
        for tick in [0, end + 1, end + 2, u32::MAX] {
            let refused = Reply::Refused(9);
            suite.require(&lent, &Call::Earliest(u, v, tick), refused);
            suite.require(&lent, &Call::Latest(u, v, tick), refused);
        }
    }
}

#[test]
fn earliest_and_latest_go_by_the_row_next_to_the_tick() {
    let mut suite = Suite::default();
    let small = Opening::new(3, 40, 2);
    let several = [(3, 6), (4, 9), (10, 12), (11, 20), (25, 30), (40, 42)];
    let mut few = vec![Vec::new(); small.pairs()];
    few[small.pair(0, 1)] = several.map(|(d, a)| Interval::new(d, a)).to_vec();
    few[small.pair(1, 0)] = vec![Interval::new(7, 30)];
    few[small.pair(1, 2)] = vec![Interval::new(1, 3), Interval::new(40, 42)];
    let large = Opening::new(2, 1024, 256);
    let mut many = cases::full_cells(large);
    let every_other = (1..=1024).step_by(2).map(|d| Interval::new(d, d + 257));
    many[large.pair(1, 0)] = every_other.collect();
    for (opening, cells) in [(small, few), (large, many)] {
        let lent = Lent::stored(opening, &cells);
        for u in 0..opening.animals {
            for v in (0..opening.animals).filter(|&v| v != u) {
                suite.require_rows(&lent, (u, v), &cells[opening.pair(u, v)]);
            }
        }
    }
    suite.at_least(100, &[Export::Earliest, Export::Latest], &[]);
}

#[test]
fn both_ends_at_their_limits() {
    let mut random = Random::new(1_104);
    let first = Found::At(Interval::new(1, 257));
    let last = Found::At(Interval::new(1024, 1280));
    for animals in [2, 3] {
        let opening = Opening::new(animals, 1024, 256);
        let listed = words::contacts([(0, 1, 1), (0, 1, 1024)]);
        let table = Lent::built(&mut random, opening, &listed).words;
        for (tick, earliest, latest) in [
            (1, first, Found::Nothing),
            (2, last, Found::Nothing),
            (256, last, Found::Nothing),
            (257, last, first),
            (1024, last, first),
            (1025, Found::Nothing, first),
            (1279, Found::Nothing, first),
            (1280, Found::Nothing, last),
            (1281, Found::Refused(9), Found::Refused(9)),
        ] {
            assert_eq!(
                herd::calls::earliest(&table, 0, 1, tick),
                earliest,
                "{tick}"
            );
            assert_eq!(herd::calls::latest(&table, 0, 1, tick), latest, "{tick}");
        }
    }
}

#[test]
fn earliest_and_latest_go_round_a_ring() {
    let mut random = Random::new(1_105);
    let mut suite = Suite::default();
    for (animals, step, carry) in [(2, 1, 1), (3, 3, 1), (4, 2, 2), (5, 3, 2), (6, 4, 3)] {
        let opening = Opening::new(animals, 2 * animals * step + 1, carry);
        let ring: Vec<Contact> = cases::legal_contacts(opening)
            .into_iter()
            .filter(|c| c.to == (c.from + 1) % animals && c.tick % step == 0)
            .collect();
        let lent = Lent::built(&mut random, opening, &ring);
        let end = opening.last_arrival();
        for (u, contacts) in (0..animals).flat_map(|u| (1..animals).map(move |c| (u, c))) {
            let pair = (u, (u + contacts) % animals);
            let lasts = step * (contacts - 1) + carry;
            let leaving = |departure| Interval::new(departure, departure + lasts);
            for tick in 1..=end {
                let earliest = leaving(tick.next_multiple_of(step));
                let earliest = Some(earliest).filter(|i| i.arrival <= end);
                let latest = leaving(tick.saturating_sub(lasts) / step * step);
                let latest = Some(latest).filter(|i| i.departure >= step);
                suite.require_at_tick(&lent, pair, tick, earliest, latest);
            }
        }
    }
    suite.at_least(100, &[Export::Earliest, Export::Latest], &[]);
}

#[test]
fn connected_misses_no_pair() {
    let mut random = Random::new(1_101);
    let mut suite = Suite::default();
    for (animals, carry) in [(2, 1), (3, 256), (8, 2), (33, 1)] {
        let opening = Opening::new(animals, 1, carry);
        let full = cases::full_cells(opening);
        let window = Call::Connected(1, opening.ticks);
        suite.require(&Lent::stored(opening, &full), &window, Reply::Yes);
        for pair in 0..opening.pairs() {
            let is_one = pair % (animals as usize + 1) == 0;
            if !is_one && (animals < 10 || random.once_in(8)) {
                let mut cells = full.clone();
                cells[pair].clear();
                let lent = Lent::stored(opening, &cells);
                suite.require(&lent, &window, Reply::No);
            }
        }
    }
}

#[test]
fn a_ring_is_connected_in_time() {
    let mut suite = Suite::default();
    for animals in [2, 3, 5, 8, 33] {
        let ticks = 2 * animals;
        let opening = Opening::new(animals, ticks, 1);
        let ring = (1..=ticks)
            .flat_map(|t| (0..animals).map(move |u| Contact::new(u, (u + 1) % animals, t)))
            .collect();
        let lent = Lent::fresh(opening, ring);
        for length in [1, (animals - 2).max(1), animals - 1, animals, ticks - 1] {
            let (first, last) = (2, 1 + length);
            let reply = answered(length + 1 >= animals);
            suite.require(&lent, &Call::Connected(first, last), reply);
        }
    }
}

#[test]
fn sets_of_many_animals() {
    let mut random = Random::new(1_102);
    let mut suite = Suite::default();
    for animals in [1, 2, 8, 31, 32, 33, 63, 64, 65, 128, 255, 256] {
        let opening = Opening::new(animals, 1, 2);
        for round in 0..4 {
            let u = random.between(0, animals - 1);
            let others = (0..animals).filter(|&v| v != u);
            let met: Vec<u32> = match round {
                0 => others.collect(),
                1 => others.filter(|v| [0, 31, 32, 255].contains(v)).collect(),
                _ => others.filter(|_| random.once_in(2)).collect(),
            };
            let contacts = met.iter().map(|&v| Contact::new(u, v, 1)).collect();
            let lent = Lent::fresh(opening, contacts);
            for room in 0..=9 {
                let set = random.words(room);
                let mut after = set.clone();
                for (j, word) in after.iter_mut().enumerate().take(8) {
                    let is_in = |b: &u32| met.contains(&(32 * j as u32 + b));
                    *word = (0..32).filter(is_in).map(|b| 1 << b).sum();
                }
                let (first, last) = (1, 1);
                let mut lent_set = set.clone();
                let reached = herd::calls::reached(&lent.words, u, first, last, &mut lent_set);
                assert_eq!(reached, herd::calls::Reached::Animals(met.len() as u32));
                assert_eq!(lent_set, after, "{opening:?} {u} {room}");
                let call = Call::Reached(u, first, last, set);
                suite.require(&lent, &call, Reply::Animals(met.len() as u32));
            }
        }
    }
}

#[test]
fn stored_intervals_stand_for_the_journeys() {
    let mut random = Random::new(1_103);
    let mut suite = Suite::default();
    let opening = Opening::new(3, 8, 1);
    let mut cells = vec![Vec::new(); opening.pairs()];
    cells[opening.pair(0, 2)].push(Interval::new(2, 7));
    cells[opening.pair(0, 1)].push(Interval::new(2, 3));
    cells[opening.pair(1, 2)].push(Interval::new(4, 5));
    let lent = Lent::stored(opening, &cells);
    let (u, v, first, last) = (0, 2, 1, 8);
    suite.require(&lent, &Call::Reach(u, v, first, last), Reply::Yes);
    let stored = Reply::At(Interval::new(2, 7));
    suite.require(&lent, &Call::Earliest(u, v, first), stored);
    suite.require(&lent, &Call::Latest(u, v, 7), stored);
    suite.require(&lent, &Call::Latest(u, v, 6), Reply::Nothing);
    let buffer = random.words(2);
    let call = Call::Chain(u, v, first, last, buffer);
    suite.require(&lent, &call, Reply::NoJourney);
    let way = [Contact::new(0, 1, 2), Contact::new(1, 2, 4)];
    let chain = words::contact_words(&way);
    let call = Call::Claimed(u, v, first, last, chain);
    suite.require(&lent, &call, Reply::Yes);
}
