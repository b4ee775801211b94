//! The chain: long ones, buffers of every length, and walks that stick on tables that no adds built.

use herd_testing::calls::Known;
use herd_testing::cases;
use herd_testing::contents::Contents;
use herd_testing::random::Random;
use herd_testing::rule::Stored;
use herd_testing::suite::{draws, Call, Export, Lent, Reply, Suite};
use herd_testing::words::{self, Contact, Interval, Opening, Window};

/// The chain of a pair in a window, with words of no meaning in a buffer of this length.
fn chain(random: &mut Random, (u, v): (u32, u32), (first, last): (u32, u32), room: usize) -> Call {
    Call::Chain(u, v, first, last, random.words(room))
}

/// The contacts of the chain that is known of a table.
fn told(known: &Known, (u, v): (u32, u32), window: Window) -> Option<Vec<Contact>> {
    let contents = known.contents().expect("a well-formed table");
    contents.chain(u, v, window)
}

#[test]
fn chains_through_every_animal() {
    let mut random = Random::new(1007);
    let mut suite = Suite::default();
    for animals in (2..=20).chain([33, 64]) {
        for carry in [1, 3] {
            let opening = Opening::new(animals, (animals - 1) * carry, carry);
            let mut way: Vec<u32> = (0..animals).collect();
            random.shuffle(&mut way);
            let path: Vec<Contact> = (0..animals - 1)
                .map(|i| Contact::new(way[i as usize], way[i as usize + 1], 1 + i * carry))
                .collect();
            let lent = Lent::fresh(opening, path.iter().copied().collect());
            let pair = (way[0], way[animals as usize - 1]);
            let window = (1, opening.ticks);
            let whole = Window::whole(opening);
            assert_eq!(told(&lent.known, pair, whole), Some(path.clone()));
            let right = path.len();
            for room in [right, right + 1, right + 7] {
                let call = chain(&mut random, pair, window, room);
                suite.require(&lent, &call, Reply::Chain(right as u32));
            }
            let call = chain(&mut random, pair, window, right - 1);
            suite.require(&lent, &call, Reply::Refused(10));
        }
    }
}

#[test]
fn a_chain_of_255_contacts() {
    let mut random = Random::new(1008);
    let mut suite = Suite::default();
    let opening = Opening::new(256, 255, 1);
    let path: Vec<Contact> = (0..255)
        .map(|i| Contact::new(255 - i, 254 - i, 1 + i))
        .collect();
    let lent = Lent::fresh(opening, path.iter().copied().collect());
    let found = told(&lent.known, (255, 0), Window::new(1, 255));
    assert_eq!(found, Some(path.clone()));
    for (room, reply) in [(254, Reply::Refused(10)), (257, Reply::Chain(255))] {
        let call = chain(&mut random, (255, 0), (1, 255), room);
        suite.require(&lent, &call, reply);
    }
    let claimed = Call::Claimed(255, 0, 1, 255, words::contact_words(&path));
    suite.require(&lent, &claimed, Reply::Yes);
}

#[test]
fn every_length_of_buffers() {
    let mut random = Random::new(1010);
    let mut suite = Suite::default();
    for animals in (1..=12).chain([40, 256]) {
        let opening = Opening::new(animals, 2, 1);
        let far = animals - 1;
        let contacts = (animals > 1).then(|| Contact::new(0, far, 2));
        let lent = Lent::fresh(opening, contacts.into_iter().collect());
        for room in 0..animals as usize + 4 {
            if animals == 256 && room % 32 != 0 && room < 252 {
                continue;
            }
            let refused = |number| Reply::Refused(if animals == 1 { 8 } else { number });
            let (there, back) = match room + 1 < animals as usize || animals == 1 {
                true => (refused(10), refused(10)),
                false => (Reply::Chain(1), Reply::NoJourney),
            };
            for (pair, window, reply) in [
                ((0, far), (1, 2), there),
                ((far, 0), (1, 2), back),
                ((0, far), (1, 3), refused(9)),
                ((0, far), (3, 1), refused(9)),
                ((0, far), (2, 1), refused(19)),
            ] {
                let call = chain(&mut random, pair, window, room);
                suite.require(&lent, &call, reply);
            }
        }
    }
}

#[test]
fn chains_that_stick() {
    let mut random = Random::new(1012);
    let mut suite = Suite::default();
    let opening = Opening::new(5, 8, 1);
    let rows = [
        ((0, 4), (1, 9)),
        ((0, 1), (1, 2)),
        ((0, 2), (1, 2)),
        ((2, 4), (3, 9)),
        ((2, 0), (3, 4)),
        ((2, 3), (3, 4)),
        ((3, 4), (5, 9)),
        ((3, 2), (5, 6)),
        ((3, 0), (5, 6)),
        ((3, 1), (5, 6)),
        ((1, 4), (8, 9)),
    ];
    let way = words::contacts([(0, 2, 1), (2, 3, 3), (3, 1, 5), (1, 4, 8)]).to_vec();
    let whole = Window::whole(opening);
    let mut stuck = [0; 8];
    let mut chains = 0;
    for left_out in 0..1u32 << rows.len() {
        let mut cells = vec![Vec::new(); opening.pairs()];
        for (i, ((u, v), (departure, arrival))) in rows.into_iter().enumerate() {
            if left_out >> i & 1 == 0 {
                cells[opening.pair(u, v)].push(Interval::new(departure, arrival));
            }
        }
        let lent = Lent::stored(opening, &cells);
        let room = 4 + random.below(3);
        let call = chain(&mut random, (0, 4), (1, 8), room);
        suite.compare(&lent, &call);
        chains += u32::from(told(&lent.known, (0, 4), whole).as_ref() == Some(&way));
        note_stuck(&Stored::new(opening, cells), (0, 4), whole, &mut stuck);
    }
    assert!(stuck[..3].iter().all(|&n| n > 20), "{stuck:?}");
    assert!(chains > 0, "{chains}");
}

/// Counts the walk by its contacts where it begins and does not end.
fn note_stuck(stored: &Stored, (u, v): (u32, u32), window: Window, stuck: &mut [u32; 8]) {
    let (walked, ends) = stored.walk(u, v, window);
    // No walk meets an animal twice, since an animal's cell to the goal has one row with the arrival kept.
    assert!(walked.len() < stored.opening().animals as usize);
    stuck[walked.len().min(7)] += u32::from(stored.reaches(u, v, window) && !ends);
}

#[test]
fn arrivals_that_differ_stop_a_chain() {
    let mut random = Random::new(1013);
    let mut suite = Suite::default();
    let opening = Opening::new(3, 10, 1);
    for kept in 4..=11 {
        for departure in 1..=10 {
            for arrival in departure + 1..=11 {
                let mut cells = vec![Vec::new(); opening.pairs()];
                cells[opening.pair(0, 2)].push(Interval::new(2, kept));
                cells[opening.pair(0, 1)].push(Interval::new(2, 3));
                cells[opening.pair(1, 2)].push(Interval::new(departure, arrival));
                let goes = arrival == kept && departure >= 3 && departure + 1 == arrival;
                let reply = if goes {
                    Reply::Chain(2)
                } else {
                    Reply::NoJourney
                };
                let call = chain(&mut random, (0, 2), (1, 10), 3);
                suite.require(&Lent::stored(opening, &cells), &call, reply);
            }
        }
    }
}

#[test]
fn planted_chains_among_more_animals() {
    let mut random = Random::new(1015);
    let mut suite = Suite::default();
    let mut stuck = [0; 8];
    for _ in 0..4_000 {
        let animals = random.between(6, 16);
        let carry = random.between(1, 2);
        let opening = Opening::new(animals, random.between(8, 30), carry);
        let (cells, goal) = cases::planted_cells(&mut random, opening);
        let (lent, stored) = (Lent::stored(opening, &cells), Stored::new(opening, cells));
        for _ in 0..30 {
            let (u, mut v) = cases::pair(&mut random, opening);
            if u != goal && !random.once_in(4) {
                v = goal;
            }
            let last = opening.ticks - random.between(0, 2);
            let first = random.between(1, 3);
            let buffer = draws::buffer(&mut random, animals as usize - 1);
            let call = Call::Chain(u, v, first, last, buffer);
            suite.compare(&lent, &call);
            note_stuck(&stored, (u, v), Window::new(first, last), &mut stuck);
        }
    }
    suite.at_least(100, &[Export::Chain], &[10]);
    for contacts in 1..=4 {
        let chains = suite.times(Export::Chain, |reply| reply == Reply::Chain(contacts));
        assert!(chains > 100, "{contacts} {chains}");
    }
    assert!(stuck[..4].iter().all(|&n| n > 100), "{stuck:?}");
}
