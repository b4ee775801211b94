//! Every call on good tables, against the plain search where adds built them and against document 01's text where not.

use herd_testing::cases;
use herd_testing::model::{self, Contacts};
use herd_testing::random::Random;
use herd_testing::suite::{draws, Call, Export, Lent, Reply, Suite};
use herd_testing::words::{self, Cells, Opening, Stay};

/// The refusals on a good table.
const ON_GOOD_TABLES: [u32; 10] = [7, 8, 9, 10, 15, 17, 18, 19, 20, 21];

/// The refusals of opening and of reading a log.
const ANEW: [u32; 8] = [1, 2, 3, 4, 11, 12, 13, 14];

/// The calls that ask for a pair, with a window or a tick.
const ON_PAIRS: [Export; 5] = [
    Export::Reach,
    Export::Earliest,
    Export::Latest,
    Export::Chain,
    Export::Claimed,
];

/// The calls that change the table, and those that write a log or a set.
const THAT_WRITE: [Export; 6] = [
    Export::Add,
    Export::Join,
    Export::Stays,
    Export::Remove,
    Export::WriteLog,
    Export::Reached,
];

/// The cells of the fresh table over the contacts that a table holds.
fn closure(lent: &Lent) -> Cells {
    let held: Contacts = lent.held.iter().copied().collect();
    model::minimal_intervals(lent.opening, &held)
}

/// Fails unless chains of one to so many contacts were told so often.
#[track_caller]
fn chains_up_to(suite: &Suite, longest: u32, times: u32) {
    for contacts in 1..=longest {
        let met = suite.times(Export::Chain, |reply| reply == Reply::Chain(contacts));
        assert!(met >= times, "chains of {contacts} contacts: {met}");
    }
}

/// Makes calls whose windows and ticks lie about the table's intervals, which depart at d, arrive at a and have their last
/// contact at l, and compares: reach, earliest and latest for each interval where there are two animals and for about 400 in
/// other tables that are not large, every call for about so many.
fn compare_about(
    suite: &mut Suite,
    random: &mut Random,
    lent: &Lent,
    cells: &Cells,
    intervals: usize,
) {
    let large = lent.words.len() > 10_000;
    let (n, ticks, end) = (
        lent.opening.animals,
        lent.opening.ticks,
        lent.opening.last_arrival(),
    );
    let rows: usize = cells.iter().map(Vec::len).sum();
    for (pair, cell) in cells.iter().enumerate() {
        let (u, v) = (pair as u32 / n, pair as u32 % n);
        for interval in cell {
            let all = random.below(rows) < intervals;
            let some = n == 2 || !large && random.below(rows) < 400;
            if !all && !some {
                continue;
            }
            let (d, a) = (interval.departure, interval.arrival);
            let l = a - lent.opening.carry;
            for (first, last) in [
                (d, l),
                (d + 1, l),
                (d, l - 1),
                (d - 1, l),
                (d, l + 1),
                (d, ticks),
                (d + 1, ticks),
                (1, l),
                (1, l - 1),
                (l, ticks),
                (1, ticks),
                (d, a),
                (d, end),
            ] {
                suite.compare(lent, &Call::Reach(u, v, first, last));
                if all {
                    suite.compare_pair(random, lent, (u, v), (first, last));
                    let set = draws::set(random);
                    suite.compare(lent, &Call::Reached(u, first, last, set));
                }
            }
            for tick in [d - 1, d, d + 1, a - 1, a, a + 1] {
                suite.compare(lent, &Call::Earliest(u, v, tick));
                suite.compare(lent, &Call::Latest(u, v, tick));
            }
        }
    }
}

#[test]
fn drawn_calls_on_tables_that_adds_built() {
    let mut random = Random::new(101);
    let mut suite = Suite::default();
    let (mut slow, mut joined) = (0, 0);
    for _ in 0..2_500 {
        let lent = draws::built(&mut random);
        suite.compare_drawn(&mut random, &lent, &Export::ALL, 12);
        slow += u32::from(lent.opening.carry > lent.opening.ticks);
        joined += u32::from(cases::has_joined(lent.opening, &closure(&lent)));
    }
    suite.at_least(500, &Export::ALL, &ON_GOOD_TABLES);
    suite.at_least(500, &Export::ALL, &ANEW);
    assert!(slow > 100 && joined > 500, "{slow} {joined}");
}

#[test]
fn drawn_calls_on_tables_that_no_adds_built() {
    let mut random = Random::new(102);
    let mut suite = Suite::default();
    let mut differing = 0;
    for _ in 0..2_500 {
        let lent = draws::stored(&mut random);
        suite.compare_drawn(&mut random, &lent, &Export::ON_OPEN_TABLES, 12);
        suite.compare_drawn(&mut random, &lent, &[Export::Add], 48);
        differing += u32::from(words::table(lent.opening, &closure(&lent)) != lent.words);
    }
    suite.at_least(500, &Export::ON_OPEN_TABLES, &ON_GOOD_TABLES);
    assert!(differing > 1_500, "{differing}");
    let known = suite.times(Export::Add, |reply| matches!(reply, Reply::Known(1..)));
    let many = suite.times(Export::Add, |reply| matches!(reply, Reply::New(4..)));
    assert!(known > 1_000 && many > 1_000, "{known} {many}");
}

#[test]
fn every_call_on_tables_that_adds_built() {
    let mut random = Random::new(103);
    let mut suite = Suite::default();
    for _ in 0..800 {
        let lent = draws::built(&mut random);
        suite.compare_every(&mut random, &lent, 4);
    }
    suite.at_least(150, &Export::ON_OPEN_TABLES, &ON_GOOD_TABLES);
    suite.at_least(1_000, &ON_PAIRS, &ON_GOOD_TABLES);
    suite.at_least(1_000, &[Export::Connected, Export::Reached], &[7, 9, 19]);
    chains_up_to(&suite, 3, 1_000);
}

#[test]
fn every_call_on_tables_that_no_adds_built() {
    let mut random = Random::new(104);
    let mut suite = Suite::default();
    for _ in 0..800 {
        let lent = draws::stored(&mut random);
        suite.compare_every(&mut random, &lent, 4);
    }
    suite.at_least(150, &Export::ON_OPEN_TABLES, &ON_GOOD_TABLES);
    suite.at_least(1_000, &ON_PAIRS, &ON_GOOD_TABLES);
    suite.at_least(1_000, &[Export::Connected, Export::Reached], &[7, 9, 19]);
    chains_up_to(&suite, 3, 300);
}

#[test]
fn every_call_on_every_set_of_small_tables() {
    let mut random = Random::new(105);
    let mut suite = Suite::default();
    for (animals, ticks, carry) in [
        (1, 3, 2),
        (2, 3, 1),
        (2, 3, 4),
        (2, 4, 1),
        (2, 4, 2),
        (2, 4, 5),
        (3, 2, 1),
        (3, 2, 2),
        (3, 2, 3),
        (4, 1, 1),
    ] {
        let opening = Opening::new(animals, ticks, carry);
        let legal = cases::legal_contacts(opening);
        for bits in 0..1usize << legal.len() {
            let mut listed = cases::chosen(&legal, bits);
            random.shuffle(&mut listed);
            let lent = Lent::built(&mut random, opening, &listed);
            suite.compare_every(&mut random, &lent, 12);
        }
    }
    suite.at_least(1_000, &Export::ON_OPEN_TABLES, &ON_GOOD_TABLES);
    chains_up_to(&suite, 2, 1_000);
}

#[test]
fn one_animal_is_connected_and_reaches_none() {
    let mut random = Random::new(106);
    let mut suite = Suite::default();
    for ticks in 1..=12 {
        let opening = Opening::new(1, ticks, random.between(1, 20));
        let lent = Lent::built(&mut random, opening, &[]);
        suite.compare_every(&mut random, &lent, 1);
        suite.compare_drawn(&mut random, &lent, &Export::ALL, 200);
    }
    for (export, answer) in [
        (Export::Connected, Reply::Yes),
        (Export::Reached, Reply::Animals(0)),
        (Export::Stays, Reply::StaysAdded(0)),
    ] {
        let is_answer = |reply| reply == answer;
        let is_other =
            |reply| !is_answer(reply) && !matches!(reply, Reply::Refused(7 | 9 | 18 | 19));
        assert_eq!(suite.times(export, is_other), 0, "{export:?}");
        assert!(suite.times(export, is_answer) > 500, "{export:?}");
    }
    for export in ON_PAIRS.into_iter().chain([Export::Add]) {
        let is_refused = |reply| matches!(reply, Reply::Refused(7 | 8));
        assert_eq!(suite.times(export, |reply| !is_refused(reply)), 0);
        assert!(suite.times(export, is_refused) > 500, "{export:?}");
    }
    let is_refused = |reply| matches!(reply, Reply::Refused(7 | 8 | 20));
    let other = suite.times(Export::Remove, |reply| !is_refused(reply));
    let refused = suite.times(Export::Remove, is_refused);
    assert!(other == 0 && refused > 500, "{other} {refused}");
}

#[test]
fn calls_about_the_intervals_of_wide_tables_that_adds_built() {
    let mut random = Random::new(107);
    let mut suite = Suite::default();
    for (animals, ticks, carry) in [
        (2, 1024, 1),
        (3, 1024, 256),
        (3, 1023, 2),
        (4, 600, 100),
        (5, 20, 256),
        (8, 64, 1),
        (12, 64, 3),
        (33, 40, 1),
        (40, 30, 2),
        (100, 6, 1),
        (200, 3, 1),
        (256, 4, 1),
    ] {
        let opening = Opening::new(animals, ticks, carry);
        let contacts = cases::following_contacts(&mut random, opening, 120);
        let lent = Lent::built(&mut random, opening, &contacts);
        let few = lent.words.len() > 50_000;
        let (intervals, drawn) = if few { (10, 40) } else { (100, 200) };
        compare_about(&mut suite, &mut random, &lent, &closure(&lent), intervals);
        suite.compare_drawn(&mut random, &lent, &Export::ON_OPEN_TABLES, drawn);
    }
    suite.at_least(40, &ON_PAIRS, &ON_GOOD_TABLES);
    suite.at_least(20, &THAT_WRITE, &ON_GOOD_TABLES);
    chains_up_to(&suite, 6, 20);
}

#[test]
fn calls_about_the_rows_of_long_cells_that_no_adds_built() {
    let mut random = Random::new(108);
    let mut suite = Suite::default();
    for (animals, ticks, carry) in [
        (2, 1024, 256),
        (2, 1023, 1),
        (3, 1024, 1),
        (3, 1000, 7),
        (3, 513, 7),
        (4, 500, 7),
        (4, 200, 3),
        (8, 60, 256),
        (30, 9, 1),
        (33, 12, 2),
        (256, 3, 1),
    ] {
        let opening = Opening::new(animals, ticks, carry);
        for _ in 0..2 {
            let cells = cases::cells(&mut random, opening);
            let lent = Lent::stored(opening, &cells);
            let few = lent.words.len() > 50_000;
            let (intervals, drawn) = if few { (3, 20) } else { (60, 100) };
            compare_about(&mut suite, &mut random, &lent, &cells, intervals);
            suite.compare_drawn(&mut random, &lent, &Export::ON_OPEN_TABLES, drawn);
        }
    }
    suite.at_least(40, &ON_PAIRS, &ON_GOOD_TABLES);
    suite.at_least(40, &THAT_WRITE, &ON_GOOD_TABLES);
}

#[test]
fn every_window_and_tick_of_every_cell_length() {
    let mut random = Random::new(109);
    let mut suite = Suite::default();
    for ticks in 1..=40 {
        let opening = Opening::new(2, ticks, random.between(1, 9));
        let end = opening.last_arrival();
        let full = cases::full_cells(opening);
        for rows in 0..=ticks as usize {
            let mut cells = full.clone();
            while cells[1].len() > rows {
                let row = random.below(cells[1].len());
                cells[1].remove(row);
            }
            let lent = Lent::stored(opening, &cells);
            for first in 1..=end {
                for last in first..=end {
                    suite.compare(&lent, &Call::Reach(0, 1, first, last));
                    if random.once_in(4) {
                        suite.compare_pair(&mut random, &lent, (0, 1), (first, last));
                        suite.compare(&lent, &Call::Connected(first, last));
                        let set = draws::set(&mut random);
                        suite.compare(&lent, &Call::Reached(0, first, last, set));
                    }
                }
                suite.compare(&lent, &Call::Earliest(0, 1, first));
                suite.compare(&lent, &Call::Latest(0, 1, first));
            }
        }
    }
    suite.at_least(5_000, &ON_PAIRS, &[]);
    suite.at_least(5_000, &[Export::Connected, Export::Reached], &[]);
}

/// Numbers near these, their neighbours and what they are in other widths, and far ones.
fn edges(near: &[u32]) -> Vec<u32> {
    let far = [
        0,
        1,
        2,
        255,
        256,
        257,
        1 << 11,
        1 << 16,
        1 << 18,
        1 << 31,
        u32::MAX,
    ];
    let mut edges = far.to_vec();
    for &near in near {
        let wrapped = [0u32.wrapping_sub(near), near | 1 << 16, near | 1 << 31];
        edges.extend([near - 1, near, near + 1].iter().chain(&wrapped));
    }
    edges.sort();
    edges.dedup();
    edges
}

#[test]
fn numbers_at_their_edges() {
    let mut random = Random::new(110);
    let mut suite = Suite::default();
    for (animals, ticks, carry) in [
        (1, 1, 1),
        (1, 12, 3),
        (2, 1, 256),
        (2, 1024, 256),
        (3, 6, 2),
        (3, 9, 3),
        (5, 8, 4),
        (6, 8, 1),
        (7, 5, 1),
        (8, 20, 3),
        (33, 3, 1),
        (256, 2, 1),
    ] {
        let opening = Opening::new(animals, ticks, carry);
        let mut cells = cases::cells(&mut random, opening);
        for cell in &mut cells {
            cell.retain(|_| random.once_in(3));
        }
        let lent = Lent::stored(opening, &cells);
        let asked_of = edges(&[animals]);
        let tick_edges = edges(&[ticks, carry, opening.last_arrival()]);
        let every = lent.words.len() < 1_000;
        for &u in &asked_of {
            for &v in &asked_of {
                let rarely = match (every, u < animals && v < animals) {
                    (true, true) => 1,
                    (true, false) => 3,
                    (false, true) => 20,
                    (false, false) => 2_000,
                };
                for t in edges(&[ticks]) {
                    if random.once_in(rarely) {
                        suite.compare(&lent, &Call::Add(u, v, t));
                        let work = lent.work(&mut random);
                        suite.compare(&lent, &Call::Remove(u, v, t, work));
                    }
                }
                for &first in &tick_edges {
                    if random.once_in(rarely) {
                        suite.compare(&lent, &Call::Earliest(u, v, first));
                        suite.compare(&lent, &Call::Latest(u, v, first));
                    }
                    for &last in &tick_edges {
                        if random.once_in(rarely) {
                            suite.compare_pair(&mut random, &lent, (u, v), (first, last));
                        }
                    }
                }
            }
            for &first in &tick_edges {
                for &last in &tick_edges {
                    if every || random.once_in(50) {
                        let set = draws::set(&mut random);
                        suite.compare(&lent, &Call::Reached(u, first, last, set));
                        suite.compare(&lent, &Call::Connected(first, last));
                    }
                }
            }
        }
    }
    suite.at_least(40, &ON_PAIRS, &ON_GOOD_TABLES);
    suite.at_least(40, &[Export::Connected, Export::Reached], &[7, 9, 19]);
    suite.at_least(20, &[Export::Add], &ON_GOOD_TABLES);
    suite.at_least(10, &[Export::Remove], &ON_GOOD_TABLES);
}

#[test]
fn refusals_come_in_order() {
    let mut random = Random::new(111);
    let mut suite = Suite::default();
    let opening = Opening::new(3, 4, 2);
    let mut cells = cases::full_cells(opening);
    cells[opening.pair(0, 2)].clear();
    let good = Lent::stored(opening, &cells);
    let mut damaged = good.words.clone();
    damaged[opening.cell_start(2, 2)] = words::count_word(1);
    let mut unopened = damaged.clone();
    unopened[0] |= 1 << 26;
    let tables = [
        (good.words.clone(), None),
        (damaged.clone(), Some(6)),
        (damaged[1..].to_vec(), Some(5)),
        (damaged[..damaged.len() - 1].to_vec(), Some(5)),
        (unopened, Some(5)),
        (Vec::new(), Some(5)),
    ];
    let mut seconds = tables.to_vec();
    for (animals, ticks, carry) in [
        (2, 4, 2),
        (4, 4, 2),
        (3, 3, 2),
        (3, 5, 2),
        (3, 4, 1),
        (3, 4, 3),
    ] {
        let other = Opening::new(animals, ticks, carry);
        let mut words = words::table(other, &cases::full_cells(other));
        seconds.push((words.clone(), Some(17)));
        words[other.cell_start(1, 1)] = words::count_word(1);
        seconds.push((words, Some(6)));
    }
    let mut lists = vec![(Vec::new(), None)];
    let list = words::stays([(0, 63, 1, 4), (2, 63, 2, 3)]);
    let stays = Stay::words(&list);
    for length in 1..=stays.len() {
        let incomplete = (length % 4 != 0).then_some(18);
        lists.push((stays[..length].to_vec(), incomplete));
    }
    for place in 0..list.len() {
        for illegal in cases::illegal_stays(opening, list[place]) {
            let mut list = list;
            list[place] = illegal;
            lists.push((Stay::words(&list).to_vec(), Some(18)));
        }
    }
    let animals = [
        (0, None),
        (1, None),
        (2, None),
        (3, Some(7)),
        (u32::MAX, Some(7)),
    ];
    let ticks = [
        (1, None),
        (3, None),
        (4, None),
        (0, Some(9)),
        (5, Some(9)),
        (u32::MAX, Some(9)),
    ];
    let moments = [
        (1, None),
        (6, None),
        (0, Some(9)),
        (7, Some(9)),
        (u32::MAX, Some(9)),
    ];
    let windows = [
        ((1, 4), None),
        ((1, 1), None),
        ((4, 4), None),
        ((0, 4), Some(9)),
        ((1, 5), Some(9)),
        ((1, 6), Some(9)),
        ((1, 7), Some(9)),
        ((2, 1), Some(19)),
        ((3, 1), Some(19)),
        ((3, 2), Some(19)),
        ((4, 1), Some(19)),
        ((4, 2), Some(19)),
        ((4, 3), Some(19)),
        ((5, 1), Some(9)),
        ((4, 0), Some(9)),
        ((u32::MAX, 0), Some(9)),
        ((0, 0), Some(9)),
        ((5, 5), Some(9)),
        ((0, u32::MAX), Some(9)),
    ];
    for (words, table) in tables {
        let lent = good.with(words);
        let mut ask = |refusals: &[Option<u32>], call: Call| {
            let reply = suite.compare_at_guards(&lent, &call);
            let refused = match reply {
                Reply::Refused(number) => Some(number),
                _ => None,
            };
            let first = refusals.iter().flatten().next().copied();
            assert_eq!(refused, table.or(first), "{call:?}");
        };
        for room in 0..25 {
            let short = (room < 22).then_some(15);
            let buffer = random.words(room);
            ask(&[short], Call::WriteLog(buffer));
        }
        for (second, refusal) in &seconds {
            ask(&[*refusal], Call::Join(second.clone()));
        }
        for (stays, refusal) in &lists {
            ask(&[*refusal], Call::Stays(stays.clone()));
        }
        for ((first, last), window) in windows {
            ask(&[window], Call::Connected(first, last));
            for (u, animal) in animals {
                for room in 0..10 {
                    let set = random.words(room);
                    ask(&[animal, window], Call::Reached(u, first, last, set));
                }
            }
        }
        for (u, left) in animals {
            for (v, met) in animals {
                let pair = left.or(met).or((u == v).then_some(8));
                for (t, tick) in ticks {
                    ask(&[pair, tick], Call::Add(u, v, t));
                    let held = (u, v) != (0, 2);
                    let absent = (!held).then_some(21);
                    for (more, length) in [(0, None), (0, None), (1, Some(20)), (4, Some(20))] {
                        let work = random.words(lent.words.len() + more);
                        let call = Call::Remove(u, v, t, work);
                        ask(&[length, pair, tick, absent], call);
                    }
                }
                for (tick, moment) in moments {
                    ask(&[pair, moment], Call::Earliest(u, v, tick));
                    ask(&[pair, moment], Call::Latest(u, v, tick));
                }
                for ((first, last), window) in windows {
                    ask(&[pair, window], Call::Reach(u, v, first, last));
                    for room in 0..5 {
                        let short = (room < 2).then_some(10);
                        let buffer = random.words(room);
                        let call = Call::Chain(u, v, first, last, buffer);
                        ask(&[pair, window, short], call);
                        let chain = random.words(room);
                        let call = Call::Claimed(u, v, first, last, chain);
                        ask(&[pair, window], call);
                    }
                }
            }
        }
    }
    for export in Export::ON_OPEN_TABLES {
        for &number in export.refusals() {
            let met = suite.times(export, |reply| reply == Reply::Refused(number));
            assert!(met >= 6, "{export:?} {number}: {met}");
        }
    }
}
