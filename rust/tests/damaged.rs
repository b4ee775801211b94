//! Every call on tables with wrong words or of a wrong length, against document 01's text.

use herd_testing::cases;
use herd_testing::random::Random;
use herd_testing::suite::{draws, Export, Lent, Reply, Suite};
use herd_testing::words::{self, Cells, Interval, Opening};
use std::collections::BTreeMap;

/// The refusals of calls on an open table.
const REFUSALS: [u32; 11] = [5, 6, 7, 8, 9, 10, 15, 17, 18, 20, 21];

/// So many calls are one of each kind, from the start of a round.
const EACH: usize = Export::ON_OPEN_TABLES.len();

/// A well-formed table with its cells.
struct Good {
    opening: Opening,
    cells: Cells,
    lent: Lent,
}

impl Good {
    /// The well-formed table of these cells.
    fn new(opening: Opening, cells: Cells) -> Good {
        let lent = Lent::stored(opening, &cells);
        Good {
            opening,
            cells,
            lent,
        }
    }

    /// The count word's place of a cell that has `least` rows in use and `spare` more to use.
    fn cell(&self, random: &mut Random, least: usize, spare: usize) -> Option<usize> {
        let ticks = self.opening.ticks as usize;
        let fits = |cell: &Vec<Interval>| cell.len() >= least && cell.len() + spare <= ticks;
        let pairs: Vec<usize> = (0..self.opening.pairs())
            .filter(|&pair| fits(&self.cells[pair]))
            .collect();
        let pair = (!pairs.is_empty()).then(|| random.one_of(&pairs))?;
        Some(1 + pair * self.opening.cell_words())
    }

    /// The intervals of the cell whose count word stands at the place.
    fn rows(&self, start: usize) -> &[Interval] {
        &self.cells[(start - 1) / self.opening.cell_words()]
    }

    /// A row in use, at or after `from` and with `behind` rows behind it: its place and its number in the cell.
    fn row(&self, random: &mut Random, from: usize, behind: usize) -> Option<(usize, usize)> {
        let start = self.cell(random, from + behind + 1, 0)?;
        let row =
            random.between(from as u32, (self.rows(start).len() - behind - 1) as u32) as usize;
        Some((start, row))
    }

    /// The table with this word at the place.
    fn with(&self, place: usize, word: u32) -> Lent {
        let mut words = self.lent.words.clone();
        words[place] = word;
        self.lent.with(words)
    }

    /// The count word's place of a random cell of one animal with itself.
    fn diagonal(&self, random: &mut Random) -> usize {
        let u = random.between(0, self.opening.animals - 1);
        self.opening.cell_start(u, u)
    }
}

/// A wrong word for a good table, at its place; none where the table has no place for it.
type Damage = fn(&Good, &mut Random) -> Option<(usize, u32)>;

/// Puts an interval at a row of the cell.
fn put(start: usize, row: usize, departure: u32, arrival: u32) -> Option<(usize, u32)> {
    let interval = Interval::new(departure, arrival);
    Some((start + 1 + row, words::interval_word(interval)))
}

/// Wrong opening words.
const REFUSED_5: [(&str, Damage); 5] = [
    ("opening, unnamed bit", |good, random| {
        Some((0, good.lent.words[0] | 1 << random.between(26, 29)))
    }),
    ("opening, another kind", |good, random| {
        Some((0, cases::other_kind(random, good.lent.words[0])))
    }),
    ("opening, one animal more", |good, _| {
        let o = good.opening;
        let other = Opening::new(o.animals + 1, o.ticks, o.carry);
        Some((0, words::opening_word(other)))
    }),
    ("opening, one tick more", |good, _| {
        let o = good.opening;
        let other = Opening::new(o.animals, o.ticks + 1, o.carry);
        Some((0, words::opening_word(other)))
    }),
    ("opening, zero", |_, _| Some((0, 0))),
];

/// Wrong words in a cell.
const REFUSED_6: [(&str, Damage); 24] = [
    ("count, above the ticks", |good, random| {
        let rows = random.one_of(&[
            good.opening.ticks + 1,
            1024.max(good.opening.ticks + 2),
            2047,
        ]);
        Some((good.cell(random, 0, 0)?, words::count_word(rows)))
    }),
    ("count, one more", |good, random| {
        let start = good.cell(random, 0, 1)?;
        Some((start, good.lent.words[start] + 1))
    }),
    ("count, one less", |good, random| {
        let start = good.cell(random, 1, 0)?;
        Some((start, good.lent.words[start] - 1))
    }),
    ("count, unnamed bit", |good, random| {
        let start = good.cell(random, 0, 0)?;
        Some((start, good.lent.words[start] | 1 << random.between(11, 29)))
    }),
    ("count, another kind", |good, random| {
        let start = good.cell(random, 0, 0)?;
        Some((start, cases::other_kind(random, good.lent.words[start])))
    }),
    ("count, zero", |good, random| {
        Some((good.cell(random, 0, 0)?, 0))
    }),
    ("row, unnamed bit", |good, random| {
        let (start, row) = good.row(random, 0, 0)?;
        let place = start + 1 + row;
        Some((place, good.lent.words[place] | 1 << random.between(22, 29)))
    }),
    ("row, another kind", |good, random| {
        let (start, row) = good.row(random, 0, 0)?;
        let place = start + 1 + row;
        Some((place, cases::other_kind(random, good.lent.words[place])))
    }),
    ("row, zero", |good, random| {
        let (start, row) = good.row(random, 0, 0)?;
        Some((start + 1 + row, 0))
    }),
    ("departure, equal to the last", |good, random| {
        let (start, row) = good.row(random, 1, 0)?;
        let rows = good.rows(start);
        put(start, row, rows[row - 1].departure, rows[row].arrival)
    }),
    ("departure, below the last", |good, random| {
        let (start, row) = good.row(random, 1, 0)?;
        let rows = good.rows(start);
        let before = rows[row - 1].departure;
        (before > 1).then(|| put(start, row, before - 1, rows[row].arrival))?
    }),
    ("arrival, equal to the next", |good, random| {
        let (start, row) = good.row(random, 0, 1)?;
        let rows = good.rows(start);
        put(start, row, rows[row].departure, rows[row + 1].arrival)
    }),
    ("arrival, above the next", |good, random| {
        let (start, row) = good.row(random, 0, 1)?;
        let rows = good.rows(start);
        let after = rows[row + 1].arrival;
        let inside = after < good.opening.last_arrival();
        inside.then(|| put(start, row, rows[row].departure, after + 1))?
    }),
    ("departure, 0", |good, random| {
        let start = good.cell(random, 1, 0)?;
        put(start, 0, 0, good.rows(start)[0].arrival)
    }),
    ("departure, after the last tick", |good, random| {
        let start = good.cell(random, 1, 0)?;
        let late = random.one_of(&[0, 1]);
        let (ticks, last) = (good.opening.ticks, good.opening.last_arrival());
        put(start, good.rows(start).len() - 1, ticks + 1, last + late)
    }),
    ("departure, largest number", |good, random| {
        let start = good.cell(random, 1, 0)?;
        let arrival = random.one_of(&[good.opening.last_arrival(), 2047]);
        put(start, good.rows(start).len() - 1, 2047, arrival)
    }),
    ("arrival, before it can be", |good, random| {
        let start = good.cell(random, 1, 0)?;
        let departure = good.rows(start)[0].departure;
        put(start, 0, departure, departure + good.opening.carry - 1)
    }),
    ("arrival, 0", |good, random| {
        let start = good.cell(random, 1, 0)?;
        put(start, 0, good.rows(start)[0].departure, 0)
    }),
    ("arrival, after the last", |good, random| {
        let start = good.cell(random, 1, 0)?;
        let row = good.rows(start).len() - 1;
        let late = random.one_of(&[good.opening.last_arrival() + 1, 2047]);
        put(start, row, good.rows(start)[row].departure, late)
    }),
    ("unused word, one bit", |good, random| {
        let start = good.cell(random, 0, 1)?;
        let row = random.between(good.rows(start).len() as u32, good.opening.ticks - 1);
        Some((start + 1 + row as usize, 1 << random.between(0, 31)))
    }),
    (
        "unused word, an interval that would be next",
        |good, random| {
            let start = good.cell(random, 1, 1)?;
            let rows = good.rows(start);
            let last = rows[rows.len() - 1];
            put(start, rows.len(), last.departure + 1, last.arrival + 1)
        },
    ),
    ("unused word, last of its cell", |good, random| {
        let start = good.cell(random, 0, 1)?;
        let row = good.opening.ticks as usize - 1;
        put(start, row, 1, good.opening.last_arrival())
    }),
    ("one animal with itself, a row", |good, random| {
        put(good.diagonal(random), 0, 1, 1 + good.opening.carry)
    }),
    ("one animal with itself, a count", |good, random| {
        Some((good.diagonal(random), words::count_word(1)))
    }),
];

/// Drawn calls on open tables, in rounds of one of each kind in any order, and the suite that compares them.
struct Turns {
    random: Random,
    suite: Suite,
    round: Vec<Export>,
}

impl Turns {
    /// Turns with this seed.
    fn new(seed: u64) -> Turns {
        Turns {
            random: Random::new(seed),
            suite: Suite::default(),
            round: Vec::new(),
        }
    }

    /// The next kind of the round, or the first of a new one.
    fn next(&mut self) -> Export {
        if self.round.is_empty() {
            self.round.extend(Export::ON_OPEN_TABLES);
            self.random.shuffle(&mut self.round);
        }
        self.round.pop().expect("a kind of the round")
    }

    /// Makes so many calls, each of the next kind.
    #[track_caller]
    fn take(&mut self, lent: &Lent, calls: usize) -> Vec<Reply> {
        let mut replies = Vec::new();
        for _ in 0..calls {
            let export = self.next();
            let call = lent.draw(&mut self.random, export);
            replies.push(self.suite.compare(lent, &call));
        }
        replies
    }

    /// Makes so many calls, each of the next kind, which are all refused with the number.
    #[track_caller]
    fn refuse(&mut self, lent: &Lent, calls: usize, number: u32, case: &str) {
        for reply in self.take(lent, calls) {
            assert_eq!(reply, Reply::Refused(number), "{case}: {:?}", lent.opening);
        }
    }
}

/// A small well-formed table that need not be a closure.
fn drawn(random: &mut Random) -> Good {
    let opening = cases::opening(random);
    let cells = cases::cells(random, opening);
    Good::new(opening, cells)
}

#[test]
fn chosen_damage_is_refused() {
    let mut turns = Turns::new(701);
    let mut met = BTreeMap::new();
    for _ in 0..4_000 {
        let good = drawn(&mut turns.random);
        for (damages, number) in [(&REFUSED_5[..], 5), (&REFUSED_6[..], 6)] {
            for (name, damage) in damages {
                let times = met.entry(name).or_insert(0);
                if let Some((place, word)) = damage(&good, &mut turns.random) {
                    let lent = good.with(place, word);
                    turns.refuse(&lent, 2, number, name);
                    *times += 1;
                }
            }
        }
    }
    assert!(met.values().all(|&times| times > 250), "{met:?}");
}

#[test]
fn one_animal_with_itself_has_no_row_even_when_counted() {
    let mut turns = Turns::new(702);
    for _ in 0..2_000 {
        let good = drawn(&mut turns.random);
        let start = good.diagonal(&mut turns.random);
        let mut lent = good.with(start, words::count_word(1));
        let row = Interval::new(1, 1 + good.opening.carry);
        lent.words[start + 1] = words::interval_word(row);
        let lent = lent.with(lent.words.clone());
        turns.refuse(&lent, EACH, 6, "counted row");
    }
}

#[test]
fn opening_word_is_judged_before_the_cells() {
    let mut turns = Turns::new(703);
    for _ in 0..1_000 {
        let good = drawn(&mut turns.random);
        let mut words = good.lent.words.clone();
        let wrong = turns.random.below(REFUSED_5.len());
        for damage in [REFUSED_6[3].1, REFUSED_5[wrong].1] {
            let damaged = damage(&good, &mut turns.random);
            let (place, word) = damaged.expect("a place in every table");
            words[place] = word;
        }
        turns.refuse(&good.lent.with(words), EACH, 5, "both");
    }
}

/// Flips each bit of each word in turn, and makes so many calls on each.
fn flip_every_bit(turns: &mut Turns, lent: &Lent, calls: usize) {
    let mut words = lent.words.clone();
    for place in 0..words.len() {
        for bit in 0..32 {
            words[place] ^= 1 << bit;
            turns.take(&lent.with(words.clone()), calls);
            words[place] ^= 1 << bit;
        }
    }
}

#[test]
fn every_bit_of_small_tables() {
    let mut turns = Turns::new(704);
    for _ in 0..100 {
        let lent = draws::stored(&mut turns.random);
        flip_every_bit(&mut turns, &lent, 3);
    }
    turns.suite.at_least(20, &Export::ON_OPEN_TABLES, &REFUSALS);
}

#[test]
fn every_bit_of_tables_that_adds_built() {
    let mut turns = Turns::new(709);
    for _ in 0..100 {
        let lent = draws::built(&mut turns.random);
        flip_every_bit(&mut turns, &lent, 3);
    }
    let asked = [
        Export::Add,
        Export::Remove,
        Export::WriteLog,
        Export::Reach,
        Export::Claimed,
    ];
    turns.suite.at_least(5, &asked, &REFUSALS);
}

#[test]
fn every_bit_of_long_cells() {
    let mut turns = Turns::new(705);
    let opening = Opening::new(2, 1024, 200);
    let mut cells = cases::cells(&mut turns.random, opening);
    cells[1].truncate(300);
    cells[2].truncate(3);
    flip_every_bit(&mut turns, &Lent::stored(opening, &cells), 1);
    for export in Export::ON_OPEN_TABLES {
        let six = turns
            .suite
            .times(export, |reply| reply == Reply::Refused(6));
        assert!(six > 10_000, "{export:?} {six}");
    }
    let all = |is_such: fn(Reply) -> bool| -> u32 {
        let times = Export::ON_OPEN_TABLES.map(|export| turns.suite.times(export, is_such));
        times.iter().sum()
    };
    let five = all(|reply| reply == Reply::Refused(5));
    let accepted = all(|reply| !matches!(reply, Reply::Refused(_)));
    assert!(five >= 14 && accepted > 0, "{five} {accepted}");
}

#[test]
fn every_word_of_every_cell_length() {
    let mut turns = Turns::new(708);
    let mut lengths: Vec<u32> = (1..=130).collect();
    lengths.extend([255, 256, 257, 511, 512, 513, 1000, 1023, 1024]);
    for ticks in lengths {
        let opening = Opening::new(2, ticks, turns.random.between(1, 256));
        let mut cells = cases::cells(&mut turns.random, opening);
        let rows = turns.random.below(cells[2].len() + 1);
        cells[2].truncate(rows);
        let good = Good::new(opening, cells);
        for place in 1..good.lent.words.len() {
            let bit = turns.random.between(22, 31);
            let lent = good.with(place, good.lent.words[place] ^ 1 << bit);
            turns.refuse(&lent, if ticks <= 70 { EACH } else { 2 }, 6, "one bit");
        }
    }
}

#[test]
fn every_interval_and_count_at_every_word() {
    let mut turns = Turns::new(710);
    for (animals, ticks, carry) in [(1, 2, 1), (2, 1, 3), (2, 3, 1), (2, 4, 2), (3, 3, 2)] {
        let opening = Opening::new(animals, ticks, carry);
        let departures = (0..=ticks + 2).chain([1024, 2047]);
        let arrivals: Vec<u32> = (0..=ticks + carry + 2).chain([1280, 2047]).collect();
        let mut others: Vec<u32> = (0..=ticks + 2).map(words::count_word).collect();
        others.extend([words::count_word(1024), words::count_word(2047), 0, 1]);
        for departure in departures {
            let interval = |&arrival: &u32| Interval::new(departure, arrival);
            others.extend(arrivals.iter().map(interval).map(words::interval_word));
        }
        for _ in 0..24 {
            let cells = cases::cells(&mut turns.random, opening);
            let good = Good::new(opening, cells);
            for place in 0..good.lent.words.len() {
                for &other in &others {
                    turns.take(&good.with(place, other), 3);
                }
            }
        }
    }
    turns.suite.at_least(10, &Export::ON_OPEN_TABLES, &REFUSALS);
}

/// Puts one to three random words at random places of the table, or leaves it as it is now and then.
fn scattered(random: &mut Random, lent: &Lent) -> Lent {
    let mut words = lent.words.clone();
    for _ in 0..random.below(4) {
        let place = random.below(words.len());
        let other = random.one_of(&words);
        let small = random.word() & 0x0000_3FFF;
        let flipped = words[place] ^ 1 << random.between(0, 31);
        let step = random.one_of(&[1, 1 << 11, u32::MAX, 0u32.wrapping_sub(1 << 11)]);
        let near = words[place].wrapping_add(step);
        words[place] = random.one_of(&[other, flipped, near, near, 0x4000_0000 | small, 0]);
    }
    lent.with(words)
}

#[test]
fn random_words_anywhere() {
    let mut turns = Turns::new(706);
    for round in 0..140_000 {
        let lent = match round % 3 {
            0 => draws::built(&mut turns.random),
            _ => draws::stored(&mut turns.random),
        };
        let damaged = scattered(&mut turns.random, &lent);
        turns.take(&damaged, 5);
    }
    turns
        .suite
        .at_least(300, &Export::ON_OPEN_TABLES, &REFUSALS);
}

#[test]
fn nothing_but_random_words() {
    let mut turns = Turns::new(707);
    for _ in 0..10_000 {
        let opening = cases::opening(&mut turns.random);
        let mut words = turns.random.words(opening.table_words());
        turns.take(&Lent::words(opening, words.clone()), EACH);
        words[0] = words::opening_word(opening);
        turns.refuse(&Lent::words(opening, words), EACH, 6, "an opening word");
    }
}

#[test]
fn wrong_lengths_are_refused() {
    let mut turns = Turns::new(711);
    for _ in 0..1_000 {
        let good = drawn(&mut turns.random);
        let (mut words, right) = (good.lent.words.clone(), good.lent.words.len());
        words.push(turns.random.one_of(&[0, 0xC000_0000, 0xFFFF_FFFF]));
        words.extend(vec![0; 40]);
        let anywhere = turns.random.below(right);
        let longer = right + 1 + turns.random.below(40);
        for length in [0, 1, anywhere, right - 1, right + 1, longer] {
            let lent = good.lent.with(words[..length].to_vec());
            turns.refuse(&lent, EACH, 5, "a wrong length");
        }
    }
}

#[test]
fn every_opening_word_over_a_short_table() {
    let mut turns = Turns::new(712);
    for _ in 0..25_000 {
        let random = &mut turns.random;
        let opening = Opening::new(
            random.between(1, 256),
            random.between(1, 1024),
            random.between(1, 256),
        );
        let mut words = vec![0; random.between(1, 40) as usize];
        words[0] = words::opening_word(opening);
        turns.take(&Lent::words(opening, words), 2);
    }
    for export in Export::ON_OPEN_TABLES {
        let five = turns
            .suite
            .times(export, |reply| reply == Reply::Refused(5));
        assert!(five > 4_000, "{export:?} {five}");
    }
}

#[test]
fn a_length_that_another_opening_has() {
    let mut turns = Turns::new(713);
    let table = words::table(Opening::new(1, 7, 1), &vec![Vec::new()]);
    assert_eq!(table.len(), Opening::new(2, 1, 1).table_words());
    for (animals, ticks) in [(2, 2), (3, 1), (1, 6), (1, 8), (256, 1024)] {
        let other = Opening::new(animals, ticks, 1);
        let mut words = table.clone();
        words[0] = words::opening_word(other);
        turns.refuse(&Lent::words(other, words), EACH, 5, "another length");
    }
}
