//! Random calls on a table: mostly legal ones, with numbers at their edges, and such as are refused.

use super::call::Call;
use super::lent::Lent;
use super::reply::Export;
use crate::cases;
use crate::random::Random;
use crate::words::{self, Cells, Contact, Opening, Stay, Window};

impl Lent {
    /// A call of this kind.
    pub fn draw(&self, random: &mut Random, export: Export) -> Call {
        let opening = self.opening;
        let (u, v) = (animal(random, opening), animal(random, opening));
        let (first, last) = window(random, opening);
        match export {
            Export::Open => self.draw_open(random),
            Export::ReadLog => self.draw_read_log(random),
            Export::Add => {
                let t = tick(random, opening.ticks);
                Call::Add(u, v, t)
            }
            Export::Join => Call::Join(self.second(random)),
            Export::Stays => Call::Stays(stays(random, opening)),
            Export::Remove => self.draw_remove(random),
            Export::WriteLog => Call::WriteLog(buffer(random, self.held.len() + 2)),
            Export::Reach => Call::Reach(u, v, first, last),
            Export::Earliest => {
                let first = tick(random, opening.last_arrival());
                Call::Earliest(u, v, first)
            }
            Export::Latest => {
                let last = tick(random, opening.last_arrival());
                Call::Latest(u, v, last)
            }
            Export::Connected => Call::Connected(first, last),
            Export::Reached => Call::Reached(u, first, last, set(random)),
            Export::Chain => Call::Chain(
                u,
                v,
                first,
                last,
                buffer(random, opening.animals as usize - 1),
            ),
            Export::Claimed => self.draw_claimed(random),
        }
    }

    /// An opening, mostly with the numbers for which the table has its length.
    fn draw_open(&self, random: &mut Random) -> Call {
        let opening = self.opening;
        let beyond = [0, 257, 1025, 1 << 16, 1 << 31, u32::MAX];
        let mut numbers = [opening.animals, opening.ticks, random.between(1, 256)];
        if random.once_in(3) {
            numbers[random.below(3)] = random.one_of(&beyond);
        }
        if random.once_in(6) {
            let place = random.below(2);
            numbers[place] = numbers[place].wrapping_add(1);
        }
        let [animals, ticks, carry] = numbers;
        Call::Open(animals, ticks, carry)
    }

    /// A log for a table of this length, mostly a good one.
    fn draw_read_log(&self, random: &mut Random) -> Call {
        let contacts = cases::log_contacts(random, self.opening, 12);
        let mut log = words::log(self.opening, contacts);
        if random.once_in(2) {
            log = cases::damaged(random, &log);
        }
        Call::ReadLog(log)
    }

    /// A second table to join: mostly a well-formed one with this one's numbers, which holds some of its contacts and others.
    /// Where these words have not the length for their numbers, it has numbers of its own.
    fn second(&self, random: &mut Random) -> Vec<u32> {
        if random.once_in(8) && self.held.len() < 100 {
            return self.words.clone();
        }
        let mut opening = self.opening;
        if self.words.len() != opening.table_words() {
            opening = cases::opening(random);
        } else if random.once_in(8) {
            opening = cases::other_opening(random, opening);
        }
        let mut contacts = cases::log_contacts(random, opening, 8);
        if opening == self.opening {
            let shared = self.held.iter().filter(|_| random.once_in(4));
            contacts.extend(shared.take(8));
        }
        let cells = cases::lone_cells(random, opening, &contacts);
        let second = words::table(opening, &cells);
        if random.once_in(8) {
            cases::damaged(random, &second)
        } else {
            second
        }
    }

    /// A removal: mostly of a held contact, or of one next to it, and mostly with as many words for work as the table has.
    /// Where very many contacts are held, it is mostly of any numbers.
    fn draw_remove(&self, random: &mut Random) -> Call {
        let work = self.work(random);
        let (mut u, mut v) = (animal(random, self.opening), animal(random, self.opening));
        let mut t = tick(random, self.opening.ticks);
        let eighths = if self.held.len() < 400 { 6 } else { 1 };
        if !self.held.is_empty() && random.below(8) < eighths {
            let held = random.one_of(&self.held);
            (u, v, t) = (held.from, held.to, held.tick);
            match random.below(12) {
                0 => (u, v) = (v, u),
                1 => t -= 1,
                2 => t += 1,
                _ => (),
            }
        }
        Call::Remove(u, v, t, work)
    }

    /// Words for work, mostly as many as the table has: all alike, of no meaning, or those of a table.
    pub fn work(&self, random: &mut Random) -> Vec<u32> {
        let right = self.words.len();
        let mut work = match random.below(6) {
            0 => vec![0; right],
            1 => vec![u32::MAX; right],
            2 => self.words.clone(),
            3 => self.second(random),
            _ => random.words(right),
        };
        let more = random.between(1, 40) as usize;
        let other = random.one_of(&[0, 1, right.saturating_sub(1), right + 1, right + more]);
        let words = if random.once_in(8) { other } else { right };
        work.resize(words, random.word());
        work
    }

    /// A claimed chain: a journey of held contacts, or one that was damaged.
    fn draw_claimed(&self, random: &mut Random) -> Call {
        let most = random.one_of(&[1, 2, 3, self.opening.animals as usize, 40]);
        let journey = self.journey(random, most);
        let mut chain = words::contact_words(&journey);
        let (mut u, mut v) = (animal(random, self.opening), animal(random, self.opening));
        let (mut first, mut last) = window(random, self.opening);
        if !journey.is_empty() {
            if !random.once_in(5) {
                (u, v) = words::ends(&journey);
            }
            if !random.once_in(5) {
                (first, last) = window_about(random, self.opening, &journey);
            }
        }
        if random.once_in(2) {
            self.damage(random, &mut chain);
        }
        Call::Claimed(u, v, first, last, chain)
    }

    /// A journey of held contacts, at most so many, which may pass an animal twice; no contact where none is held.
    pub fn journey(&self, random: &mut Random, most: usize) -> Vec<Contact> {
        let hasty = random.once_in(2);
        let mut journey: Vec<Contact> = Vec::new();
        while journey.len() < most {
            let goes_on = |c: &&Contact| {
                journey.last().is_none_or(|last| {
                    last.to == c.from && last.interval(self.opening.carry).arrival <= c.tick
                })
            };
            let mut next: Vec<Contact> = self.held.iter().filter(goes_on).copied().collect();
            if hasty {
                next.truncate(2);
            }
            if next.is_empty() {
                break;
            }
            journey.push(random.one_of(&next));
        }
        journey
    }

    /// Changes, moves, leaves out or puts in one word of a chain.
    fn damage(&self, random: &mut Random, chain: &mut Vec<u32>) {
        let other = if self.held.is_empty() || random.once_in(3) {
            0x4000_0000 | random.word() & 0x03FF_FFFF
        } else {
            words::contact_word(random.one_of(&self.held))
        };
        if chain.is_empty() || random.once_in(8) {
            return chain.push(other);
        }
        let (place, second) = (random.below(chain.len()), random.below(chain.len()));
        let step = random.one_of(&[1, 1 << 10, 1 << 18, u32::MAX]);
        match random.below(9) {
            0 => chain.clear(),
            1 => drop(chain.remove(0)),
            2 => drop(chain.pop()),
            3 => chain[place] ^= 1 << random.between(0, 31),
            4 => chain.insert(place, chain[place]),
            5 => chain.swap(place, second),
            6 => chain[place] = other,
            7 => chain[place] = chain[place].wrapping_add(step),
            _ => chain.extend_from_within(..),
        }
    }
}

/// An animal, or now and then a number beyond them.
pub fn animal(random: &mut Random, opening: Opening) -> u32 {
    let n = opening.animals;
    if random.once_in(12) {
        random.one_of(&[
            n,
            n + 1,
            255.max(n),
            256,
            1 << 16,
            1 << 18,
            1 << 31,
            u32::MAX,
        ])
    } else {
        random.between(0, n - 1)
    }
}

/// A tick from 1 to the last, often one of these two, or now and then a number beyond.
pub fn tick(random: &mut Random, last: u32) -> u32 {
    match random.below(12) {
        0 => random.one_of(&[0, last + 1, last + 2, 2048, 1 << 31, u32::MAX]),
        1 => random.one_of(&[1, last]),
        _ => random.between(1, last),
    }
}

/// The first and last tick of a window, now and then of one that is refused.
pub fn window(random: &mut Random, opening: Opening) -> (u32, u32) {
    let ticks = opening.ticks;
    let edges = cases::window_edges(opening);
    let (one, other) = (random.between(1, ticks), random.between(1, ticks));
    match random.below(13) {
        0 => (random.one_of(&edges), random.one_of(&edges)),
        1 => (tick(random, ticks), tick(random, ticks)),
        2 | 3 => (1, ticks),
        4 => (one.max(other), one.min(other)),
        _ => (one.min(other), one.max(other)),
    }
}

/// A window that the journey just fits, fits well, or fits not by one tick.
pub fn window_about(random: &mut Random, opening: Opening, journey: &[Contact]) -> (u32, u32) {
    let Window { first, last } = Window::around(journey);
    match random.below(6) {
        0 => (first + 1, last),
        1 => (first, last - 1),
        2 | 3 => (first, last),
        _ => {
            let end = random.between(last, opening.ticks);
            (random.between(1, first), end)
        }
    }
}

/// The words of a list of stays, mostly of legal ones; now and then one is not, or words were damaged.
pub fn stays(random: &mut Random, opening: Opening) -> Vec<u32> {
    let mut list = cases::stays(random, opening, 8);
    if random.once_in(6) && !list.is_empty() {
        let place = random.below(list.len());
        list[place] = random.one_of(&cases::illegal_stays(opening, list[place]));
    }
    let words = Stay::words(&list);
    if random.once_in(6) {
        cases::damaged(random, words)
    } else {
        words.to_vec()
    }
}

/// Words of no meaning for a buffer: mostly as many as it needs.
pub fn buffer(random: &mut Random, needed: usize) -> Vec<u32> {
    let other = random.one_of(&[
        0,
        1,
        needed.saturating_sub(1),
        needed + 1,
        needed + 2,
        needed + 9,
    ]);
    let room = if random.once_in(4) { other } else { needed };
    random.words(room)
}

/// Words of no meaning for a set, none to a few more than it has.
pub fn set(random: &mut Random) -> Vec<u32> {
    let room = random.one_of(&[8, 8, 8, 0, 1, 2, 3, 4, 5, 6, 7, 9, 12]);
    random.words(room)
}

/// A small table that adds built.
pub fn built(random: &mut Random) -> Lent {
    let opening = opening(random);
    let contacts = contacts(random, opening);
    Lent::built(random, opening, &contacts)
}

/// A small opening, often with two animals or more and with time for several contacts.
pub fn opening(random: &mut Random) -> Opening {
    match random.below(3) {
        0 => cases::opening(random),
        1 => cases::opening_with_pairs(random),
        _ => cases::opening_with_time(random),
    }
}

/// Contacts for a small table.
pub fn contacts(random: &mut Random, opening: Opening) -> Vec<Contact> {
    match random.below(3) {
        0 => cases::log_contacts(random, opening, 40),
        1 if opening.animals > 1 => cases::following_contacts(random, opening, 20),
        _ => cases::crowded_contacts(random, opening),
    }
}

/// A small well-formed table that no adds built.
pub fn stored(random: &mut Random) -> Lent {
    let opening = if random.once_in(4) {
        cases::opening(random)
    } else {
        cases::opening_with_time(random)
    };
    let cells = cells(random, opening);
    Lent::stored(opening, &cells)
}

/// Cells for a small well-formed table, which need not be a closure.
pub fn cells(random: &mut Random, opening: Opening) -> Cells {
    match random.below(3) {
        0 if opening.animals > 1 => cases::cells_near_closure(random, opening),
        1 if opening.animals > 1 => cases::planted_cells(random, opening).0,
        _ => cases::cells(random, opening),
    }
}
