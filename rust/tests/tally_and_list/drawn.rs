//! Random contacts, questions, tallies and damage, legal or not.

use crate::session::{Question, Session, Tally, MOST_TABLE};
use herd_testing::cases;
use herd_testing::check;
use herd_testing::contents::Contents;
use herd_testing::random::Random;
use herd_testing::words::{Contact, Opening};

/// An opening whose table fits in the program's memory; now and then the largest.
pub fn opening(random: &mut Random) -> Opening {
    let small = cases::opening(random);
    let largest = Opening::new(8, 64, random.between(1, 70));
    random.one_of(&[small, small, small, small, small, largest])
}

/// The numbers of a contact, of which some are not legal.
pub fn contact(random: &mut Random, opening: Opening) -> (u32, u32, u32) {
    let (u, v) = (animal(random, opening), animal(random, opening));
    let legal = random.between(1, opening.ticks);
    let ends = [0, 1, opening.ticks, opening.ticks + 1, 1025, u32::MAX];
    let end = random.one_of(&ends);
    (u, v, random.one_of(&[legal, legal, legal, legal, end]))
}

/// The numbers of a question, of which some are not legal.
pub fn question(random: &mut Random, opening: Opening) -> Question {
    let (u, v) = (animal(random, opening), animal(random, opening));
    let ticks = opening.ticks;
    let legal = [random.between(1, ticks), random.between(1, ticks)];
    let (low, high) = (legal[0].min(legal[1]), legal[0].max(legal[1]));
    let end = random.one_of(&cases::window_edges(opening));
    match random.below(12) {
        0 => (u, v, end, high),
        1 => (u, v, low, end),
        2 => (u, v, high, low),
        _ => (u, v, low, high),
    }
}

/// So many questions.
pub fn questions(random: &mut Random, opening: Opening, number: usize) -> Vec<Question> {
    let questions = (0..number).map(|_| question(random, opening));
    questions.collect()
}

/// An animal, now and then one that the table does not have.
fn animal(random: &mut Random, opening: Opening) -> u32 {
    let beyond = random.one_of(&[opening.animals, opening.animals + 1, 256, u32::MAX]);
    let inside = random.between(0, opening.animals - 1);
    if random.once_in(10) {
        beyond
    } else {
        inside
    }
}

/// A tally whose numbers sum to this.
pub fn tally(random: &mut Random, sum: u64) -> Tally {
    let most = u64::from(u32::MAX);
    let mut left = sum;
    let mut tally = [0; 4];
    for (place, number) in tally.iter_mut().enumerate() {
        let others = most * (3 - place as u64);
        let (low, high) = (left.saturating_sub(others), left.min(most));
        let any = low + random.bits() % (high - low + 1);
        let drawn = random.one_of(&[low, high, any]);
        *number = drawn as u32;
        left -= drawn;
    }
    random.shuffle(&mut tally);
    tally
}

/// The contacts that the table holds; none where it is refused.
pub fn held(session: &Session) -> Vec<Contact> {
    let stored = check::open_table(session.table());
    stored.map_or(Vec::new(), |stored| stored.held())
}

/// So many words for work: mostly as many as the table has.
pub fn work_words(random: &mut Random, session: &Session) -> usize {
    let right = session.table().len();
    let other = random.one_of(&[0, 1, right.saturating_sub(1), right + 1, MOST_TABLE]);
    let words = random.one_of(&[right, right, right, right, right, other]);
    words.min(MOST_TABLE)
}

/// Changes one or two words of the table, or its length.
pub fn damage(random: &mut Random, session: &mut Session) {
    let length = session.table().len();
    let (one, other) = (random.below(length), random.below(length));
    let place = random.one_of(&[0, one]);
    let (word, step) = (
        session.table()[place],
        random.one_of(&[1, 1 << 11, u32::MAX]),
    );
    match random.below(6) {
        0 => session.put(place, word ^ 1 << random.between(0, 31)),
        1 => session.put(place, word.wrapping_add(step)),
        2 => session.put(place, random.word()),
        3 => session.put(place, 0),
        4 => session.lend(random.one_of(&[0, 1, length - 1, length + 1, MOST_TABLE])),
        _ => {
            let swapped = (session.table()[other], session.table()[one]);
            session.put(one, swapped.0);
            session.put(other, swapped.1);
        }
    }
}
