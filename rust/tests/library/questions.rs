//! Every question on drawn herds, compared with a plain search over contacts.

use crate::asked::Asked;
use crate::met::Met;
use crate::pairs;
use herd_testing::cases;
use herd_testing::model::Contacts;
use herd_testing::random::Random;
use herd_testing::suite::draws;
use herd_testing::words::{Opening, Window};

/// What a journey told can be of: its interval by earliest and latest, its contacts by a chain.
const INTERVALS: [&str; 3] = ["none", "one contact", "several contacts"];

/// Asks every question that there is about every pair, tick and window.
fn compare_every(asked: &Asked, met: &mut Met) {
    asked.compare_contacts(met);
    let pairs = pairs(asked.opening);
    for &pair in &pairs {
        asked.compare_pair(pair, 1..=asked.opening.last_arrival(), met);
    }
    for window in cases::windows(asked.opening) {
        for &pair in &pairs {
            asked.compare_way(pair, window, met);
        }
        for animal in 0..asked.opening.animals {
            asked.compare_reached(animal, window, met);
        }
        asked.compare_connected(window, met);
    }
}

/// Asks about so many drawn windows, and in each of them about so many drawn pairs.
fn compare_drawn(
    random: &mut Random,
    asked: &Asked,
    (windows, pairs): (usize, usize),
    met: &mut Met,
) {
    let opening = asked.opening;
    asked.compare_contacts(met);
    let mut drawn = vec![Window::whole(opening)];
    drawn.extend((1..windows).map(|_| window(random, opening)));
    for window in drawn {
        for _ in 0..pairs {
            let (u, v) = cases::pair(random, opening);
            asked.compare_way((u, v), window, met);
            asked.compare_reached(u, window, met);
            let ends = [1, window.first, window.last, opening.last_arrival()];
            let tick = random.between(1, opening.last_arrival());
            asked.compare_pair((u, v), ends.into_iter().chain([tick]), met);
        }
        asked.compare_connected(window, met);
    }
}

/// A legal window.
fn window(random: &mut Random, opening: Opening) -> Window {
    let (one, other) = (
        random.between(1, opening.ticks),
        random.between(1, opening.ticks),
    );
    Window::new(one.min(other), one.max(other))
}

/// Fails where an answer of a question was met less often.
#[track_caller]
fn at_least(met: &Met, times: usize) {
    met.answers(times, "reach", &["yes", "no"]);
    met.answers(times, "chain", &INTERVALS);
    met.answers(times, "earliest", &INTERVALS);
    met.answers(times, "latest", &INTERVALS);
    met.answers(times, "intervals", &["none", "one", "several"]);
    met.answers(times, "reached", &["none", "some", "all"]);
}

#[test]
fn every_question_on_small_herds() {
    let mut random = Random::new(2_101);
    let mut met = Met::default();
    for _ in 0..2_000 {
        let opening = draws::opening(&mut random);
        let contacts = draws::contacts(&mut random, opening);
        let asked = Asked::new(&mut random, opening, contacts.into_iter().collect());
        compare_every(&asked, &mut met);
    }
    at_least(&met, 5_000);
    met.answers(1_500, "contacts", &["some"]);
    met.answers(100, "contacts", &["none"]);
    met.answers(5_000, "connected", &["yes", "no"]);
}

#[test]
fn every_question_on_every_herd_of_three_animals_and_two_ticks() {
    let mut random = Random::new(2_102);
    let mut met = Met::default();
    for carry in [1, 2] {
        let opening = Opening::new(3, 2, carry);
        let legal = cases::legal_contacts(opening);
        for bits in 0..1 << legal.len() {
            let contacts = cases::chosen(&legal, bits);
            let asked = Asked::new(&mut random, opening, contacts.into_iter().collect());
            compare_every(&asked, &mut met);
        }
    }
    at_least(&met, 1_000);
    met.answers(1_000, "connected", &["yes", "no"]);
}

#[test]
fn drawn_questions_on_longer_herds() {
    let mut random = Random::new(2_103);
    let mut met = Met::default();
    for _ in 0..600 {
        let opening = cases::longer_opening(&mut random);
        let most = random.one_of(&[10, 60, 400]);
        let contacts: Contacts = if random.once_in(2) {
            cases::following_contacts(&mut random, opening, most)
        } else {
            cases::log_contacts(&mut random, opening, most)
        }
        .into_iter()
        .collect();
        let asked = Asked::new(&mut random, opening, contacts);
        compare_drawn(&mut random, &asked, (6, 10), &mut met);
    }
    at_least(&met, 2_000);
    met.answers(300, "connected", &["yes", "no"]);
}

#[test]
fn drawn_questions_on_large_herds() {
    let mut random = Random::new(2_104);
    let mut met = Met::default();
    for _ in 0..12 {
        let animals = random.one_of(&[31, 32, 33, 64, 65, 100, 129]);
        let carry = random.one_of(&[1, 1, 2, 5]);
        let opening = Opening::new(animals, random.between(50, 200), carry);
        let number = random.one_of(&[100, 300, 600]);
        let contacts = cases::following_contacts(&mut random, opening, number);
        let asked = Asked::new(&mut random, opening, contacts.into_iter().collect());
        compare_drawn(&mut random, &asked, (4, 25), &mut met);
    }
    met.answers(100, "reach", &["yes", "no"]);
    met.answers(30, "chain", &INTERVALS);
    met.answers(100, "earliest", &INTERVALS);
    met.answers(100, "latest", &INTERVALS);
    met.answers(100, "reached", &["none", "some", "all"]);
}
