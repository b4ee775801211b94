//! Tracing on drawn herds, forwards and back, compared with a plain search over contacts.

use crate::asked::{length, Asked};
use crate::met::Met;
use crate::range;
use herd::{Contact, Interval, Traced};
use herd_testing::cases;
use herd_testing::contents::Contents;
use herd_testing::random::Random;
use herd_testing::suite::draws;
use herd_testing::words::{self, Window};
use std::cmp::Reverse;

/// The narrowest window around a journey of the pair that fits the window: its last tick is as early as can be, and then
/// its first as late as can be.
fn soonest(asked: &Asked, (u, v): (u32, u32), window: Window) -> Option<Window> {
    let reaches = |first, last| asked.journeys.reaches(u, v, Window::new(first, last));
    let last = range(window).find(|&last| reaches(window.first, last))?;
    let first = (window.first..=last)
        .rev()
        .find(|&first| reaches(first, last))?;
    Some(Window::new(first, last))
}

/// The same, but its first tick is as late as can be, and then its last as early as can be.
fn latest(asked: &Asked, (u, v): (u32, u32), window: Window) -> Option<Window> {
    let reaches = |first, last| asked.journeys.reaches(u, v, Window::new(first, last));
    let first = range(window)
        .rev()
        .find(|&first| reaches(first, window.last))?;
    let last = (first..=window.last).find(|&last| reaches(first, last))?;
    Some(Window::new(first, last))
}

/// The animal found, with the interval of the journeys in the narrowest window, and this chain.
fn found(asked: &Asked, animal: u32, cut: Window, chain: Option<Vec<Contact>>) -> Traced {
    Traced {
        animal,
        interval: Interval::new(cut.first, cut.last + asked.opening.carry),
        chain: chain.expect("a journey that was found"),
    }
}

/// The animals that the animal reaches in the window, by the plain search.
fn traced(asked: &Asked, animal: u32, window: Window) -> Vec<Traced> {
    let mut traced = Vec::new();
    for other in (0..asked.opening.animals).filter(|&other| other != animal) {
        if let Some(cut) = soonest(asked, (animal, other), window) {
            let chain = asked.journeys.chain(animal, other, window);
            traced.push(found(asked, other, cut, chain));
        }
    }
    traced.sort_by_key(|found| (found.interval.arrival, found.animal));
    traced
}

/// The animals from which the animal is reached in the window, by the plain search.
fn traced_back(asked: &Asked, animal: u32, window: Window) -> Vec<Traced> {
    let mut traced = Vec::new();
    for other in (0..asked.opening.animals).filter(|&other| other != animal) {
        if let Some(cut) = latest(asked, (other, animal), window) {
            let chain = asked.journeys.chain(other, animal, cut);
            traced.push(found(asked, other, cut, chain));
        }
    }
    traced.sort_by_key(|found| (Reverse(found.interval.departure), found.animal));
    traced
}

/// Fails unless the chain is a journey of held contacts in the window, from one animal to the other, with the interval.
#[track_caller]
fn is_shown(asked: &Asked, (from, to): (u32, u32), window: Window, traced: &Traced) {
    let case = (asked.opening, window, traced, asked.journeys.contacts());
    let Traced {
        interval, chain, ..
    } = traced;
    let carry = asked.opening.carry;
    assert_eq!(words::journey(carry, chain), Some(*interval), "{case:?}");
    assert_eq!(words::ends(chain), (from, to), "{case:?}");
    let is_such = |&contact: &Contact| asked.journeys.holds(contact) && window.has(contact);
    assert!(chain.iter().all(is_such), "{case:?}");
    let between: Vec<u32> = chain[..chain.len() - 1].iter().map(|c| c.to).collect();
    assert_eq!(traced.through().collect::<Vec<u32>>(), between, "{case:?}");
}

/// Traces the animal through the window, forwards and back, and compares.
#[track_caller]
fn compare(asked: &Asked, animal: u32, window: Window, met: &mut Met) {
    let case = (asked.opening, animal, window, asked.journeys.contacts());
    let forwards = asked.herd.trace(animal, range(window)).unwrap();
    for traced in &forwards {
        is_shown(asked, (animal, traced.animal), window, traced);
        met.answer("trace", length(&traced.chain));
    }
    assert_eq!(forwards, traced(asked, animal, window), "{case:?}");
    let back = asked.herd.trace_back(animal, range(window)).unwrap();
    for traced in &back {
        is_shown(asked, (traced.animal, animal), window, traced);
        met.answer("trace back", length(&traced.chain));
        let chain = asked.journeys.chain(traced.animal, animal, window);
        let same = chain.as_ref() == Some(&traced.chain);
        met.yes_or_no("back by the same chain", same);
    }
    assert_eq!(back, traced_back(asked, animal, window), "{case:?}");
    note_orders(&forwards, &back, met);
    note_left_out(asked, animal, window, met);
}

/// Traces the animal through all ticks, forwards and back, and compares what was found with the journeys that arrive first
/// and with those that depart last.
#[track_caller]
pub fn compare_whole(asked: &Asked, animal: u32) {
    let whole = Window::whole(asked.opening);
    let forwards = asked.herd.trace(animal, range(whole)).unwrap();
    let mut found = Vec::new();
    for traced in &forwards {
        is_shown(asked, (animal, traced.animal), whole, traced);
        let earliest = asked.journeys.earliest(animal, traced.animal, 1);
        assert_eq!(Some(traced.interval), earliest);
        found.push((traced.interval.arrival, traced.animal));
    }
    assert!(found.is_sorted() && found.len() > 1, "{found:?}");
    assert_eq!(found.len(), asked.journeys.reached(animal, whole).len());
    let back = asked.herd.trace_back(animal, range(whole)).unwrap();
    let mut found = Vec::new();
    for traced in &back {
        is_shown(asked, (traced.animal, animal), whole, traced);
        let end = asked.opening.last_arrival();
        let latest = asked.journeys.latest(traced.animal, animal, end);
        assert_eq!(Some(traced.interval), latest);
        found.push((Reverse(traced.interval.departure), traced.animal));
    }
    assert!(found.is_sorted() && !found.is_empty(), "{found:?}");
    let others = (0..asked.opening.animals).filter(|&other| other != animal);
    let reaching = others.filter(|&other| asked.journeys.reaches(other, animal, whole));
    assert_eq!(found.len(), reaching.count());
}

/// Counts neighbours in either list that only their numbers put in order, and such as stand against their numbers.
fn note_orders(forwards: &[Traced], back: &[Traced], met: &mut Met) {
    for two in forwards.windows(2) {
        let alike = two[0].interval.arrival == two[1].interval.arrival;
        met.yes_or_no("arrivals alike", alike);
        met.yes_or_no("trace by number", two[0].animal < two[1].animal);
    }
    for two in back.windows(2) {
        let alike = two[0].interval.departure == two[1].interval.departure;
        met.yes_or_no("departures alike", alike);
        met.yes_or_no("trace back by number", two[0].animal < two[1].animal);
    }
}

/// Counts animals that reach the animal by contacts up to the window's end, but not without those before it.
fn note_left_out(asked: &Asked, animal: u32, window: Window, met: &mut Met) {
    let before = Window::new(1, window.last);
    for other in (0..asked.opening.animals).filter(|&other| other != animal) {
        let reaches = |window| asked.journeys.reaches(other, animal, window);
        met.yes_or_no("left before", reaches(before) && !reaches(window));
    }
}

/// Fails where a kind of case was met less often.
#[track_caller]
fn at_least(met: &Met, times: usize) {
    met.answers(times, "trace", &["one contact", "several contacts"]);
    met.answers(times, "trace back", &["one contact", "several contacts"]);
    for both in [
        "back by the same chain",
        "arrivals alike",
        "trace by number",
        "departures alike",
        "trace back by number",
        "left before",
    ] {
        met.answers(times, both, &["yes", "no"]);
    }
}

#[test]
fn every_trace_on_small_herds() {
    let mut random = Random::new(2_301);
    let mut met = Met::default();
    for _ in 0..1_000 {
        let opening = draws::opening(&mut random);
        let contacts = draws::contacts(&mut random, opening);
        let asked = Asked::new(&mut random, opening, contacts.into_iter().collect());
        for window in cases::windows(opening) {
            for animal in 0..opening.animals {
                compare(&asked, animal, window, &mut met);
            }
        }
    }
    at_least(&met, 5_000);
}

#[test]
fn drawn_traces_on_longer_herds() {
    let mut random = Random::new(2_302);
    let mut met = Met::default();
    for _ in 0..250 {
        let opening = cases::longer_opening(&mut random);
        let most = random.one_of(&[20, 60, 200]);
        let contacts = cases::following_contacts(&mut random, opening, most);
        let asked = Asked::new(&mut random, opening, contacts.into_iter().collect());
        for window in random_windows(&mut random, &asked) {
            let animal = random.between(0, opening.animals - 1);
            compare(&asked, animal, window, &mut met);
        }
    }
    at_least(&met, 500);
}

/// Eight windows, that of all ticks among them.
fn random_windows(random: &mut Random, asked: &Asked) -> Vec<Window> {
    let ticks = asked.opening.ticks;
    let mut windows = vec![Window::whole(asked.opening)];
    while windows.len() < 8 {
        let first = random.between(1, ticks);
        windows.push(Window::new(first, random.between(first, ticks)));
    }
    windows
}
