//! Calls that the engine refuses: each is one line with the refusal's number, and changes no file.

use crate::drawn::{self, Size};
use crate::met::Met;
use crate::run::Folder;
use crate::told::{Herd, WAYS};
use herd_testing::cases;
use herd_testing::check;
use herd_testing::random::Random;
use herd_testing::words::{Contact, Opening};

/// The number of a refusal, which ends its line.
fn number(line: &str) -> Option<u32> {
    let (_, number) = line.rsplit_once(" (refusal ")?;
    number.strip_suffix(')')?.parse().ok()
}

/// Makes a call that must be refused with this number, or answered where there is none.
#[track_caller]
fn judge(folder: &Folder, call: &str, judged: Result<(), u32>, met: &mut Met) {
    let command = call.split(' ').next().unwrap_or_default();
    match judged {
        Ok(()) => {
            folder.answer(call);
            met.note(format!("{command} answered"));
        }
        Err(expected) => {
            let line = folder.refusal(call);
            assert_eq!(number(&line), Some(expected), "{call}: {line}");
            met.note(format!("{command} {expected}"));
        }
    }
}

/// An animal of the herd, or a number that is none of its animals.
fn animal(random: &mut Random, opening: Opening) -> u32 {
    let n = opening.animals;
    let good = random.between(0, n - 1);
    let bad = random.one_of(&[n, n + 1, 256 + good, u32::MAX]);
    random.one_of(&[good, good, good, good, bad])
}

/// A tick of the calendar, or a number that is none.
fn tick(random: &mut Random, opening: Opening) -> u32 {
    let good = random.between(1, opening.ticks);
    let edge = random.one_of(&cases::window_edges(opening));
    random.one_of(&[good, good, good, edge])
}

/// A herd of two animals or more.
fn herd(random: &mut Random, folder: &Folder) -> Herd {
    let opening = cases::opening_with_pairs(random);
    let herd = Herd::new(opening, cases::log_contacts(random, opening, 20));
    folder.put("herd.log", herd.log());
    herd
}

#[test]
fn questions_out_of_range() {
    let folder = Folder::new("questions_out_of_range");
    let mut random = Random::new(3201);
    let mut met = Met::default();
    for _ in 0..300 {
        let opening = herd(&mut random, &folder).opening;
        let (from, to) = (animal(&mut random, opening), animal(&mut random, opening));
        let (first, last) = (tick(&mut random, opening), tick(&mut random, opening));
        let window = check::window(opening, first, last).map(|_| ());
        let asked = format!("--first {first} --last {last}");
        let judged = check::animals(opening, from, to).and(window);
        judge(
            &folder,
            &format!("ask herd.log {from} {to} {asked}"),
            judged,
            &mut met,
        );
        for way in WAYS {
            let judged = check::animal(opening, from).and(window);
            let call = format!("{} herd.log {from} {asked} --svg out.svg", way.command());
            judge(&folder, &call, judged, &mut met);
        }
    }
    for command in ["ask", "trace", "back"] {
        let often = |answer: &str| format!("{command} {answer}");
        met.at_least(&[(&often("answered"), 30), (&often("7"), 40)]);
        met.at_least(&[(&often("9"), 40), (&often("19"), 15)]);
    }
    met.at_least(&[("ask 8", 20)]);
}

/// Calls that are refused, each with the parts of what is told, of which the last is the number.
const SAID: [(&str, &[&str]); 16] = [
    ("ask herd.log 4 1", &["no animal 4", "0 to 3", "7"]),
    ("ask herd.log 2 2", &["animal 2", "twice", "8"]),
    ("ask herd.log 0 1 --last 7", &["tick 7", "1 to 6", "9"]),
    ("ask herd.log 0 1 --first 0", &["tick 0", "1 to 6", "9"]),
    (
        "ask herd.log 0 1 --first 5 --last 2",
        &["turned round", "5", "2", "19"],
    ),
    ("trace herd.log 258", &["no animal 258", "7"]),
    ("back herd.log 4294967295", &["no animal 4294967295", "7"]),
    (
        "remove herd.log 0 1 3 -o x",
        &["herd.log", "0 -> 1 at tick 3", "not held", "21"],
    ),
    (
        "remove herd.log 0 4 3 -o x",
        &["herd.log", "0 -> 4 at tick 3", "no animal 4", "7"],
    ),
    (
        "remove herd.log 0 1 7 -o x",
        &["herd.log", "0 -> 1 at tick 7", "tick 7", "9"],
    ),
    (
        "join herd.log other.log -o x",
        &["herd.log and other.log", "time 1", "time 2", "17"],
    ),
    (
        "load --animals 257 --ticks 6 --carry 1 - -o x",
        &["256 animals", "257", "1"],
    ),
    (
        "load --animals 0 --ticks 6 --carry 1 - -o x",
        &["256 animals", "not 0", "1"],
    ),
    (
        "load --animals 4 --ticks 1025 --carry 1 - -o x",
        &["1024 ticks", "1025", "2"],
    ),
    (
        "load --animals 4 --ticks 6 --carry 257 - -o x",
        &["256 ticks", "257", "3"],
    ),
    (
        "load --animals 0 --ticks 0 --carry 0 - -o x",
        &["256 animals", "1"],
    ),
];

#[test]
fn refusals_say_what_is_wrong() {
    let folder = Folder::new("refusals_say_what_is_wrong");
    let opening = Opening::new(4, 6, 1);
    let herd = Herd::new(opening, [Contact::new(0, 1, 2)]);
    folder.put("herd.log", herd.log());
    folder.put("other.log", Herd::new(Opening::new(4, 6, 2), []).log());
    for (call, parts) in SAID {
        let line = folder.refusal(call);
        let refused = number(&line).map(|number| number.to_string());
        assert_eq!(refused.as_deref(), parts.last().copied(), "{call}: {line}");
        let said = parts.iter().all(|part| line.contains(part));
        assert!(said, "{call}: {parts:?} in {line}");
    }
}

#[test]
fn removals_of_any_numbers() {
    let folder = Folder::new("removals_of_any_numbers");
    let mut random = Random::new(3202);
    let mut met = Met::default();
    for _ in 0..300 {
        let herd = herd(&mut random, &folder);
        let opening = herd.opening;
        let (from, to) = (animal(&mut random, opening), animal(&mut random, opening));
        let tick = tick(&mut random, opening);
        let held = herd.contacts().contains(&Contact::new(from, to, tick));
        let legal = check::contact(opening, from, to, tick).map(|_| ());
        let judged = legal.and(held.then_some(()).ok_or(21));
        folder.put("out.log", "as before");
        let call = format!("remove herd.log {from} {to} {tick} -o out.log");
        judge(&folder, &call, judged, &mut met);
    }
    met.at_least(&[("remove answered", 5), ("remove 7", 60), ("remove 8", 10)]);
    met.at_least(&[("remove 9", 15), ("remove 21", 30)]);
}

#[test]
fn joins_of_different_openings() {
    let folder = Folder::new("joins_of_different_openings");
    let mut random = Random::new(3203);
    let mut met = Met::default();
    for _ in 0..60 {
        let herd = drawn::herd(&mut random, Size::Small);
        let other = cases::other_opening(&mut random, herd.opening);
        folder.put("herd.log", herd.log());
        folder.put("other.log", Herd::new(other, []).log());
        folder.put("out.log", "as before");
        let call = random.one_of(&["herd.log other.log", "other.log herd.log"]);
        let call = format!("join {call} -o out.log");
        judge(&folder, &call, Err(17), &mut met);
        let call = "join herd.log herd.log other.log -o out.log";
        judge(&folder, call, Err(17), &mut met);
    }
    met.at_least(&[("join 17", 120)]);
}

#[test]
fn openings_at_their_limits() {
    let folder = Folder::new("openings_at_their_limits");
    let mut met = Met::default();
    let near = [0, 1, 2, 255, 256, 257, 1024, 1025, u32::MAX];
    for (place, number) in near.into_iter().enumerate() {
        for name in 0..3 {
            let mut numbers = [2, 3, 1];
            numbers[name] = number;
            let [animals, ticks, carry] = numbers;
            let limits = [256, 1024, 256];
            let good = 1 <= number && number <= limits[name];
            let judged = good.then_some(()).ok_or(name as u32 + 1);
            let opening = format!("--animals {animals} --ticks {ticks} --carry {carry}");
            let call = format!("load {opening} /dev/null -o out_{name}_{place}.log");
            judge(&folder, &call, judged, &mut met);
        }
    }
    met.at_least(&[
        ("load answered", 14),
        ("load 1", 5),
        ("load 2", 3),
        ("load 3", 5),
    ]);
}
