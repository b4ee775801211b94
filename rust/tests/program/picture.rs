//! The pictures of `trace` and `back`.

use crate::drawn::{self, Asked, Size};
use crate::met::Met;
use crate::run::Folder;
use crate::told::{Herd, Way, WAYS};
use crate::traced::Traced;
use herd::Herd as Library;
use herd_testing::random::Random;
use herd_testing::words::{contacts, Contact, Opening, Window};

/// The window as two options.
fn asked(first: u32, last: u32) -> Asked {
    Asked {
        window: Window::new(first, last),
        options: format!("--first {first} --last {last}"),
    }
}

/// A drawn herd of four animals or more.
fn herd(random: &mut Random, size: Size) -> Herd {
    loop {
        let herd = drawn::herd(random, size);
        if herd.opening.animals >= 4 {
            return herd;
        }
    }
}

#[test]
fn pictures_of_drawn_herds() {
    let folder = Folder::new("pictures_of_drawn_herds");
    let mut random = Random::new(3501);
    let mut met = Met::default();
    for size in drawn::sizes(135) {
        let herd = herd(&mut random, size);
        for way in WAYS {
            let animal = random.between(0, herd.opening.animals - 1);
            let asked = drawn::window(&mut random, herd.opening);
            let traced = Traced::draw(&folder, &herd, way, animal, &asked);
            traced.compare();
            let steps: usize = traced.found.iter().map(|found| found.chain.len()).sum();
            let shared = steps > traced.drawing.arrows.len();
            met.note_if(traced.found.is_empty(), "none");
            met.note_if(shared, "a contact of two chains");
            met.note_if(traced.found.len() > 12, "many lanes");
            met.note(format!("{way:?}"));
        }
    }
    met.at_least(&[("Trace", 135), ("Back", 135), ("none", 40)]);
    met.at_least(&[("a contact of two chains", 60), ("many lanes", 5)]);
}

#[test]
fn a_lane_for_each_of_sixty_animals() {
    let folder = Folder::new("a_lane_for_each_of_sixty_animals");
    for (animals, carry) in [
        (12, 1),
        (13, 2),
        (14, 3),
        (30, 1),
        (31, 4),
        (32, 1),
        (60, 2),
    ] {
        let meetings = (1..animals).flat_map(|other| {
            let met = Contact::new(0, other, 3 * other);
            [met, met.back()]
        });
        let herd = Herd::new(Opening::new(animals, 200, carry), meetings);
        for way in WAYS {
            let traced = Traced::draw(&folder, &herd, way, 0, &asked(1, 200));
            assert_eq!(traced.found.len() as u32, animals - 1);
            traced.compare();
        }
    }
}

#[test]
fn pictures_of_windows_at_their_limits() {
    let folder = Folder::new("pictures_of_windows_at_their_limits");
    let row = contacts([(0, 1, 1), (1, 2, 257), (2, 3, 1024), (3, 4, 1024)]);
    for (ticks, carry, first, last, found) in [
        (1024, 256, 1, 1024, 3),
        (1024, 1, 1, 1024, 3),
        (1024, 256, 1, 257, 2),
        (1024, 3, 1, 1, 1),
        (1024, 256, 1, 1, 1),
        (1024, 1, 2, 2, 0),
        (1024, 256, 1024, 1024, 0),
        (1024, 1, 1024, 1024, 0),
    ] {
        let herd = Herd::new(Opening::new(5, ticks, carry), row);
        let traced = Traced::draw(&folder, &herd, Way::Trace, 0, &asked(first, last));
        assert_eq!(traced.found.len(), found, "{first} to {last}");
        traced.compare();
    }
    for (ticks, first, last, animal, found) in [(1024, 1024, 1024, 4, 1), (1024, 1, 1024, 3, 3)] {
        let herd = Herd::new(Opening::new(5, ticks, 256), row);
        let traced = Traced::draw(&folder, &herd, Way::Back, animal, &asked(first, last));
        assert_eq!(traced.found.len(), found, "{first} to {last}");
        traced.compare();
    }
    let alone = Herd::new(Opening::new(1, 1, 1), []);
    for way in WAYS {
        Traced::draw(&folder, &alone, way, 0, &asked(1, 1)).compare();
    }
}

#[test]
fn texts_end_inside_the_picture() {
    let folder = Folder::new("texts_end_inside_the_picture");
    let mut random = Random::new(3502);
    for size in drawn::sizes(45) {
        let herd = herd(&mut random, size);
        for way in WAYS {
            let animal = random.between(0, herd.opening.animals - 1);
            let asked = drawn::window(&mut random, herd.opening);
            let traced = Traced::draw(&folder, &herd, way, animal, &asked);
            traced.drawing.texts_end_inside();
        }
    }
}

#[test]
fn the_library_finds_the_same_chains() {
    let mut random = Random::new(3503);
    let mut met = Met::default();
    for size in drawn::sizes(90) {
        let herd = herd(&mut random, size);
        let library = Library::read_log(&herd.log()[..]).expect("a good log");
        let animal = random.between(0, herd.opening.animals - 1);
        let window = drawn::window(&mut random, herd.opening).window;
        for way in WAYS {
            let ticks = window.first..=window.last;
            let found = match way {
                Way::Trace => library.trace(animal, ticks),
                Way::Back => library.trace_back(animal, ticks),
            };
            let found = found.expect("a good window").into_iter();
            let found: Vec<_> = found
                .map(|one| (one.animal, one.interval, one.chain))
                .collect();
            let plain = herd.found(way, animal, window).into_iter();
            let plain: Vec<_> = plain
                .map(|one| (one.animal, one.interval, one.chain))
                .collect();
            met.note_if(plain.len() > 1, "some");
            assert_eq!(found, plain, "{way:?} {animal} {window:?}");
        }
    }
    met.at_least(&[("some", 80)]);
}
