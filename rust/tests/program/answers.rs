//! What `load`, `sheet`, `contacts`, `trace`, `back` and `ask` print and write, against the plain search.

use crate::drawn;
use crate::met::Met;
use crate::readers;
use crate::run::Folder;
use crate::told::{self, Herd, WAYS};
use herd_testing::cases;
use herd_testing::program::Program;
use herd_testing::random::Random;
use herd_testing::sheet::{MOST_ANIMALS, MOST_BYTES, MOST_TICKS};
use herd_testing::words::{Contact, Opening, Window};

/// The proved printing program.
const PRINTING: Program = Program {
    name: "sheet",
    reads: MOST_BYTES,
};

/// Loads a text with a plain line for each of these contacts, and compares the log and what is told of it.
#[track_caller]
fn load(folder: &Folder, herd: &Herd, noted: &[Contact]) {
    folder.put(
        "reader.txt",
        noted.iter().map(told::line).collect::<String>(),
    );
    let answer = folder.answer(&format!("load {} reader.txt -o herd.log", herd.numbers()));
    let loaded = readers::loaded(noted.len(), 0, herd.contacts().len(), None);
    assert_eq!(answer, loaded + &herd.about("herd.log"));
    assert!(folder.bytes("herd.log") == herd.log(), "{:?}", herd.opening);
}

/// Whether the printing program takes the log of the herd.
fn prints(herd: &Herd) -> bool {
    let opening = herd.opening;
    let small = opening.animals <= MOST_ANIMALS && opening.ticks <= MOST_TICKS;
    small && herd.log().len() <= MOST_BYTES
}

#[test]
fn loaded_herds_and_their_sheets() {
    let folder = Folder::new("loaded_herds_and_their_sheets");
    let mut random = Random::new(3001);
    let mut met = Met::default();
    for size in drawn::sizes(225) {
        let herd = drawn::herd(&mut random, size);
        let noted = drawn::mixed(&mut random, &herd);
        load(&folder, &herd, &noted);
        assert_eq!(folder.answer("sheet herd.log"), herd.sheet());
        assert_eq!(folder.answer("contacts herd.log"), herd.lines());
        met.note(format!("{size:?}"));
        met.note_if(herd.opening.animals == 1, "one animal");
        met.note_if(herd.contacts().is_empty(), "no contact");
        met.note_if(noted.len() > herd.contacts().len(), "repeats");
        let joined = cases::has_joined(herd.opening, herd.cells());
        met.note_if(joined, "journeys");
    }
    met.at_least(&[("Small", 100), ("Middle", 100), ("Large", 25)]);
    met.at_least(&[("one animal", 5), ("no contact", 8)]);
    met.at_least(&[("repeats", 150), ("journeys", 100)]);
}

#[test]
fn sheets_of_the_printing_program() {
    let folder = Folder::new("sheets_of_the_printing_program");
    let mut random = Random::new(3008);
    let mut met = Met::default();
    for size in drawn::sizes(180) {
        let herd = drawn::herd(&mut random, size);
        if !prints(&herd) {
            continue;
        }
        folder.put("herd.log", herd.log());
        let printed = PRINTING.written_for_file(&folder.path("herd.log"));
        assert_eq!(folder.answer("sheet herd.log").as_bytes(), printed);
        met.note(format!("{size:?}"));
    }
    met.at_least(&[("Small", 80), ("Middle", 40)]);
}

#[test]
fn contacts_load_again() {
    let folder = Folder::new("contacts_load_again");
    let mut random = Random::new(3002);
    for size in drawn::sizes(36) {
        let herd = drawn::herd(&mut random, size);
        folder.put("herd.log", herd.log());
        folder.put("again.txt", folder.answer("contacts herd.log"));
        folder.answer(&format!("load {} again.txt -o again.log", herd.numbers()));
        assert!(folder.bytes("again.log") == herd.log());
    }
}

#[test]
fn logs_in_any_order_with_repeats() {
    let folder = Folder::new("logs_in_any_order_with_repeats");
    let mut random = Random::new(3003);
    let mut met = Met::default();
    for size in drawn::sizes(45) {
        let herd = drawn::herd(&mut random, size);
        let mixed = drawn::mixed(&mut random, &herd);
        let log = told::log_of(herd.opening, mixed);
        met.note_if(log != herd.log(), "another log");
        folder.put("mixed.log", &log);
        assert_eq!(folder.answer("sheet mixed.log"), herd.sheet());
        assert_eq!(folder.answer("contacts mixed.log"), herd.lines());
        let read = folder.run_on("sheet -", &log);
        assert_eq!(read.answer(), herd.sheet());
    }
    met.at_least(&[("another log", 35)]);
}

/// Contacts as they are written into reader files and to standard input.
struct Written {
    names: Vec<String>,
    input: String,
    records: usize,
    blank: usize,
}

/// Writes the contacts into one to four texts of any form, one of which may be for standard input.
fn write_apart(random: &mut Random, folder: &Folder, noted: &[Contact]) -> Written {
    let parts = random.between(1, 4) as usize;
    let for_input = random.below(parts + 1);
    let mut written = Written {
        names: Vec::new(),
        input: String::new(),
        records: 0,
        blank: 0,
    };
    for place in 0..parts {
        let some = &noted[noted.len() * place / parts..noted.len() * (place + 1) / parts];
        let text = readers::reader(random, some);
        written.records += text.records;
        written.blank += text.blank;
        if place == for_input {
            written.names.push("-".into());
            written.input = text.text;
        } else {
            written.names.push(format!("part_{place}.txt"));
            folder.put(&written.names[place], text.text);
        }
    }
    written
}

#[test]
fn reader_files_in_any_form() {
    let folder = Folder::new("reader_files_in_any_form");
    let mut random = Random::new(3004);
    let mut met = Met::default();
    for size in drawn::sizes(180) {
        let herd = drawn::herd(&mut random, size);
        let noted = drawn::mixed(&mut random, &herd);
        let written = write_apart(&mut random, &folder, &noted);
        let names = written.names.join(" ");
        let call = format!("load {} {names} -o herd.log", herd.numbers());
        let read = folder.run_on(&call, written.input.as_bytes());
        let different = herd.contacts().len();
        let loaded = readers::loaded(written.records, written.blank, different, None);
        assert_eq!(read.answer(), loaded + &herd.about("herd.log"));
        assert!(folder.bytes("herd.log") == herd.log(), "{call}");
        met.note(format!("{} files", written.names.len()));
        met.note_if(!written.input.is_empty(), "standard input");
        met.note_if(written.input.starts_with('\u{FEFF}'), "byte order mark");
        met.note_if(!written.input.ends_with('\n'), "no end of the last line");
        met.note_if(written.input.contains("\r\n"), "two letters end a line");
    }
    met.at_least(&[("1 files", 25), ("2 files", 25), ("3 files", 25)]);
    met.at_least(&[("standard input", 80), ("byte order mark", 15)]);
    met.at_least(&[("no end of the last line", 15)]);
    met.at_least(&[("two letters end a line", 60)]);
}

#[test]
fn traced_animals() {
    let folder = Folder::new("traced_animals");
    let mut random = Random::new(3005);
    let mut met = Met::default();
    for size in drawn::sizes(180) {
        let herd = drawn::herd(&mut random, size);
        folder.put("herd.log", herd.log());
        for way in WAYS {
            for _ in 0..3 {
                let animal = random.between(0, herd.opening.animals - 1);
                let asked = drawn::window(&mut random, herd.opening);
                let command = way.command();
                let call = format!("{command} herd.log {animal} {}", asked.options);
                let table = folder.answer(&call);
                assert_eq!(table, herd.table(way, animal, asked.window), "{call}");
                let lines = table.lines().count();
                met.note_if(lines == 1, &format!("{command} none"));
                met.note_if(lines > 2, &format!("{command} some"));
                met.note_if(lines > 12, &format!("{command} many"));
                met.note_if(table.contains(", "), &format!("{command} through two"));
            }
        }
    }
    for command in ["trace", "back"] {
        for (kind, times) in [
            ("none", 80),
            ("some", 300),
            ("many", 15),
            ("through two", 50),
        ] {
            met.at_least(&[(&format!("{command} {kind}"), times)]);
        }
    }
}

#[test]
fn answered_questions() {
    let folder = Folder::new("answered_questions");
    let mut random = Random::new(3006);
    let mut met = Met::default();
    for size in drawn::sizes(144) {
        let herd = drawn::herd(&mut random, size);
        if herd.opening.animals == 1 {
            continue;
        }
        folder.put("herd.log", herd.log());
        for _ in 0..8 {
            let (from, to) = cases::pair(&mut random, herd.opening);
            let asked = drawn::window(&mut random, herd.opening);
            let call = format!("ask {} herd.log {from} {to}", asked.options);
            let answer = folder.answer(&call);
            assert_eq!(answer, herd.answer(from, to, asked.window), "{call}");
            met.note(format!("chain of {}", answer.lines().count() - 1));
        }
    }
    met.at_least(&[("chain of 0", 300), ("chain of 1", 300)]);
    met.at_least(&[("chain of 2", 60), ("chain of 3", 20)]);
}

#[test]
fn the_largest_herd() {
    let folder = Folder::new("the_largest_herd");
    let contacts = [(0, 255, 1), (255, 7, 257), (7, 254, 1024), (3, 7, 768)];
    let herd = Herd::new(
        Opening::new(256, 1024, 256),
        contacts.map(|(from, to, tick)| Contact::new(from, to, tick)),
    );
    load(&folder, &herd, &herd.listed());
    assert_eq!(folder.answer("contacts herd.log"), herd.lines());
    let window = Window::whole(herd.opening);
    let answer = herd.answer(0, 254, window);
    assert_eq!(answer.lines().count(), 4);
    assert_eq!(folder.answer("ask herd.log 0 254"), answer);
}

#[test]
fn millions_of_repeats() {
    let folder = Folder::new("millions_of_repeats");
    let mut random = Random::new(3007);
    let opening = Opening::new(5, 9, 2);
    let herd = Herd::new(opening, cases::following_contacts(&mut random, opening, 60));
    let listed = herd.listed();
    let (once, others) = listed.split_last().expect("a contact");
    let mut text = told::line(once);
    let number = (1 << 22) + 12_345;
    for place in 1..number {
        text += &told::line(&others[place * 7 % others.len()]);
    }
    let load = format!("load {} - -o herd.log", herd.numbers());
    let read = folder.run_on(&load, text.as_bytes());
    let loaded = readers::loaded(number, 0, listed.len(), None);
    assert_eq!(read.answer(), loaded + &herd.about("herd.log"));
    assert!(folder.bytes("herd.log") == herd.log());
}
