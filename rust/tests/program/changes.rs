//! What `join`, `remove` and `stays` write and tell, against the plain search; and every log through standard input and
//! output.

use crate::drawn;
use crate::met::Met;
use crate::readers;
use crate::run::Folder;
use crate::told::{self, counted, Herd};
use crate::yard::{yard, WRITING};
use herd_testing::cases;
use herd_testing::model;
use herd_testing::random::Random;
use herd_testing::words::Contact;

/// Compares a log with that of the herd.
#[track_caller]
fn same_log(folder: &Folder, file: &str, herd: &Herd) {
    assert!(
        folder.bytes(file) == herd.log(),
        "{file}: {:?}",
        herd.opening
    );
}

/// Another herd with the same opening, which has some of the first one's contacts too.
fn neighbour(random: &mut Random, herd: &Herd) -> Herd {
    let opening = herd.opening;
    let most = random.one_of(&[0, 8, 40]);
    let mut contacts = cases::log_contacts(random, opening, most);
    contacts.extend(herd.listed().into_iter().filter(|_| random.once_in(3)));
    Herd::new(opening, contacts)
}

#[test]
fn joined_logs() {
    let folder = Folder::new("joined_logs");
    let mut random = Random::new(3101);
    let mut met = Met::default();
    for size in drawn::sizes(108) {
        let first = drawn::herd(&mut random, size);
        folder.put("log_0", first.log());
        let mut told = format!("log_0: {}\n", counted(first.contacts().len(), "contact"));
        let mut both = first.with([]);
        let mut names = "log_0".to_string();
        for place in 1..=random.between(1, 3) {
            let name = format!("log_{place}");
            let other = neighbour(&mut random, &first);
            folder.put(
                &name,
                told::log_of(other.opening, drawn::mixed(&mut random, &other)),
            );
            let more = both.with(other.listed());
            let new = more.contacts().len() - both.contacts().len();
            let held = counted(other.contacts().len(), "contact");
            told += &format!("{name}: {held}, {new} of them new\n");
            names += &format!(" {name}");
            both = more;
            met.note_if(new > 0, "some new");
            met.note_if(new < other.contacts().len(), "some known");
        }
        let output = random.one_of(&["both.log", "both.log", "log_0", "log_1"]);
        let answer = folder.answer(&format!("join {names} -o {output}"));
        assert_eq!(answer, told + &both.about(output));
        same_log(&folder, output, &both);
        met.note(output);
    }
    met.at_least(&[("some new", 80), ("some known", 80)]);
    met.at_least(&[("both.log", 30), ("log_0", 10), ("log_1", 10)]);
}

#[test]
fn joining_leaves_the_other_logs() {
    let folder = Folder::new("joining_leaves_the_other_logs");
    let mut random = Random::new(3102);
    for size in drawn::sizes(18) {
        let first = drawn::herd(&mut random, size);
        let second = neighbour(&mut random, &first);
        folder.put("first.log", first.log());
        folder.put("second.log", second.log());
        folder.answer("join first.log second.log -o both.log");
        same_log(&folder, "first.log", &first);
        same_log(&folder, "second.log", &second);
        folder.answer("join second.log first.log -o turned.log");
        assert!(folder.bytes("both.log") == folder.bytes("turned.log"));
    }
}

#[test]
fn removed_contacts() {
    let folder = Folder::new("removed_contacts");
    let mut random = Random::new(3103);
    let mut met = Met::default();
    for size in drawn::sizes(108) {
        let mut herd = drawn::herd(&mut random, size);
        folder.put("herd.log", herd.log());
        for _ in 0..random.between(1, 4) {
            let listed = herd.listed();
            if listed.is_empty() {
                continue;
            }
            let contact = random.one_of(&listed);
            let Contact { from, to, tick } = contact;
            herd = herd.without(contact);
            let output = random.one_of(&["herd.log", "other.log"]);
            let answer = folder.answer(&format!("remove herd.log {from} {to} {tick} -o {output}"));
            let told = format!("removed {from} -> {to} at tick {tick}\n");
            assert_eq!(answer, told + &herd.about(output));
            same_log(&folder, output, &herd);
            folder.put("herd.log", herd.log());
            met.note(output);
            met.note_if(herd.contacts().is_empty(), "the last contact");
        }
    }
    met.at_least(&[("herd.log", 80), ("other.log", 80), ("the last contact", 2)]);
}

#[test]
fn contacts_of_stays() {
    let folder = Folder::new("contacts_of_stays");
    let mut random = Random::new(3104);
    let mut met = Met::default();
    for size in drawn::sizes(126) {
        let before = drawn::herd(&mut random, size);
        let most = random.one_of(&[2, 10, 40]);
        let stays = cases::stays(&mut random, before.opening, most);
        let after = before.with(model::met(&stays));
        let gate = readers::gate(&mut random, &stays);
        folder.put("herd.log", before.log());
        let output = random.one_of(&["herd.log", "other.log"]);
        let held = before.contacts().len();
        let told = format!(
            "{} read: {}, {}; {} more than the {held} before\n",
            counted(gate.lines(), "line"),
            counted(gate.records, "stay"),
            counted(gate.blank, "blank or comment line"),
            counted(after.contacts().len() - held, "contact"),
        );
        let through_input = random.once_in(3);
        let answer = if through_input {
            folder.run_on(
                &format!("stays herd.log - -o {output}"),
                gate.text.as_bytes(),
            )
        } else {
            folder.put("gate.txt", &gate.text);
            folder.run(&format!("stays herd.log gate.txt -o {output}"))
        };
        assert_eq!(answer.answer(), told + &after.about(output));
        same_log(&folder, output, &after);
        met.note(output);
        met.note_if(through_input, "standard input");
        met.note_if(after.contacts().len() > held, "some new");
        met.note_if(after.contacts().len() == held, "none new");
    }
    met.at_least(&[("herd.log", 40), ("other.log", 40), ("standard input", 30)]);
    met.at_least(&[("some new", 50), ("none new", 30)]);
}

/// Every call that reads a log from standard input, with the answer that it gives where a file of this name is read.
const FROM_INPUT: [&str; 9] = [
    "sheet @",
    "contacts @",
    "trace @ 0",
    "back @ 3 --last 5",
    "ask @ 0 3",
    "join @ other.log -o out.log",
    "join other.log @ -o out.log",
    "remove @ 0 1 1 -o out.log",
    "stays @ gate.txt -o out.log",
];

#[test]
fn logs_from_standard_input() {
    let folder = yard("logs_from_standard_input");
    let log = folder.bytes("herd.log");
    for call in FROM_INPUT {
        let from_file = folder.answer(&call.replace('@', "herd.log"));
        let written = call.ends_with("out.log").then(|| folder.bytes("out.log"));
        let from_input = folder.run_on(&call.replace('@', "-"), &log);
        let named = from_input.answer().replace("standard input", "herd.log");
        assert_eq!(named, from_file, "{call}");
        if let Some(written) = written {
            assert!(folder.bytes("out.log") == written, "{call}");
        }
    }
}

#[test]
fn logs_to_standard_output() {
    let folder = yard("logs_to_standard_output");
    for call in WRITING.iter().filter(|call| call.ends_with("-o @")) {
        let told = folder.answer(&call.replace('@', "out.log"));
        let outcome = folder.run(&call.replace('@', "-"));
        assert_eq!(outcome.status, 0, "{call}");
        assert!(outcome.output == folder.bytes("out.log"), "{call}");
        let named = outcome.complaint.replace("standard output", "out.log");
        assert_eq!(named, told, "{call}");
    }
}
