//! Bad lines: each is named with its file, its number and the reason, and nothing is written unless they are skipped.

use crate::bad_lines::{Bad, NO_CONTACTS, NO_NUMBERS, NO_STAYS};
use crate::readers::loaded;
use crate::run::{Folder, Outcome};
use crate::told::{self, Herd};
use crate::yard::OPENING;
use herd_testing::model;
use herd_testing::random::Random;
use herd_testing::words::{contacts, stays, Contact};

/// The call that loads reader files of this herd.
const LOAD: &str = "load --animals 4 --ticks 6 --carry 1 -o out.log";
/// What is told behind a bad line of a reader file, or behind the number of them.
const NOTHING_WRITTEN: &str = "nothing was written (--skip-bad passes over such lines)";
/// So many bad lines are named where nothing is written.
const NAMED: usize = 20;
/// The bytes of the longest line that is taken, its end among them.
const LONGEST: usize = 65_536;

/// The contacts of the good lines; one of them comes twice.
fn good_contacts() -> Vec<Contact> {
    contacts([(0, 1, 1), (1, 3, 4), (3, 2, 6), (0, 1, 1), (2, 0, 5)]).to_vec()
}

/// The good lines of a reader file.
fn good_readers() -> Vec<String> {
    good_contacts().iter().map(told::line).collect()
}

/// The herd of the good lines.
fn good_herd() -> Herd {
    Herd::new(OPENING, good_contacts())
}

/// A folder with a file in the place of the log.
fn folder(name: &str) -> Folder {
    let folder = Folder::new(name);
    folder.put("out.log", "as before");
    folder
}

/// A text with the good lines, and these bad ones among them in order; and the numbers of the bad ones.
fn mixed(random: &mut Random, good: &[String], bad: &[&[u8]]) -> (Vec<u8>, Vec<usize>) {
    let (mut text, mut numbers) = (Vec::new(), Vec::new());
    let (mut good, mut bad) = (good.iter(), bad.iter());
    for number in 1..=good.len() + bad.len() {
        let is_good = random.below(good.len() + bad.len()) < good.len();
        let line = if is_good { good.next() } else { None };
        match line {
            Some(line) => text.extend(line.bytes()),
            None => {
                numbers.push(number);
                text.extend(bad.next().expect("a bad line").iter());
                text.push(b'\n');
            }
        }
    }
    if random.once_in(2) {
        text.pop();
    }
    (text, numbers)
}

/// The reason of a complaint about a line of a file, which says all these parts and cannot disturb a terminal.
#[track_caller]
fn reason<'a>(complaint: &'a str, file: &str, number: usize, parts: &[&str]) -> &'a str {
    let reason = complaint.strip_prefix(&format!("{file}:{number}: "));
    let reason = reason.unwrap_or_else(|| panic!("{file}:{number}: {complaint}"));
    let said = parts.iter().all(|part| reason.contains(part));
    assert!(said, "{parts:?} in {reason}");
    assert!(!reason.contains(char::is_control), "{reason:?}");
    assert!(reason.len() < 240, "{reason}");
    reason
}

/// The reason for which a line was skipped, which says all these parts.
#[track_caller]
fn skipped<'a>(complaint: &'a str, number: usize, parts: &[&str]) -> &'a str {
    let line = complaint.strip_prefix("skipped ");
    let line = line.unwrap_or_else(|| panic!("{complaint}"));
    reason(line, "reader.txt", number, parts)
}

/// Compares what is told of the herd's log, and the log, where so many records and blank lines were read and bad ones skipped.
#[track_caller]
fn wrote(folder: &Folder, outcome: &Outcome, herd: &Herd, lines: [usize; 3]) {
    let [records, blank, bad] = lines;
    let told = loaded(records, blank, herd.contacts().len(), Some(bad));
    let told = told + &herd.about("out.log");
    let answer = String::from_utf8_lossy(&outcome.output);
    assert_eq!((outcome.status, answer.as_ref()), (0, told.as_str()));
    assert!(folder.bytes("out.log") == herd.log(), "{outcome}");
}

/// All lines that are no contact.
fn no_contacts() -> Vec<Bad> {
    [&NO_NUMBERS[..], &NO_CONTACTS[..]].concat()
}

#[test]
fn a_bad_line_is_named() {
    let folder = folder("a_bad_line_is_named");
    let mut random = Random::new(3301);
    let herd = good_herd();
    for (bad, parts) in no_contacts() {
        let (text, numbers) = mixed(&mut random, &good_readers(), &[bad]);
        folder.put("reader.txt", &text);
        folder.put("out.log", "as before");
        let line = folder.refusal(&format!("{LOAD} reader.txt"));
        let refused = reason(&line, "reader.txt", numbers[0], parts);
        let refused = refused.strip_suffix(&format!("; {NOTHING_WRITTEN}"));
        let skipping = folder.run(&format!("{LOAD} --skip-bad reader.txt"));
        let complaints = skipping.complaints();
        assert_eq!(complaints.len(), 1, "{skipping}");
        let reason = skipped(complaints[0], numbers[0], parts);
        assert_eq!(Some(reason), refused);
        wrote(&folder, &skipping, &herd, [5, 0, 1]);
    }
}

#[test]
fn a_bad_line_is_named_with_its_own_file() {
    let folder = folder("a_bad_line_is_named_with_its_own_file");
    folder.put("good.txt", "0 1 1\n1 0 1\n");
    folder.put("bad.txt", "# a note\n\n0 1 1\r\n0 1 7\r\n");
    let call = format!("{LOAD} good.txt bad.txt -");
    let before = folder.kept();
    let read = folder.run_on(&call, b"0 1 2");
    reason(read.refusal(), "bad.txt", 4, &["tick 7"]);
    let read = folder.run_on(&call, b"0 1 2\n9 1 2");
    let lines = read.refusals();
    reason(lines[0], "bad.txt", 4, &["tick 7"]);
    reason(lines[1], "standard input", 2, &["no animal 9"]);
    assert_eq!(lines[2], format!("2 bad lines in all, {NOTHING_WRITTEN}"));
    let other = format!("{LOAD} - ./good.txt");
    let read = folder.run_on(&other, b"0 1 2\n9 1 2");
    reason(read.refusal(), "standard input", 2, &["no animal 9"]);
    assert!(folder.kept() == before);
}

/// So many of these bad lines, in any order.
fn draw(random: &mut Random, bad: &[Bad], number: usize) -> Vec<Bad> {
    (0..number).map(|_| random.one_of(bad)).collect()
}

/// The lines alone.
fn alone(bad: &[Bad]) -> Vec<&'static [u8]> {
    bad.iter().map(|bad| bad.0).collect()
}

/// Makes a call that is refused for these bad lines of a file: the first of them are named, and all are counted.
#[track_caller]
fn refuse_all(folder: &Folder, call: &str, file: &str, bad: &[Bad], numbers: &[usize]) -> String {
    let before = folder.kept();
    let refusing = folder.run(call);
    assert!(folder.kept() == before, "{call}: files changed");
    let mut named = refusing.refusals();
    let last = named.pop().expect("a line");
    assert_eq!(named.len(), bad.len().min(NAMED));
    for ((line, number), bad) in named.iter().zip(numbers).zip(bad) {
        reason(line, file, *number, bad.1);
    }
    last.to_string()
}

#[test]
fn many_bad_lines() {
    let folder = folder("many_bad_lines");
    let mut random = Random::new(3302);
    let herd = good_herd();
    for number in [2, 3, 19, 20, 21, 22, 40, 500] {
        let bad = draw(&mut random, &no_contacts(), number);
        let (text, numbers) = mixed(&mut random, &good_readers(), &alone(&bad));
        folder.put("reader.txt", &text);
        folder.put("out.log", "as before");
        let call = format!("{LOAD} reader.txt");
        let last = refuse_all(&folder, &call, "reader.txt", &bad, &numbers);
        assert_eq!(
            last,
            format!("{number} bad lines in all, {NOTHING_WRITTEN}")
        );
        let skipping = folder.run(&format!("{call} --skip-bad"));
        let complaints = skipping.complaints();
        assert_eq!(complaints.len(), number);
        for ((line, number), bad) in complaints.iter().zip(&numbers).zip(&bad) {
            skipped(line, *number, bad.1);
        }
        wrote(&folder, &skipping, &herd, [5, 0, number]);
    }
}

#[test]
fn skipping_none_and_all() {
    let folder = folder("skipping_none_and_all");
    folder.put("good.txt", good_readers().concat());
    let none = folder.run(&format!("{LOAD} --skip-bad good.txt"));
    assert_eq!(none.complaint, "");
    wrote(&folder, &none, &good_herd(), [5, 0, 0]);
    folder.put("bad.txt", "no contact\n\n4 4 4\n");
    let all = folder.run(&format!("{LOAD} --skip-bad bad.txt"));
    assert_eq!(all.complaints().len(), 2, "{all}");
    wrote(&folder, &all, &Herd::new(OPENING, []), [0, 1, 2]);
}

#[test]
fn the_longest_line() {
    let folder = folder("the_longest_line");
    let padded = |bytes: usize| format!("0 1 1{}\n", " ".repeat(bytes - 6));
    folder.put("long.txt", format!("1 0 1\n{}", padded(LONGEST)));
    let herd = Herd::new(OPENING, contacts([(1, 0, 1), (0, 1, 1)]));
    let told = loaded(2, 0, 2, None) + &herd.about("out.log");
    assert_eq!(folder.answer(&format!("{LOAD} long.txt")), told);
    for call in [LOAD.to_string(), format!("{LOAD} --skip-bad")] {
        for bytes in [LONGEST + 1, 10 * LONGEST] {
            folder.put("longer.txt", format!("1 0 1\n{}", padded(bytes)));
            let line = folder.refusal(&format!("{call} longer.txt"));
            let parts = ["more than 65536 bytes", "no text file"];
            reason(&line, "longer.txt", 2, &parts);
        }
    }
}

#[test]
fn a_bad_stay_is_named() {
    let folder = folder("a_bad_stay_is_named");
    let mut random = Random::new(3303);
    let herd = good_herd();
    folder.put("herd.log", herd.log());
    let good = stays([(0, 9, 1, 3), (1, 9, 3, 6), (2, 63, 1, 6), (3, 0, 2, 2)]);
    let lines = good.map(|stay| {
        format!(
            "{},{} {} {}\n",
            stay.animal, stay.pen, stay.first, stay.last
        )
    });
    for (bad, parts) in NO_STAYS {
        let (text, numbers) = mixed(&mut random, &lines, &[bad]);
        folder.put("gate.txt", &text);
        for output in ["out.log", "herd.log", "new.log"] {
            let line = folder.refusal(&format!("stays herd.log gate.txt -o {output}"));
            let refused = reason(&line, "gate.txt", numbers[0], parts);
            assert!(refused.ends_with("; nothing was written"), "{refused}");
        }
    }
    folder.put("gate.txt", lines.concat());
    let after = herd.with(model::met(&good));
    assert!(after.contacts().len() > herd.contacts().len());
    folder.answer("stays herd.log gate.txt -o new.log");
    assert!(folder.bytes("new.log") == after.log());
}

#[test]
fn many_bad_stays() {
    let folder = folder("many_bad_stays");
    let mut random = Random::new(3304);
    folder.put("herd.log", good_herd().log());
    for number in [2, 20, 21, 100] {
        let bad = draw(&mut random, &NO_STAYS, number);
        let good = ["0 9 1 2\n".to_string()];
        let (text, numbers) = mixed(&mut random, &good, &alone(&bad));
        folder.put("gate.txt", &text);
        let call = "stays herd.log gate.txt -o out.log";
        let last = refuse_all(&folder, call, "gate.txt", &bad, &numbers);
        assert_eq!(
            last,
            format!("{number} bad lines in all, nothing was written")
        );
    }
}
