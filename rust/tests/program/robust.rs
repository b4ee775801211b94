//! Files that are no logs and no reader files: every command refuses them in one line, and leaves every file as it was.

use crate::drawn::{self, Size};
use crate::met::Met;
use crate::run::Folder;
use crate::told::{self, Herd, Way};
use crate::yard::{herd, yard, OPENING};
use herd_testing::check;
use herd_testing::random::Random;
use herd_testing::sheet;
use herd_testing::words::{self, Opening, Window};
use std::fs::{self, File};
use std::os::unix::fs::PermissionsExt;

/// Every command that reads a log, with the log in each of its places.
const READING: [&str; 12] = [
    "stays @ gate.txt -o out.log",
    "join @ herd.log -o out.log",
    "join herd.log @ -o out.log",
    "join herd.log herd.log @ -o old.log",
    "remove @ 0 1 1 -o out.log",
    "trace @ 0",
    "trace @ 0 --svg out.svg",
    "back @ 3",
    "back @ 3 --svg old.log",
    "ask @ 0 3",
    "sheet @",
    "contacts @",
];

/// Every command that reads lines, with the file in each of its places.
const READING_LINES: [&str; 4] = [
    "load --animals 4 --ticks 6 --carry 1 @ -o out.log",
    "load --animals 4 --ticks 6 --carry 1 reader.txt @ -o old.log",
    "load --animals 4 --ticks 6 --carry 1 --skip-bad @ -o out.log",
    "stays herd.log @ -o out.log",
];

/// Leaves a program too little memory for the largest table.
const LITTLE_MEMORY: &str = "ulimit -v 150000";

/// What the checks say of these bytes as a log: the herd, or the end of the line that refuses them.
fn judge(bytes: &[u8]) -> Result<Herd, String> {
    let refused = |number: u32| format!("(refusal {number})");
    let log: Vec<u32> = bytes.chunks_exact(4).map(word).collect();
    let first = log.first().copied();
    if first.is_some_and(|first| words::read_opening(first).is_none()) {
        return Err(refused(11));
    }
    if !bytes.len().is_multiple_of(4) {
        return Err(format!("its {} bytes are no multiple of 4", bytes.len()));
    }
    let opening = check::log_opening(&log).map_err(refused)?;
    let contacts = check::log_contacts(opening, &log).map_err(refused)?;
    Ok(Herd::new(opening, contacts))
}

/// The word of four bytes.
fn word(bytes: &[u8]) -> u32 {
    bytes
        .iter()
        .fold(0, |word, &byte| word << 8 | u32::from(byte))
}

/// Makes every call that reads a log on these bytes: the outcome is what the checks say.
#[track_caller]
fn read_as_log(folder: &Folder, bytes: &[u8], met: &mut Met) {
    folder.put("odd.log", bytes);
    match judge(bytes) {
        Ok(herd) => {
            assert_eq!(folder.answer("sheet odd.log"), herd.sheet());
            assert_eq!(folder.answer("contacts odd.log"), herd.lines());
            let whole = Window::whole(herd.opening);
            let traced = herd.table(Way::Trace, 0, whole);
            assert_eq!(folder.answer("trace odd.log 0"), traced);
            for call in READING {
                let outcome = folder.run(&call.replace('@', "odd.log"));
                assert_ne!(outcome.status, 2, "{outcome}");
                let refused = outcome.status == 1;
                assert!(!refused || !outcome.refusal().is_empty(), "{outcome}");
            }
            let _ = fs::remove_file(folder.path("out.log"));
            let _ = fs::remove_file(folder.path("out.svg"));
            folder.put("old.log", "as before");
            met.note("read");
        }
        Err(end) => {
            refuse_log(folder, "odd.log", &end);
            met.note(end);
        }
    }
}

/// Makes every call that reads a log on a file that is none: each is refused with a line that names the file and ends so.
#[track_caller]
fn refuse_log(folder: &Folder, file: &str, end: &str) {
    for call in READING {
        let line = folder.refusal(&call.replace('@', file));
        let named = line.starts_with(&format!("{file}: ")) && line.ends_with(end);
        assert!(named, "{call}: {file}: {line}");
    }
}

#[test]
fn cut_logs() {
    let folder = yard("cut_logs");
    let mut met = Met::default();
    let log = herd().log();
    for end in 0..=log.len() {
        read_as_log(&folder, &log[..end], &mut met);
    }
    met.at_least(&[("read", 1), ("(refusal 11)", 2), ("(refusal 14)", 3)]);
    met.at_least(&[("its 7 bytes are no multiple of 4", 1)]);
}

#[test]
fn turned_bits() {
    let folder = yard("turned_bits");
    let mut met = Met::default();
    let log = herd().log();
    for bit in 0..8 * log.len() {
        let mut turned = log.clone();
        turned[bit / 8] ^= 0x80 >> (bit % 8);
        read_as_log(&folder, &turned, &mut met);
    }
    met.at_least(&[("read", 20), ("(refusal 11)", 6), ("(refusal 12)", 18)]);
    met.at_least(&[("(refusal 13)", 20), ("(refusal 14)", 32)]);
}

#[test]
fn random_bytes() {
    let folder = yard("random_bytes");
    let mut random = Random::new(3401);
    let mut met = Met::default();
    for _ in 0..60 {
        let length = random.one_of(&[1, 4, 8, 9, 40, 200]);
        let mut bytes: Vec<u8> = (0..length).map(|_| random.word() as u8).collect();
        if length >= 4 && !random.once_in(3) {
            let herd = drawn::herd(&mut random, Size::Small);
            bytes[..4].copy_from_slice(&herd.log()[..4]);
        }
        read_as_log(&folder, &bytes, &mut met);
    }
    met.at_least(&[
        ("(refusal 11)", 5),
        ("(refusal 12)", 5),
        ("(refusal 14)", 2),
    ]);
}

#[test]
fn files_that_are_no_logs() {
    let folder = yard("files_that_are_no_logs");
    fs::create_dir(folder.path("some")).expect("a folder");
    folder.put("empty.log", "");
    for (file, end) in [
        ("empty.log", "(refusal 11)"),
        ("some", "Is a directory"),
        ("none.log", "No such file or directory"),
        ("some/none.log", "No such file or directory"),
        ("herd.log/none.log", "Not a directory"),
        ("/dev/null", "(refusal 11)"),
        ("/dev/zero", "(refusal 11)"),
        ("reader.txt", "(refusal 11)"),
        ("gate.txt", "(refusal 11)"),
    ] {
        refuse_log(&folder, file, end);
    }
}

#[test]
fn files_that_are_no_reader_files() {
    let folder = yard("files_that_are_no_reader_files");
    fs::create_dir(folder.path("some")).expect("a folder");
    for (file, parts) in [
        ("some", ["some: ", "Is a directory"]),
        ("none.txt", ["none.txt: ", "No such file or directory"]),
        ("herd.log/none", ["herd.log/none: ", "Not a directory"]),
        ("/dev/zero", ["/dev/zero:1: ", "no text file"]),
    ] {
        for call in READING_LINES {
            let line = folder.refusal(&call.replace('@', file));
            let said = line.starts_with(parts[0]) && line.contains(parts[1]);
            assert!(said, "{call}: {file}: {line}");
        }
    }
    for call in READING_LINES
        .iter()
        .filter(|call| !call.contains("--skip-bad"))
    {
        let line = folder.refusal(&call.replace('@', "herd.log"));
        assert!(line.starts_with("herd.log:1: "), "{call}: {line}");
    }
}

#[test]
fn random_bytes_as_reader_files() {
    let folder = yard("random_bytes_as_reader_files");
    let mut random = Random::new(3402);
    let mut met = Met::default();
    for _ in 0..60 {
        let length = random.one_of(&[1, 20, 500, 5000]);
        let letters: &[u8] = random.one_of(&[&b"0123 ,\n"[..], b"01,- \n#\t\r", b"\0\xFF\x1B\n "]);
        let bytes: Vec<u8> = (0..length).map(|_| random.one_of(letters)).collect();
        folder.put("odd.txt", &bytes);
        for call in READING_LINES {
            let before = folder.kept();
            let outcome = folder.run(&call.replace('@', "odd.txt"));
            let lines = outcome.complaints().len();
            assert!(lines <= 21 || call.contains("--skip-bad"), "{outcome}");
            let kept = folder.kept() == before;
            assert!(outcome.status == 0 || outcome.status == 1 && kept);
            met.note(format!("status {}", outcome.status));
        }
    }
    met.at_least(&[("status 0", 60), ("status 1", 100)]);
}

#[test]
fn files_without_the_right_to_read() {
    let folder = yard("files_without_the_right_to_read");
    folder.put("closed.log", herd().log());
    let closed = fs::Permissions::from_mode(0o000);
    fs::set_permissions(folder.path("closed.log"), closed).expect("rights are taken");
    for call in READING.iter().chain(&READING_LINES) {
        let call = call.replace('@', "closed.log");
        if let Some(outcome) = folder.run_without_rights(&call) {
            assert_eq!(outcome.refusal(), "closed.log: Permission denied", "{call}");
        }
    }
}

#[test]
fn logs_longer_than_any_log() {
    let folder = yard("logs_longer_than_any_log");
    let bytes = sheet::bytes(&[words::opening_word(OPENING)]);
    folder.put("huge.log", bytes);
    let file = File::options().write(true).open(folder.path("huge.log"));
    let file = file.expect("the huge log");
    file.set_len(300_000_000).expect("a file with a hole");
    refuse_log(&folder, "huge.log", "longer than any log can be");
    file.set_len(40_000_000).expect("a file with a hole");
    refuse_log(&folder, "huge.log", "(refusal 12)");
    file.set_len(0).expect("an empty file");
}

#[test]
fn too_little_memory() {
    let folder = yard("too_little_memory");
    let largest = Opening::new(256, 1024, 256);
    folder.put("large.log", told::log_of(largest, []));
    let before = folder.kept();
    let load = "load --animals 256 --ticks 1024 --carry 1 reader.txt -o out.log";
    for call in READING.iter().chain(&[load]) {
        let outcome = folder.run_limited(&call.replace('@', "large.log"), LITTLE_MEMORY);
        let words = largest.table_words();
        let end = format!("no memory for {words} words of four bytes");
        assert!(outcome.refusal().ends_with(&end), "{outcome}");
        assert!(folder.kept() == before, "{outcome}");
    }
    let enough = folder.run_limited("sheet herd.log", LITTLE_MEMORY);
    assert_eq!(enough.answer(), herd().sheet());
}
