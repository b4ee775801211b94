//! The printing program, on the pairs of `sheets/` and on made inputs.

use herd_testing::cases;
use herd_testing::program::Program;
use herd_testing::random::Random;
use herd_testing::sheet::{self, MOST_ANIMALS, MOST_BYTES, MOST_TICKS};
use herd_testing::words::{self, Opening};
use std::collections::{BTreeMap, BTreeSet};
use std::fs;
use std::path::{Path, PathBuf};
use std::time::Duration;

/// The printing program.
const PROGRAM: Program = Program {
    name: "sheet",
    reads: MOST_BYTES,
};
/// The folder of the pairs: NAME.log is the input, NAME.txt is the text that it must give.
const SHEETS: &str = concat!(env!("CARGO_MANIFEST_DIR"), "/sheets");
/// The number of the pairs.
const PAIRS: usize = 154;

/// An input of the folder and its text.
struct Pair {
    name: String,
    input: PathBuf,
    text: Vec<u8>,
}

/// The names, without the ending, of the folder's files that have it.
fn names(ending: &str) -> BTreeSet<String> {
    let files = fs::read_dir(SHEETS).unwrap_or_else(|error| panic!("{SHEETS}: {error}"));
    let names = files.map(|file| file.expect("a file of the folder").file_name());
    let names = names.map(|name| name.into_string().expect("a plain name"));
    let stem = |name: String| name.strip_suffix(ending).map(String::from);
    names.filter_map(stem).collect()
}

/// Every pair of the folder, in which nothing else stands.
fn pairs() -> Vec<Pair> {
    let (inputs, texts) = (names(".log"), names(".txt"));
    let lone: Vec<_> = inputs.symmetric_difference(&texts).collect();
    assert!(lone.is_empty(), "without a partner: {lone:?}");
    let files = names("").len();
    assert_eq!(
        files,
        2 * inputs.len(),
        "a file that is no input and no text"
    );
    assert!(inputs.len() >= PAIRS, "{} pairs", inputs.len());
    inputs.into_iter().map(pair).collect()
}

/// The pair of this name.
fn pair(name: String) -> Pair {
    let input = Path::new(SHEETS).join(format!("{name}.log"));
    let text = read(&Path::new(SHEETS).join(format!("{name}.txt")));
    Pair { name, input, text }
}

/// The bytes of a file.
fn read(path: &Path) -> Vec<u8> {
    fs::read(path).unwrap_or_else(|error| panic!("{}: {error}", path.display()))
}

/// Fails at the first line that differs.
#[track_caller]
fn same_text(found: &[u8], expected: &[u8], case: &str) {
    if found == expected {
        return;
    }
    let (found, expected) = (
        String::from_utf8_lossy(found),
        String::from_utf8_lossy(expected),
    );
    let mut lines = found.split('\n').zip(expected.split('\n'));
    let differs = lines.find(|(found, expected)| found != expected);
    let (bytes, right) = (found.len(), expected.len());
    panic!("{case}: {bytes} bytes, expected {right}; first found and expected line: {differs:?}")
}

/// Runs the program on the bytes, and compares its text with that of the plain search.
#[track_caller]
fn compare(bytes: &[u8], case: &str, met: &mut Met) {
    let expected = sheet::text(bytes);
    same_text(&PROGRAM.written(bytes), expected.as_bytes(), case);
    met.note(&expected);
}

/// How often each line was met that is written instead of a sheet, and how often a sheet, which is named `sheet`.
#[derive(Debug, Default)]
struct Met(BTreeMap<String, u32>);

impl Met {
    /// Counts the text.
    fn note(&mut self, text: &str) {
        let line = text.trim_end();
        let instead = line.starts_with(|first: char| first.is_ascii_alphabetic());
        let name = if instead { line } else { "sheet" };
        *self.0.entry(name.into()).or_insert(0) += 1;
    }

    /// Fails where one of these was met less often.
    #[track_caller]
    fn at_least(&self, least: &[(&str, u32)]) {
        let often = |&(name, times): &(&str, u32)| self.0.get(name) >= Some(&times);
        assert!(least.iter().all(often), "{least:?} in {self:?}");
    }
}

#[test]
fn pairs_from_files() {
    for Pair { name, input, text } in pairs() {
        same_text(&PROGRAM.written_for_file(&input), &text, &name);
    }
}

#[test]
fn pairs_through_pipes() {
    for Pair { name, input, text } in pairs() {
        let bytes = read(&input);
        for size in [usize::MAX, 4_096, 1_023, 7] {
            let found = PROGRAM.written_for_pieces(&bytes, size, Duration::ZERO);
            same_text(&found, &text, &name);
        }
    }
}

#[test]
fn pairs_agree_with_the_plain_search() {
    for Pair { name, input, text } in pairs() {
        let found = sheet::text(&read(&input));
        same_text(found.as_bytes(), &text, &name);
    }
}

#[test]
fn pairs_have_every_text() {
    let mut met = Met::default();
    for pair in pairs() {
        let text = String::from_utf8(pair.text).expect("plain text");
        assert!(text.ends_with('\n'), "{}", pair.name);
        met.note(&text);
    }
    met.at_least(&[
        ("sheet", 35),
        ("refused 11", 20),
        ("refused 12", 15),
        ("refused 13", 14),
        ("refused 14", 20),
        ("too large", 20),
        ("not whole words", 12),
    ]);
}

#[test]
fn session_of_document_01() {
    let words = [
        0x800C_0005,
        0x4000_0400,
        0x4000_0401,
        0x4004_0C03,
        0xC000_0003,
    ];
    let text = b"4 6 1 3\n0 1 1-2 2-3\n0 3 2-5\n1 3 4-5\n";
    let bytes = sheet::bytes(&words);
    let input = Path::new(SHEETS).join("session.log");
    assert_eq!(read(&input), bytes);
    same_text(&PROGRAM.written_for_file(&input), text, "file");
    same_text(&PROGRAM.written(&bytes), text, "pipe");
    for size in [1, 2, 3, 4, 5, 8, 19] {
        let pause = Duration::from_millis(4);
        let found = PROGRAM.written_for_pieces(&bytes, size, pause);
        same_text(&found, text, &format!("pieces of {size}"));
    }
}

#[test]
fn no_input() {
    same_text(&PROGRAM.written_for_nothing(), b"refused 11\n", "no input");
    same_text(&PROGRAM.written(&[]), b"refused 11\n", "an empty pipe");
}

/// An opening within the program's limits, which often stand in it.
fn opening(random: &mut Random) -> Opening {
    let animals = random.between(1, MOST_ANIMALS);
    let ticks = random.between(1, MOST_TICKS);
    let short = random.between(1, 4);
    let any = random.between(1, 256);
    Opening::new(
        random.one_of(&[animals, animals, MOST_ANIMALS]),
        random.one_of(&[ticks, ticks, MOST_TICKS]),
        random.one_of(&[short, short, any]),
    )
}

/// A good log within the program's limits.
fn log(random: &mut Random, opening: Opening) -> Vec<u32> {
    let most = random.one_of(&[3, 20, 100, 400]);
    words::log(opening, cases::log_contacts(random, opening, most))
}

#[test]
fn made_logs() {
    let mut random = Random::new(1001);
    let mut met = Met::default();
    for _ in 0..300 {
        let opening = opening(&mut random);
        let bytes = sheet::bytes(&log(&mut random, opening));
        compare(&bytes, &format!("{opening:?}"), &mut met);
    }
    met.at_least(&[("sheet", 300)]);
}

#[test]
fn made_logs_with_wrong_words() {
    let mut random = Random::new(1002);
    let mut met = Met::default();
    for _ in 0..500 {
        let opening = opening(&mut random);
        let good = log(&mut random, opening);
        let words = cases::damaged(&mut random, &good);
        let case = format!("{words:08X?}");
        compare(&sheet::bytes(&words), &case, &mut met);
    }
    met.at_least(&[
        ("sheet", 10),
        ("refused 11", 10),
        ("refused 12", 10),
        ("refused 13", 10),
        ("refused 14", 10),
        ("too large", 5),
    ]);
}

#[test]
fn made_logs_beyond_the_limits() {
    let mut random = Random::new(1003);
    let mut met = Met::default();
    for _ in 0..150 {
        let within = opening(&mut random);
        let many = random.one_of(&[MOST_ANIMALS, MOST_ANIMALS + 1, 10, 16, 256]);
        let long = random.one_of(&[MOST_TICKS, MOST_TICKS + 1, 66, 128, 1024]);
        let beyond = random.one_of(&[
            Opening::new(many, within.ticks, within.carry),
            Opening::new(within.animals, long, within.carry),
            Opening::new(many, long, within.carry),
        ]);
        let mut bytes = sheet::bytes(&log(&mut random, beyond));
        if random.once_in(4) {
            bytes.truncate(random.one_of(&[4, 5, 7, 8]));
        }
        compare(&bytes, &format!("{beyond:?}"), &mut met);
    }
    met.at_least(&[("sheet", 10), ("too large", 50), ("not whole words", 5)]);
}

#[test]
fn random_bytes_of_random_lengths() {
    let mut random = Random::new(1004);
    let mut met = Met::default();
    for _ in 0..300 {
        let short = random.below(40);
        let near = MOST_BYTES - 20 + random.below(40);
        let any = random.below(2 * MOST_BYTES);
        let length = random.one_of(&[short, near, any]);
        let mut bytes: Vec<u8> = (0..length).map(|_| random.word() as u8).collect();
        if bytes.len() >= 4 && random.once_in(2) {
            let opening = opening(&mut random);
            bytes[..4].copy_from_slice(&sheet::bytes(&[words::opening_word(opening)]));
        }
        compare(&bytes, &format!("{length} bytes"), &mut met);
    }
    met.at_least(&[
        ("refused 11", 5),
        ("refused 12", 5),
        ("too large", 50),
        ("not whole words", 50),
    ]);
}

#[test]
fn logs_cut_at_every_byte() {
    let mut random = Random::new(1005);
    let mut met = Met::default();
    for _ in 0..4 {
        let opening = Opening::new(4, 6, random.between(1, 3));
        let contacts = cases::log_contacts(&mut random, opening, 12);
        let bytes = sheet::bytes(&words::log(opening, contacts));
        for end in 0..=bytes.len() {
            compare(&bytes[..end], &format!("{end} bytes"), &mut met);
        }
    }
    met.at_least(&[
        ("sheet", 4),
        ("refused 11", 8),
        ("refused 14", 4),
        ("not whole words", 20),
    ]);
}

#[test]
fn far_too_many_bytes() {
    let good = sheet::bytes(&[0x800C_0005, 0xC000_0000]);
    for length in [MOST_BYTES + 1, 65_536, 65_544, 1 << 20, 10_000_001] {
        let mut bytes = good.clone();
        bytes.resize(length, 0);
        let case = format!("{length} bytes");
        same_text(&PROGRAM.written(&bytes), b"too large\n", &case);
    }
}
