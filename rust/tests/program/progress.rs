//! The bar that is shown on a terminal while long files are read.

use crate::readers::loaded;
use crate::run::{finish, Folder, Outcome};
use crate::terminal::{self, screen};
use crate::told::Herd;
use crate::yard::{herd, OPENING};
use herd_testing::words::contacts;
use std::fs::File;

/// The call that loads a long reader file.
const LOAD: &str = "load --animals 4 --ticks 6 --carry 1 -o out.log long.txt";
/// Files of so many bytes together are long.
const LONG: usize = 1 << 20;
/// The letters of a full bar.
const WIDTH: usize = 40;

/// A text of so many bytes and a few more, in which each line is a contact of the yard's herd, and how many lines it has.
fn text(bytes: usize) -> (String, usize) {
    let mut text = String::with_capacity(bytes + 100);
    let mut lines = 0;
    while text.len() < bytes {
        text += "0 1 1\n0,1,2 # and a note\n1\t3\t4\n";
        lines += 3;
    }
    (text, lines)
}

/// A folder with a long reader file, and how many lines it has.
fn folder(name: &str) -> (Folder, usize) {
    let folder = Folder::new(name);
    let (text, lines) = text(LONG + 12_345);
    folder.put("long.txt", text);
    (folder, lines)
}

/// Runs the program with a terminal as its standard error.
fn run_on_terminal(folder: &Folder, call: &str) -> Outcome {
    terminal::run(call, folder.command(call))
}

/// The percentages of the bars that were written to a terminal; each bar is as full as its percentage says.
#[track_caller]
fn percentages(written: &str) -> Vec<usize> {
    let bars = written
        .split('\r')
        .filter(|part| part.starts_with("reading"));
    let percentage = |bar: &str| {
        let inside = bar.strip_prefix("reading [")?;
        let (drawn, percent) = inside.split_once("] ")?;
        let percent: usize = percent.strip_suffix(" %")?.trim_start().parse().ok()?;
        let full = percent * WIDTH / 100;
        let right = "#".repeat(full) + &".".repeat(WIDTH - full);
        (drawn == right).then_some(percent)
    };
    let read = |bar| percentage(bar).unwrap_or_else(|| panic!("a bar {bar:?}"));
    bars.map(read).collect()
}

/// Fails where a bar was not shown from the first percent to the last, each once.
#[track_caller]
fn rises_to_the_end(percentages: &[usize]) {
    assert!(
        percentages.is_sorted_by(|one, next| one < next),
        "{percentages:?}"
    );
    assert!(percentages.len() >= 50, "{percentages:?}");
    assert!(percentages.first() <= Some(&2), "{percentages:?}");
    assert_eq!(percentages.last(), Some(&100));
}

/// What is told of the long file.
fn told(lines: usize) -> String {
    loaded(lines, 0, 3, None) + &herd().about("out.log")
}

#[test]
fn a_bar_on_a_terminal() {
    let (folder, lines) = folder("a_bar_on_a_terminal");
    let outcome = run_on_terminal(&folder, LOAD);
    assert_eq!(outcome.status, 0, "{outcome}");
    assert_eq!(outcome.output, told(lines).into_bytes());
    rises_to_the_end(&percentages(&outcome.complaint));
    assert!(outcome.complaint.starts_with('\r'));
    assert!(outcome.complaint.ends_with('\r'));
    assert_eq!(screen(&outcome.complaint), [""]);
    assert!(folder.bytes("out.log") == herd().log());
}

#[test]
fn a_bar_over_several_files() {
    let folder = Folder::new("a_bar_over_several_files");
    let (half, lines) = text(LONG / 2 + 99);
    folder.put("one.txt", &half);
    folder.put("two.txt", &half);
    let call = LOAD.replace("long.txt", "one.txt two.txt");
    let outcome = run_on_terminal(&folder, &call);
    assert_eq!(outcome.output, told(2 * lines).into_bytes());
    rises_to_the_end(&percentages(&outcome.complaint));
    assert_eq!(screen(&outcome.complaint), [""]);
}

#[test]
fn no_bar_for_short_files() {
    let folder = Folder::new("no_bar_for_short_files");
    let (short, lines) = text(LONG - 200);
    assert!(short.len() < LONG);
    folder.put("long.txt", short);
    let outcome = run_on_terminal(&folder, LOAD);
    assert_eq!(outcome.answer(), told(lines));
    folder.put("herd.log", herd().log());
    for call in ["sheet herd.log", "trace herd.log 0 --svg out.svg"] {
        run_on_terminal(&folder, call).bytes();
    }
}

#[test]
fn no_bar_in_a_pipe_or_a_file() {
    let (folder, lines) = folder("no_bar_in_a_pipe_or_a_file");
    assert_eq!(folder.answer(LOAD), told(lines));
    let file = File::create(folder.path("complaints.txt")).expect("a file");
    let outcome = finish(LOAD, folder.command(LOAD).stderr(file));
    assert_eq!(outcome.answer(), told(lines));
    assert!(folder.bytes("complaints.txt").is_empty());
}

/// The long text with bad lines at these places, and the numbers of its lines that are bad.
fn with_bad_lines(places: &[usize]) -> (String, Vec<usize>) {
    let (good, _) = text(LONG + 12_345);
    let mut lines: Vec<&str> = good.lines().collect();
    for &place in places {
        lines.insert(place, "no contact");
    }
    let numbers = (1..).zip(&lines).filter(|(_, line)| **line == "no contact");
    let numbers = numbers.map(|(number, _)| number).collect();
    (lines.join("\n"), numbers)
}

#[test]
fn skipped_lines_on_a_terminal() {
    let folder = Folder::new("skipped_lines_on_a_terminal");
    let (text, numbers) = with_bad_lines(&[0, 1, 700, 30_000, 30_000, 60_000]);
    let lines = text.lines().count();
    folder.put("long.txt", text);
    let outcome = run_on_terminal(&folder, &format!("{LOAD} --skip-bad"));
    let good = lines - numbers.len();
    let told = loaded(good, 0, 3, Some(numbers.len())) + &herd().about("out.log");
    assert_eq!(outcome.output, told.into_bytes());
    let mut shown = screen(&outcome.complaint);
    assert_eq!(shown.pop().as_deref(), Some(""));
    assert_eq!(shown.len(), numbers.len());
    for (line, number) in shown.iter().zip(numbers) {
        let named = format!("herd: skipped long.txt:{number}: 'no' is no number");
        assert!(line.starts_with(&named), "{line}");
    }
    let percentages = percentages(&outcome.complaint);
    assert!(percentages.is_sorted());
    assert_eq!(percentages.last(), Some(&100));
}

#[test]
fn refused_lines_on_a_terminal() {
    let folder = Folder::new("refused_lines_on_a_terminal");
    let (text, numbers) = with_bad_lines(&[5, 50_000]);
    folder.put("long.txt", text);
    let outcome = run_on_terminal(&folder, LOAD);
    assert_eq!((outcome.status, outcome.output), (1, Vec::new()));
    rises_to_the_end(&percentages(&outcome.complaint));
    let shown = screen(&outcome.complaint);
    assert_eq!(shown.len(), 4, "{shown:?}");
    for (line, number) in shown.iter().zip(numbers) {
        assert!(
            line.starts_with(&format!("herd: long.txt:{number}: ")),
            "{line}"
        );
    }
    assert!(
        shown[2].starts_with("herd: 2 bad lines in all"),
        "{shown:?}"
    );
    assert_eq!(shown[3], "");
}

#[test]
fn a_bar_over_a_file_that_is_no_text() {
    let (folder, _) = folder("a_bar_over_a_file_that_is_no_text");
    folder.put("zero.txt", vec![0; 2 * LONG]);
    let outcome = run_on_terminal(&folder, &format!("{LOAD} zero.txt"));
    assert_eq!(outcome.status, 1);
    let shown = screen(&outcome.complaint);
    assert!(shown[0].starts_with("herd: zero.txt:1: "), "{shown:?}");
    assert_eq!((shown.len(), shown[1].as_str()), (2, ""));
}

#[test]
fn a_bar_over_stays() {
    let folder = Folder::new("a_bar_over_stays");
    folder.put("herd.log", Herd::new(OPENING, []).log());
    let stays = "0 63 1 2 # the last pen\n1 63 2 3\n";
    folder.put("gate.txt", stays.repeat(LONG / stays.len() + 1));
    let outcome = run_on_terminal(&folder, "stays herd.log gate.txt -o out.log");
    assert_eq!(outcome.status, 0, "{outcome}");
    rises_to_the_end(&percentages(&outcome.complaint));
    assert_eq!(screen(&outcome.complaint), [""]);
    let met = Herd::new(OPENING, contacts([(0, 1, 2), (1, 0, 2)]));
    assert!(folder.bytes("out.log") == met.log());
}
