//! Wrong calls, and right calls in all their forms.

use crate::help::COMMANDS;
use crate::run::{finish, Folder};
use crate::yard::{herd, yard};
use std::ffi::{OsStr, OsString};
use std::fs;
use std::os::unix::ffi::OsStrExt;
use std::os::unix::fs::symlink;

/// The words of a call that loads a reader file, but for its output.
const LOAD: &str = "load --animals 4 --ticks 6 --carry 1 reader.txt";

/// Wrong calls, each with the parts of what is told about it.
type Wrong = &'static [(&'static str, &'static [&'static str])];

/// Makes wrong calls; where the command is known its usage is shown.
#[track_caller]
fn wrong_calls(folder: &Folder, calls: Wrong) {
    for (call, parts) in calls {
        let call = call.replace("LOAD", LOAD);
        let (problem, usage) = folder.wrong(&call);
        let said = parts.iter().all(|part| problem.contains(part));
        assert!(said, "{call}: {parts:?} in {problem}");
        let command = call.split(' ').next().unwrap_or_default();
        let known = COMMANDS.contains(&command);
        let shown = format!("Usage: herd {} ", if known { command } else { "COMMAND" });
        assert!(usage.starts_with(&shown), "{call}: {usage}");
    }
}

/// Calls with words that there are not.
const UNKNOWN: Wrong = &[
    ("", &["no command"]),
    ("lode", &["'lode'", "is 'load' meant?"]),
    ("traec herd.log 0", &["'traec'", "is 'trace' meant?"]),
    ("Sheet herd.log", &["'Sheet'", "is 'sheet' meant?"]),
    ("contact herd.log", &["'contact'", "is 'contacts' meant?"]),
    ("frobnicate", &["no command 'frobnicate'"]),
    ("-x", &["'-x'"]),
    ("help lode", &["'lode'", "is 'load' meant?"]),
    (
        "trace herd.log 0 --frist 3",
        &["--frist", "is --first meant?"],
    ),
    ("load --animal 4", &["--animal", "is --animals meant?"]),
    (
        "LOAD --skipbad -o x",
        &["--skipbad", "is --skip-bad meant?"],
    ),
    ("LOAD --ouput=x", &["--ouput", "is --output meant?"]),
    (
        "trace herd.log 0 --frobnicate 3",
        &["no option --frobnicate"],
    ),
    ("trace -x herd.log 0", &["no option -x"]),
    ("ask herd.log -1 2", &["no option -1"]),
    ("sheet herd.log --svg x", &["no option --svg"]),
    ("ask herd.log 0 1 --svg x", &["no option --svg"]),
    ("contacts herd.log -o x", &["no option -o"]),
    (
        "stays herd.log gate.txt --skip-bad -o x",
        &["no option --skip-bad"],
    ),
];

#[test]
fn unknown_words() {
    let folder = yard("unknown_words");
    wrong_calls(&folder, UNKNOWN);
    let (problem, _) = folder.wrong("frobnicate");
    assert!(!problem.contains("meant"), "{problem}");
}

/// Calls with too few words or too many.
const MISSING_AND_SUPERFLUOUS: Wrong = &[
    (
        "load --ticks 6 --carry 1 reader.txt -o x",
        &["--animals N is missing"],
    ),
    (
        "load --animals 4 --carry 1 reader.txt -o x",
        &["--ticks T is missing"],
    ),
    (
        "load --animals 4 --ticks 6 reader.txt -o x",
        &["--carry D is missing"],
    ),
    (
        "load --animals 4 --ticks 6 --carry 1 -o x",
        &["READERS is missing"],
    ),
    ("LOAD", &["-o LOG is missing"]),
    ("stays -o x", &["LOG is missing"]),
    ("stays herd.log -o x", &["STAYS is missing"]),
    ("stays herd.log gate.txt", &["-o LOG is missing"]),
    ("join herd.log -o x", &["LOG is missing"]),
    ("join herd.log other.log", &["-o LOG is missing"]),
    ("remove herd.log 0 1 -o x", &["TICK is missing"]),
    ("remove herd.log 0 1 1", &["-o LOG is missing"]),
    ("trace herd.log", &["ANIMAL is missing"]),
    ("back", &["LOG is missing"]),
    ("ask herd.log 0", &["TO is missing"]),
    ("sheet", &["LOG is missing"]),
    ("contacts", &["LOG is missing"]),
    (
        "stays herd.log gate.txt more -o x",
        &["'more' is one too many"],
    ),
    ("remove herd.log 0 1 1 2 -o x", &["'2' is one too many"]),
    ("trace herd.log 0 1", &["'1' is one too many"]),
    ("back herd.log 0 1 --svg x", &["'1' is one too many"]),
    ("ask herd.log 0 1 2", &["'2' is one too many"]),
    ("sheet herd.log other.log", &["'other.log' is one too many"]),
];

#[test]
fn missing_and_superfluous_words() {
    let folder = yard("missing_and_superfluous_words");
    wrong_calls(&folder, MISSING_AND_SUPERFLUOUS);
}

/// Calls with options given twice, without a value, or with one that is no number.
const WRONG_VALUES: Wrong = &[
    (
        "trace herd.log 0 --first 1 --first 1",
        &["--first is given twice"],
    ),
    (
        "trace herd.log 0 --first=1 --first 1",
        &["--first is given twice"],
    ),
    ("LOAD -o x --output y", &["--output is given twice"]),
    ("LOAD -ox -oy", &["-o is given twice"]),
    (
        "LOAD --skip-bad --skip-bad -o x",
        &["--skip-bad is given twice"],
    ),
    ("trace herd.log 0 --first", &["--first needs a value"]),
    ("join herd.log other.log -o", &["-o needs a value"]),
    ("LOAD --skip-bad=yes -o x", &["--skip-bad takes no value"]),
    (
        "load --animals 4 --ticks 6 --carry 1 - - -o x",
        &["'-' is given twice"],
    ),
    ("LOAD -- -o x", &["-o LOG is missing"]),
    ("join - - -o x", &["'-' is given twice"]),
    ("stays - - -o x", &["'-' is given twice"]),
    (
        "load --animals four --ticks 6 --carry 1 - -o x",
        &["--animals", "'four'"],
    ),
    (
        "load --animals -1 --ticks 6 --carry 1 - -o x",
        &["--animals", "'-1'"],
    ),
    (
        "load --animals +4 --ticks 6 --carry 1 - -o x",
        &["--animals", "'+4'"],
    ),
    (
        "load --animals 4 --ticks 6.0 --carry 1 - -o x",
        &["--ticks", "'6.0'"],
    ),
    (
        "load --animals 4 --ticks 6 --carry 0x1 - -o x",
        &["--carry", "'0x1'"],
    ),
    (
        "load --animals 4 --ticks 6 --carry= - -o x",
        &["--carry", "''"],
    ),
    (
        "trace herd.log 0 --last 4294967296",
        &["--last", "'4294967296'"],
    ),
    ("back herd.log one", &["ANIMAL", "'one'"]),
    ("ask herd.log x 1", &["FROM", "'x'"]),
    ("ask herd.log 0 1x", &["TO", "'1x'"]),
    ("remove herd.log 0 1 1,5 -o x", &["TICK", "'1,5'"]),
];

#[test]
fn options_and_their_values() {
    let folder = yard("options_and_their_values");
    wrong_calls(&folder, WRONG_VALUES);
}

#[test]
fn outputs_that_are_inputs() {
    let folder = yard("outputs_that_are_inputs");
    symlink("reader.txt", folder.path("link.txt")).expect("a link");
    wrong_calls(
        &folder,
        &[
            ("LOAD -o reader.txt", &["reader.txt would be overwritten"]),
            (
                "LOAD gate.txt -o gate.txt",
                &["gate.txt would be overwritten"],
            ),
            ("LOAD -o ./reader.txt", &["reader.txt would be overwritten"]),
            ("LOAD -o link.txt", &["reader.txt would be overwritten"]),
            (
                "stays herd.log gate.txt -o gate.txt",
                &["gate.txt would be overwritten"],
            ),
            (
                "trace herd.log 0 --svg herd.log",
                &["herd.log would be overwritten"],
            ),
            (
                "back herd.log 0 --svg ./herd.log",
                &["herd.log would be overwritten"],
            ),
        ],
    );
}

#[test]
fn forms_of_the_same_call() {
    let folder = yard("forms_of_the_same_call");
    let traced = folder.answer("trace herd.log 0 --first 2 --last 4");
    assert!(traced.lines().count() > 2, "{traced}");
    for call in [
        "trace herd.log 0 --first=2 --last=4",
        "trace --first 2 --last 4 herd.log 0",
        "trace --last=4 herd.log --first 2 0",
        "trace --first 2 --last 4 -- herd.log 0",
        "trace --first 2 herd.log --last 4 -- 0",
    ] {
        assert_eq!(folder.answer(call), traced, "{call}");
    }
    let told = folder.answer(&format!("{LOAD} -o out.log"));
    let log = folder.bytes("out.log");
    for output in [
        "-oout.log",
        "--output out.log",
        "--output=out.log",
        "-o ./out.log",
    ] {
        folder.put("out.log", "as before");
        let answer = folder.answer(&format!("{LOAD} {output}"));
        assert_eq!(answer.replace("./", ""), told, "{output}");
        assert!(folder.bytes("out.log") == log, "{output}");
    }
}

/// Names of files that are no plain words.
const ODD_NAMES: [&[u8]; 7] = [
    b"--odd",
    b"-x",
    b"a b\tc",
    b"two\nlines",
    b"\x1B[31mred",
    b"k=\xC3\xA4",
    b"\xFF\xFE",
];

/// Takes a contact out of the yard's log by these words, and reads the new log.
#[track_caller]
fn remove_and_read(folder: &Folder, words: &[OsString], name: &OsStr) {
    let removal = ["remove", "herd.log", "0", "1", "1"].map(OsString::from);
    let removal = [&removal, words].concat();
    finish("remove", &mut folder.command_of(&removal)).bytes();
    let mut sheet = folder.command_of(["sheet", "--"]);
    let sheet = finish("sheet", sheet.arg(name));
    let listed = herd().listed();
    assert_eq!(sheet.answer(), herd().without(listed[0]).sheet());
}

#[test]
fn names_of_any_letters() {
    let folder = yard("names_of_any_letters");
    for name in ODD_NAMES.map(OsStr::from_bytes) {
        let mut sheet = folder.command_of(["sheet", "--"]);
        let missing = finish("sheet", sheet.arg(name));
        let name_shown = name.to_string_lossy();
        let name_shown = name_shown.replace('\t', "\\t").replace('\n', "\\n");
        let name_shown = name_shown.replace('\x1B', "\\u{1b}");
        let shown = format!("{name_shown}: No such file or directory");
        assert_eq!(missing.refusal(), shown);
        remove_and_read(&folder, &["-o".into(), name.into()], name);
    }
}

#[test]
fn names_of_any_letters_joined_to_an_option() {
    let folder = yard("names_of_any_letters_joined_to_an_option");
    for name in ODD_NAMES.map(OsStr::from_bytes) {
        for option in ["-o", "--output="] {
            let mut word = OsString::from(option);
            word.push(name);
            remove_and_read(&folder, &[word], name);
            fs::remove_file(folder.path("").join(name)).expect("the log goes");
        }
    }
}

#[test]
fn a_file_with_the_name_of_standard_input() {
    let folder = yard("a_file_with_the_name_of_standard_input");
    folder.put("-", "as before");
    let log = herd().log();
    let picture = folder.answer("trace herd.log 0 --svg -");
    let drawn = folder.run_on("trace - 0 --svg -", &log);
    assert_eq!(drawn.answer(), picture);
    let load = "load --animals 4 --ticks 6 --carry 1 - -o -";
    let loaded = folder.run_on(load, herd().lines().as_bytes());
    assert!(loaded.output == log, "{loaded}");
    assert_eq!(folder.bytes("-"), b"as before");
}

#[test]
fn wrong_numbers_come_before_missing_files() {
    let folder = yard("wrong_numbers_come_before_missing_files");
    wrong_calls(
        &folder,
        &[
            (
                "load --animals x --ticks 6 --carry 1 none.txt -o y",
                &["--animals", "'x'"],
            ),
            ("remove none.log 0 1 x -o y", &["TICK", "'x'"]),
            ("ask none.log x 1", &["FROM", "'x'"]),
            ("back none.log x", &["ANIMAL", "'x'"]),
            ("trace none.log 0 --first x", &["--first", "'x'"]),
            ("back none.log 0 --last x", &["--last", "'x'"]),
            ("ask none.log 0 1 --first x", &["--first", "'x'"]),
        ],
    );
}
