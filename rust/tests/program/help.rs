//! The help texts: every command has one, and it lists just what the command takes.

use crate::run::Folder;
use std::collections::BTreeSet;

/// The commands, in the order of the help text.
pub const COMMANDS: [&str; 9] = [
    "load", "stays", "join", "remove", "trace", "back", "ask", "sheet", "contacts",
];
/// The most letters of a line of a help text.
const LONGEST: usize = 100;

/// The commands that the help text lists.
fn listed(help: &str) -> Vec<&str> {
    let lines = help.lines().filter_map(|line| line.strip_prefix("  "));
    let lines = lines.filter(|line| line.starts_with(|first: char| first.is_ascii_lowercase()));
    lines.filter_map(|line| line.split(' ').next()).collect()
}

/// The names of the options that a help text lists.
fn options(help: &str) -> BTreeSet<String> {
    let (_, listed) = help.split_once("\nOptions:\n").expect("options");
    let lines = listed.lines().take_while(|line| !line.is_empty());
    let words = lines.flat_map(|line| {
        line.split_whitespace()
            .take_while(|word| word.starts_with('-'))
    });
    words
        .map(|word| word.trim_end_matches(',').to_string())
        .collect()
}

#[test]
fn help_texts() {
    let folder = Folder::new("help_texts");
    let help = folder.answer("--help");
    assert_eq!(listed(&help), COMMANDS);
    for call in ["-h", "help"] {
        assert_eq!(folder.answer(call), help, "{call}");
    }
    let mut texts = vec![help];
    for command in COMMANDS {
        let own = folder.answer(&format!("{command} --help"));
        assert!(own.starts_with(&format!("Usage: herd {command} ")), "{own}");
        assert!(
            own.contains(&format!("\nExample:\n  herd {command} ")),
            "{own}"
        );
        for call in [
            format!("help {command}"),
            format!("{command} -h"),
            format!("{command} x -h y"),
        ] {
            assert_eq!(folder.answer(&call), own, "{call}");
        }
        texts.push(own);
    }
    let lines = texts.iter().flat_map(|text| text.lines());
    let long: Vec<&str> = lines
        .filter(|line| line.chars().count() > LONGEST)
        .collect();
    assert!(long.is_empty(), "{long:#?}");
    let missing = folder.refusal("sheet -- --help");
    assert_eq!(missing, "--help: No such file or directory");
    let version = format!("herd {}\n", env!("CARGO_PKG_VERSION"));
    for call in ["--version", "-V"] {
        assert_eq!(folder.answer(call), version, "{call}");
    }
}

#[test]
fn options_are_those_of_the_help() {
    let folder = Folder::new("options_are_those_of_the_help");
    let own = |command: &str| options(&folder.answer(&format!("{command} --help")));
    let all: BTreeSet<String> = COMMANDS.iter().flat_map(|command| own(command)).collect();
    assert_eq!(all.len(), 11, "{all:?}");
    for command in COMMANDS {
        let (mut taken, own) = (BTreeSet::new(), own(command));
        for option in &all {
            let call = format!("{command} {option} 1");
            let outcome = folder.run(&call);
            let takes = outcome.status == 0 || !outcome.wrong().0.contains("there is no option");
            taken.extend(takes.then(|| option.clone()));
        }
        assert_eq!(taken, own, "{command}");
        let usage = folder.answer(&format!("help {command}"));
        let usage = usage.lines().next().unwrap_or_default();
        for option in usage
            .split([' ', '[', ']'])
            .filter(|word| word.starts_with('-'))
        {
            assert!(own.contains(option), "{command}: {option}");
        }
    }
}

#[test]
fn examples_of_the_help() {
    let folder = Folder::new("examples_of_the_help");
    folder.put("north.txt", "3 21 5\n21 4 17\n");
    folder.put("south.txt", "4 17 30\n17 4 30\n");
    folder.put("gate.txt", "1 2 3 4\n2 2 4 5\n");
    for yard in ["north", "south"] {
        let load = "load --animals 24 --ticks 96 --carry 2";
        folder.answer(&format!("{load} {yard}.txt -o {yard}.log"));
    }
    for command in COMMANDS {
        let help = folder.answer(&format!("help {command}"));
        let (_, examples) = help.split_once("\nExample:\n").expect("an example");
        let example = examples.trim().strip_prefix("herd ").expect("a call");
        assert!(!folder.answer(example).is_empty(), "{example}");
    }
    assert_eq!(
        folder.answer("contacts both.log"),
        "3 21 5\n21 4 17\n4 17 30\n17 4 30\n"
    );
}
