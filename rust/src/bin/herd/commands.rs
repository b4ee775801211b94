//! The commands, their options and their help texts.

use crate::arguments::{nearest, Choice, Given};
use crate::failure::Failure;
use crate::{asking, changing, files, loading, tracing};
use std::ffi::OsString;

/// A command of the program.
struct Command {
    name: &'static str,
    /// What `--help` prints; its first line is the usage.
    help: &'static str,
    choices: &'static [Choice],
    run: fn(&Given) -> Result<(), Failure>,
}

/// What `herd --help` prints.
const HELP: &str = include_str!("help/herd.txt");
/// How the program is called.
const USAGE: &str = "Usage: herd COMMAND [OPTIONS]; 'herd --help' lists the commands";

const OUTPUT: Choice = Choice::short("-o", "--output");
const FIRST: Choice = Choice::value("--first");
const LAST: Choice = Choice::value("--last");
const SVG: Choice = Choice::value("--svg");

/// All commands, in the order of the help text.
const COMMANDS: [Command; 9] = [
    Command {
        name: "load",
        help: include_str!("help/load.txt"),
        choices: &[
            Choice::value("--animals"),
            Choice::value("--ticks"),
            Choice::value("--carry"),
            Choice::flag("--skip-bad"),
            OUTPUT,
        ],
        run: loading::load,
    },
    Command {
        name: "stays",
        help: include_str!("help/stays.txt"),
        choices: &[OUTPUT],
        run: changing::stays,
    },
    Command {
        name: "join",
        help: include_str!("help/join.txt"),
        choices: &[OUTPUT],
        run: changing::join,
    },
    Command {
        name: "remove",
        help: include_str!("help/remove.txt"),
        choices: &[OUTPUT],
        run: changing::remove,
    },
    Command {
        name: "trace",
        help: include_str!("help/trace.txt"),
        choices: &[FIRST, LAST, SVG],
        run: tracing::trace,
    },
    Command {
        name: "back",
        help: include_str!("help/back.txt"),
        choices: &[FIRST, LAST, SVG],
        run: tracing::back,
    },
    Command {
        name: "ask",
        help: include_str!("help/ask.txt"),
        choices: &[FIRST, LAST],
        run: asking::ask,
    },
    Command {
        name: "sheet",
        help: include_str!("help/sheet.txt"),
        choices: &[],
        run: asking::sheet,
    },
    Command {
        name: "contacts",
        help: include_str!("help/contacts.txt"),
        choices: &[],
        run: asking::contacts,
    },
];

/// Runs the command that the words name.
pub fn run(words: &[OsString]) -> Result<(), Failure> {
    let Some((name, rest)) = words.split_first() else {
        return Err(wrong("no command is given".to_string()));
    };
    match name.to_string_lossy().as_ref() {
        "-h" | "--help" => files::print(HELP),
        "-V" | "--version" => files::print(concat!("herd ", env!("CARGO_PKG_VERSION"), "\n")),
        "help" => match rest.first().map(|name| name.to_string_lossy()) {
            None => files::print(HELP),
            Some(name) if ["help", "-h", "--help"].contains(&&*name) => files::print(HELP),
            Some(name) => files::print(find(&name)?.help),
        },
        name => find(name)?.run(rest),
    }
}

/// The command of this name.
fn find(name: &str) -> Result<&'static Command, Failure> {
    let found = COMMANDS.iter().find(|command| command.name == name);
    found.ok_or_else(|| {
        let names = COMMANDS.iter().map(|command| command.name);
        wrong(match nearest(name, names) {
            Some(near) => format!("there is no command '{name}'; is '{near}' meant?"),
            None => format!("there is no command '{name}'"),
        })
    })
}

/// A call that names no command.
fn wrong(problem: String) -> Failure {
    Failure::Usage {
        problem,
        usage: USAGE,
    }
}

impl Command {
    /// Runs the command on its words, or prints its help text where that is asked for.
    fn run(&self, words: &[OsString]) -> Result<(), Failure> {
        let mut own = words.iter().take_while(|word| *word != "--");
        if own.any(|word| word == "-h" || word == "--help") {
            return files::print(self.help);
        }
        let usage = self.help.lines().next().unwrap_or(USAGE);
        (self.run)(&Given::parse(usage, self.choices, words)?)
    }
}
