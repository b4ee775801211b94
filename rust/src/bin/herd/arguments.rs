//! The words behind a command's name, taken apart into options and operands.

use crate::failure::Failure;
use crate::files::is_standard;
use std::collections::BTreeMap;
use std::ffi::{OsStr, OsString};
use std::fs;
use std::os::unix::ffi::OsStrExt;
use std::path::{Path, PathBuf};

/// An option of a command: `--first F`, `--skip-bad`.
pub struct Choice {
    /// Its name, with both hyphens.
    pub long: &'static str,
    /// Its name of one letter, with the hyphen, or nothing.
    pub short: &'static str,
    /// Whether a value follows it.
    pub takes: bool,
}

impl Choice {
    /// An option with a value.
    pub const fn value(long: &'static str) -> Choice {
        Choice {
            long,
            short: "",
            takes: true,
        }
    }

    /// An option with a value and a name of one letter.
    pub const fn short(short: &'static str, long: &'static str) -> Choice {
        Choice {
            long,
            short,
            takes: true,
        }
    }

    /// An option without a value.
    pub const fn flag(long: &'static str) -> Choice {
        Choice {
            long,
            short: "",
            takes: false,
        }
    }
}

/// What a command is given.
pub struct Given {
    usage: &'static str,
    values: BTreeMap<&'static str, OsString>,
    operands: Vec<OsString>,
}

impl Given {
    /// Takes the words apart. Behind `--` all are operands, and `-` alone is one.
    pub fn parse(
        usage: &'static str,
        choices: &'static [Choice],
        words: &[OsString],
    ) -> Result<Given, Failure> {
        let mut given = Given {
            usage,
            values: BTreeMap::new(),
            operands: Vec::new(),
        };
        let mut words = words.iter();
        while let Some(word) = words.next() {
            if word == "--" {
                given.operands.extend(words.by_ref().cloned());
            } else if word == "-" || !word.as_bytes().starts_with(b"-") {
                given.operands.push(word.clone());
            } else {
                given.take(choices, word, &mut words)?;
            }
        }
        let standard = given.operands.iter().filter(|word| *word == "-");
        if standard.count() > 1 {
            return Err(given.wrong("'-' is given twice, and standard input can be read once only"));
        }
        Ok(given)
    }

    /// Takes an option, with its value where it has one: behind `=`, right behind a single letter, or as the next word.
    fn take<'a>(
        &mut self,
        choices: &'static [Choice],
        word: &OsStr,
        words: &mut impl Iterator<Item = &'a OsString>,
    ) -> Result<(), Failure> {
        let (name, joined) = split(word);
        let name = &*name.to_string_lossy();
        let Some(choice) = choices.iter().find(|c| c.long == name || c.short == name) else {
            let shown = if name.starts_with("--") {
                name
            } else {
                &word.to_string_lossy()
            };
            return Err(self.wrong(unknown(choices, shown)));
        };
        let value = match (choice.takes, joined) {
            (false, None) => OsString::new(),
            (false, Some(_)) => return Err(self.wrong(format!("{name} takes no value"))),
            (true, Some(value)) => value.to_os_string(),
            (true, None) => match words.next() {
                Some(value) => value.clone(),
                None => return Err(self.wrong(format!("{name} needs a value"))),
            },
        };
        match self.values.insert(choice.long, value) {
            None => Ok(()),
            Some(_) => Err(self.wrong(format!("{name} is given twice"))),
        }
    }

    /// A wrong call.
    pub fn wrong(&self, problem: impl Into<String>) -> Failure {
        Failure::Usage {
            problem: problem.into(),
            usage: self.usage,
        }
    }

    /// Whether the option is given.
    pub fn has(&self, long: &str) -> bool {
        self.values.contains_key(long)
    }

    /// The path that an option names, if it is given.
    pub fn path(&self, long: &str) -> Option<PathBuf> {
        self.values.get(long).map(PathBuf::from)
    }

    /// The path that an option must name.
    pub fn needed_path(&self, long: &str, shown: &str) -> Result<PathBuf, Failure> {
        let missing = || self.wrong(format!("{shown} is missing"));
        self.path(long).ok_or_else(missing)
    }

    /// The number of an option, if it is given.
    pub fn number(&self, long: &str) -> Result<Option<u32>, Failure> {
        let read = |value: &OsString| self.read_number(long, value);
        self.values.get(long).map(read).transpose()
    }

    /// The number that an option must have.
    pub fn needed_number(&self, long: &str, shown: &str) -> Result<u32, Failure> {
        let missing = || self.wrong(format!("{shown} is missing"));
        self.number(long)?.ok_or_else(missing)
    }

    /// The operands, which must be just as many as there are names for them.
    pub fn operands<const N: usize>(
        &self,
        names: [&'static str; N],
    ) -> Result<[&OsString; N], Failure> {
        if let Some(missing) = names.get(self.operands.len()) {
            return Err(self.wrong(format!("{missing} is missing")));
        }
        if let Some(more) = self.operands.get(N) {
            return Err(self.wrong(format!("'{}' is one too many", more.to_string_lossy())));
        }
        Ok(std::array::from_fn(|place| &self.operands[place]))
    }

    /// The operands, of which there must be at least so many.
    pub fn paths(&self, least: usize, name: &str) -> Result<Vec<PathBuf>, Failure> {
        if self.operands.len() < least {
            return Err(self.wrong(format!("{name} is missing")));
        }
        Ok(self.operands.iter().map(PathBuf::from).collect())
    }

    /// Refuses an output that would take the place of one of the inputs.
    pub fn keep_inputs(&self, output: &Path, inputs: &[PathBuf]) -> Result<(), Failure> {
        let file = |path: &Path| fs::canonicalize(path).ok().filter(|_| !is_standard(path));
        let Some(output) = file(output) else {
            return Ok(());
        };
        let same = |input: &&PathBuf| file(input).is_some_and(|input| input == output);
        match inputs.iter().find(same) {
            Some(input) => Err(self.wrong(format!("{} would be overwritten", input.display()))),
            None => Ok(()),
        }
    }

    /// The number of an option or operand of this name.
    pub fn read_number(&self, name: &str, value: &OsStr) -> Result<u32, Failure> {
        let text = value.to_string_lossy();
        if text.is_empty() || !text.bytes().all(|byte| byte.is_ascii_digit()) {
            return Err(self.wrong(format!("{name} is a whole number, not '{text}'")));
        }
        let too_large = |_| self.wrong(format!("{name} is too large a number: '{text}'"));
        text.parse().map_err(too_large)
    }
}

/// The name of an option, and the value that is joined to it, if any. A value may be of any bytes.
fn split(word: &OsStr) -> (&OsStr, Option<&OsStr>) {
    let bytes = word.as_bytes();
    let (name, value) = if bytes.starts_with(b"--") {
        let equals = bytes.iter().position(|&byte| byte == b'=');
        let (name, value) = bytes.split_at(equals.unwrap_or(bytes.len()));
        (name, equals.map(|_| &value[1..]))
    } else {
        let (name, value) = bytes.split_at(2);
        (name, Some(value).filter(|value| !value.is_empty()))
    };
    (OsStr::from_bytes(name), value.map(OsStr::from_bytes))
}

/// What is said of an option that there is not.
fn unknown(choices: &[Choice], name: &str) -> String {
    match nearest(name, choices.iter().map(|choice| choice.long)) {
        Some(near) => format!("there is no option {name}; is {near} meant?"),
        None => format!("there is no option {name}"),
    }
}

/// The one of the names that is nearest to a word, where it is near.
pub fn nearest(word: &str, names: impl Iterator<Item = &'static str>) -> Option<&'static str> {
    let far = 1 + word.len() / 4;
    let near = names.map(|name| (distance(word, name), name)).min();
    near.filter(|&(distance, _)| distance <= far)
        .map(|(_, name)| name)
}

/// How many letters must be put in, left out or changed to make one word of the other.
fn distance(one: &str, other: &str) -> usize {
    let mut row: Vec<usize> = (0..=other.chars().count()).collect();
    for (i, letter) in one.chars().enumerate() {
        let mut diagonal = row[0];
        row[0] = i + 1;
        for (j, with) in other.chars().enumerate() {
            let kept = diagonal + usize::from(letter != with);
            diagonal = row[j + 1];
            row[j + 1] = kept.min(row[j] + 1).min(diagonal + 1);
        }
    }
    row[row.len() - 1]
}
