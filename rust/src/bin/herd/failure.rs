//! Why the program ends without having done what it was asked.

use crate::files::is_standard;
use herd::Error;
use std::fmt::Display;
use std::io;
use std::path::Path;

/// Why the program ends without having done what it was asked.
#[derive(Debug)]
pub enum Failure {
    /// The call is wrong: what is wrong with it, and how it is made.
    Usage {
        problem: String,
        usage: &'static str,
    },
    /// What was asked is refused, in one line or more.
    Refused(Vec<String>),
    /// Nobody reads the answer any more.
    OutputClosed,
}

impl Failure {
    /// A refusal in one line.
    pub fn refused(line: impl Display) -> Failure {
        Failure::Refused(vec![line.to_string()])
    }

    /// A refusal about a file.
    pub fn about(path: &Path, error: &Error) -> Failure {
        match error {
            Error::Io(error) => Failure::io(path, error),
            error => Failure::refused(format!("{}: {error}", name(path))),
        }
    }

    /// A file could not be read or written.
    pub fn io(path: &Path, error: &io::Error) -> Failure {
        Failure::refused(format!("{}: {}", name(path), reason(error)))
    }

    /// Standard output could not be written.
    pub fn output(error: &io::Error) -> Failure {
        match error.kind() {
            io::ErrorKind::BrokenPipe => Failure::OutputClosed,
            _ => Failure::refused(format!("standard output: {}", reason(error))),
        }
    }
}

/// How a file is called in a message.
pub fn name(path: &Path) -> String {
    if is_standard(path) {
        "standard input".to_string()
    } else if path.as_os_str().is_empty() {
        "''".to_string()
    } else {
        line(&path.display().to_string())
    }
}

/// A text as a line of a message: what would end the line or disturb a terminal is shown by its number.
pub fn line(text: &str) -> String {
    let shown = |letter: char| {
        let disturbs = letter.is_control();
        let number = disturbs.then(|| letter.escape_default());
        number
            .into_iter()
            .flatten()
            .chain((!disturbs).then_some(letter))
    };
    text.chars().flat_map(shown).collect()
}

/// The reason of the operating system without its number.
pub fn reason(error: &io::Error) -> String {
    let text = error.to_string();
    match text.find(" (os error ") {
        Some(end) => text[..end].to_string(),
        None => text,
    }
}
