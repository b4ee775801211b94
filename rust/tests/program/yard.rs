//! A small yard with a file of each kind, and the calls that write and print something of it.

use crate::run::Folder;
use crate::told::{self, Herd};
use herd_testing::words::{contacts, Contact, Opening};

/// How the herd of the yard is opened.
pub const OPENING: Opening = Opening {
    animals: 4,
    ticks: 6,
    carry: 1,
};

/// Every call that writes a file, which is named `@`.
pub const WRITING: [&str; 7] = [
    "load --animals 4 --ticks 6 --carry 1 reader.txt -o @",
    "load --animals 4 --ticks 6 --carry 1 --skip-bad reader.txt -o @",
    "stays herd.log gate.txt -o @",
    "join herd.log other.log -o @",
    "remove herd.log 0 1 1 -o @",
    "trace herd.log 0 --svg @",
    "back herd.log 3 --svg @",
];

/// Calls that print an answer and write no file.
pub const PRINTING: [&str; 11] = [
    "sheet herd.log",
    "contacts herd.log",
    "trace herd.log 0",
    "back herd.log 3",
    "ask herd.log 0 3",
    "ask herd.log 3 0",
    "--help",
    "--version",
    "help",
    "help trace",
    "load --help",
];

/// The herd of the yard's log.
pub fn herd() -> Herd {
    Herd::new(OPENING, contacts([(0, 1, 1), (0, 1, 2), (1, 3, 4)]))
}

/// A folder with the log of the herd, another log, a reader file, a gate reader's file, and a file that is none of these.
pub fn yard(name: &str) -> Folder {
    let folder = Folder::new(name);
    folder.put("herd.log", herd().log());
    folder.put("other.log", told::log_of(OPENING, [Contact::new(2, 0, 6)]));
    folder.put("reader.txt", "3 2 5\n3 2 5\n");
    folder.put("gate.txt", "1 9 2 3\n2 9 3 4\n");
    folder.put("old.log", "as before");
    folder
}
