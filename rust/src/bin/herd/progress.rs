//! A bar on the terminal while long files are read.

use std::fs;
use std::io::{self, IsTerminal, Write};
use std::path::PathBuf;

/// Files of so many bytes together are long.
const LONG: u64 = 1 << 20;
/// The letters of a full bar.
const WIDTH: u64 = 40;

/// How much of some files is read.
pub struct Progress {
    all: u64,
    read: u64,
    shown: bool,
    percent: Option<u64>,
}

impl Progress {
    /// Nothing is read yet of the files. A bar is shown where standard error is a terminal and they are long.
    pub fn over(paths: &[PathBuf]) -> Progress {
        let files = paths.iter().filter_map(|path| fs::metadata(path).ok());
        let files = files.filter(fs::Metadata::is_file);
        let all = files.map(|file| file.len()).sum();
        Progress {
            all,
            read: 0,
            shown: all >= LONG && io::stderr().is_terminal(),
            percent: None,
        }
    }

    /// So many bytes more are read.
    pub fn advance(&mut self, bytes: u64) {
        if !self.shown {
            return;
        }
        self.read += bytes;
        let percent = (100 * self.read / self.all).min(100);
        if self.percent != Some(percent) {
            self.percent = Some(percent);
            let full = (percent * WIDTH / 100) as usize;
            let (full, rest) = ("#".repeat(full), ".".repeat(WIDTH as usize - full));
            let _ = write!(io::stderr(), "\rreading [{full}{rest}] {percent:3} %");
        }
    }

    /// Takes the bar from the terminal, until more is read.
    pub fn hide(&mut self) {
        if self.percent.take().is_some() {
            let blank = " ".repeat(WIDTH as usize + 20);
            let _ = write!(io::stderr(), "\r{blank}\r");
        }
    }
}

/// The bar goes when the files are read.
impl Drop for Progress {
    fn drop(&mut self) {
        self.hide();
    }
}
