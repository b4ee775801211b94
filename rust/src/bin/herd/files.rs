//! Logs and other files, read and written whole.

use crate::failure::{self, Failure};
use herd::{Error, Herd};
use std::fs::{self, File};
use std::io::{self, BufWriter, Write};
use std::path::{Path, PathBuf};
use std::process;

/// Whether a path stands for standard input or output.
pub fn is_standard(path: &Path) -> bool {
    path == Path::new("-")
}

/// The herd of a log; `-` is standard input.
pub fn read_log(path: &Path) -> Result<Herd, Failure> {
    let read = if is_standard(path) {
        Herd::read_log(io::stdin().lock())
    } else {
        let file = File::open(path).map_err(|error| Failure::io(path, &error))?;
        Herd::read_log(file)
    };
    read.map_err(|error| Failure::about(path, &error))
}

/// Writes the herd's log to a file, and tells a line about it; `-` is standard output, and the line then goes to standard
/// error.
pub fn write_log(herd: &Herd, path: &Path, told: &str) -> Result<(), Failure> {
    write(path, |output| herd.write_log(output))?;
    let (animals, ticks) = (counted(herd.animals() as usize, "animal"), herd.ticks());
    let (carry, held) = (herd.carry(), counted(herd.held(), "contact"));
    let ticks = counted(ticks as usize, "tick");
    let about = format!("{animals}, {ticks}, carry time {carry}, {held}");
    if is_standard(path) {
        let text = format!("{told}\nstandard output: {about}\n");
        let _ = io::stderr().write_all(text.as_bytes());
        return Ok(());
    }
    let name = failure::name(path);
    print(&format!("{told}\n{name}: {about}\n"))
}

/// Writes an answer to standard output.
pub fn print(text: &str) -> Result<(), Failure> {
    let mut output = io::stdout().lock();
    let written = output.write_all(text.as_bytes());
    written
        .and_then(|()| output.flush())
        .map_err(|error| Failure::output(&error))
}

/// Writes a file by the call given. A file that is there already is replaced when all is written, and not before.
pub fn write(
    path: &Path,
    content: impl FnOnce(&mut dyn Write) -> Result<(), Error>,
) -> Result<(), Failure> {
    if is_standard(path) {
        return put(io::stdout().lock(), content).map_err(|error| match error {
            Error::Io(error) => Failure::output(&error),
            error => Failure::refused(error),
        });
    }
    let target = fs::canonicalize(path).unwrap_or_else(|_| path.to_path_buf());
    let there = fs::metadata(&target).ok();
    let written = match there {
        Some(there) if !there.is_file() => {
            let file = File::options().write(true).open(&target);
            file.map_err(Error::from)
                .and_then(|file| put(file, content))
        }
        there => replace(&target, there, content),
    };
    written.map_err(|error| Failure::about(path, &error))
}

/// Writes to an output that is open, to its end.
fn put(
    output: impl Write,
    content: impl FnOnce(&mut dyn Write) -> Result<(), Error>,
) -> Result<(), Error> {
    let mut output = BufWriter::new(output);
    content(&mut output)?;
    Ok(output.flush()?)
}

/// Writes a new file beside the one that is to be replaced, and puts it in its place.
fn replace(
    target: &Path,
    there: Option<fs::Metadata>,
    content: impl FnOnce(&mut dyn Write) -> Result<(), Error>,
) -> Result<(), Error> {
    let part = beside(target);
    let file = File::options().write(true).create_new(true).open(&part)?;
    let kept = put(file, content).and_then(|()| {
        if let Some(there) = there {
            fs::set_permissions(&part, there.permissions())?;
        }
        Ok(fs::rename(&part, target)?)
    });
    if kept.is_err() {
        let _ = fs::remove_file(&part);
    }
    kept
}

/// The name of the new file while it is written, which is short enough for any folder.
fn beside(target: &Path) -> PathBuf {
    target.with_file_name(format!(".herd.{}.part", process::id()))
}

/// A number of things, in the singular or in the plural.
pub fn counted(number: usize, thing: &str) -> String {
    match number {
        1 => format!("1 {thing}"),
        _ => format!("{number} {thing}s"),
    }
}
