//! Text files with one record to a line: numbers between spaces or commas, and comments behind `#`.

use crate::failure::{self, Failure};
use crate::files::{counted, is_standard};
use crate::progress::Progress;
use std::fs::File;
use std::io::{self, BufRead, BufReader, Read, Write};
use std::path::{Path, PathBuf};

/// The bytes of the longest line that is taken for text.
const LONGEST: u64 = 1 << 16;
/// The letters of a field that a message shows.
const SHOWN: usize = 24;
/// The bad lines that are named where nothing is written.
const NAMED: usize = 20;
/// So many records are kept before repeats among them are looked for.
const MANY: usize = 1 << 22;
/// The mark that some programs put before a text; where texts are put together, it stands before a later line too.
const BYTE_ORDER_MARK: &[u8] = b"\xEF\xBB\xBF";

/// What becomes of bad lines.
#[derive(Clone, Copy, PartialEq, Eq)]
pub enum Bad {
    /// They are named, and nothing else is done.
    Refused,
    /// They are named and passed over.
    Skipped,
}

/// What was read of some files.
pub struct Records<T> {
    /// The records; where there are very many, in another order and without some repeats.
    pub taken: Vec<T>,
    /// How many lines have a record.
    pub number: usize,
    /// How many lines are blank or have a comment only.
    pub blank: usize,
    /// How many lines are bad.
    pub bad: usize,
    /// The first bad lines, where they are not skipped: file, number and reason of each.
    named: Vec<String>,
    /// How many records are kept before repeats are looked for again.
    most: usize,
}

impl<T: Ord> Records<T> {
    /// Reads all files, of which each record has N numbers that `record` takes or says what is wrong with; `form` says how a
    /// record is written. A file that cannot be read to its end ends the reading.
    pub fn read<const N: usize>(
        paths: &[PathBuf],
        bad: Bad,
        form: &str,
        record: impl Fn([u32; N]) -> Result<T, String>,
    ) -> Result<Records<T>, Failure> {
        let mut records = Records {
            taken: Vec::new(),
            number: 0,
            blank: 0,
            bad: 0,
            named: Vec::new(),
            most: MANY,
        };
        let mut progress = Progress::over(paths);
        for path in paths {
            let name = failure::name(path);
            each_line(path, |number, line| {
                match numbers(line, form).and_then(|found| found.map(&record).transpose()) {
                    Ok(Some(record)) => records.keep(record),
                    Ok(None) => records.blank += 1,
                    Err(reason) => {
                        records.bad += 1;
                        let line = || format!("{name}:{number}: {reason}");
                        records.name(bad, line, &mut progress);
                    }
                }
                progress.advance(line.len() as u64);
            })?;
        }
        Ok(records)
    }

    /// Keeps a record.
    fn keep(&mut self, record: T) {
        self.number += 1;
        self.taken.push(record);
        if self.taken.len() >= self.most {
            self.taken.sort_unstable();
            self.taken.dedup();
            self.most = MANY.max(2 * self.taken.len());
        }
    }

    /// Names a bad line.
    fn name(&mut self, bad: Bad, line: impl Fn() -> String, progress: &mut Progress) {
        if bad == Bad::Skipped {
            progress.hide();
            let _ = writeln!(io::stderr(), "herd: skipped {}", line());
        } else if self.named.len() < NAMED {
            self.named.push(line());
        }
    }

    /// Refuses where some line is bad; `otherwise` says what can be done about it.
    pub fn refuse_bad(&mut self, otherwise: &str) -> Result<(), Failure> {
        let mut lines = std::mem::take(&mut self.named);
        match (self.bad, lines.first_mut()) {
            (1, Some(line)) => line.push_str(&format!("; nothing was written{otherwise}")),
            (_, Some(_)) => lines.push(format!(
                "{} bad lines in all, nothing was written{otherwise}",
                self.bad
            )),
            (_, None) => return Ok(()),
        }
        Err(Failure::Refused(lines))
    }

    /// How many lines there are.
    pub fn lines(&self) -> String {
        counted(self.number + self.blank + self.bad, "line")
    }
}

/// Calls `take` with the number and the bytes of each line; `-` is standard input.
fn each_line(path: &Path, take: impl FnMut(usize, &[u8])) -> Result<(), Failure> {
    let read = if is_standard(path) {
        lines_of(io::stdin().lock(), take)
    } else {
        File::open(path).and_then(|file| {
            let file = BufReader::with_capacity(LONGEST as usize, file);
            lines_of(file, take)
        })
    };
    match read {
        Ok(None) => Ok(()),
        Ok(Some(number)) => Err(Failure::refused(format!(
            "{}:{number}: a line of more than {LONGEST} bytes, this is no text file; nothing was written",
            failure::name(path)
        ))),
        Err(error) => Err(Failure::io(path, &error)),
    }
}

/// Calls `take` with the number and the bytes of each line, and gives the number of one that is too long, if any.
fn lines_of(
    mut input: impl BufRead,
    mut take: impl FnMut(usize, &[u8]),
) -> io::Result<Option<usize>> {
    let mut line = Vec::new();
    for number in 1.. {
        line.clear();
        let mut limited = input.by_ref().take(LONGEST + 1);
        let bytes = limited.read_until(b'\n', &mut line)?;
        if bytes == 0 {
            break;
        }
        if bytes as u64 > LONGEST {
            return Ok(Some(number));
        }
        take(number, &line);
    }
    Ok(None)
}

/// The N numbers of a line, nothing where it is blank, or what is wrong with it.
fn numbers<const N: usize>(line: &[u8], form: &str) -> Result<Option<[u32; N]>, String> {
    let line = line.strip_prefix(BYTE_ORDER_MARK).unwrap_or(line);
    let end = line.iter().position(|&byte| byte == b'#');
    let text = line[..end.unwrap_or(line.len())].trim_ascii();
    if text.is_empty() {
        return Ok(None);
    }
    let mut numbers = [0; N];
    let mut found = 0;
    for field in text.split(|&byte| byte == b',') {
        let before = found;
        for word in field.split(u8::is_ascii_whitespace) {
            if word.is_empty() {
                continue;
            }
            let number = number(word).ok_or_else(|| match word.iter().all(u8::is_ascii_digit) {
                true => format!("'{}' is too large a number; {form}", shown(word)),
                false => format!("'{}' is no number; {form}", shown(word)),
            })?;
            if let Some(place) = numbers.get_mut(found) {
                *place = number;
            }
            found += 1;
        }
        if found == before {
            return Err(format!("no number beside a comma; {form}"));
        }
    }
    if found == N {
        Ok(Some(numbers))
    } else {
        Err(format!("{}; {form}", counted(found, "number")))
    }
}

/// The number of a word of digits, where it has 32 bits.
fn number(word: &[u8]) -> Option<u32> {
    word.iter().try_fold(0u32, |number, &byte| {
        let digit = byte.is_ascii_digit().then(|| u32::from(byte - b'0'))?;
        number.checked_mul(10)?.checked_add(digit)
    })
}

/// A field as a message shows it: not too long, and without what would disturb a terminal.
fn shown(word: &[u8]) -> String {
    let text = String::from_utf8_lossy(word);
    let mut letters = text.chars();
    let mut shown: String = letters
        .by_ref()
        .take(SHOWN)
        .flat_map(char::escape_debug)
        .collect();
    if letters.next().is_some() {
        shown.push_str("...");
    }
    shown
}
