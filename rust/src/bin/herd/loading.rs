//! `herd load`: reader files into a log.

use crate::arguments::Given;
use crate::failure::Failure;
use crate::files::{self, counted};
use crate::lines::{Bad, Records};
use herd::{Contact, Herd};

/// How a line of a reader file is written.
const FORM: &str = "a contact is three numbers: from to tick";

/// Loads the reader files into a log.
pub fn load(given: &Given) -> Result<(), Failure> {
    let animals = given.needed_number("--animals", "--animals N")?;
    let ticks = given.needed_number("--ticks", "--ticks T")?;
    let carry = given.needed_number("--carry", "--carry D")?;
    let output = given.needed_path("--output", "-o LOG")?;
    let readers = given.paths(1, "READERS")?;
    given.keep_inputs(&output, &readers)?;
    let skips = given.has("--skip-bad");
    let bad = if skips { Bad::Skipped } else { Bad::Refused };
    let mut herd = Herd::open(animals, ticks, carry).map_err(Failure::refused)?;
    let mut read = Records::read(&readers, bad, FORM, |[from, to, tick]| {
        let contact = Contact::new(from, to, tick);
        herd.judge(contact).map_err(|error| error.to_string())?;
        Ok(contact)
    })?;
    read.refuse_bad(" (--skip-bad passes over such lines)")?;
    let (lines, number) = (read.lines(), read.number);
    let different = herd.extend(read.taken).map_err(Failure::refused)?;
    let mut told = format!(
        "{lines} read: {}, {}, {}",
        counted(different, "different contact"),
        counted(number - different, "repeat"),
        counted(read.blank, "blank or comment line"),
    );
    if skips {
        told += &format!(", {} skipped", counted(read.bad, "bad line"));
    }
    files::write_log(&herd, &output, &told)
}
