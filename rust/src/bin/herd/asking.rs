//! `herd ask`, `herd sheet` and `herd contacts`: what a log says.

use crate::arguments::Given;
use crate::failure::Failure;
use crate::files;
use herd::{Contact, Error, Herd};
use std::fmt::Write as _;
use std::io::Write;
use std::ops::RangeInclusive;
use std::path::Path;

/// The ends of the window that is asked about, where they are given.
pub struct Ends {
    first: Option<u32>,
    last: Option<u32>,
}

impl Ends {
    /// What a command is given of them.
    pub fn new(given: &Given) -> Result<Ends, Failure> {
        Ok(Ends {
            first: given.number("--first")?,
            last: given.number("--last")?,
        })
    }

    /// The window; an end that is not given is that of the calendar.
    pub fn window(&self, herd: &Herd) -> RangeInclusive<u32> {
        self.first.unwrap_or(1)..=self.last.unwrap_or(herd.ticks())
    }
}

/// Answers whether one animal can have reached another: yes with its chain, or no.
pub fn ask(given: &Given) -> Result<(), Failure> {
    let [log, from, to] = given.operands(["LOG", "FROM", "TO"])?;
    let (from, to) = (
        given.read_number("FROM", from)?,
        given.read_number("TO", to)?,
    );
    let ends = Ends::new(given)?;
    let herd = files::read_log(Path::new(log))?;
    let window = ends.window(&herd);
    let (first, last) = (*window.start(), *window.end());
    let by = format!("by contacts from tick {first} to tick {last}");
    let text = match herd.chain(from, to, window).map_err(Failure::refused)? {
        Some(chain) => {
            let lines = lines_of(&chain, herd.carry());
            format!("yes: {from} can have reached {to} {by}\n{lines}")
        }
        None => format!("no: {from} cannot have reached {to} {by}\n"),
    };
    files::print(&text)
}

/// A line for each contact of a chain.
fn lines_of(chain: &[Contact], carry: u32) -> String {
    let mut text = String::new();
    for contact in chain {
        let arrival = contact.interval(carry).arrival;
        let _ = writeln!(text, "  {contact}, arrives at tick {arrival}");
    }
    text
}

/// Prints the sheet of a log: its numbers, then the intervals of each ordered pair that has some.
pub fn sheet(given: &Given) -> Result<(), Failure> {
    let [log] = given.operands(["LOG"])?;
    let herd = files::read_log(Path::new(log))?;
    files::write(Path::new("-"), |output| write_sheet(&herd, output))
}

/// Writes the sheet of a herd.
fn write_sheet(herd: &Herd, output: &mut dyn Write) -> Result<(), Error> {
    let (animals, ticks, carry) = (herd.animals(), herd.ticks(), herd.carry());
    writeln!(output, "{animals} {ticks} {carry} {}", herd.held())?;
    for from in 0..animals {
        for to in (0..animals).filter(|&to| to != from) {
            let intervals = herd.intervals(from, to)?;
            if intervals.is_empty() {
                continue;
            }
            write!(output, "{from} {to}")?;
            for interval in intervals {
                write!(output, " {interval}")?;
            }
            writeln!(output)?;
        }
    }
    Ok(output.flush()?)
}

/// Prints the contacts of a log in its order, as lines of a reader file.
pub fn contacts(given: &Given) -> Result<(), Failure> {
    let [log] = given.operands(["LOG"])?;
    let herd = files::read_log(Path::new(log))?;
    files::write(Path::new("-"), |output| {
        for Contact { from, to, tick } in herd.contacts()? {
            writeln!(output, "{from} {to} {tick}")?;
        }
        Ok(output.flush()?)
    })
}
