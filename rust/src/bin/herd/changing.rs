//! `herd join`, `herd remove` and `herd stays`: a log of other contacts.

use crate::arguments::Given;
use crate::failure::{self, Failure};
use crate::files::{self, counted};
use crate::lines::{Bad, Records};
use herd::{Contact, Stay};
use std::path::{Path, PathBuf};

/// How a line of a file of stays is written.
const STAY_FORM: &str = "a stay is four numbers: animal pen first last";

/// Joins two logs or more.
pub fn join(given: &Given) -> Result<(), Failure> {
    let output = given.needed_path("--output", "-o LOG")?;
    let logs = given.paths(2, "LOG")?;
    let mut herd = files::read_log(&logs[0])?;
    let mut told = vec![format!(
        "{}: {}",
        failure::name(&logs[0]),
        counted(herd.held(), "contact")
    )];
    for log in &logs[1..] {
        let other = files::read_log(log)?;
        let new = herd.join(&other).map_err(|error| {
            Failure::refused(format!(
                "{} and {}: {error}",
                failure::name(&logs[0]),
                failure::name(log)
            ))
        })?;
        let held = counted(other.held(), "contact");
        told.push(format!("{}: {held}, {new} of them new", failure::name(log)));
    }
    files::write_log(&herd, &output, &told.join("\n"))
}

/// Takes one contact out of a log.
pub fn remove(given: &Given) -> Result<(), Failure> {
    let [log, from, to, tick] = given.operands(["LOG", "FROM", "TO", "TICK"])?;
    let contact = Contact::new(
        given.read_number("FROM", from)?,
        given.read_number("TO", to)?,
        given.read_number("TICK", tick)?,
    );
    let output = given.needed_path("--output", "-o LOG")?;
    let log = Path::new(log);
    let mut herd = files::read_log(log)?;
    herd.remove(contact)
        .map_err(|error| Failure::about(log, &error))?;
    files::write_log(&herd, &output, &format!("removed {contact}"))
}

/// Adds the contacts of a file of stays to a log.
pub fn stays(given: &Given) -> Result<(), Failure> {
    let [log, stays] = given.operands(["LOG", "STAYS"])?;
    let stays = [PathBuf::from(stays)];
    let output = given.needed_path("--output", "-o LOG")?;
    given.keep_inputs(&output, &stays)?;
    let mut herd = files::read_log(Path::new(log))?;
    let mut read = Records::read(
        &stays,
        Bad::Refused,
        STAY_FORM,
        |[animal, pen, first, last]| {
            let stay = Stay::new(animal, pen, first, last);
            herd.judge_stay(stay).map_err(|error| error.to_string())?;
            Ok(stay)
        },
    )?;
    read.refuse_bad("")?;
    let before = herd.held();
    let new = herd.stays(&read.taken).map_err(Failure::refused)?;
    let told = format!(
        "{} read: {}, {}; {} more than the {before} before",
        read.lines(),
        counted(read.number, "stay"),
        counted(read.blank, "blank or comment line"),
        counted(new, "contact"),
    );
    files::write_log(&herd, &output, &told)
}
