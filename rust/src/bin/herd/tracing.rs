//! `herd trace` and `herd back`: an animal traced through the whole herd.

use crate::arguments::Given;
use crate::asking::Ends;
use crate::failure::Failure;
use crate::files::{self, counted};
use crate::picture::Picture;
use herd::Traced;
use std::fmt::Write as _;
use std::ops::RangeInclusive;
use std::path::{Path, PathBuf};

/// Which way an animal is traced.
#[derive(Clone, Copy, PartialEq, Eq)]
pub enum Way {
    /// To the animals that it can have reached.
    Forward,
    /// From the animals that can have reached it.
    Back,
}

/// Traces an animal to those that it can have reached.
pub fn trace(given: &Given) -> Result<(), Failure> {
    traced(given, Way::Forward)
}

/// Traces an animal back to those that can have reached it.
pub fn back(given: &Given) -> Result<(), Failure> {
    traced(given, Way::Back)
}

/// Traces an animal, draws the picture that is asked for, and prints a table.
fn traced(given: &Given, way: Way) -> Result<(), Failure> {
    let [log, animal] = given.operands(["LOG", "ANIMAL"])?;
    let animal = given.read_number("ANIMAL", animal)?;
    let ends = Ends::new(given)?;
    let svg = given.path("--svg");
    if let Some(path) = &svg {
        given.keep_inputs(path, &[PathBuf::from(log)])?;
    }
    let herd = files::read_log(Path::new(log))?;
    let window = ends.window(&herd);
    let found = match way {
        Way::Forward => herd.trace(animal, window.clone()),
        Way::Back => herd.trace_back(animal, window.clone()),
    };
    let found = found.map_err(Failure::refused)?;
    let title = title(way, animal, found.len(), herd.animals() - 1, &window);
    if let Some(path) = svg {
        let picture = Picture {
            way,
            animal,
            window,
            carry: herd.carry(),
            title: &title,
            found: &found,
        };
        let undrawn = || Failure::refused("a contact of the trace has no lane; nothing was drawn");
        let text = picture.draw().ok_or_else(undrawn)?;
        files::write(&path, |output| Ok(output.write_all(text.as_bytes())?))?;
        if files::is_standard(&path) {
            return Ok(());
        }
    }
    files::print(&format!("{title}\n{}", table(way, &found)))
}

/// What was found, in one sentence.
fn title(way: Way, animal: u32, found: usize, others: u32, window: &RangeInclusive<u32>) -> String {
    let others = counted(others as usize, "other animal");
    let (first, last) = (window.start(), window.end());
    let by = format!("by contacts from tick {first} to tick {last}");
    match way {
        Way::Forward => format!("Animal {animal} can have reached {found} of {others} {by}"),
        Way::Back => format!("Animal {animal} can have been reached from {found} of {others} {by}"),
    }
}

/// A line for each animal found: the end that it was sorted by, the other end, and the animals between.
fn table(way: Way, found: &[Traced]) -> String {
    let mut text = String::new();
    if found.is_empty() {
        return text;
    }
    text += match way {
        Way::Forward => "animal  earliest arrival  departure  through\n",
        Way::Back => "animal  latest departure  arrival  through\n",
    };
    for traced in found {
        let (animal, interval) = (traced.animal, traced.interval);
        let through: Vec<String> = traced.through().map(|animal| animal.to_string()).collect();
        let through = if through.is_empty() {
            "directly".to_string()
        } else {
            through.join(", ")
        };
        let (departure, arrival) = (interval.departure, interval.arrival);
        let _ = match way {
            Way::Forward => writeln!(text, "{animal:6}  {arrival:16}  {departure:9}  {through}"),
            Way::Back => writeln!(text, "{animal:6}  {departure:16}  {arrival:7}  {through}"),
        };
    }
    text
}
