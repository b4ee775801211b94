//! The example season: what the readers of two yards and a gate noted, made from a seed.
//!
//! Thirty cows, 120 ticks of two hours, carry time 3. Animals 0 to 17 graze in the north and 14 to 29 in the south, so that
//! four of them are seen by both. A meeting is two contacts. Readers send some lines twice, and in no order.

use crate::random::Random;
use crate::words::Contact;
use std::fmt::Write;
use std::fs;
use std::io;
use std::path::Path;

/// How many animals there are.
pub const ANIMALS: u32 = 30;
/// How many ticks there are.
pub const TICKS: u32 = 120;
/// The carry time.
pub const CARRY: u32 = 3;
/// The seed of all files.
const SEED: u64 = 2026;
/// How often one line in so many is sent again.
const AGAIN: usize = 12;

/// A yard: the first and the last of its animals, and the meetings that its reader noted.
struct Yard {
    name: &'static str,
    animals: (u32, u32),
    meetings: usize,
}

const NORTH: Yard = Yard {
    name: "north.txt",
    animals: (0, 17),
    meetings: 90,
};
const SOUTH: Yard = Yard {
    name: "south.txt",
    animals: (14, 29),
    meetings: 80,
};

/// The name and the text of each file.
pub fn files() -> Vec<(&'static str, String)> {
    let mut random = Random::new(SEED);
    let mut files: Vec<_> = [NORTH, SOUTH]
        .iter()
        .map(|yard| (yard.name, yard.text(&mut random)))
        .collect();
    files.push(("gate.txt", gate(&mut random)));
    files
}

/// Writes the files into a folder.
pub fn write(folder: &Path) -> io::Result<()> {
    for (name, text) in files() {
        fs::write(folder.join(name), text)?;
    }
    Ok(())
}

impl Yard {
    /// What its reader noted.
    fn text(&self, random: &mut Random) -> String {
        let mut noted: Vec<Contact> = Vec::new();
        while noted.len() < 2 * self.meetings {
            let met = self.meeting(random);
            if met.from != met.to {
                noted.extend([met, met.back()]);
            }
        }
        let again: Vec<Contact> = noted
            .iter()
            .copied()
            .filter(|_| random.once_in(AGAIN))
            .collect();
        noted.extend(again);
        random.shuffle(&mut noted);
        let (first, last) = self.animals;
        let mut text = format!("# animals {first} to {last}: from to tick\n");
        for Contact { from, to, tick } in noted {
            let _ = writeln!(text, "{from} {to} {tick}");
        }
        text
    }

    /// Two of its animals, mostly near each other in number, at some tick.
    fn meeting(&self, random: &mut Random) -> Contact {
        let (first, last) = self.animals;
        let from = random.between(first, last);
        let near = (from + random.between(1, 4)).min(last);
        let any = random.between(first, last);
        let to = random.one_of(&[near, near, near, any]);
        Contact::new(from, to, random.between(1, TICKS))
    }
}

/// What the reader at the gate of the calving pens noted of five visits by three animals each: animal, pen, first tick, last
/// tick.
fn gate(random: &mut Random) -> String {
    let mut text = String::from("# animal, pen, first tick, last tick\n");
    for _ in 0..5 {
        let (pen, visit) = (random.between(0, 63), random.between(1, TICKS - 8));
        for _ in 0..3 {
            let animal = random.between(0, ANIMALS - 1);
            let first = visit + random.between(0, 3);
            let last = first + random.between(0, 3);
            let _ = writeln!(text, "{animal}, {pen}, {first}, {last}");
        }
    }
    text
}
