//! A small tracing program: whom can an animal have infected, when, and through whom?
//!
//! It takes a reader file of the example season and an animal:
//!
//! ```sh
//! cargo run --release --example tracing -- season/north.txt 5
//! ```

use herd::{Contact, Herd};
use std::env;
use std::error::Error;
use std::fs;

fn main() -> Result<(), Box<dyn Error>> {
    let arguments: Vec<String> = env::args().skip(1).collect();
    let [file, animal] = &arguments[..] else {
        return Err("a reader file and an animal are needed".into());
    };
    let animal = animal.parse()?;

    // Thirty animals, 120 ticks, and a carry time of 3 ticks.
    let mut herd = Herd::open(30, 120, 3)?;
    let text = fs::read_to_string(file)?;
    let lines = text.lines().filter(|line| !line.starts_with('#'));
    let contacts: Vec<Contact> = lines.map(contact).collect::<Result<_, _>>()?;
    let different = herd.extend(contacts)?;
    println!("{different} different contacts");

    for found in herd.trace(animal, herd.calendar())? {
        let through: Vec<u32> = found.through().collect();
        let (reached, arrival) = (found.animal, found.interval.arrival);
        println!("{animal} can have reached {reached} at tick {arrival}, through {through:?}");
    }
    Ok(())
}

/// The contact of a line `from to tick`.
fn contact(line: &str) -> Result<Contact, Box<dyn Error>> {
    let numbers = line.split_whitespace().map(str::parse);
    let numbers: Vec<u32> = numbers.collect::<Result<_, _>>()?;
    match numbers[..] {
        [from, to, tick] => Ok(Contact::new(from, to, tick)),
        _ => Err(format!("'{line}' is no contact").into()),
    }
}
