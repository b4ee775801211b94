//! The bench: ratios of one run, of the engine beside its peers in Rust, and how its calls grow.
//!
//! Nothing is asserted about time; the peers' words and answers are compared with the engine's.

mod adding;
mod adds;
mod asking;
mod clock;
mod closure;
mod growth;
mod joining;
mod loading;
mod page;
mod readers;
mod removing;
mod rows;
mod staying;
mod ticks;
mod workloads;

use adding::Adding;
use asking::Asking;
use joining::Joining;
use loading::Loading;
use page::Goal;
use readers::Readers;
use removing::Removing;
use staying::Staying;
use workloads::Workload;

/// The closure of document 000 over loading a log, on each workload but the last.
const LOADING: Goal = Goal::AtLeast(10.0);
/// The same on most of them.
const LOADING_MOST: Goal = Goal::AtLeast(20.0);
/// Loading the log of the last workload over one write of its table.
const LOADING_FEW: Goal = Goal::AtMost(3.0);
/// A question over one read of the table.
const ASKING: Goal = Goal::AtMost(1.5);
/// Writing a log over one read of the table.
const WRITING: Goal = Goal::AtMost(3.0);
/// An add less its check over the same rule in Rust.
const ADDING: Goal = Goal::AtMost(1.0);
/// A join less its checks over its adds made singly, less theirs, on the season.
const JOINING: Goal = Goal::AtMost(1.1);
/// Joining a few contacts over one read of both tables, on the largest.
const JOINING_FEW: Goal = Goal::AtMost(5.0);
/// The contacts of each of these tables.
const FEW: usize = 200;
/// A list of stays less the check of its table over its adds made singly less theirs, or by joins less all else.
const STAYING: Goal = Goal::AtMost(1.5);
/// The records of a list of stays.
const STAYS: usize = 5_000;
/// What a removal takes beyond so many loads of the contacts left.
const LOADS: f64 = 1.3;
/// The same in reads of the table.
const REMOVING: Goal = Goal::AtMost(6.0);
/// Loading a reader file by the program over the engine's load of that log.
const READERS: Goal = Goal::AtMost(2.0);

fn main() {
    println!("A time is the shortest lap of turns that last 50 ms or more together, and all peers take turns.");
    println!("The time of an add is the median over many contacts; the ratios of a join and of stays are medians over laps.");
    let workloads = workloads::all();
    let tables = print_loading(&workloads);
    print_calls(&workloads, tables);
    print_joins(&workloads);
    print_stays();
    print_removals(&workloads);
    print_readers();
    growth::print();
}

/// Prints the ratios of loading, and gives the tables loaded.
fn print_loading(workloads: &[Workload]) -> Vec<Vec<u32>> {
    page::head(
        "Loading a whole log: the peer's time over the engine's",
        &["closure of 000", "adds in Rust", "ticks in Rust"],
    );
    page::goals(&[LOADING]);
    let mut closures = Vec::new();
    let mut writes = Vec::new();
    let mut tables = Vec::new();
    for (place, workload) in workloads.iter().enumerate() {
        let (times, table) = Loading::new(workload).run();
        print_load(workload, &times, place + 1 < workloads.len());
        closures.push(times.closure / times.engine);
        writes.push(times.engine / times.write);
        tables.push(table);
    }
    closures.pop();
    print_most(&closures);
    print_few(writes.pop().unwrap_or_default());
    tables
}

/// Prints the ratios of loading one log, of which the closure's is judged or not.
fn print_load(workload: &Workload, times: &loading::Times, judged: bool) {
    let closure = times.closure / times.engine;
    let cells = [
        if judged {
            LOADING.judged(closure)
        } else {
            page::number(closure)
        },
        page::number(times.adds / times.engine),
        page::number(times.ticks / times.engine),
    ];
    page::line(workload.name, &cells);
}

/// Prints on how many of the workloads the closure takes very much longer than the engine.
fn print_most(closures: &[f64]) {
    let many = closures.iter().filter(|&&ratio| LOADING_MOST.met(ratio));
    let (many, all) = (many.count(), closures.len());
    let verdict = page::verdict(2 * many > all);
    println!("closure of 000 {LOADING_MOST}: on {many} of {all}; goal on most, {verdict}");
}

/// Prints the ratio of loading a few contacts to one write of their table.
fn print_few(ratio: f64) {
    let (number, verdict) = (page::number(ratio), page::verdict(LOADING_FEW.met(ratio)));
    println!("largest table, the engine's time over one write of its words: {number}; goal {LOADING_FEW}, {verdict}");
}

/// Prints the ratios of single calls on the tables loaded.
fn print_calls(workloads: &[Workload], tables: Vec<Vec<u32>>) {
    page::head(
        "One call on an open table: over one read of its words; an add less its check: over the same rule in Rust",
        &["reach", "chain", "write log", "add"],
    );
    page::goals(&[ASKING, ASKING, WRITING, ADDING]);
    for (workload, table) in workloads.iter().zip(tables) {
        let asked = Asking::new(workload, table).run();
        let added = &Adding::run(&mut [Adding::new(workload)])[0];
        let cells = [
            ASKING.judged(asked.reach / asked.read),
            ASKING.judged(asked.chain / asked.read),
            WRITING.judged(asked.write_log / asked.read),
            ADDING.judged_in_doubt(added.ratio, added.doubt),
        ];
        page::line(workload.name, &cells);
    }
    println!(
        "open: beside the check of the table the add was too short to be measured well enough"
    );
}

/// Prints the ratios of joining one half of each workload's contacts into the other, and of joining a few.
fn print_joins(workloads: &[Workload]) {
    page::head(
        "Joining one half of the contacts into the other, less the checks of both tables: over the same adds",
        &["made singly", "in Rust"],
    );
    page::goals(&[JOINING]);
    for workload in workloads {
        let joined = Joining::new(workload).run();
        let singly = if workload.name == workloads::SEASON {
            JOINING.judged_in_doubt(joined.singly, joined.doubt)
        } else {
            page::number(joined.singly)
        };
        let cells = [singly, page::number(joined.rust)];
        page::line(workload.name, &cells);
    }
    println!(
        "open: beside the checks of the table the adds were too short to be measured well enough"
    );
    let (join, read) = Joining::new(&workloads::largest(2 * FEW)).join_and_read();
    let ratio = join / read;
    let (number, verdict) = (page::number(ratio), page::verdict(JOINING_FEW.met(ratio)));
    println!("largest table, {FEW} contacts joined with {FEW}, over one read of the words of both tables: {number}; goal {JOINING_FEW}, {verdict}");
}

/// Prints the ratios of adding the contacts of many stays, and of stays that share nothing.
fn print_stays() {
    let opening = workloads::SEASON_OPENING;
    let (n, ticks) = (opening.animals, opening.ticks);
    page::head(
        &format!("Adding the contacts of {STAYS} stays of {n} animals in {ticks} ticks, less the check of the table: over the same adds"),
        &["made singly", "made by joins", "in Rust"],
    );
    page::goals(&[STAYING, STAYING]);
    let mut staying = Staying::new(opening, workloads::stays(STAYS));
    let stays = staying.run();
    let cells = [
        STAYING.judged_in_doubt(stays.singly.number, stays.singly.doubt),
        STAYING.judged_in_doubt(stays.joined.number, stays.joined.doubt),
        page::number(stays.rust),
    ];
    page::line(&format!("{} contacts", staying.contacts()), &cells);
    println!("open: beside the check of the table an add was too short to be measured well enough");
    let mut apart = Staying::new(opening, workloads::stays_apart(STAYS));
    let (call, read) = apart.call_and_read();
    let (contacts, number) = (apart.contacts(), page::number(call / read));
    println!("{STAYS} stays that share nothing, {contacts} contacts, over one read of the words of the table: {number}");
}

/// Prints what removing one contact takes beside loading the log of the contacts left.
fn print_removals(workloads: &[Workload]) {
    page::head(
        &format!("Removing one contact: less {LOADS} loads of the log of the contacts left, over one read of the table's words; over that load"),
        &["in reads", "in loads"],
    );
    page::goals(&[REMOVING]);
    for workload in workloads {
        let times = Removing::new(workload).run();
        let beyond = (times.remove - LOADS * times.load) / times.read;
        let cells = [
            REMOVING.judged(beyond),
            page::number(times.remove / times.load),
        ];
        page::line(workload.name, &cells);
    }
}

/// Prints what loading a reader file by the program takes beside the engine's load of the log with the same lines.
fn print_readers() {
    let lines = readers::LINES;
    page::head(
        &format!("Loading a reader file of {lines} lines by the program, from its start to its end: over the engine's load of that log"),
        &["lines' order", "sorted log"],
    );
    page::goals(&[READERS, READERS]);
    for workload in workloads::readers(lines) {
        let name = workload.name;
        let Some(readers) = Readers::new(workload) else {
            println!("the program herd is not built: cargo build --release comes before");
            return;
        };
        let times = readers.run();
        let cells = [
            READERS.judged(times.program / times.engine),
            READERS.judged(times.program / times.sorted),
        ];
        page::line(name, &cells);
    }
}
