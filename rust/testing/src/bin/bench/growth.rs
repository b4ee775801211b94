//! How the engine's calls grow when the animals, the ticks or the contacts double.

use crate::adding::Adding;
use crate::asking::Asking;
use crate::clock::race;
use crate::loading::Loading;
use crate::page;
use crate::workloads::Workload;
use herd_testing::words::Opening;

/// The sizes of a growth, each twice the size before.
const SIZES: usize = 4;

/// The columns: what is measured, over the same at the size before.
const COLUMNS: [&str; 7] = [
    "words",
    "read words",
    "load",
    "add",
    "reach",
    "chain",
    "write log",
];

/// Prints the three tables.
pub fn print() {
    let title = "The animals double (128 ticks, carry 2, 2,000 contacts): over the size before";
    print_growth(title, |times| sized(16 * times, 128, 2_000));
    let title = "The ticks double (32 animals, carry 2, 2,000 contacts): over the size before";
    print_growth(title, |times| sized(32, 64 * times, 2_000));
    let title = "The contacts double (32 animals, 128 ticks, carry 2): over the size before";
    print_growth(title, |times| sized(32, 128, 1_000 * times));
}

/// A workload of this size.
fn sized(animals: u32, ticks: u32, contacts: u32) -> Workload {
    let opening = Opening::new(animals, ticks, 2);
    Workload::drawn("", opening, contacts as usize)
}

/// Prints how the workloads of one, two, four and eight times a size grow.
fn print_growth(title: &str, size: impl Fn(u32) -> Workload) {
    let workloads: Vec<Workload> = (0..SIZES).map(|doubled| size(1 << doubled)).collect();
    let measured = measured(&workloads);
    page::head(title, &COLUMNS);
    for (size, pair) in workloads.windows(2).enumerate() {
        let grown = measured.iter().map(|times| times[size + 1] / times[size]);
        let cells: Vec<String> = grown.map(page::number).collect();
        page::line(&step(&pair[0], &pair[1]), &cells);
    }
}

/// What the columns measure, for each workload.
fn measured(workloads: &[Workload]) -> Vec<Vec<f64>> {
    let words = workloads.iter().map(|w| w.opening.table_words() as f64);
    let mut loading: Vec<Loading> = workloads.iter().map(Loading::new).collect();
    let load = race(SIZES, |size| loading[size].engine());
    let tables = loading.into_iter().map(Loading::into_table);
    let asked = workloads.iter().zip(tables);
    let mut asking: Vec<Asking> = asked.map(|(w, table)| Asking::new(w, table)).collect();
    let mut adding: Vec<Adding> = workloads.iter().map(Adding::new).collect();
    let added = Adding::run(&mut adding);
    vec![
        words.collect(),
        race(SIZES, |size| asking[size].read()),
        load,
        added.iter().map(|times| times.engine).collect(),
        race(SIZES, |size| asking[size].reach()),
        race(SIZES, |size| asking[size].chain()),
        race(SIZES, |size| asking[size].write_log()),
    ]
}

/// The number that doubles, before and after.
fn step(before: &Workload, after: &Workload) -> String {
    let numbers = |w: &Workload| {
        [
            w.opening.animals as usize,
            w.opening.ticks as usize,
            w.contacts.len(),
        ]
    };
    let steps = numbers(before).into_iter().zip(numbers(after));
    let doubled = steps.filter(|(before, after)| before != after);
    doubled
        .map(|(before, after)| format!("{before} to {after}"))
        .collect()
}
