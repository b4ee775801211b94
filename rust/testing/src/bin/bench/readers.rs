//! Loading a reader file: the program `herd`, from its start to its end, beside the engine's load of the same log.

use crate::clock::{race, timed};
use crate::workloads::Workload;
use herd::calls::{read_log, Read};
use herd_testing::words::{self, Contact};
use std::env;
use std::fmt::Write;
use std::fs;
use std::path::{Path, PathBuf};
use std::process::{self, Command};
use std::time::Duration;

/// The lines of a reader file.
pub const LINES: usize = 100_000;

/// The seconds of one load: by the program, by the engine of the log in the order of the lines, and of the sorted log.
pub struct Times {
    pub program: f64,
    pub engine: f64,
    pub sorted: f64,
}

/// A reader file, its log in the order of the lines and sorted, and the table that the engine loads it into.
pub struct Readers {
    folder: PathBuf,
    workload: Workload,
    logs: [Vec<u32>; 2],
    table: Vec<u32>,
}

impl Readers {
    /// The reader file with a line for each contact of the workload, where the program is built.
    pub fn new(workload: Workload) -> Option<Readers> {
        program().is_file().then_some(())?;
        let folder = env::temp_dir().join(format!("herd_bench_{}", process::id()));
        fs::create_dir_all(&folder).expect("a folder for the reader file");
        let mut text = String::new();
        for Contact { from, to, tick } in &workload.contacts {
            writeln!(text, "{from} {to} {tick}").expect("a text takes whatever is written");
        }
        fs::write(folder.join("readers.txt"), text).expect("the reader file");
        let mut sorted = workload.contacts.clone();
        sorted.sort_unstable();
        let logs = [workload.log(), words::log(workload.opening, sorted)];
        let table = vec![1; workload.opening.table_words()];
        Some(Readers {
            folder,
            workload,
            logs,
            table,
        })
    }

    /// The times of the program and of the engine.
    pub fn run(mut self) -> Times {
        let seconds = race(3, |peer| match peer {
            0 => self.program(),
            1 => self.engine(0),
            _ => self.engine(1),
        });
        Times {
            program: seconds[0],
            engine: seconds[1],
            sorted: seconds[2],
        }
    }

    /// One load by the program.
    fn program(&self) -> Duration {
        let opening = self.workload.opening;
        let numbers = [opening.animals, opening.ticks, opening.carry].map(|n| n.to_string());
        let mut load = Command::new(program());
        load.current_dir(&self.folder).arg("load");
        for (name, number) in ["--animals", "--ticks", "--carry"].iter().zip(&numbers) {
            load.args([name, number.as_str()]);
        }
        load.args(["readers.txt", "-o", "readers.log"]);
        let (ended, lasted) = timed(|| load.output());
        let ended = ended.expect("the program runs");
        assert!(ended.status.success(), "{ended:?}");
        lasted
    }

    /// One load of a log by the engine.
    fn engine(&mut self, log: usize) -> Duration {
        let (answer, lasted) = timed(|| read_log(&self.logs[log], &mut self.table));
        assert!(matches!(answer, Read::Contacts(_)), "{answer:?}");
        lasted
    }
}

/// The folder goes with the reader file.
impl Drop for Readers {
    fn drop(&mut self) {
        let _ = fs::remove_dir_all(&self.folder);
    }
}

/// Where the program lies: beside the bench.
fn program() -> PathBuf {
    let bench = env::current_exe().unwrap_or_default();
    bench.with_file_name(Path::new("herd").with_extension(env::consts::EXE_EXTENSION))
}
