//! The program `herd`: contact tracing from reader files and logs.
//!
//! Answers go to standard output. A refusal is one line on standard error, and the exit status is then 1; where the call
//! itself is wrong it is 2.

mod arguments;
mod asking;
mod changing;
mod commands;
mod failure;
mod files;
mod lines;
mod loading;
mod picture;
mod progress;
mod tracing;

use failure::Failure;
use std::env;
use std::ffi::OsString;
use std::io::{self, Write};
use std::process::ExitCode;

fn main() -> ExitCode {
    let words: Vec<OsString> = env::args_os().skip(1).collect();
    match commands::run(&words) {
        Ok(()) | Err(Failure::OutputClosed) => ExitCode::SUCCESS,
        Err(Failure::Refused(lines)) => {
            tell(&lines);
            ExitCode::from(1)
        }
        Err(Failure::Usage { problem, usage }) => {
            tell(&[problem]);
            let _ = writeln!(io::stderr(), "{usage}");
            ExitCode::from(2)
        }
    }
}

/// Writes the lines to standard error. Where that is closed there is nobody to tell.
fn tell(lines: &[String]) {
    let line = |line: &String| format!("herd: {}\n", failure::line(line));
    let text: String = lines.iter().map(line).collect();
    let _ = io::stderr().write_all(text.as_bytes());
}
