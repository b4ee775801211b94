//! A terminal that a program writes to, and what stands on it afterwards (Linux).

use crate::run::Outcome;
use std::ffi::{c_char, c_int, c_void};
use std::fs::File;
use std::io::Read;
use std::os::fd::{FromRawFd, OwnedFd};
use std::process::{Command, Stdio};
use std::{ptr, thread};

extern "C" {
    fn openpty(
        main: *mut c_int,
        other: *mut c_int,
        name: *mut c_char,
        form: *const c_void,
        size: *const c_void,
    ) -> c_int;
}

/// Both ends of a new terminal: what is written to the second is read from the first.
fn open() -> (File, OwnedFd) {
    let (mut main, mut other) = (-1, -1);
    // SAFETY: both places are there to be written, and no name, form or size is asked for.
    let opened = unsafe {
        openpty(
            &mut main,
            &mut other,
            ptr::null_mut(),
            ptr::null(),
            ptr::null(),
        )
    };
    assert_eq!(opened, 0, "openpty failed");
    // SAFETY: both are open, and nobody else has them.
    unsafe { (File::from_raw_fd(main), OwnedFd::from_raw_fd(other)) }
}

/// All that is written to a terminal until nobody has it open any more.
fn read_all(mut terminal: File) -> String {
    let (mut text, mut piece) = (Vec::new(), [0; 4096]);
    while let Ok(bytes @ 1..) = terminal.read(&mut piece) {
        text.extend(&piece[..bytes]);
    }
    String::from_utf8(text).expect("plain text")
}

/// Runs a command with a terminal as its standard error. The complaint of the outcome is what was written to the terminal.
pub fn run(call: &str, mut command: Command) -> Outcome {
    let (main, other) = open();
    let reader = thread::spawn(|| read_all(main));
    command.stdout(Stdio::piped()).stderr(other);
    let child = command.spawn().expect("the program starts");
    // The command has the terminal open too.
    drop(command);
    let mut output = child.wait_with_output().expect("the program's output");
    output.stderr = reader.join().expect("the terminal's text").into_bytes();
    Outcome::new(call, output)
}

/// The lines that stand on a terminal to which the text was written, without blanks at their ends.
pub fn screen(text: &str) -> Vec<String> {
    let mut lines = vec![Vec::new()];
    let mut column = 0;
    for letter in text.chars() {
        match letter {
            '\r' => column = 0,
            '\n' => lines.push(Vec::new()),
            letter => {
                let line = lines.last_mut().expect("a line");
                line.resize(line.len().max(column + 1), ' ');
                line[column] = letter;
                column += 1;
            }
        }
    }
    let line = |letters: Vec<char>| {
        letters
            .into_iter()
            .collect::<String>()
            .trim_end()
            .to_string()
    };
    lines.into_iter().map(line).collect()
}
