//! Runs a proved program on an input, and gives what it writes.

use std::fs::File;
use std::io::{ErrorKind, Write};
use std::path::{Path, PathBuf};
use std::process::{Child, ChildStdin, Command, Stdio};
use std::thread;
use std::time::Duration;

/// A program of the tree, built by `rt run` in its crate's folder.
#[derive(Clone, Copy, Debug)]
pub struct Program {
    /// Its name.
    pub name: &'static str,
    /// So many bytes it reads whole; of more it may leave some unread.
    pub reads: usize,
}

impl Program {
    /// What it writes for a file.
    pub fn written_for_file(self, path: &Path) -> Vec<u8> {
        let file = File::open(path).unwrap_or_else(|error| panic!("{}: {error}", path.display()));
        finish(self.start(Stdio::from(file)))
    }

    /// What it writes without an input.
    pub fn written_for_nothing(self) -> Vec<u8> {
        finish(self.start(Stdio::null()))
    }

    /// What it writes for bytes that come through a pipe.
    pub fn written(self, bytes: &[u8]) -> Vec<u8> {
        self.written_for_pieces(bytes, usize::MAX, Duration::ZERO)
    }

    /// What it writes for bytes that come through a pipe in pieces of this size, with a pause after each.
    pub fn written_for_pieces(self, bytes: &[u8], size: usize, pause: Duration) -> Vec<u8> {
        let mut program = self.start(Stdio::piped());
        let pipe = program.stdin.take().expect("a pipe to the program");
        let closes = bytes.len() > self.reads;
        thread::scope(|scope| {
            scope.spawn(move || feed(pipe, bytes, size, pause, closes));
            finish(program)
        })
    }

    /// Starts it on this input.
    fn start(self, input: Stdio) -> Child {
        let crates = Path::new(env!("CARGO_MANIFEST_DIR")).join("../../crates");
        let path: PathBuf = crates.join(self.name).join("out").join(self.name);
        let mut program = Command::new(&path);
        program.stdin(input).stdout(Stdio::piped());
        let started = program.stderr(Stdio::piped()).spawn();
        started.unwrap_or_else(|error| {
            panic!(
                "{} does not start, run `rt run` in crates/{} first: {error}",
                path.display(),
                self.name
            )
        })
    }
}

/// Writes the bytes to a program, which may close its input only where `closes` says so.
fn feed(mut pipe: ChildStdin, bytes: &[u8], size: usize, pause: Duration, closes: bool) {
    for piece in bytes.chunks(size) {
        match pipe.write_all(piece) {
            Err(error) if error.kind() == ErrorKind::BrokenPipe && closes => return,
            written => written.expect("the program reads its whole input"),
        }
        thread::sleep(pause);
    }
}

/// What a program has written when it ends, which must be with success.
fn finish(program: Child) -> Vec<u8> {
    let output = program.wait_with_output().expect("the program's output");
    let complaint = String::from_utf8_lossy(&output.stderr);
    assert!(output.status.success(), "{}: {complaint}", output.status);
    output.stdout
}
