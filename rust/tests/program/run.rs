//! Runs of the program in a folder of their own, and what they wrote.

use std::collections::BTreeMap;
use std::ffi::OsStr;
use std::fmt;
use std::fs;
use std::io::{ErrorKind, Write};
use std::os::unix::fs::MetadataExt;
use std::os::unix::process::CommandExt;
use std::path::{Path, PathBuf};
use std::process::{Command, Output, Stdio};
use std::thread;

/// The program.
const PROGRAM: &str = env!("CARGO_BIN_EXE_herd");
/// The number of a user who owns nothing.
const NOBODY: u32 = 65_534;
/// A file of more bytes is known by its length alone.
const COMPARED: u64 = 1 << 20;

/// A folder of one test, in which the program runs; it is empty at first.
pub struct Folder(PathBuf);

/// What a run wrote, and how it ended.
pub struct Outcome {
    call: String,
    pub status: i32,
    pub output: Vec<u8>,
    pub complaint: String,
}

impl Folder {
    /// The folder of this name, without what an earlier run left in it.
    pub fn new(name: &str) -> Folder {
        let path = Path::new(env!("CARGO_TARGET_TMPDIR"))
            .join("program")
            .join(name);
        if path.exists() {
            fs::remove_dir_all(&path).expect("an old folder goes");
        }
        fs::create_dir_all(&path).expect("a folder");
        Folder(path)
    }

    /// The path of a file in it.
    pub fn path(&self, name: &str) -> PathBuf {
        self.0.join(name)
    }

    /// Writes a file.
    pub fn put(&self, name: &str, bytes: impl AsRef<[u8]>) {
        fs::write(self.path(name), bytes).unwrap_or_else(|error| panic!("{name}: {error}"));
    }

    /// The bytes of a file.
    #[track_caller]
    pub fn bytes(&self, name: &str) -> Vec<u8> {
        fs::read(self.path(name)).unwrap_or_else(|error| panic!("{name}: {error}"))
    }

    /// The names of its files with their bytes; a folder has none, and of a long file it is the length.
    pub fn kept(&self) -> BTreeMap<String, Vec<u8>> {
        let files = fs::read_dir(&self.0).expect("the folder");
        let files = files.map(|file| file.expect("a file of the folder"));
        let kept = files.map(|file| {
            let name = file.file_name().to_string_lossy().into_owned();
            let about = fs::symlink_metadata(file.path()).expect("a file of the folder");
            let bytes = match about.is_file() && about.len() <= COMPARED {
                true => fs::read(file.path()).unwrap_or_default(),
                false => about.len().to_be_bytes().to_vec(),
            };
            (name, bytes)
        });
        kept.collect()
    }

    /// The program, to be run here on the words of the call, which are apart by blanks. It has no input.
    pub fn command(&self, call: &str) -> Command {
        self.command_of(call.split_whitespace())
    }

    /// The program, to be run here on these words. It has no input.
    pub fn command_of(&self, words: impl IntoIterator<Item = impl AsRef<OsStr>>) -> Command {
        let mut command = Command::new(PROGRAM);
        command.args(words).current_dir(&self.0);
        command.stdin(Stdio::null());
        command
    }

    /// Runs the program on the words of the call.
    pub fn run(&self, call: &str) -> Outcome {
        finish(call, &mut self.command(call))
    }

    /// Runs the program on the words of the call, with these bytes as its standard input.
    pub fn run_on(&self, call: &str, input: &[u8]) -> Outcome {
        let mut command = self.command(call);
        command.stdin(Stdio::piped());
        command.stdout(Stdio::piped()).stderr(Stdio::piped());
        let mut child = command.spawn().expect("the program starts");
        let mut pipe = child.stdin.take().expect("a pipe to the program");
        thread::scope(|scope| {
            // A program that refuses may leave some of its input unread.
            scope.spawn(move || pipe.write_all(input));
            let output = child.wait_with_output().expect("the program's output");
            Outcome::new(call, output)
        })
    }

    /// Runs the program as a user with no more rights than any other; there is no outcome where this user must not start it.
    pub fn run_without_rights(&self, call: &str) -> Option<Outcome> {
        let mut command = self.command(call);
        let has_all_rights = fs::metadata(&self.0).is_ok_and(|folder| folder.uid() == 0);
        if has_all_rights {
            command.uid(NOBODY);
        }
        match command.output() {
            Ok(output) => Some(Outcome::new(call, output)),
            Err(error) if has_all_rights && error.kind() == ErrorKind::PermissionDenied => None,
            Err(error) => panic!("{call}: {error}"),
        }
    }

    /// Runs the program from a shell that is limited by these words.
    pub fn run_limited(&self, call: &str, limit: &str) -> Outcome {
        let mut command = Command::new("sh");
        command.args(["-c", &format!("{limit} && exec \"$0\" \"$@\""), PROGRAM]);
        command.args(call.split_whitespace()).current_dir(&self.0);
        finish(call, command.stdin(Stdio::null()))
    }

    /// The answer of a run that does what it is asked.
    #[track_caller]
    pub fn answer(&self, call: &str) -> String {
        self.run(call).answer().to_string()
    }

    /// The line of a run that is refused and that leaves every file as it was.
    #[track_caller]
    pub fn refusal(&self, call: &str) -> String {
        let before = self.kept();
        let line = self.run(call).refusal().to_string();
        assert!(before == self.kept(), "{call}: files changed");
        line
    }

    /// The problem and the usage that are told of a wrong call, which leaves every file as it was.
    #[track_caller]
    pub fn wrong(&self, call: &str) -> (String, String) {
        let before = self.kept();
        let outcome = self.run(call);
        assert!(before == self.kept(), "{call}: files changed");
        let (problem, usage) = outcome.wrong();
        (problem.into(), usage.into())
    }
}

/// Runs a command that is made for this call.
#[track_caller]
pub fn finish(call: &str, command: &mut Command) -> Outcome {
    Outcome::new(call, command.output().expect("the program starts"))
}

impl Outcome {
    /// The outcome of a call; a panic or a signal is none.
    #[track_caller]
    pub fn new(call: &str, output: Output) -> Outcome {
        let complaint = String::from_utf8_lossy(&output.stderr).into_owned();
        let status = output.status.code();
        let status = status.unwrap_or_else(|| panic!("{call}: {}: {complaint}", output.status));
        assert!(status <= 2, "{call}: {status}: {complaint}");
        assert!(!complaint.contains("panicked"), "{call}: {complaint}");
        Outcome {
            call: call.to_string(),
            status,
            output: output.stdout,
            complaint,
        }
    }

    /// The bytes of an answer that came without a word on standard error.
    #[track_caller]
    pub fn bytes(&self) -> &[u8] {
        assert_eq!((self.status, self.complaint.as_str()), (0, ""), "{self}");
        &self.output
    }

    /// The text of an answer that came without a word on standard error.
    #[track_caller]
    pub fn answer(&self) -> &str {
        std::str::from_utf8(self.bytes()).expect("plain text")
    }

    /// The lines of a refusal, each without the name of the program.
    #[track_caller]
    pub fn refusals(&self) -> Vec<&str> {
        assert_eq!(self.status, 1, "{self}");
        assert!(self.output.is_empty(), "{self}");
        self.complaints()
    }

    /// The lines on standard error, each without the name of the program.
    #[track_caller]
    pub fn complaints(&self) -> Vec<&str> {
        let whole = self.complaint.is_empty() || self.complaint.ends_with('\n');
        assert!(whole, "{self}");
        let lines = self
            .complaint
            .lines()
            .map(|line| line.strip_prefix("herd: "));
        let lines: Option<Vec<&str>> = lines.collect();
        lines.unwrap_or_else(|| panic!("{self}"))
    }

    /// The line of a refusal in one line.
    #[track_caller]
    pub fn refusal(&self) -> &str {
        match self.refusals()[..] {
            [line] => line,
            _ => panic!("{self}"),
        }
    }

    /// The problem and the usage that are told of a wrong call, each in one line.
    #[track_caller]
    pub fn wrong(&self) -> (&str, &str) {
        assert_eq!(self.status, 2, "{self}");
        assert!(self.output.is_empty(), "{self}");
        let lines: Vec<&str> = self.complaint.lines().collect();
        let parts = match lines[..] {
            [problem, usage] => problem.strip_prefix("herd: ").zip(Some(usage)),
            _ => None,
        };
        let parts = parts.filter(|(_, usage)| usage.starts_with("Usage: herd "));
        parts.unwrap_or_else(|| panic!("{self}"))
    }
}

/// The call, its status and what it wrote.
impl fmt::Display for Outcome {
    fn fmt(&self, f: &mut fmt::Formatter<'_>) -> fmt::Result {
        let output = String::from_utf8_lossy(&self.output);
        let (call, status, complaint) = (&self.call, self.status, &self.complaint);
        write!(f, "herd {call}: {status}, {output:?}, {complaint:?}")
    }
}
