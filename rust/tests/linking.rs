//! A crate of its own that depends on the library by its path: it links the archive in the folder that the environment
//! names, and where that cannot be, the build fails and says why.

use std::ffi::OsStr;
use std::fs;
use std::path::{Path, PathBuf};
use std::process::{Command, Output};

/// A folder of this test's own, empty at its start.
fn room(name: &str) -> PathBuf {
    let room = Path::new(env!("CARGO_TARGET_TMPDIR"))
        .join("linking")
        .join(name);
    if room.exists() {
        fs::remove_dir_all(&room).expect("the folder of an earlier run goes");
    }
    fs::create_dir_all(&room).expect("a folder of its own");
    room
}

/// The archive that this test is linked with.
fn archive() -> PathBuf {
    let built = Path::new(env!("CARGO_MANIFEST_DIR")).join("../crates/herd_ffi/out");
    let folder = option_env!("HERD_ARCHIVE_DIR").map_or(built, PathBuf::from);
    folder.join("libherd_ffi.a")
}

/// The use of the library on its front page: the lines between the fences below its title, without those that the page
/// does not show.
fn in_five_lines() -> String {
    let page = include_str!("../src/lib.rs");
    let (_, below) = page.split_once("//! # In five lines").unwrap();
    let code = below.split("//! ```\n").nth(1).unwrap();
    let lines: Vec<&str> = code
        .lines()
        .map(|line| line.trim_start_matches("//! "))
        .filter(|line| !line.starts_with("# "))
        .collect();
    assert_eq!(lines.len(), 5, "{lines:?}");
    lines.join("\n")
}

/// Makes a crate in the room whose program is the use in five lines, and whose only dependency is the library.
fn write_crate(room: &Path) {
    let library = env!("CARGO_MANIFEST_DIR");
    let manifest = format!(
        "[package]\n\
         name = \"five_lines\"\n\
         version = \"0.1.0\"\n\
         edition = \"2021\"\n\
         \n\
         [dependencies]\n\
         herd = {{ path = {library:?} }}\n\
         \n\
         [workspace]\n"
    );
    let program = format!(
        "fn main() -> Result<(), herd::Error> {{\n{}\nOk(())\n}}\n",
        in_five_lines()
    );
    fs::create_dir(room.join("src")).unwrap();
    fs::write(room.join("Cargo.toml"), manifest).unwrap();
    fs::write(room.join("src/main.rs"), program).unwrap();
}

/// Builds the crate in the room with the archive in this folder, and runs it.
fn run(room: &Path, archive_folder: impl AsRef<OsStr>) -> Output {
    write_crate(room);
    Command::new(env!("CARGO"))
        .args(["run", "--offline", "--quiet"])
        .current_dir(room)
        .env("CARGO_TARGET_DIR", room.join("target"))
        .env("HERD_ARCHIVE_DIR", archive_folder)
        .output()
        .expect("cargo starts")
}

/// Fails unless the run failed with this complaint.
#[track_caller]
fn complains(output: &Output, complaint: &str) {
    let written = String::from_utf8_lossy(&output.stderr);
    assert!(!output.status.success(), "{written}");
    assert!(output.stdout.is_empty(), "{output:?}");
    assert!(
        written.contains(complaint),
        "{complaint} is not in:\n{written}"
    );
}

#[test]
fn five_lines_of_a_crate_of_its_own_trace_a_herd() {
    let room = room("links");
    let folder = room.join("archive");
    fs::create_dir(&folder).unwrap();
    fs::copy(archive(), folder.join("libherd_ffi.a")).expect("a copy of the archive");
    let output = run(&room, &folder);
    let written = String::from_utf8_lossy(&output.stderr);
    assert!(output.status.success(), "{written}");
    assert_eq!(
        String::from_utf8_lossy(&output.stdout),
        "0 can have reached 1 at tick 3\n0 can have reached 3 at tick 5\n"
    );
}

#[test]
fn a_folder_without_the_archive_is_named() {
    let room = room("empty");
    let folder = room.join("archive");
    fs::create_dir(&folder).unwrap();
    let output = run(&room, &folder);
    let missing = folder.join("libherd_ffi.a");
    complains(&output, &format!("{} is missing", missing.display()));
    complains(&output, "set HERD_ARCHIVE_DIR to the folder that has it");
}

#[test]
fn a_folder_that_is_not_absolute_is_refused() {
    let room = room("relative");
    let folder = room.join("archive");
    fs::create_dir(&folder).unwrap();
    fs::copy(archive(), folder.join("libherd_ffi.a")).expect("a copy of the archive");
    let output = run(&room, "archive");
    complains(
        &output,
        "HERD_ARCHIVE_DIR is archive, and must be an absolute path",
    );
}
