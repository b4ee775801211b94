//! Where answers and logs go: files that cannot be written, and outputs that nobody reads or that are full.

use crate::run::{finish, Folder, Outcome};
use crate::yard::{self, yard, PRINTING, WRITING};
use std::fs::{self, File};
use std::io::{self, Read};
use std::os::unix::fs::{symlink, PermissionsExt};
use std::process::Stdio;

/// What is told where standard output is full.
const FULL: &str = "standard output: No space left on device";

/// Leaves a program no room for any file.
const NO_ROOM: &str = "trap '' XFSZ && ulimit -f 0";

/// Runs the program with a standard output that nobody reads.
fn run_unread(folder: &Folder, call: &str) -> Outcome {
    let (reader, writer) = io::pipe().expect("a pipe");
    drop(reader);
    finish(call, folder.command(call).stdout(writer))
}

/// Runs the program with a standard output that is full.
fn run_full(folder: &Folder, call: &str) -> Outcome {
    let full = File::options().write(true).open("/dev/full");
    let full = full.expect("a full device");
    finish(call, folder.command(call).stdout(full))
}

/// What each call writes into a file.
fn written(folder: &Folder) -> Vec<(&'static str, Vec<u8>)> {
    let write = |call: &'static str| {
        folder.answer(&call.replace('@', "out.log"));
        let bytes = folder.bytes("out.log");
        fs::remove_file(folder.path("out.log")).expect("the file goes");
        (call, bytes)
    };
    WRITING.into_iter().map(write).collect()
}

#[test]
fn outputs_that_cannot_be_written() {
    let folder = yard("outputs_that_cannot_be_written");
    fs::create_dir(folder.path("some")).expect("a folder");
    for call in WRITING {
        for (output, reason) in [
            ("some", "Is a directory"),
            ("none/out.log", "No such file or directory"),
            ("herd.log/out.log", "Not a directory"),
            ("out.log/", "Not a directory"),
            (".", "Is a directory"),
        ] {
            let line = folder.refusal(&call.replace('@', output));
            assert_eq!(line, format!("{output}: {reason}"), "{call}");
        }
        let inside = fs::read_dir(folder.path("some")).expect("the folder");
        assert_eq!(inside.count(), 0, "{call}");
    }
}

#[test]
fn an_output_without_a_name() {
    let folder = yard("an_output_without_a_name");
    for call in WRITING {
        let nameless = call
            .replace("-o @", "--output=")
            .replace("--svg @", "--svg=");
        let before = folder.kept();
        let outcome = folder.run(&nameless);
        assert!(outcome.status > 0 && outcome.output.is_empty(), "{outcome}");
        assert!(outcome.complaint.starts_with("herd: "), "{outcome}");
        assert!(folder.kept() == before, "{outcome}");
    }
}

#[test]
fn an_output_for_which_there_is_no_room() {
    let folder = yard("an_output_for_which_there_is_no_room");
    let before = folder.kept();
    for call in WRITING {
        for output in ["out.log", "old.log"] {
            let outcome = folder.run_limited(&call.replace('@', output), NO_ROOM);
            assert_eq!(outcome.refusal(), format!("{output}: File too large"));
            assert!(folder.kept() == before, "{outcome}");
        }
    }
}

#[test]
fn devices_as_outputs() {
    let folder = yard("devices_as_outputs");
    let before = folder.kept();
    let run = |call: &str| {
        let outcome = folder.run_without_rights(call);
        outcome.unwrap_or_else(|| folder.run(call))
    };
    for call in WRITING {
        let full = run(&call.replace('@', "/dev/full"));
        assert_eq!(full.refusal(), "/dev/full: No space left on device");
        let null = run(&call.replace('@', "/dev/null"));
        let told = null.answer();
        assert!(!told.is_empty(), "{call}");
        let named = call.ends_with("-o @");
        assert_eq!(told.contains("/dev/null: 4 animals"), named, "{told}");
        assert!(folder.kept() == before, "{call}");
    }
}

#[test]
fn a_folder_without_the_right_to_write() {
    let folder = yard("a_folder_without_the_right_to_write");
    let rights = |mode| fs::Permissions::from_mode(mode);
    fs::set_permissions(folder.path("."), rights(0o555)).expect("rights are taken");
    let before = folder.kept();
    let mut refused = Vec::new();
    for call in WRITING {
        for output in ["out.log", "old.log"] {
            let outcome = folder.run_without_rights(&call.replace('@', output));
            refused.extend(outcome.map(|outcome| (output, outcome)));
        }
    }
    fs::set_permissions(folder.path("."), rights(0o755)).expect("rights are given");
    assert!(folder.kept() == before);
    for (output, outcome) in refused {
        assert_eq!(outcome.refusal(), format!("{output}: Permission denied"));
    }
}

#[test]
fn an_output_replaces_a_file() {
    let folder = yard("an_output_replaces_a_file");
    for (call, bytes) in written(&folder) {
        for mode in [0o600, 0o644, 0o664] {
            folder.put("old.log", "as before");
            let rights = fs::Permissions::from_mode(mode);
            fs::set_permissions(folder.path("old.log"), rights).expect("rights are given");
            let mut expected = folder.kept();
            expected.insert("old.log".into(), bytes.clone());
            folder.answer(&call.replace('@', "old.log"));
            assert!(folder.kept() == expected, "{call}");
            let about = fs::metadata(folder.path("old.log")).expect("the file");
            assert_eq!(about.permissions().mode() & 0o777, mode, "{call}");
        }
    }
}

#[test]
fn an_output_through_a_link() {
    let folder = yard("an_output_through_a_link");
    fs::create_dir(folder.path("some")).expect("a folder");
    folder.put("some/real.log", "as before");
    symlink("some/real.log", folder.path("link.log")).expect("a link");
    for (call, bytes) in written(&folder) {
        folder.answer(&call.replace('@', "link.log"));
        let link = fs::symlink_metadata(folder.path("link.log"));
        assert!(link.is_ok_and(|link| link.is_symlink()), "{call}");
        assert!(folder.bytes("some/real.log") == bytes, "{call}");
        let inside = fs::read_dir(folder.path("some")).expect("the folder");
        assert_eq!(inside.count(), 1, "{call}");
    }
}

#[test]
fn an_answer_that_nobody_reads() {
    let folder = yard("an_answer_that_nobody_reads");
    for call in PRINTING {
        run_unread(&folder, call).bytes();
    }
    for (call, bytes) in written(&folder) {
        run_unread(&folder, &call.replace('@', "-")).bytes();
        run_unread(&folder, &call.replace('@', "out.log")).bytes();
        assert!(folder.bytes("out.log") == bytes, "{call}");
    }
}

#[test]
fn an_answer_that_is_read_in_part() {
    let folder = yard("an_answer_that_is_read_in_part");
    let every: String = (0..80)
        .map(|animal| format!("{animal} 80 1\n80 {animal} 9\n"))
        .collect();
    folder.put("reader.txt", every);
    folder.answer("load --animals 81 --ticks 9 --carry 2 reader.txt -o many.log");
    let whole = folder.answer("sheet many.log");
    assert!(whole.len() > 1 << 16, "{} bytes", whole.len());
    for call in ["sheet many.log", "trace many.log 3 --svg -"] {
        let mut command = folder.command(call);
        command.stdout(Stdio::piped()).stderr(Stdio::piped());
        let mut child = command.spawn().expect("the program starts");
        let mut pipe = child.stdout.take().expect("a pipe");
        let mut first = [0; 10];
        pipe.read_exact(&mut first).expect("the first bytes");
        drop(pipe);
        let output = child.wait_with_output().expect("the program's output");
        Outcome::new(call, output).bytes();
    }
}

#[test]
fn an_answer_to_a_full_output() {
    let folder = yard("an_answer_to_a_full_output");
    let before = folder.kept();
    for call in PRINTING {
        assert_eq!(run_full(&folder, call).refusal(), FULL, "{call}");
    }
    for call in WRITING.iter().filter(|call| call.ends_with("-o @")) {
        let outcome = run_full(&folder, &call.replace('@', "-"));
        assert_eq!(outcome.refusal(), FULL, "{call}");
    }
    assert!(folder.kept() == before);
}

#[test]
fn a_picture_to_a_full_output() {
    let folder = yard("a_picture_to_a_full_output");
    for call in WRITING.iter().filter(|call| call.ends_with("--svg @")) {
        let outcome = run_full(&folder, &call.replace('@', "-"));
        assert_eq!(outcome.refusal(), FULL, "{call}");
    }
}

#[test]
fn a_file_beside_a_full_output() {
    let folder = yard("a_file_beside_a_full_output");
    for (call, bytes) in written(&folder) {
        let outcome = run_full(&folder, &call.replace('@', "out.log"));
        assert_eq!(outcome.refusal(), FULL, "{call}");
        let whole = fs::read(folder.path("out.log")).map(|file| file == bytes);
        assert!(whole.unwrap_or(true), "{call}: a part of the file");
        let names: Vec<String> = folder.kept().into_keys().collect();
        assert!(
            !names.iter().any(|name| name.ends_with(".part")),
            "{names:?}"
        );
    }
}

#[test]
fn complaints_that_nobody_reads() {
    let folder = yard("complaints_that_nobody_reads");
    folder.put("bad.txt", "0 1 1\nno contact\n");
    let load = "load --animals 4 --ticks 6 --carry 1 bad.txt -o out.log";
    let skipping = format!("{load} --skip-bad");
    for (call, status) in [
        (load, 1),
        (&skipping, 0),
        ("sheet none.log", 1),
        ("sheet", 2),
        ("remove herd.log 0 1 1 -o -", 0),
    ] {
        let (reader, writer) = io::pipe().expect("a pipe");
        drop(reader);
        let outcome = finish(call, folder.command(call).stderr(writer));
        assert_eq!(outcome.status, status, "{call}");
    }
    assert_eq!(folder.answer("contacts out.log"), "0 1 1\n");
    assert_eq!(folder.bytes("herd.log"), yard::herd().log());
}
