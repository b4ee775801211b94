//! What `docs/USING.md` shows is what the program prints, and the example season is what its seed makes.

use herd_testing::season;
use std::collections::BTreeMap;
use std::env;
use std::fs;
use std::path::{Path, PathBuf};
use std::process::{Command, Output};

/// The folder of the Rust package.
const PACKAGE: &str = env!("CARGO_MANIFEST_DIR");
/// The program.
const PROGRAM: &str = env!("CARGO_BIN_EXE_herd");

/// The text of a file of the tree.
fn text(path: &str) -> String {
    let path = Path::new(PACKAGE).join(path);
    fs::read_to_string(&path).unwrap_or_else(|error| panic!("{}: {error}", path.display()))
}

/// A folder for one test, with the files of the season's readers in it.
fn folder(name: &str) -> PathBuf {
    let folder = Path::new(env!("CARGO_TARGET_TMPDIR")).join(name);
    let _ = fs::remove_dir_all(&folder);
    fs::create_dir_all(&folder).expect("a folder");
    season::write(&folder).expect("the season's files");
    folder
}

/// What a shell prints for a line, on either output, where the program is on its path.
fn shell(line: &str, folder: &Path) -> String {
    let programs = Path::new(PROGRAM).parent().expect("the program's folder");
    let others = env::var_os("PATH").unwrap_or_default();
    let paths = [programs.to_path_buf()]
        .into_iter()
        .chain(env::split_paths(&others));
    let Output { stdout, stderr, .. } = Command::new("sh")
        .args(["-c", &format!("{{ {line}\n}} 2>&1")])
        .current_dir(folder)
        .env("PATH", env::join_paths(paths).expect("paths"))
        .output()
        .expect("a shell");
    assert!(stderr.is_empty(), "{line}");
    String::from_utf8(stdout).expect("plain text")
}

/// The lines of each block of a text that begins with this fence.
fn blocks<'a>(text: &'a str, fence: &str) -> Vec<Vec<&'a str>> {
    let mut blocks = Vec::new();
    let mut lines = text.lines();
    while let Some(line) = lines.next() {
        if line == fence {
            blocks.push(lines.by_ref().take_while(|line| *line != "```").collect());
        } else if line.starts_with("```") {
            lines
                .by_ref()
                .take_while(|line| *line != "```")
                .for_each(drop);
        }
    }
    blocks
}

/// Each line that the page gives to a shell, with what it shows as its output.
fn shown(page: &str) -> Vec<(&str, String)> {
    let mut shown: Vec<(&str, String)> = Vec::new();
    for line in blocks(page, "```console").concat() {
        match (line.strip_prefix("$ "), shown.last_mut()) {
            (Some(command), _) => shown.push((command, String::new())),
            (None, Some((_, output))) => *output += &format!("{line}\n"),
            (None, None) => panic!("an output without a command: {line}"),
        }
    }
    shown
}

#[test]
fn the_season_is_what_its_seed_makes() {
    for (name, made) in season::files() {
        assert_eq!(made, text(&format!("season/{name}")), "{name}");
    }
    assert_eq!(season::files().len(), 3);
}

#[test]
fn the_page_shows_what_is_printed() {
    let page = text("../docs/USING.md");
    let folder = folder("the_page_shows_what_is_printed");
    let shown = shown(&page);
    for (command, output) in &shown {
        assert_eq!(&shell(command, &folder), output, "{command}");
    }
    let commands = [
        "load", "trace", "back", "ask", "stays", "remove", "join", "sheet", "contacts",
    ];
    for command in commands.map(|command| format!("herd {command} ")) {
        assert!(
            shown.iter().any(|(line, _)| line.contains(&command)),
            "{command}"
        );
    }
    for picture in ["trace.svg", "back.svg"] {
        let drawn = fs::read_to_string(folder.join(picture)).expect("a picture");
        assert_eq!(drawn, text(&format!("season/{picture}")), "{picture}");
    }
}

#[test]
fn the_season_has_its_stored_sheet_and_contacts() {
    let folder = folder("the_season_has_its_stored_sheet_and_contacts");
    let load = format!(
        "herd load --animals {} --ticks {} --carry {} north.txt south.txt -o season.log",
        season::ANIMALS,
        season::TICKS,
        season::CARRY
    );
    assert!(shell(&load, &folder).ends_with(" 338 contacts\n"));
    let stored = Path::new(PACKAGE).join("season/season.log");
    let log = fs::read(folder.join("season.log")).expect("the log");
    assert_eq!(log, fs::read(stored).expect("the stored log"));
    assert_eq!(
        shell("herd sheet season.log", &folder),
        text("season/sheet.out")
    );
    assert_eq!(
        shell("herd contacts season.log", &folder),
        text("season/contacts.out")
    );
}

#[test]
fn the_example_prints_its_stored_text() {
    let example = Path::new(PROGRAM)
        .with_file_name("examples")
        .join("tracing");
    let run = |arguments: &[&str]| {
        let started = Command::new(&example)
            .args(arguments)
            .current_dir(PACKAGE)
            .output();
        started.unwrap_or_else(|error| {
            panic!(
                "{}: {error}; run `cargo build --examples` first",
                example.display()
            )
        })
    };
    let traced = run(&["season/north.txt", "5"]);
    assert!(traced.status.success());
    let printed = String::from_utf8(traced.stdout).expect("plain text");
    assert_eq!(printed, text("season/example.out"));
    for wrong in [
        &["season/north.txt", "30"][..],
        &["season/gate.txt", "5"],
        &[],
    ] {
        let refused = run(wrong);
        assert!(!refused.status.success(), "{wrong:?}");
        assert!(!String::from_utf8_lossy(&refused.stderr).contains("panicked"));
    }
}

#[test]
fn the_five_lines_are_those_of_the_front_page() {
    let page = text("../docs/USING.md");
    let shown = blocks(&page, "```rust");
    let front = text("src/lib.rs");
    let lines = front.lines().filter_map(|line| line.strip_prefix("//!"));
    let lines: Vec<&str> = lines
        .map(|line| line.strip_prefix(' ').unwrap_or(line))
        .collect();
    let front = lines.join("\n");
    let mut lines = blocks(&front, "```").concat();
    lines.retain(|line| !line.starts_with("# "));
    assert_eq!(lines.len(), 5);
    assert_eq!(shown, [lines]);
}

#[test]
fn the_page_has_every_refusal_once() {
    let page = text("../docs/USING.md");
    let mut rows: BTreeMap<u32, u32> = BTreeMap::new();
    let cells = page
        .lines()
        .filter(|line| line.starts_with("| "))
        .map(|line| line.split('|').nth(1));
    for number in cells.filter_map(|cell| cell?.trim().parse().ok()) {
        *rows.entry(number).or_default() += 1;
    }
    assert_eq!(rows, (1..=21).map(|number| (number, 1)).collect());
}
