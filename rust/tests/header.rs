//! The C header declares what the wrapper, the engine's sources and the archive have, and a C program that includes it
//! gets the answers of the safe calls.

use herd::calls;
use herd_testing::suite::{Export, Reply};
use std::collections::BTreeSet;
use std::ffi::OsStr;
use std::fs;
use std::path::{Path, PathBuf};
use std::process::Command;

// ---- declarations

/// The type of a parameter or of a result.
#[derive(Clone, Copy, Debug, PartialEq, Eq)]
enum Type {
    /// A number of 32 bits.
    Number,
    /// The length of a slice.
    Length,
    /// The pointer of a slice lent for reading.
    Read,
    /// The pointer of a slice lent for writing.
    Written,
    /// A reply of 64 bits.
    Reply,
}

/// What one of the three texts says of an export. The engine's slices have no name for their length; it is empty there.
#[derive(Clone, Debug, PartialEq, Eq)]
struct Declaration {
    name: String,
    parameters: Vec<(String, Type)>,
    result: Type,
}

/// The type that C or Rust spells so.
fn type_of(spelled: &str) -> Type {
    let spelled: String = spelled.split_whitespace().collect();
    match spelled.as_str() {
        "uint32_t" | "u32" => Type::Number,
        "size_t" | "usize" => Type::Length,
        "constuint32_t*" | "*constu32" | "&[u32]" => Type::Read,
        "uint32_t*" | "*mutu32" | "&mut[u32]" => Type::Written,
        "uint64_t" | "u64" => Type::Reply,
        _ => panic!("no export has the type {spelled}"),
    }
}

/// The text without its last name, and that name.
fn last_name(text: &str) -> (&str, &str) {
    let text = text.trim();
    let before = text.rfind(|c: char| !c.is_ascii_alphanumeric() && c != '_');
    text.split_at(before.map_or(0, |at| at + 1))
}

/// The pieces of a list of parameters; what stands behind a last comma is none.
fn pieces(list: &str) -> impl Iterator<Item = &str> {
    list.split(',').filter(|piece| !piece.trim().is_empty())
}

/// The prototypes of a C header, in its order.
fn prototypes(header: &str) -> Vec<Declaration> {
    let without_comments = header
        .split("/*")
        .map(|piece| piece.split_once("*/").map_or(piece, |(_, code)| code));
    let code: String = without_comments.collect();
    let lines = code.lines().filter(|line| !line.starts_with('#'));
    let code: String = lines.flat_map(|line| [line, "\n"]).collect();
    code.split(';')
        .filter_map(|statement| statement.split_once('('))
        .map(|(head, list)| prototype(head, list.trim().trim_end_matches(')')))
        .collect()
}

/// The prototype with this text before its list of parameters.
fn prototype(head: &str, list: &str) -> Declaration {
    let (before, name) = last_name(head);
    let result = before.rsplit(['{', '}']).next().unwrap();
    let parameters = pieces(list).map(last_name);
    Declaration {
        name: name.to_string(),
        parameters: parameters
            .map(|(spelled, name)| (name.to_string(), type_of(spelled)))
            .collect(),
        result: type_of(result),
    }
}

/// The functions of a Rust or an engine's source that begin with these words, in its order.
fn functions(source: &str, beginning: &str) -> Vec<Declaration> {
    let lines = source.lines().map(|line| line.split("//").next().unwrap());
    let code: String = lines.flat_map(|line| [line, "\n"]).collect();
    code.split(beginning).skip(1).map(function).collect()
}

/// The function with this name, list of parameters and result.
fn function(text: &str) -> Declaration {
    let (name, rest) = text.split_once('(').unwrap();
    let (list, rest) = rest.split_once(')').unwrap();
    let result = rest.trim_start().strip_prefix("-> ").unwrap();
    let result = result.split(|c: char| !c.is_alphanumeric()).next().unwrap();
    Declaration {
        name: name.to_string(),
        parameters: pieces(list).flat_map(rust_parameters).collect(),
        result: type_of(result),
    }
}

/// One parameter, or the two that a slice is.
fn rust_parameters(piece: &str) -> Vec<(String, Type)> {
    let (name, spelled) = piece.split_once(':').unwrap();
    let mut parameters = vec![(name.trim().to_string(), type_of(spelled))];
    if spelled.contains('[') {
        parameters.push((String::new(), Type::Length));
    }
    parameters
}

/// The declarations by name, and lengths without theirs.
fn as_in_the_engine(mut declarations: Vec<Declaration>) -> Vec<Declaration> {
    declarations.sort_by(|a, b| a.name.cmp(&b.name));
    let parameters = declarations.iter_mut().flat_map(|d| &mut d.parameters);
    for (name, _) in parameters.filter(|(_, of_type)| *of_type == Type::Length) {
        name.clear();
    }
    declarations
}

/// The first place at which two lists differ.
fn difference(left: &[Declaration], right: &[Declaration]) -> Option<String> {
    let places = 0..left.len().max(right.len());
    places
        .map(|place| (left.get(place), right.get(place)))
        .find(|(left, right)| left != right)
        .map(|(left, right)| format!("{left:?}\n{right:?}"))
}

// ---- the three texts and the archive

/// This path below the package's folder.
fn path(below: &str) -> PathBuf {
    Path::new(env!("CARGO_MANIFEST_DIR")).join(below)
}

/// The text of a file of the package.
fn text(below: &str) -> String {
    let path = path(below);
    fs::read_to_string(&path).unwrap_or_else(|error| panic!("{}: {error}", path.display()))
}

fn header() -> String {
    text("include/herd.h")
}

/// The declarations that the safe calls are made through.
fn wrapper_declarations() -> Vec<Declaration> {
    functions(&text("src/calls/exports.rs"), "pub fn ")
}

/// The exports of the engine's sources, by name.
fn engine_declarations() -> Vec<Declaration> {
    let folder = fs::read_dir(path("../crates/herd_ffi/src")).expect("the exports' sources");
    let sources = folder.map(|file| file.unwrap().path());
    let sources = sources.filter(|file| file.extension() == Some(OsStr::new("rt")));
    let declarations = sources.flat_map(|file| {
        let source = fs::read_to_string(file).unwrap();
        functions(&source, "pub extern \"C\" fn ")
    });
    as_in_the_engine(declarations.collect())
}

/// The folder of the archive that this test is linked with.
fn archive_folder() -> PathBuf {
    option_env!("HERD_ARCHIVE_DIR").map_or_else(|| path("../crates/herd_ffi/out"), PathBuf::from)
}

/// The names in the symbol index of an archive, which is its first member: a count and as many offsets, of four bytes
/// each, the highest first, and then the names, each with a zero behind it.
fn symbols(archive: &[u8]) -> BTreeSet<String> {
    let (magic, rest) = archive.split_at(8);
    assert_eq!(magic, b"!<arch>\n");
    let (head, members) = rest.split_at(60);
    assert_eq!(head[..16], *b"/               ", "a symbol index first");
    let size = std::str::from_utf8(&head[48..58]).unwrap().trim_end();
    let index = &members[..size.parse().unwrap()];
    let (count, rest) = index.split_at(4);
    let count = u32::from_be_bytes(count.try_into().unwrap()) as usize;
    let names = rest[4 * count..].split(|&byte| byte == 0).take(count);
    names
        .map(|name| String::from_utf8(name.to_vec()).unwrap())
        .collect()
}

fn names(declarations: &[Declaration]) -> BTreeSet<String> {
    declarations.iter().map(|d| d.name.clone()).collect()
}

#[test]
fn header_wrapper_and_engine_declare_the_same_fourteen_exports() {
    let header = prototypes(&header());
    assert_eq!(header.len(), 14);
    assert_eq!(names(&header).len(), 14);
    assert_eq!(difference(&header, &wrapper_declarations()), None);
    let header = as_in_the_engine(header);
    assert_eq!(difference(&header, &engine_declarations()), None);
}

#[test]
fn the_archive_defines_these_exports_and_no_others() {
    let archive = fs::read(archive_folder().join("libherd_ffi.a")).expect("the archive");
    let mut defined = symbols(&archive);
    defined.retain(|name| name.starts_with("herd_"));
    assert_eq!(defined, names(&prototypes(&header())));
}

// ---- edits of the header

/// The header with another list of parameters of this export.
fn with_list(header: &str, name: &str, list: &[&str]) -> String {
    let start = header.find(&format!("uint64_t {name}(")).unwrap();
    let open = start + header[start..].find('(').unwrap();
    let close = open + header[open..].find(')').unwrap();
    [&header[..open + 1], &list.join(","), &header[close..]].concat()
}

/// The pieces of this export's list of parameters.
fn list_of<'a>(header: &'a str, name: &str) -> Vec<&'a str> {
    let (_, behind) = header.split_once(&format!("uint64_t {name}(")).unwrap();
    pieces(behind.split_once(')').unwrap().0).collect()
}

/// The header with one parameter of this export dropped, with one of another type, and with two neighbours exchanged.
fn with_other_parameters(header: &str, name: &str) -> Vec<String> {
    let list = list_of(header, name);
    let mut edited = Vec::new();
    for place in 0..list.len() {
        let mut shorter = list.clone();
        shorter.remove(place);
        edited.push(with_list(header, name, &shorter));
        let (spelled, parameter) = last_name(list[place]);
        for other in ["uint32_t ", "size_t ", "uint32_t *", "const uint32_t *"] {
            let piece = [other, parameter].concat();
            let mut retyped = list.clone();
            retyped[place] = &piece;
            if type_of(other) != type_of(spelled) {
                edited.push(with_list(header, name, &retyped));
            }
        }
        if place > 0 {
            let mut exchanged = list.clone();
            exchanged.swap(place - 1, place);
            edited.push(with_list(header, name, &exchanged));
        }
    }
    edited
}

/// The header with this export left out, with another name, and with another result.
fn with_other_export(header: &str, name: &str) -> [String; 3] {
    let start = header.find(&format!("uint64_t {name}(")).unwrap();
    let end = start + header[start..].find(';').unwrap() + 1;
    let (before, prototype, behind) = (&header[..start], &header[start..end], &header[end..]);
    let renamed = prototype.replace(name, &format!("{name}_all"));
    let smaller = prototype.replace("uint64_t", "uint32_t");
    ["", &renamed, &smaller].map(|prototype| [before, prototype, behind].concat())
}

#[test]
fn every_edit_of_a_prototype_is_told() {
    let (header, wrapper, engine) = (header(), wrapper_declarations(), engine_declarations());
    let exports = prototypes(&header);
    assert_eq!(exports.len(), 14);
    for export in exports {
        let mut edited = with_other_parameters(&header, &export.name);
        assert_eq!(edited.len(), 5 * export.parameters.len() - 1);
        edited.extend(with_other_export(&header, &export.name));
        for text in &edited {
            let read = prototypes(text);
            let told = difference(&read, &wrapper).is_some()
                && difference(&as_in_the_engine(read), &engine).is_some();
            assert!(told, "{}: an edit is not told:\n{text}", export.name);
        }
    }
}

// ---- the refusals that the header names

/// The name of the export that makes the call.
fn export_name(export: Export) -> String {
    let name = format!("{export:?}");
    name.chars().fold("herd".to_string(), |name, letter| {
        let between = if letter.is_uppercase() { "_" } else { "" };
        name + between + &letter.to_lowercase().to_string()
    })
}

/// The numbers behind `Refusals:` in the comment before this export's prototype.
fn named_refusals(header: &str, name: &str) -> Vec<u32> {
    let (before, _) = header.split_once(&format!("uint64_t {name}(")).unwrap();
    let (_, comment) = before.rsplit_once("/*").unwrap();
    let (_, refusals) = comment.split_once("Refusals:").unwrap();
    refusals
        .split(|c: char| !c.is_ascii_digit())
        .filter_map(|number| number.parse().ok())
        .collect()
}

#[test]
fn the_header_names_the_refusals_of_each_export_in_their_order() {
    let header = header();
    for export in Export::ALL {
        let name = export_name(export);
        assert_eq!(named_refusals(&header, &name), export.refusals(), "{name}");
    }
}

// ---- a C program

/// Which answer a reply is, and the answer's number.
fn halves(reply: Reply) -> (u32, u32) {
    match reply {
        Reply::Refused(number) => (0, number),
        Reply::Opened | Reply::Done | Reply::Yes => (1, 0),
        Reply::New(number) | Reply::Joined(number) | Reply::StaysAdded(number) => (1, number),
        Reply::Read(number) | Reply::Written(number) => (1, number),
        Reply::Animals(number) | Reply::Chain(number) => (1, number),
        Reply::At(interval) => (1, interval.departure << 16 | interval.arrival),
        Reply::Known(number) => (2, number),
        Reply::No | Reply::Nothing | Reply::NoJourney => (2, 0),
    }
}

/// The lines that the C program must print.
#[derive(Default)]
struct Lines(Vec<String>);

impl Lines {
    /// The line of a call that writes no word, with both ends where it found an interval.
    fn asked(&mut self, name: &str, answer: impl Into<Reply>) {
        let reply = answer.into();
        let (which, number) = halves(reply);
        let ends = match reply {
            Reply::At(interval) => format!(" {interval}"),
            _ => String::new(),
        };
        self.0.push(format!("herd_{name} {which} {number}{ends}"));
    }

    /// The line of a call that is lent these words for writing.
    fn wrote(&mut self, name: &str, answer: impl Into<Reply>, words: &[u32]) {
        self.asked(name, answer);
        let line = self.0.last_mut().unwrap();
        for word in words {
            *line += &format!(" {word:08X}");
        }
    }
}

/// The numbers of the session, and the length of its table.
const ANIMALS: u32 = 4;
const TICKS: u32 = 6;
const CARRY: u32 = 1;
const WORDS: usize = 113;

/// The session's log.
const LOG: [u32; 5] = [
    0x800C_0005,
    0x4000_0400,
    0x4000_0401,
    0x4004_0C03,
    0xC000_0003,
];

/// A table opened for the session's animals and ticks, with these contacts.
fn table_of(carry: u32, contacts: &[(u32, u32, u32)]) -> Vec<u32> {
    let mut table = vec![0; WORDS];
    let _ = calls::open(&mut table, ANIMALS, TICKS, carry);
    for &(u, v, t) in contacts {
        let _ = calls::add(&mut table, u, v, t);
    }
    table
}

fn session() -> Vec<u32> {
    table_of(CARRY, &[(0, 1, 1), (0, 1, 2), (1, 3, 4)])
}

fn openings(lines: &mut Lines) {
    let mut table = vec![9; WORDS];
    for (words, animals, ticks, carry) in [
        (WORDS, 0, TICKS, CARRY),
        (WORDS, ANIMALS, 1025, CARRY),
        (WORDS, ANIMALS, TICKS, 257),
        (WORDS - 1, ANIMALS, TICKS, CARRY),
        (WORDS, ANIMALS, TICKS, CARRY),
    ] {
        let opened = calls::open(&mut table[..words], animals, ticks, carry);
        lines.wrote("open", opened, &table);
    }
}

fn adds(lines: &mut Lines) {
    let mut table = table_of(CARRY, &[]);
    for (words, u, v, t) in [
        (WORDS, 1, 3, 4),
        (WORDS, 0, 1, 1),
        (WORDS, 0, 1, 2),
        (WORDS, 0, 1, 1),
        (0, 0, 1, 1),
        (WORDS, 0, 4, 1),
        (WORDS, 1, 1, 1),
        (WORDS, 0, 1, 7),
    ] {
        let added = calls::add(&mut table[..words], u, v, t);
        lines.wrote("add", added, &table);
    }
    table[1] = 0;
    lines.wrote("add", calls::add(&mut table, 0, 1, 3), &table);
}

fn joins(lines: &mut Lines) {
    let mut first = session();
    let second = table_of(CARRY, &[(0, 1, 2), (3, 2, 6)]);
    let other = table_of(CARRY + 1, &[]);
    for second in [&second, &second[1..], &other] {
        lines.wrote("join", calls::join(&mut first, second), &first);
    }
}

fn stays(lines: &mut Lines) {
    let records = [2, 63, 1, 3, 0, 63, 2, 5];
    let mut table = session();
    for words in [0, 7, 8] {
        let added = calls::stays(&mut table, &records[..words]);
        lines.wrote("stays", added, &table);
    }
}

fn removals(lines: &mut Lines) {
    let mut table = session();
    let mut work = vec![9; WORDS];
    for words in [WORDS - 1, WORDS, WORDS] {
        let done = calls::remove(&mut table, &mut work[..words], 1, 3, 4);
        lines.wrote("remove", done, &[&table[..], &work].concat());
    }
}

fn logs(lines: &mut Lines) {
    let mut table = vec![9; WORDS];
    for (log, room) in [(&LOG[..1], WORDS), (&LOG, WORDS - 1), (&LOG, WORDS)] {
        let read = calls::read_log(log, &mut table[..room]);
        lines.wrote("read_log", read, &table);
    }
    for (place, word) in [(1, LOG[0]), (2, 0x4000_0000), (4, LOG[4] + 1)] {
        let (mut log, mut table) = (LOG, vec![9; WORDS]);
        log[place] = word;
        lines.wrote("read_log", calls::read_log(&log, &mut table), &table);
    }
    let mut buffer = [9; 6];
    for room in [4, 6] {
        let written = calls::write_log(&table, &mut buffer[..room]);
        lines.wrote("write_log", written, &buffer);
    }
}

fn pairs(lines: &mut Lines, table: &[u32]) {
    for (first, last) in [(1, 4), (1, 3), (1, 7), (4, 1)] {
        lines.asked("reach", calls::reach(table, 0, 3, first, last));
    }
    for first in [2, 3, 8] {
        lines.asked("earliest", calls::earliest(table, 0, 3, first));
    }
    for (u, last) in [(0, 5), (0, 4), (3, 5)] {
        lines.asked("latest", calls::latest(table, u, 3, last));
    }
}

fn sets(lines: &mut Lines, table: &[u32]) {
    let mut alone = [0; 3];
    let _ = calls::open(&mut alone, 1, 1, 1);
    for (table, first, last) in [(&alone[..], 1, 1), (table, 1, 6), (table, 4, 1)] {
        lines.asked("connected", calls::connected(table, first, last));
    }
    let mut set = [9; 9];
    for (u, room) in [(4, 9), (0, 0), (0, 9)] {
        let reached = calls::reached(table, u, 1, 6, &mut set[..room]);
        lines.wrote("reached", reached, &set);
    }
}

fn chains(lines: &mut Lines, table: &[u32]) {
    let mut chain = [9; 4];
    for (u, v, room) in [(0, 3, 2), (3, 0, 4), (0, 3, 4)] {
        let told = calls::chain(table, u, v, 1, 6, &mut chain[..room]);
        lines.wrote("chain", told, &chain);
    }
    for (first, last, contacts) in [(1, 6, 2), (1, 6, 0), (6, 1, 2)] {
        let claimed = calls::claimed(table, 0, 3, first, last, &chain[..contacts]);
        lines.asked("claimed", claimed);
    }
}

fn constants(lines: &mut Lines) {
    for (name, reply) in [
        ("REFUSED", Reply::Refused(0)),
        ("NEW", Reply::New(0)),
        ("KNOWN", Reply::Known(0)),
        ("YES", Reply::Yes),
        ("NO", Reply::No),
        ("FOUND", Reply::Chain(0)),
        ("NONE", Reply::NoJourney),
        ("DONE", Reply::Done),
    ] {
        lines.0.push(format!("HERD_{name} {}", halves(reply).0));
    }
}

/// What the C program must print, by the safe calls.
fn expected() -> Vec<String> {
    let mut lines = Lines::default();
    openings(&mut lines);
    adds(&mut lines);
    joins(&mut lines);
    stays(&mut lines);
    removals(&mut lines);
    logs(&mut lines);
    let table = session();
    pairs(&mut lines, &table);
    sets(&mut lines, &table);
    chains(&mut lines, &table);
    constants(&mut lines);
    lines.0
}

/// What a command writes when it ends, which must be with success.
fn run(command: &mut Command) -> String {
    let output = command.output();
    let output = output.unwrap_or_else(|error| panic!("{command:?} does not start: {error}"));
    let complaint = String::from_utf8_lossy(&output.stderr);
    assert!(output.status.success(), "{command:?}: {complaint}");
    String::from_utf8(output.stdout).expect("plain text")
}

/// What the C program prints when this compiler has built it.
fn printed(compiler: &str, flags: &[&str]) -> String {
    let folder = Path::new(env!("CARGO_TARGET_TMPDIR")).join("header");
    fs::create_dir_all(&folder).expect("a folder for the program");
    let program = folder.join(format!("header_{compiler}"));
    let mut command = Command::new(compiler);
    command.args(flags).args(["-Wall", "-Wextra", "-Werror"]);
    command.args(["-Wpedantic", "-I"]).arg(path("include"));
    command.arg(path("tests/header.c")).arg("-L");
    command.arg(archive_folder()).arg("-lherd_ffi");
    run(command.arg("-o").arg(&program));
    run(&mut Command::new(program))
}

/// Fails where the text is not these lines.
#[track_caller]
fn same_lines(text: &str, lines: &[String]) {
    for (printed, line) in text.lines().zip(lines) {
        assert_eq!(printed, line);
    }
    assert_eq!(text.lines().count(), lines.len());
}

#[test]
fn a_c_program_gets_the_answers_of_the_safe_calls() {
    same_lines(&printed("cc", &["-std=c99"]), &expected());
}

#[test]
fn the_same_program_in_cpp_gets_them_too() {
    let flags = ["-std=c++11", "-x", "c++"];
    same_lines(&printed("c++", &flags), &expected());
}

#[test]
fn the_header_alone_is_c_and_cpp() {
    for (compiler, language, standard) in [("cc", "c", "c99"), ("c++", "c++", "c++11")] {
        let mut command = Command::new(compiler);
        command.args(["-fsyntax-only", "-x", language]);
        command.arg(format!("-std={standard}"));
        command.args(["-Wall", "-Wextra", "-Wpedantic", "-Werror"]);
        run(command.arg(path("include/herd.h")));
    }
}

#[test]
fn the_program_meets_every_export_and_every_refusal() {
    let lines = expected();
    let calls = lines.iter().filter(|line| line.starts_with("herd_"));
    let (mut answered, mut refused) = (BTreeSet::new(), BTreeSet::new());
    let mut numbers = BTreeSet::new();
    for line in calls {
        let parts: Vec<&str> = line.split(' ').collect();
        if parts[1] == "0" {
            refused.insert(parts[0].to_string());
            numbers.insert(parts[2].parse::<u32>().unwrap());
        } else {
            answered.insert(parts[0].to_string());
        }
    }
    let exports = names(&prototypes(&header()));
    assert_eq!(answered, exports);
    assert_eq!(refused, exports);
    let all = Export::ALL.iter().flat_map(|export| export.refusals());
    assert_eq!(numbers, all.copied().collect());
}
