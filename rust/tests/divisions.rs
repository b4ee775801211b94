//! Document 02, Three, over the sources: past its checks log writing, with all that it calls, divides by written numbers only.

use std::collections::BTreeSet;
use std::fs;
use std::path::Path;

/// The sources of a crate of the engine, without comments and contracts.
fn code_of(name: &str) -> String {
    let folder = Path::new(env!("CARGO_MANIFEST_DIR"))
        .join("../crates")
        .join(name)
        .join("src");
    let mut code = String::new();
    for file in fs::read_dir(&folder).expect("the crate's sources") {
        let text = fs::read_to_string(file.unwrap().path()).unwrap();
        code += &without_comments(&text);
    }
    code
}

fn without_comments(text: &str) -> String {
    text.lines()
        .map(|line| line.split("//").next().unwrap())
        .filter(|line| !is_clause(line) && !line.starts_with("ghost "))
        .fold(String::new(), |code, line| code + line + "\n")
}

/// Whether a line is a clause of a contract.
fn is_clause(line: &str) -> bool {
    let line = line.trim_start();
    line.starts_with("requires ") || line.starts_with("ensures ")
}

/// What stands behind each `/` and `%`.
fn divisors(code: &str) -> Vec<String> {
    code.match_indices(['/', '%'])
        .map(|(at, _)| {
            code[at + 1..]
                .trim_start_matches(['=', ' '])
                .chars()
                .take_while(|c| c.is_alphanumeric() || "_.".contains(*c))
                .collect()
        })
        .collect()
}

/// The names that stand before a `::`.
fn paths(code: &str) -> BTreeSet<String> {
    code.match_indices("::")
        .map(|(at, _)| {
            let name = code[..at]
                .rsplit(|c: char| !c.is_alphanumeric() && c != '_')
                .next();
            name.unwrap().to_string()
        })
        .collect()
}

fn names(list: &[&str]) -> BTreeSet<String> {
    list.iter().map(|name| name.to_string()).collect()
}

fn is_number(text: &str) -> bool {
    text.starts_with(|c: char| c.is_ascii_digit())
}

#[test]
fn divisors_are_found() {
    let code = without_comments("let u = k / n; // of k / 2\nlet v = k % (n);\nw /= 0x800;\nx % 7");
    assert_eq!(divisors(&code), ["n", "", "0x800", "7"]);
    let constant: Vec<bool> = divisors(&code).iter().map(|d| is_number(d)).collect();
    assert_eq!(constant, [false, false, true, true]);
}

/// The body of a function in the sources of a crate.
fn body_of<'a>(code: &'a str, signature: &str) -> &'a str {
    let behind = &code[code.find(signature).expect("the function") + signature.len()..];
    &behind[..behind.find("pub fn").unwrap_or(behind.len())]
}

/// What stands between `::<` and `>`, each argument alone.
fn const_arguments(code: &str) -> Vec<String> {
    code.match_indices("::<")
        .flat_map(|(at, _)| {
            let rest = &code[at + 3..];
            let arguments = &rest[..rest.find('>').expect("the end of the arguments")];
            arguments
                .split(',')
                .map(|argument| argument.trim().to_string())
                .collect::<Vec<String>>()
        })
        .collect()
}

#[test]
fn const_arguments_are_found() {
    assert_eq!(
        const_arguments("field::<11, 11>(w) + is_filled::<KIND, 3>(w)"),
        ["11", "11", "KIND", "3"]
    );
}

#[test]
fn log_writing_is_in_three_crates() {
    // Its own two passes, the step over the cells, the words, the limits as constants, and the type of a refusal.
    let logs = code_of("logs");
    let named = names(&[
        "Opening", "Refusal", "count", "grid", "journeys", "place", "rules", "tables", "words",
    ]);
    assert_eq!(paths(&logs), named);
    assert_eq!(
        logs.matches("tables::").count(),
        logs.matches("use tables::{Opening, Table};").count()
            + logs.matches("use tables::Table;").count()
            + logs.matches("use tables::Opening;").count()
    );
    assert_eq!(
        logs.matches("rules::").count(),
        logs.matches("use rules::Refusal;").count()
    );
    assert_eq!(
        logs.matches("journeys::").count(),
        logs.matches("use journeys::Contact;").count()
    );
    assert_eq!(
        logs.matches("Opening::").count(),
        logs.matches("Opening::MAX_TICKS").count()
    );
    assert_eq!(paths(&code_of("grid")), names(&[]));
    assert_eq!(
        paths(&code_of("words")),
        names(&["field", "is_filled", "journeys"])
    );
    assert_eq!(divisors(&code_of("journeys")), Vec::<String>::new());
}

#[test]
fn log_writing_reads_a_table_without_a_division() {
    // What is called of a table that passed its checks, and what that calls.
    let logs = code_of("logs");
    let called: BTreeSet<String> = logs
        .match_indices("table.")
        .map(|(at, _)| {
            logs[at + 6..]
                .chars()
                .take_while(|c| c.is_alphanumeric() || *c == '_')
                .collect()
        })
        .collect();
    assert_eq!(called, names(&["cells", "opening", "opening_word"]));
    let folder = Path::new(env!("CARGO_MANIFEST_DIR")).join("../crates/tables/src");
    let table = without_comments(&fs::read_to_string(folder.join("checked.rt")).unwrap());
    assert_eq!(divisors(&table), Vec::<String>::new());
    let tables = without_comments(&fs::read_to_string(folder.join("lib.rt")).unwrap());
    let opening = body_of(&tables, "pub fn of_word(w: u32) -> Opening");
    assert_eq!(paths(opening), names(&["words"]));
    assert_eq!(divisors(opening), Vec::<String>::new());
}

#[test]
fn log_writing_divides_by_written_numbers_only() {
    // The exported call, the call below it with its reply, and the passes with the step do not divide at all.
    for name in ["herd_ffi", "engine", "replies", "logs", "grid"] {
        assert_eq!(divisors(&code_of(name)), Vec::<String>::new(), "{name}");
    }
    // A field of a word is the remainder by a power of two whose width is a written number wherever a field is read.
    let words = code_of("words");
    let power = "% (1 << WIDTH)";
    assert_eq!(words.matches(power).count(), 1);
    let fields = const_arguments(&words);
    assert!(!fields.is_empty());
    for argument in fields {
        assert!(is_number(&argument), "a width or a place is {argument}");
    }
    for divisor in divisors(&words.replace(power, "")) {
        assert!(is_number(&divisor), "divides by {divisor}");
    }
}
