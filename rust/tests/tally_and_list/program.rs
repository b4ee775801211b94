//! The program that lends a tally and a list of question records.

use herd_testing::program::Program;
use std::time::Duration;

/// The program, which leaves its input where a command ends the run.
const PROGRAM: Program = Program {
    name: "run_tally_and_list",
    reads: 0,
};

/// What it writes for these bytes.
pub fn written(input: &[u8]) -> String {
    text(PROGRAM.written(input))
}

/// What it writes for bytes that come in pieces of this size, with a pause after each.
pub fn written_for_pieces(input: &[u8], size: usize, pause: Duration) -> String {
    text(PROGRAM.written_for_pieces(input, size, pause))
}

/// The text of the bytes written.
fn text(written: Vec<u8>) -> String {
    String::from_utf8(written).expect("plain text")
}
