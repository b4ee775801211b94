//! Reader files in the many forms that they may have.

use crate::told::counted;
use herd_testing::random::Random;
use herd_testing::words::{Contact, Stay};

/// What stands between two numbers.
const APART: [&str; 8] = [" ", ",", ", ", " , ", "\t", "   ", " \t", "\t,\t"];
/// What stands before or behind the numbers of a line.
const AROUND: [&str; 4] = ["", "", " ", "\t "];
/// What stands at the end of a line.
const NOTES: [&str; 6] = ["", "", "", "# a note", " # 1 2 3", "#,,"];
/// Lines without a record.
const BLANKS: [&str; 6] = ["", "   ", "\t", "# a note", " # 1 2 3", "#"];
/// The mark that some programs put before a text.
const BYTE_ORDER_MARK: &str = "\u{FEFF}";

/// A text with a record to a line, and how many lines it has.
#[derive(Clone, Debug, Default)]
pub struct Text {
    pub text: String,
    pub records: usize,
    pub blank: usize,
}

impl Text {
    /// Adds a line with these numbers.
    fn add(&mut self, random: &mut Random, numbers: &[u32]) {
        self.text += random.one_of(&AROUND);
        for (place, number) in numbers.iter().enumerate() {
            if place > 0 {
                self.text += random.one_of(&APART);
            }
            self.text += &number.to_string();
        }
        self.text += random.one_of(&AROUND);
        self.text += random.one_of(&NOTES);
        self.records += 1;
        self.end(random);
    }

    /// Adds a line without a record.
    fn add_blank(&mut self, random: &mut Random) {
        self.text += random.one_of(&BLANKS);
        self.blank += 1;
        self.end(random);
    }

    /// Ends a line.
    fn end(&mut self, random: &mut Random) {
        self.text += random.one_of(&["\n", "\n", "\r\n"]);
    }

    /// How many lines it has.
    pub fn lines(&self) -> usize {
        self.records + self.blank
    }
}

/// A text with a line for each of these records, and with blank lines between them.
fn text<const N: usize>(random: &mut Random, records: &[[u32; N]]) -> Text {
    let mut text = Text::default();
    if random.once_in(4) && !records.is_empty() {
        text.text += BYTE_ORDER_MARK;
    }
    for record in records {
        while random.once_in(5) {
            text.add_blank(random);
        }
        text.add(random, record);
    }
    if random.once_in(3) && !records.is_empty() {
        text.text.truncate(text.text.trim_end().len());
    }
    text
}

/// A reader file with these contacts.
pub fn reader(random: &mut Random, contacts: &[Contact]) -> Text {
    let numbers = |contact: &Contact| [contact.from, contact.to, contact.tick];
    text(random, &contacts.iter().map(numbers).collect::<Vec<_>>())
}

/// A gate reader's file with these stays.
pub fn gate(random: &mut Random, stays: &[Stay]) -> Text {
    let numbers = |stay: &Stay| [stay.animal, stay.pen, stay.first, stay.last];
    text(random, &stays.iter().map(numbers).collect::<Vec<_>>())
}

/// What is told of reader files that have so many records and blank lines together, and so many different contacts; `bad` is
/// the number of lines skipped, where lines may be skipped.
pub fn loaded(records: usize, blank: usize, different: usize, bad: Option<usize>) -> String {
    let lines = counted(records + blank + bad.unwrap_or(0), "line");
    let contacts = counted(different, "different contact");
    let repeats = counted(records - different, "repeat");
    let blank = counted(blank, "blank or comment line");
    let skipped = bad.map(|bad| format!(", {} skipped", counted(bad, "bad line")));
    let skipped = skipped.unwrap_or_default();
    format!("{lines} read: {contacts}, {repeats}, {blank}{skipped}\n")
}
