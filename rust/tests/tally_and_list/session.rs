//! A session with the program: its commands, and what a plain model says that it writes for them.

use crate::met::Met;
use crate::program;
use herd::calls::{Added, Answer, Done, Opened};
use herd_testing::calls;
use herd_testing::check;
use herd_testing::words::Opening;
use std::fmt::Debug;

/// The words of the program's memory, and of its second memory.
pub const MOST_TABLE: usize = 4161;
/// The records of its array.
pub const MOST_RECORDS: usize = 64;
/// The commands that it runs.
pub const MOST_COMMANDS: usize = 1_000_000;
/// The bytes of a command.
pub const COMMAND_BYTES: usize = 20;
/// A tally whose numbers sum to this or more is full.
pub const FULL_TALLY: u64 = 4_294_967_295;

/// The first words of the memory are the table.
pub const TABLE: u32 = 1;
/// A word of the memory is changed.
pub const WORD: u32 = 2;
/// The table is opened.
pub const OPEN: u32 = 3;
/// The tally becomes these numbers.
pub const TALLY: u32 = 4;
/// A contact is added, counted.
pub const ADD: u32 = 5;
/// The list becomes empty.
pub const CLEAR: u32 = 6;
/// The list gets one record more.
pub const RECORD: u32 = 7;
/// The list is asked.
pub const ASK: u32 = 8;
/// The table is shown.
pub const SHOW: u32 = 9;
/// A contact is removed, counted, with the first words of the second memory for work.
pub const REMOVE: u32 = 10;
/// A word of the second memory is changed.
pub const WORK: u32 = 11;
/// The first words of the second memory are shown.
pub const SHOW_WORK: u32 = 12;

/// A question's two animals and the first and last tick of its window.
pub type Question = (u32, u32, u32, u32);

/// Which answer a reply is, and its number; 0 is a refusal.
pub type Reply = (u32, u32);

/// The numbers of a tally: new, known, refused and removed.
pub type Tally = [u32; 4];

/// The reply of a record that was not asked.
const UNASKED: Reply = (3, 0);

/// The commands so far, what the program is to write for them, and what they are run on.
pub struct Session {
    input: Vec<u8>,
    text: String,
    ended: bool,
    memory: Vec<u32>,
    length: usize,
    second: Vec<u32>,
    tally: Tally,
    list: Vec<(Question, Reply)>,
    met: Met,
}

impl Session {
    /// No commands: no table, a zero tally and an empty list.
    pub fn new() -> Session {
        Session {
            input: Vec::new(),
            text: String::new(),
            ended: false,
            memory: vec![0; MOST_TABLE],
            length: 0,
            second: vec![0; MOST_TABLE],
            tally: [0; 4],
            list: Vec::new(),
            met: Met::default(),
        }
    }

    /// The bytes of the commands.
    pub fn input(&self) -> &[u8] {
        &self.input
    }

    /// What the program is to write.
    pub fn text(&self) -> &str {
        &self.text
    }

    /// Whether a command ended the run.
    pub fn ended(&self) -> bool {
        self.ended
    }

    /// The words of the table.
    pub fn table(&self) -> &[u32] {
        &self.memory[..self.length]
    }

    /// The words of the second memory.
    pub fn second(&self) -> &[u32] {
        &self.second
    }

    /// The tally.
    pub fn tally(&self) -> Tally {
        self.tally
    }

    /// The number of records of the list.
    pub fn records(&self) -> usize {
        self.list.len()
    }

    /// One command more.
    pub fn run(&mut self, which: u32, numbers: [u32; 4]) {
        self.input.extend(which.to_be_bytes());
        self.input.extend(numbers.map(u32::to_be_bytes).concat());
        if !self.ended {
            self.obey(which, numbers);
        }
    }

    /// The first words of the memory are the table.
    pub fn lend(&mut self, length: usize) {
        self.run(TABLE, [length as u32, 0, 0, 0]);
    }

    /// A word of the memory is changed.
    pub fn put(&mut self, place: usize, word: u32) {
        self.run(WORD, [place as u32, word, 0, 0]);
    }

    /// The table is of these words.
    pub fn put_table(&mut self, words: &[u32]) {
        self.lend(words.len());
        for (place, &word) in words.iter().enumerate() {
            self.put(place, word);
        }
    }

    /// A table of the right length is opened.
    pub fn open(&mut self, opening: Opening) {
        self.lend(opening.table_words());
        self.run(OPEN, [opening.animals, opening.ticks, opening.carry, 0]);
    }

    /// The tally becomes these numbers.
    pub fn put_tally(&mut self, tally: Tally) {
        self.run(TALLY, tally);
    }

    /// The contact is added, counted.
    pub fn add(&mut self, (u, v, t): (u32, u32, u32)) {
        self.run(ADD, [u, v, t, 0]);
    }

    /// The contact is removed, counted, with so many words of the second memory for work.
    pub fn remove(&mut self, (u, v, t): (u32, u32, u32), words: usize) {
        self.run(REMOVE, [u, v, t, words as u32]);
    }

    /// The second memory begins with these words.
    pub fn put_work(&mut self, words: &[u32]) {
        for (place, &word) in words.iter().enumerate() {
            self.run(WORK, [place as u32, word, 0, 0]);
        }
    }

    /// So many words of the second memory are shown.
    pub fn show_work(&mut self, words: usize) {
        self.run(SHOW_WORK, [words as u32, 0, 0, 0]);
    }

    /// The list becomes these records, not asked yet.
    pub fn put_list(&mut self, list: &[Question]) {
        self.run(CLEAR, [0; 4]);
        for &question in list {
            self.record(question);
        }
    }

    /// The list gets one record more.
    pub fn record(&mut self, (u, v, first, last): Question) {
        self.run(RECORD, [u, v, first, last]);
    }

    /// The list is asked.
    pub fn ask(&mut self) {
        self.run(ASK, [0; 4]);
    }

    /// The table is shown.
    pub fn show(&mut self) {
        self.run(SHOW, [0; 4]);
    }

    /// Runs the program on the commands, compares its text with the model's, and adds what was met.
    #[track_caller]
    pub fn compare(&self, case: impl Debug, met: &mut Met) {
        same_text(&program::written(&self.input), &self.text, case);
        met.join(&self.met);
    }

    /// The model runs a command.
    fn obey(&mut self, which: u32, [a, b, c, d]: [u32; 4]) {
        match which {
            TABLE if a as usize <= MOST_TABLE => self.length = a as usize,
            WORD if (a as usize) < MOST_TABLE => self.memory[a as usize] = b,
            OPEN => self.obey_open(a, b, c),
            TALLY => self.tally = [a, b, c, d],
            ADD => self.obey_add(a, b, c),
            CLEAR => self.list.clear(),
            RECORD if self.list.len() < MOST_RECORDS => self.list.push(((a, b, c, d), UNASKED)),
            REMOVE if d as usize <= MOST_TABLE => self.obey_remove(a, b, c, d as usize),
            WORK if (a as usize) < MOST_TABLE => self.second[a as usize] = b,
            SHOW_WORK if a as usize <= MOST_TABLE => self.text += &line(&self.second[..a as usize]),
            TABLE | WORD | RECORD | REMOVE | WORK | SHOW_WORK => self.end("too large"),
            ASK => self.obey_ask(),
            SHOW => self.text += &line(self.table()),
            _ => self.end("no such command"),
        }
    }

    /// The table is opened.
    fn obey_open(&mut self, animals: u32, ticks: u32, carry: u32) {
        let (answer, after) = calls::open(self.table(), animals, ticks, carry);
        self.memory[..self.length].copy_from_slice(&after);
        let reply = match answer {
            Opened::Opened => (1, 0),
            Opened::Refused(number) => (0, number),
        };
        self.reply(OPEN, reply, &[]);
    }

    /// Whether the four numbers of the tally sum to the full one or more.
    fn is_full(&self) -> bool {
        let counted: u64 = self.tally.into_iter().map(u64::from).sum();
        counted >= FULL_TALLY
    }

    /// The contact is added and counted, unless the tally is full.
    fn obey_add(&mut self, u: u32, v: u32, t: u32) {
        if self.is_full() {
            return self.counted(ADD, (0, 16));
        }
        let (answer, after) = calls::add(self.table(), u, v, t);
        self.memory[..self.length].copy_from_slice(&after);
        let (counter, reply) = match answer {
            Added::New(cells) => (0, (1, cells)),
            Added::Known(cells) => (1, (2, cells)),
            Added::Refused(number) => (2, (0, number)),
        };
        self.tally[counter] += 1;
        self.counted(ADD, reply);
    }

    /// The contact is removed and counted, unless the tally is full.
    fn obey_remove(&mut self, u: u32, v: u32, t: u32, words: usize) {
        if self.is_full() {
            return self.counted(REMOVE, (0, 16));
        }
        let work = &self.second[..words];
        let (answer, [table, work]) = calls::remove(self.table(), work, u, v, t);
        self.memory[..self.length].copy_from_slice(&table);
        self.second[..words].copy_from_slice(&work);
        let (counter, reply) = match answer {
            Done::Done => (3, (1, 0)),
            Done::Refused(number) => (2, (0, number)),
        };
        self.tally[counter] += 1;
        self.counted(REMOVE, reply);
    }

    /// The line of a counted call.
    fn counted(&mut self, command: u32, reply: Reply) {
        let tally = self.tally;
        self.reply(command, reply, &tally);
    }

    /// Each record is answered as by a single reach, unless the table is refused.
    fn obey_ask(&mut self) {
        self.met.list(self.list.len());
        match check::open_table(self.table()).err() {
            Some(number) => self.reply(ASK, (0, number), &[]),
            None => {
                let asked = self.list.iter().map(|&(q, _)| (q, self.reached(q)));
                self.list = asked.collect();
                self.reply(ASK, (1, self.list.len() as u32), &[]);
            }
        }
        for ((u, v, first, last), reply) in self.list.clone() {
            self.met.note(RECORD, reply);
            self.text += &line(&[u, v, first, last, reply.0, reply.1]);
        }
    }

    /// The reply of a single reach.
    fn reached(&self, (u, v, first, last): Question) -> Reply {
        match calls::reach(self.table(), u, v, first, last) {
            Answer::Yes => (1, 0),
            Answer::No => (2, 0),
            Answer::Refused(number) => (0, number),
        }
    }

    /// The line of a reply, with more numbers behind it.
    fn reply(&mut self, command: u32, reply: Reply, more: &[u32]) {
        self.met.note(command, reply);
        self.text += &line(&[&[reply.0, reply.1], more].concat());
    }

    /// The line that ends the run.
    fn end(&mut self, line: &str) {
        self.text += line;
        self.text += "\n";
        self.ended = true;
    }
}

/// The numbers as a line, with one space between.
fn line(numbers: &[u32]) -> String {
    let numbers: Vec<String> = numbers.iter().map(u32::to_string).collect();
    numbers.join(" ") + "\n"
}

/// Fails at the first line that differs.
#[track_caller]
pub fn same_text(found: &str, expected: &str, case: impl Debug) {
    if found == expected {
        return;
    }
    let mut lines = found.split('\n').zip(expected.split('\n')).enumerate();
    let differs = lines.find(|(_, (found, expected))| found != expected);
    let (bytes, right) = (found.len(), expected.len());
    panic!("{case:?}: {bytes} bytes, expected {right}; first line, found and expected: {differs:?}")
}
