//! The program `herd`, run as a user runs it. What it prints and writes is compared with texts and bytes that a plain search
//! over contacts gives, and what it refuses with the words of its promise.

mod answers;
mod bad_lines;
mod changes;
mod drawing;
mod drawn;
mod help;
mod lines;
mod met;
mod outputs;
mod picture;
mod progress;
mod readers;
mod refusals;
mod robust;
mod run;
mod terminal;
mod told;
mod traced;
mod usage;
mod yard;
