//! How often each kind of outcome was met.

use std::collections::BTreeMap;
use std::thread;

/// A kind of outcome.
#[derive(Clone, Copy, Debug, PartialEq, Eq, PartialOrd, Ord)]
enum Kind {
    /// An answer of this kind.
    Answer(&'static str),
    /// A refusal with this number.
    Refusal(u32),
}

/// How often each kind of outcome of each call was met.
#[derive(Default)]
pub struct Met(BTreeMap<(&'static str, Kind), usize>);

impl Met {
    /// Counts one answer more.
    pub fn answer(&mut self, call: &'static str, kind: &'static str) {
        *self.0.entry((call, Kind::Answer(kind))).or_insert(0) += 1;
    }

    /// Counts one refusal more.
    pub fn refusal(&mut self, call: &'static str, number: u32) {
        *self.0.entry((call, Kind::Refusal(number))).or_insert(0) += 1;
    }

    /// Counts an answer for yes or no.
    pub fn yes_or_no(&mut self, call: &'static str, yes: bool) {
        self.answer(call, if yes { "yes" } else { "no" });
    }

    /// Fails where one of the answers was met less often.
    #[track_caller]
    pub fn answers(&self, times: usize, call: &'static str, kinds: &[&'static str]) {
        for &kind in kinds {
            self.at_least(times, call, Kind::Answer(kind));
        }
    }

    /// Fails where one of the refusals was met less often.
    #[track_caller]
    pub fn refusals(&self, times: usize, call: &'static str, numbers: &[u32]) {
        for &number in numbers {
            self.at_least(times, call, Kind::Refusal(number));
        }
    }

    /// Fails where the outcome was met less often.
    #[track_caller]
    fn at_least(&self, times: usize, call: &'static str, kind: Kind) {
        let met = self.0.get(&(call, kind)).copied().unwrap_or(0);
        assert!(met >= times, "{call} {kind:?}: {met} times");
    }
}

/// With `--nocapture` a test tells what it met.
impl Drop for Met {
    fn drop(&mut self) {
        let name = thread::current().name().unwrap_or("a test").to_string();
        let total: usize = self.0.values().sum();
        println!("{name}: {total} in all, {:?}", self.0);
    }
}
