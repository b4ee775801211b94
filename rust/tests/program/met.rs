//! What a test met, so that none passes on cases that it never made.

use std::collections::BTreeMap;

/// How often something of each name was met.
#[derive(Debug, Default)]
pub struct Met(BTreeMap<String, usize>);

impl Met {
    /// Counts something of this name.
    pub fn note(&mut self, name: impl Into<String>) {
        *self.0.entry(name.into()).or_insert(0) += 1;
    }

    /// Counts something of this name where it is so.
    pub fn note_if(&mut self, is_so: bool, name: &str) {
        if is_so {
            self.note(name);
        }
    }

    /// Fails where one of these was met less often.
    #[track_caller]
    pub fn at_least(&self, least: &[(&str, usize)]) {
        let often = |&(name, times): &(&str, usize)| self.0.get(name) >= Some(&times);
        assert!(least.iter().all(often), "{least:?} in {self:?}");
    }
}
