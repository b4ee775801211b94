//! Lines of the tables that the bench prints.

use std::fmt;

/// What a ratio is to be.
#[derive(Clone, Copy)]
pub enum Goal {
    AtLeast(f64),
    AtMost(f64),
}

impl Goal {
    /// Whether the ratio is as it is to be.
    pub fn met(self, ratio: f64) -> bool {
        match self {
            Goal::AtLeast(bound) => ratio >= bound,
            Goal::AtMost(bound) => ratio <= bound,
        }
    }

    /// The ratio, and whether the goal is met.
    pub fn judged(self, ratio: f64) -> String {
        format!("{} {:6}", number(ratio), verdict(self.met(ratio)))
    }

    /// The ratio, which may be off by the doubt, and whether the goal is met.
    pub fn judged_in_doubt(self, ratio: f64, doubt: f64) -> String {
        let is_told = self.met(ratio - doubt) == self.met(ratio + doubt);
        if is_told && !ratio.is_nan() {
            self.judged(ratio)
        } else {
            format!("{} {:6}", number(ratio), "open")
        }
    }
}

impl fmt::Display for Goal {
    fn fmt(&self, f: &mut fmt::Formatter) -> fmt::Result {
        match self {
            Goal::AtLeast(bound) => write!(f, "at least {bound}"),
            Goal::AtMost(bound) => write!(f, "at most {bound}"),
        }
    }
}

/// The word for a goal that is met or not.
pub fn verdict(met: bool) -> &'static str {
    if met {
        "met"
    } else {
        "missed"
    }
}

/// A ratio with two digits or more, where it could be measured.
pub fn number(ratio: f64) -> String {
    if ratio.is_nan() {
        "-".to_string()
    } else if ratio.abs() < 0.1 {
        format!("{ratio:.3}")
    } else {
        format!("{ratio:.2}")
    }
}

/// The title of a table, and the names of its columns.
pub fn head(title: &str, columns: &[&str]) {
    println!("\n{title}");
    let columns: Vec<String> = columns.iter().map(ToString::to_string).collect();
    line("", &columns);
}

/// The goals of a table's columns.
pub fn goals(goals: &[Goal]) {
    let goals: Vec<String> = goals.iter().map(Goal::to_string).collect();
    line("goal", &goals);
}

/// A line of a table.
pub fn line(first: &str, cells: &[String]) {
    let cells: String = cells.iter().map(|cell| format!("{cell:>15}")).collect();
    let line = format!("{first:22}{cells}");
    println!("{}", line.trim_end());
}
