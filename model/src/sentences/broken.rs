//! A sentence that does not hold, and where.

use std::fmt;

/// What can be broken. The first four are what the sentences stand on: that a
/// program's lines are of the format, and that its answers, readings and setpoints
/// are those of document 01.
#[derive(Clone, Copy, PartialEq, Eq, Debug)]
pub enum Clause {
    Line,
    Answer,
    Reading,
    Setpoint,
    Total,
    Unlatched,
    Latched,
    EqualLists,
    Excursion,
}

impl fmt::Display for Clause {
    fn fmt(&self, out: &mut fmt::Formatter) -> fmt::Result {
        let name = match self {
            Clause::Line => "the line",
            Clause::Answer => "the answer",
            Clause::Reading => "the reading",
            Clause::Setpoint => "the setpoint",
            Clause::Total => "sentence 1 (total)",
            Clause::Unlatched => "sentence 2 (unlatched alarm)",
            Clause::Latched => "sentence 3 (latched alarm)",
            Clause::EqualLists => "sentence 4 (equal kept lists)",
            Clause::Excursion => "sentence 5 (excursion)",
        };
        write!(out, "{name}")
    }
}

/// One break.
#[derive(Clone, PartialEq, Eq, Debug)]
pub struct Broken {
    pub clause: Clause,
    /// The line of the history, counted from 0.
    pub line: usize,
    /// Whether it was the history without its looks that showed it.
    pub without_looks: bool,
    /// What the sentence asks for and what was shown.
    pub why: String,
}

impl Broken {
    pub fn new(clause: Clause, line: usize, why: String) -> Broken {
        Broken {
            clause,
            line,
            without_looks: false,
            why,
        }
    }
}

impl fmt::Display for Broken {
    fn fmt(&self, out: &mut fmt::Formatter) -> fmt::Result {
        let which = if self.without_looks {
            ", fed without the looks"
        } else {
            ""
        };
        write!(
            out,
            "{} is broken at line {}{which}: {}",
            self.clause,
            self.line + 1,
            self.why
        )
    }
}

/// The first break of each kind, in the order of their lines.
pub fn first_of_each(mut found: Vec<Broken>) -> Vec<Broken> {
    found.sort_by_key(|broken| broken.line);
    let mut first: Vec<Broken> = Vec::new();
    for broken in found {
        if first.iter().all(|one| one.clause != broken.clause) {
            first.push(broken);
        }
    }
    first
}
