//! What a run of `historied` has reached: records written and read, refusals, and
//! how the values were rounded.

use super::recording::Part;
use crate::binary32::Rounding;
use crate::historian::Outcome;
use crate::record::{Kind, Record};
use std::fmt;

/// How many numbers of places there are.
const PLACES: usize = 5;

/// The marks in the order of their kinds, as a line has them.
const MARKS: [&str; 3] = ["OL", "UL", "--"];

/// How many records there were of values, for each number of places, and of each
/// mark.
#[derive(Clone, Copy, Default, Debug)]
struct Records {
    values: [u64; PLACES],
    marks: [u64; 3],
}

impl Records {
    fn count(&mut self, record: Record) {
        let count = match record.kind {
            Kind::Value => &mut self.values[usize::from(record.places)],
            mark => &mut self.marks[usize::from(mark.number()) - 1],
        };
        *count += 1;
    }

    fn all_values(&self) -> u64 {
        self.values.iter().sum()
    }

    fn all_marks(&self) -> u64 {
        self.marks.iter().sum()
    }
}

/// Counts of everything that was compared.
#[derive(Clone, Default, Debug)]
pub struct RecordTally {
    lines: u64,
    /// Of every display and every mark.
    written: Records,
    read_back: Records,
    exact: u64,
    towards_zero: u64,
    away_from_zero: u64,
    ties: u64,
    /// Of the lines that were made from the seed.
    made: u64,
    made_written: Records,
    made_read: Records,
    refused: [u64; 4],
    not_understood: u64,
}

impl RecordTally {
    /// How many lines were compared.
    pub fn lines(&self) -> u64 {
        self.lines
    }

    /// Counts a line by what the model makes of it.
    pub fn count_line(&mut self, part: Part, outcome: Outcome) {
        self.lines += 1;
        if part == Part::Made {
            self.made += 1;
        }
        match (outcome, part) {
            (Outcome::Written(record), Part::Made) => self.made_written.count(record),
            (Outcome::Written(record), _) => self.written.count(record),
            (Outcome::Read(record), Part::Made) => self.made_read.count(record),
            (Outcome::Read(record), _) => self.read_back.count(record),
            (Outcome::Refused(refusal), _) => {
                self.refused[usize::from(refusal.number()) - 30] += 1;
            }
            (Outcome::NotUnderstood, _) => self.not_understood += 1,
        }
    }

    /// Counts how a display's value came from its quotient.
    pub fn count_rounding(&mut self, rounding: Rounding) {
        let count = match rounding {
            Rounding::Exact => &mut self.exact,
            Rounding::TowardsZero => &mut self.towards_zero,
            Rounding::AwayFromZero => &mut self.away_from_zero,
            Rounding::Tie => &mut self.ties,
        };
        *count += 1;
    }
}

impl fmt::Display for RecordTally {
    fn fmt(&self, out: &mut fmt::Formatter) -> fmt::Result {
        writeln!(out, "lines compared: {}", self.lines)?;
        every_reading(out, "written", &self.written)?;
        every_reading(out, "read back", &self.read_back)?;
        writeln!(
            out,
            "quotients: exact {}, rounded down (towards zero) {}, rounded up (away from it) {}, ties {}",
            self.exact, self.towards_zero, self.away_from_zero, self.ties
        )?;
        let (written, read) = (&self.made_written, &self.made_read);
        writeln!(
            out,
            "lines made from the seed: {}; written {} (values {}, marks {}); not understood (?) {}",
            self.made,
            written.all_values() + written.all_marks(),
            written.all_values(),
            written.all_marks(),
            self.not_understood
        )?;
        write!(
            out,
            "of these, reads taken {} (values {}, marks {}), refused",
            read.all_values() + read.all_marks(),
            read.all_values(),
            read.all_marks()
        )?;
        for (number, count) in (30..).zip(self.refused) {
            write!(out, " {number}: {count}")?;
        }
        writeln!(out)
    }
}

fn every_reading(out: &mut fmt::Formatter, what: &str, records: &Records) -> fmt::Result {
    write!(
        out,
        "records {what}, by places: values {}",
        records.all_values()
    )?;
    for (places, count) in records.values.iter().enumerate() {
        let bracket = if places == 0 { " (" } else { ", " };
        write!(out, "{bracket}{places}: {count}")?;
    }
    write!(out, "); marks {}", records.all_marks())?;
    for (place, (mark, count)) in MARKS.iter().zip(records.marks).enumerate() {
        let bracket = if place == 0 { " (" } else { ", " };
        write!(out, "{bracket}{mark}: {count}")?;
    }
    writeln!(out, ")")
}
