//! Feeding every input of a platinum sensor to a command that rescales, with each
//! rounding step, and comparing every reading with the model's.

use super::curve_tally::CurveTally;
use super::other::run_once;
use super::resistances::{HIGHEST_ANYWHERE, LOWEST_ANYWHERE};
use super::settings::STEPS;
use super::written::{Said, Written, LONGEST_LINE};
use crate::bench::bench_configuration;
use crate::config::{Configuration, Source};
use crate::lines::{configuration_line, Shown};
use crate::reading::{reading_of, Reading};
use std::fmt;
use std::io;
use std::ops::RangeInclusive;

/// Every input that reads a number, and a few hundred on either side.
const INPUTS: RangeInclusive<i32> = LOWEST_ANYWHERE as i32..=HIGHEST_ANYWHERE as i32;

/// A line to which the two sides do not say the same.
#[derive(Clone, PartialEq, Eq, Debug)]
pub struct Difference {
    pub step: i32,
    pub line: String,
    pub model: String,
    pub program: String,
}

/// What a comparison came to.
pub struct Compared {
    pub tally: Tally,
    pub difference: Option<Difference>,
}

/// What was compared with each step.
#[derive(Clone, Default, Debug)]
pub struct Tally {
    steps: Vec<(i32, CurveTally)>,
    readings: u64,
}

impl Tally {
    /// How many readings were compared.
    pub fn readings(&self) -> u64 {
        self.readings
    }
}

/// Compares the model with the command on all inputs, with one step after the
/// other.
pub fn compare(command: &[String]) -> io::Result<Compared> {
    let mut tally = Tally::default();
    for step in STEPS {
        if let Err(difference) = compare_step(command, step, &mut tally)? {
            return Ok(Compared {
                tally,
                difference: Some(difference),
            });
        }
    }
    Ok(Compared {
        tally,
        difference: None,
    })
}

/// Runs the command on all inputs with one step.
fn compare_step(
    command: &[String],
    step: i32,
    tally: &mut Tally,
) -> io::Result<Result<(), Difference>> {
    let settings = platinum_with_step(step);
    let most = (INPUTS.count() + 2) * LONGEST_LINE;
    let heard = run_once(command, &text_for(&settings), most)?;
    let mut curve_tally = CurveTally::default();
    let compared = compare_lines(&settings, &heard, |input, reading| {
        curve_tally.count(input, reading);
        tally.readings += 1;
    });
    tally.steps.push((step, curve_tally));
    Ok(compared)
}

/// A platinum meter without any points.
fn platinum_with_step(step: i32) -> Configuration {
    Configuration {
        source: Source::Platinum,
        point_count: 0,
        rounding: step,
        ..bench_configuration()
    }
}

fn text_for(settings: &Configuration) -> Vec<u8> {
    let mut text = configuration_line(settings) + "\n";
    for input in INPUTS {
        text += &format!("{input}\n");
    }
    text.into_bytes()
}

/// Compares all that the command has written, and counts each input up to and
/// with the first that differs.
fn compare_lines(
    settings: &Configuration,
    heard: &[u8],
    mut count: impl FnMut(i32, Reading),
) -> Result<(), Difference> {
    let mut written = Written::new(heard);
    let judge = |line: &str, model: Said, program: Said| {
        if model == program {
            return Ok(());
        }
        Err(Difference {
            step: settings.rounding,
            line: line.to_string(),
            model: model.to_string(),
            program: program.to_string(),
        })
    };
    judge(
        "(the configuration)",
        Said::Line(b"0 0"),
        written.next_line(),
    )?;
    for input in INPUTS {
        let reading = reading_of(settings, input);
        count(input, reading);
        let expected = Shown::from(reading).to_string();
        judge(
            &input.to_string(),
            Said::Line(expected.as_bytes()),
            written.next_line(),
        )?;
    }
    judge("(behind the last line)", Said::Nothing, written.rest())
}

impl fmt::Display for Tally {
    fn fmt(&self, out: &mut fmt::Formatter) -> fmt::Result {
        writeln!(out, "readings compared: {}", self.readings)?;
        for (step, curve_tally) in &self.steps {
            writeln!(out, "step {step}: {curve_tally}")?;
        }
        Ok(())
    }
}
