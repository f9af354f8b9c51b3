//! The program `rescale` (document 02, ticket 10): the first line is a
//! configuration, every line behind it an input, and each input's reading is
//! printed. This one reads by the source that the configuration names, as a
//! meter's sample does; that a core reads by segments, or by a stored table, is no
//! reason for another number.

use crate::answer::Answer;
use crate::config::Configuration;
use crate::lines::{number, read_line, Line, Shown};
use crate::reading::reading_of;

/// How far the program has come. Its first line decides for all the others.
#[derive(Clone, PartialEq, Eq, Debug)]
pub enum Rescale {
    /// No line has come yet.
    AtTheFirstLine,
    /// The configuration breaks no rule, and the inputs are read by it.
    Accepted(Box<Configuration>),
    /// The configuration was refused, and nothing more is printed.
    Refused,
    /// The first line was no configuration, and no line is understood.
    WithoutConfiguration,
}

impl Default for Rescale {
    fn default() -> Self {
        Rescale::new()
    }
}

impl Rescale {
    pub fn new() -> Rescale {
        Rescale::AtTheFirstLine
    }

    /// Carries one line out (without its LF) and writes what is printed for it,
    /// which is nothing behind a refused configuration.
    pub fn line(&mut self, text: &[u8], output: &mut Vec<u8>) {
        let printed = match self {
            Rescale::AtTheFirstLine => self.first_line(text),
            Rescale::Accepted(configuration) => reading_in(configuration, text),
            Rescale::Refused => return,
            Rescale::WithoutConfiguration => not_understood(),
        };
        output.extend_from_slice(printed.as_bytes());
        output.push(b'\n');
    }

    /// The first line: the answer that a power-up has, with the number that it
    /// carries.
    fn first_line(&mut self, text: &[u8]) -> String {
        let Line::PowerUp(configuration) = read_line(text) else {
            *self = Rescale::WithoutConfiguration;
            return not_understood();
        };
        let answer = match configuration.first_broken_rule() {
            Some(rule) => {
                *self = Rescale::Refused;
                Answer::ConfigurationRefused(rule)
            }
            None => {
                *self = Rescale::Accepted(configuration);
                Answer::CarriedOut
            }
        };
        format!("{} {}", answer.number(), answer.carried_number())
    }
}

/// The reading of a line that is an input. Nothing else may stand on it, and a
/// second configuration is none.
fn reading_in(configuration: &Configuration, text: &[u8]) -> String {
    match number(text) {
        Some(input) => Shown::from(reading_of(configuration, input)).to_string(),
        None => not_understood(),
    }
}

fn not_understood() -> String {
    "?".to_string()
}
