//! Feeding readings and records to a command that writes and reads them for the
//! historian, and comparing what it prints with what the model prints.

use super::historian_lines::lines_for;
use super::other::run_once;
use super::random::Random;
use super::record_tally::RecordTally;
use super::written::{Said, Written, LONGEST_LINE};
use crate::config::{HIGHEST_DISPLAY, LOWEST_DISPLAY};
use crate::historian::Historian;
use crate::lines::lines_of;
use crate::record::{value_of, MOST_PLACES};
use std::fmt;
use std::io;

/// How many lines that are made from the seed one run of the command has.
const LINES_OF_A_RUN: usize = 20_000;

/// How much of a line is shown.
const SHOWN_OF_A_LINE: usize = 200;

/// What is asked for.
#[derive(Clone, Copy, PartialEq, Eq, Debug)]
pub struct Wanted {
    pub seed: u64,
    /// Made from the seed, besides all displays and marks.
    pub lines: usize,
}

/// The parts that a comparison has.
#[derive(Clone, Copy, PartialEq, Eq, Debug)]
pub enum Part {
    /// Every display and every mark, with each number of places.
    Written,
    /// The records that the command has printed for these.
    ReadBack,
    /// Lines made from the seed.
    Made,
}

impl fmt::Display for Part {
    fn fmt(&self, out: &mut fmt::Formatter) -> fmt::Result {
        let name = match self {
            Part::Written => "the records written",
            Part::ReadBack => "the records read back",
            Part::Made => "the lines made from the seed",
        };
        write!(out, "{name}")
    }
}

/// A line to which the sides do not say the same, and what each of them says.
#[derive(Clone, PartialEq, Eq, Debug)]
pub struct Difference {
    pub part: Part,
    pub line: String,
    /// What the record itself holds, where it is one that was read back.
    pub record: String,
    pub model: String,
    pub program: String,
}

/// What a comparison came to.
pub struct Compared {
    pub tally: RecordTally,
    pub difference: Option<Difference>,
}

/// Why a comparison ends early.
enum Stop {
    Difference(Difference),
    Failure(io::Error),
}

impl From<io::Error> for Stop {
    fn from(error: io::Error) -> Stop {
        Stop::Failure(error)
    }
}

/// Compares the model with the command on all that is asked for.
pub fn compare(wanted: Wanted, command: &[String]) -> io::Result<Compared> {
    let mut comparison = Comparison {
        model: Historian::new(),
        command,
        tally: RecordTally::default(),
    };
    let difference = match comparison.whole(wanted) {
        Ok(()) => None,
        Err(Stop::Difference(difference)) => Some(difference),
        Err(Stop::Failure(error)) => return Err(error),
    };
    Ok(Compared {
        tally: comparison.tally,
        difference,
    })
}

/// A comparison under way.
struct Comparison<'a> {
    model: Historian,
    command: &'a [String],
    tally: RecordTally,
}

impl Comparison<'_> {
    fn whole(&mut self, wanted: Wanted) -> Result<(), Stop> {
        for places in 0..=MOST_PLACES {
            self.every_reading(places)?;
        }
        let mut left = wanted.lines;
        for run in 0.. {
            if left == 0 {
                break;
            }
            let count = left.min(LINES_OF_A_RUN);
            let random = Random::for_history(wanted.seed, run);
            self.run(Part::Made, &lines_for(random, run == 0, count))?;
            left -= count;
        }
        Ok(())
    }

    /// Has every reading with these places written, and what was printed read
    /// back.
    fn every_reading(&mut self, places: u8) -> Result<(), Stop> {
        for display in LOWEST_DISPLAY..=HIGHEST_DISPLAY {
            let value = value_of(i128::from(display), places);
            self.tally.count_rounding(value.rounding);
        }
        let printed = self.run(Part::Written, &writes_of_every_reading(places))?;
        let reads: Vec<Vec<u8>> = lines_of(&printed)
            .map(|record| [b"R ", record].concat())
            .collect();
        self.run(Part::ReadBack, &reads)?;
        Ok(())
    }

    /// Feeds lines to a fresh run of the command and compares what it prints for
    /// each. Gives that back if nothing differs.
    fn run(&mut self, part: Part, lines: &[Vec<u8>]) -> Result<Vec<u8>, Stop> {
        let most = (lines.len() + 1) * LONGEST_LINE;
        let printed = run_once(self.command, &text_of(part, lines), most)?;
        let mut program = Written::new(&printed);
        for line in lines {
            let mut expected = Vec::new();
            let outcome = self.model.line(line, &mut expected);
            self.tally.count_line(part, outcome);
            let held = match part {
                Part::ReadBack => held_by(line),
                Part::Written | Part::Made => None,
            };
            let record = match &held {
                Some(held) => Said::Line(held.as_bytes()),
                None => Said::NotAsked,
            };
            let model = Written::new(&expected).next_line();
            judge(part, line, [record, model, program.next_line()])?;
        }
        let behind = [Said::NotAsked, Said::Nothing, program.rest()];
        judge(part, b"(behind the last line)", behind)?;
        Ok(printed)
    }
}

/// A line for every reading that is written with these places.
fn writes_of_every_reading(places: u8) -> Vec<Vec<u8>> {
    let displays = (LOWEST_DISPLAY..=HIGHEST_DISPLAY).map(|display| display.to_string());
    let marks = ["OL", "UL", "--"].map(str::to_string);
    displays
        .chain(marks)
        .map(|reading| format!("W {reading} {places}").into_bytes())
        .collect()
}

/// The lines as they are fed. The last of those that are made from the seed goes
/// without its LF, unless it is empty, and would then be none.
fn text_of(part: Part, lines: &[Vec<u8>]) -> Vec<u8> {
    let mut text = lines.join(&b'\n');
    if part != Part::Made || lines.last().is_some_and(Vec::is_empty) {
        text.push(b'\n');
    }
    text
}

/// What a reader must print for a record, taken straight from its digits: kind and
/// places, and the bits with the high byte in front.
fn held_by(line: &[u8]) -> Option<String> {
    let digits = std::str::from_utf8(line.strip_prefix(b"R ")?).ok()?;
    let pair = |index: usize| digits.get(2 * index..2 * index + 2);
    let number = |index: usize| u8::from_str_radix(pair(index)?, 16).ok();
    let (kind, places) = (number(0)?, number(1)?);
    let (low, second, third, high) = (pair(4)?, pair(5)?, pair(6)?, pair(7)?);
    Some(format!("{kind} {places} {high}{third}{second}{low}"))
}

/// All sides must say the same, as far as they are asked.
fn judge(part: Part, line: &[u8], sides: [Said; 3]) -> Result<(), Stop> {
    let [record, model, program] = sides;
    if program == model && (record == model || record == Said::NotAsked) {
        return Ok(());
    }
    Err(Stop::Difference(Difference {
        part,
        line: shown(line),
        record: record.to_string(),
        model: model.to_string(),
        program: program.to_string(),
    }))
}

/// A line as it is shown, cut where it is long.
fn shown(line: &[u8]) -> String {
    if line.len() <= SHOWN_OF_A_LINE {
        return line.escape_ascii().to_string();
    }
    let beginning = line[..SHOWN_OF_A_LINE].escape_ascii();
    format!("{beginning}.. ({} bytes)", line.len())
}

#[cfg(test)]
mod tests {
    use super::*;

    #[test]
    fn a_record_holds_what_its_digits_say() {
        let held = |line: &[u8]| held_by(line);
        assert_eq!(held(b"R 00010000cdcccc3d").as_deref(), Some("0 1 3dcccccd"));
        assert_eq!(held(b"R 0304000000000000").as_deref(), Some("3 4 00000000"));
        assert_eq!(held(b"R 00010000cdcc"), None);
        assert_eq!(held(b"?"), None);
    }

    #[test]
    fn the_last_line_that_was_made_has_no_end_unless_it_is_empty() {
        let lines = |words: &[&str]| -> Vec<Vec<u8>> {
            words.iter().map(|word| word.as_bytes().to_vec()).collect()
        };
        for (words, text) in [
            (["a", "b"], "a\nb"),
            (["a", ""], "a\n\n"),
            (["", "a"], "\na"),
        ] {
            assert_eq!(text_of(Part::Made, &lines(&words)), text.as_bytes());
        }
        for part in [Part::Written, Part::ReadBack] {
            assert_eq!(text_of(part, &lines(&["a", "b"])), b"a\nb\n");
        }
    }

    #[test]
    fn every_reading_is_written_with_every_number_of_places() {
        for places in 0..=MOST_PLACES {
            let lines = writes_of_every_reading(places);
            assert_eq!(lines.len(), 119_999 + 3);
            assert_eq!(lines[0], format!("W -19999 {places}").into_bytes());
            assert_eq!(lines[119_998], format!("W 99999 {places}").into_bytes());
            assert_eq!(lines[120_001], format!("W -- {places}").into_bytes());
        }
    }
}
