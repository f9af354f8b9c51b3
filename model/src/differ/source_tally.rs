//! What a comparison has reached of the source of the reading: how it was named,
//! and what platinum meters were given and read.

use crate::answer::Answer;
use crate::config::{Configuration, Source};
use crate::lines::{read_line, Line, Outcome};
use crate::reading::Reading;
use std::fmt;

/// How many words a configuration has in front of the one for the source, `CFG`
/// among them.
const WORDS_BEFORE_SOURCE: usize = 74;

/// Counts of configurations by their last word, and of platinum meters.
#[derive(Clone, Default, Debug)]
pub struct SourceTally {
    left_out: u64,
    named_points: u64,
    named_platinum: u64,
    bad_value: u64,
    words_too_many: u64,
    accepted: u64,
    refused: [u64; 11],
    count_of_no_points: u64,
    places_of_points: u64,
    to_platinum: u64,
    to_points: u64,
    numbers: u64,
    below_zero: u64,
    over: u64,
    under: u64,
    /// None before the first power-up that was accepted.
    last_source: Option<Source>,
}

impl SourceTally {
    /// Counts a line by what became of it. Only those with a configuration count.
    pub fn count_line(&mut self, text: &[u8], outcome: Outcome) {
        match (read_line(text), outcome) {
            (Line::PowerUp(configuration), Outcome::PoweredUp(answer)) => {
                self.count_word(text);
                self.count_power_up(&configuration, answer);
            }
            (Line::NotUnderstood, _) => self.count_bad_word(text),
            _ => {}
        }
    }

    /// The word for the source in a configuration that was understood.
    fn count_word(&mut self, text: &[u8]) {
        let words: Vec<&[u8]> = words_of(text);
        let kind = match words.get(WORDS_BEFORE_SOURCE) {
            None => &mut self.left_out,
            Some(word) if *word == b"0" => &mut self.named_points,
            Some(_) => &mut self.named_platinum,
        };
        *kind += 1;
    }

    /// A configuration that was not understood for what comes behind the settings,
    /// and would have been without it.
    fn count_bad_word(&mut self, text: &[u8]) {
        let words = words_of(text);
        if words.len() <= WORDS_BEFORE_SOURCE {
            return;
        }
        let settings = words[..WORDS_BEFORE_SOURCE].join(&b' ');
        if matches!(read_line(&settings), Line::PowerUp(_)) {
            let kind = match words.len() - WORDS_BEFORE_SOURCE {
                1 => &mut self.bad_value,
                _ => &mut self.words_too_many,
            };
            *kind += 1;
        }
    }

    fn count_power_up(&mut self, configuration: &Configuration, answer: Answer) {
        if let Answer::ConfigurationRefused(rule) = answer {
            if configuration.source == Source::Platinum {
                self.refused[rule.number()] += 1;
                let would_do_for_points = (0..=4).contains(&configuration.input_places);
                self.places_of_points += u64::from(rule.number() == 2 && would_do_for_points);
            }
            return;
        }
        self.count_change(configuration.source);
        if configuration.source == Source::Platinum {
            self.accepted += 1;
            let outside = !(2..=16).contains(&configuration.point_count);
            self.count_of_no_points += u64::from(outside);
        }
    }

    /// A power-up whose source is not that of the meter before.
    fn count_change(&mut self, source: Source) {
        match (self.last_source.replace(source), source) {
            (Some(Source::Points), Source::Platinum) => self.to_platinum += 1,
            (Some(Source::Platinum), Source::Points) => self.to_points += 1,
            _ => {}
        }
    }

    /// Counts what a sample has read, if a platinum meter read it.
    pub fn count_sample(&mut self, configuration: &Configuration, reading: Reading) {
        if configuration.source != Source::Platinum {
            return;
        }
        match reading {
            Reading::Number(number) => {
                self.numbers += 1;
                self.below_zero += u64::from(number < 0);
            }
            Reading::Over => self.over += 1,
            Reading::Under => self.under += 1,
            Reading::Nothing => unreachable!("every sample has a reading"),
        }
    }
}

fn words_of(text: &[u8]) -> Vec<&[u8]> {
    text.split(|byte| *byte == b' ').collect()
}

impl fmt::Display for SourceTally {
    fn fmt(&self, out: &mut fmt::Formatter) -> fmt::Result {
        writeln!(
            out,
            "configurations by their word for the source: left out {}, 0 {}, 1 {}, another {}, more words than one {}",
            self.left_out,
            self.named_points,
            self.named_platinum,
            self.bad_value,
            self.words_too_many
        )?;
        writeln!(
            out,
            "platinum power-ups accepted: {} (number of points outside 2 to 16: {}); behind points {}, and points behind platinum {}",
            self.accepted, self.count_of_no_points, self.to_platinum, self.to_points
        )?;
        write!(out, "platinum power-ups refused by rule:")?;
        for (rule, count) in self.refused.iter().enumerate().skip(1) {
            write!(out, " {rule}: {count}")?;
        }
        writeln!(
            out,
            " (by rule 2 with input places from 0 to 4: {})",
            self.places_of_points
        )?;
        write!(
            out,
            "platinum samples: numbers {} (below zero {}), Over {}, Under {}",
            self.numbers, self.below_zero, self.over, self.under
        )
    }
}

#[cfg(test)]
mod tests {
    use super::*;
    use crate::bench::bench_configuration;
    use crate::lines::{configuration_line, Replay};

    #[test]
    fn lines_are_counted_by_their_last_word() {
        let good = configuration_line(&bench_configuration());
        let mut replay = Replay::new();
        let mut tally = SourceTally::default();
        let lines = ["", " 0", " 0", " 1", " 2", " ", " 0 1", " 1 1", " 1 "];
        for behind in lines {
            let line = format!("{good}{behind}").into_bytes();
            let outcome = replay.line(&line, &mut Vec::new());
            tally.count_line(&line, outcome);
        }
        tally.count_line(b"CFG 1 2", Outcome::NotUnderstood);
        assert_eq!((tally.left_out, tally.named_points), (1, 2));
        assert_eq!((tally.named_platinum, tally.accepted), (1, 1));
        assert_eq!((tally.bad_value, tally.words_too_many), (2, 3));
        assert_eq!((tally.to_platinum, tally.to_points), (1, 0));
    }
}
