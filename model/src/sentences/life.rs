//! The life of one meter: its configuration and, event by event, what was asked
//! and what the program has shown.

use super::broken::{Broken, Clause};
use super::history::{Asked, Entry};
use super::state::{answer_in, state_in, State};
use crate::config::{Configuration, Rule};
use crate::lines::lines_of;
use crate::reading::Reading;

/// From an accepted power-up to the next power-up or the end of the history.
#[derive(Clone, PartialEq, Eq, Debug)]
pub struct Life {
    pub configuration: Configuration,
    pub events: Vec<Told>,
    at_power_up: State,
    /// Where each sample stands among the events.
    samples: Vec<usize>,
}

/// One event, as it was asked and shown.
#[derive(Clone, PartialEq, Eq, Debug)]
pub struct Told {
    /// The line of the history, counted from 0.
    pub line: usize,
    pub asked: Asked,
    pub answer: usize,
    pub shown: State,
    /// How many samples there are from power-up to here, this event included.
    pub samples: usize,
}

impl Life {
    fn new(configuration: &Configuration) -> Life {
        Life {
            configuration: configuration.clone(),
            events: Vec::new(),
            at_power_up: State::at_power_up(configuration),
            samples: Vec::new(),
        }
    }

    /// What was shown just before an event.
    pub fn before(&self, place: usize) -> &State {
        match place {
            0 => &self.at_power_up,
            _ => &self.events[place - 1].shown,
        }
    }

    /// The place among the events of the sample with this number, the first of
    /// which is sample 1.
    pub fn place_of_sample(&self, number: usize) -> usize {
        self.samples[number - 1]
    }

    /// The reading that the samples up to an event give: that of the last.
    pub fn reading(&self, place: usize) -> Reading {
        match self.events[place].samples {
            0 => Reading::Nothing,
            number => match self.events[self.place_of_sample(number)].asked {
                Asked::Sample(reading) => reading,
                _ => unreachable!("only samples are listed as samples"),
            },
        }
    }

    fn push(&mut self, line: usize, asked: Asked, answer: usize, shown: State) {
        if asked.is_sample() {
            self.samples.push(self.events.len());
        }
        self.events.push(Told {
            line,
            asked,
            answer,
            shown,
            samples: self.samples.len(),
        });
    }
}

/// The lives in a history, with what was printed for it.
pub fn lives(entries: &[Entry], output: &[u8]) -> Result<Vec<Life>, Broken> {
    let mut lives: Vec<Life> = Vec::new();
    let mut printed = lines_of(output);
    for (number, entry) in entries.iter().enumerate() {
        let printed = printed.next().and_then(|line| str::from_utf8(line).ok());
        let taken = printed.and_then(|printed| take(&mut lives, number, entry, printed));
        if taken.is_none() {
            let why = format!("{:?} was printed", printed.unwrap_or_default());
            return Err(Broken::new(Clause::Line, number, why));
        }
    }
    Ok(lives)
}

/// Takes one line with what was printed for it, or none where that cannot be.
fn take(lives: &mut Vec<Life>, number: usize, entry: &Entry, printed: &str) -> Option<()> {
    match entry {
        Entry::NotUnderstood => (printed == "?").then_some(()),
        Entry::Unheard => (answer_in(printed)? == 12).then_some(()),
        Entry::PowerUp(configuration, broken) => {
            if broken.is_none() {
                lives.push(Life::new(configuration));
            }
            (printed == power_up_line(*broken)).then_some(())
        }
        Entry::Event(heard) => {
            let (answer, shown) = (answer_in(printed)?, state_in(printed)?);
            lives.last_mut()?.push(number, heard.asked, answer, shown);
            Some(())
        }
    }
}

fn power_up_line(broken: Option<Rule>) -> String {
    match broken {
        None => "0 0".to_string(),
        Some(rule) => format!("11 {}", rule.number()),
    }
}
