//! What a run has reached: events, answers, broken rules and states.

use super::run_tally::RunTally;
use super::source_tally::SourceTally;
use super::write_tally::WriteTally;
use crate::analog::Mode;
use crate::answer::{Answer, ANSWER_NAMES};
use crate::lines::{Outcome, Replay};
use crate::meter::{Event, Meter, Running};
use crate::reading::Reading;
use crate::total::Total;
use std::fmt;

/// Counts of everything that the model's side of a run came to.
#[derive(Clone, Default, Debug)]
pub struct Tally {
    pub samples: u64,
    pub keys: u64,
    pub bytes: u64,
    pub power_ups: u64,
    pub not_understood: u64,
    /// By their numbers, of which none is 7.
    answers: [u64; 13],
    rules: [u64; 11],
    readings_over: u64,
    readings_under: u64,
    totals_over: u64,
    totals_under: u64,
    alarms_on: u64,
    alarm_changes: u64,
    manual: u64,
    captured: u64,
    max_runs: RunTally,
    min_runs: RunTally,
    both_runs: u64,
    writes: WriteTally,
    sources: SourceTally,
    last_alarms: [bool; 4],
    last_extremes: Option<(Reading, Reading)>,
}

impl Tally {
    /// Samples, keys and bytes together.
    pub fn events(&self) -> u64 {
        self.samples + self.keys + self.bytes
    }

    /// Counts one line that the model has carried out.
    pub fn count(&mut self, line: &[u8], outcome: Outcome, replay: &Replay) {
        if !matches!(outcome, Outcome::Carried(..)) {
            self.sources.count_line(line, outcome);
        }
        match outcome {
            Outcome::NotUnderstood => self.not_understood += 1,
            Outcome::PoweredUp(answer) => self.count_power_up(answer),
            Outcome::Carried(event, answer) => {
                self.answers[answer.number()] += 1;
                match event {
                    Event::Sample(_) => self.samples += 1,
                    Event::Key { .. } => self.keys += 1,
                    Event::Byte { .. } => self.bytes += 1,
                }
                if let Meter::Started(running) = replay.meter() {
                    self.count_state(event, running);
                }
            }
        }
    }

    fn count_power_up(&mut self, answer: Answer) {
        self.power_ups += 1;
        self.answers[answer.number()] += 1;
        if let Answer::ConfigurationRefused(rule) = answer {
            self.rules[rule.number()] += 1;
        }
        self.last_alarms = [false; 4];
        self.last_extremes = None;
        self.max_runs.power_up();
        self.min_runs.power_up();
        self.writes.power_up();
    }

    fn count_state(&mut self, event: Event, running: &Running) {
        self.readings_over += u64::from(running.reading == Reading::Over);
        self.readings_under += u64::from(running.reading == Reading::Under);
        self.totals_over += u64::from(running.total() == Total::Over);
        self.totals_under += u64::from(running.total() == Total::Under);
        self.manual += u64::from(running.mode != Mode::Automatic);
        let alarms = [0, 1, 2, 3].map(|index| running.alarms[index].is_on());
        self.alarms_on += u64::from(alarms.contains(&true));
        self.alarm_changes += u64::from(alarms != self.last_alarms);
        self.last_alarms = alarms;
        let extremes = (running.max.shown(), running.min.shown());
        let changed = self.last_extremes.is_some_and(|last| last != extremes);
        self.captured += u64::from(changed && matches!(event, Event::Sample(_)));
        self.last_extremes = Some(extremes);
        self.max_runs.count(event, running.reading, &running.max);
        self.min_runs.count(event, running.reading, &running.min);
        let both = running.max.run().is_some() && running.min.run().is_some();
        self.both_runs += u64::from(both);
        self.writes.count(event, running);
        if let Event::Sample(_) = event {
            self.sources
                .count_sample(&running.configuration, running.reading);
        }
    }
}

impl fmt::Display for Tally {
    fn fmt(&self, out: &mut fmt::Formatter) -> fmt::Result {
        writeln!(
            out,
            "events compared: {} (samples {}, keys {}, bytes {})",
            self.events(),
            self.samples,
            self.keys,
            self.bytes
        )?;
        writeln!(
            out,
            "power-ups: {}, lines not of the format: {}",
            self.power_ups, self.not_understood
        )?;
        writeln!(out, "answers reached:")?;
        for (number, name) in ANSWER_NAMES {
            writeln!(out, "  {number:>2} {name:<22} {:>10}", self.answers[number])?;
        }
        write!(out, "configurations refused by rule:")?;
        for (rule, count) in self.rules.iter().enumerate().skip(1) {
            write!(out, " {rule}: {count}")?;
        }
        writeln!(
            out,
            "\nevents left with: reading Over {}, Under {}; total Over {}, Under {}; manual {}; an alarm on {}",
            self.readings_over,
            self.readings_under,
            self.totals_over,
            self.totals_under,
            self.manual,
            self.alarms_on
        )?;
        writeln!(
            out,
            "events that changed: an alarm's state {}; max or min, by a sample {}",
            self.alarm_changes, self.captured
        )?;
        writeln!(out, "runs of max: {}", self.max_runs)?;
        writeln!(out, "runs of min: {}", self.min_runs)?;
        writeln!(
            out,
            "events left with both runs going on: {}",
            self.both_runs
        )?;
        writeln!(out, "{}", self.writes)?;
        writeln!(out, "{}", self.sources)
    }
}
