//! What a check has judged, so that one sees that every clause was reached.

use super::alarm_tally::AlarmTally;
use super::excursions::{End, Excursion};
use super::history::Asked;
use super::life::Life;
use crate::reading::Reading;
use crate::total::Total;
use std::fmt;
use std::ops::Range;

#[derive(Clone, Copy, Default, Debug)]
pub struct Tally {
    pub histories: u64,
    power_ups: u64,
    samples: u64,
    others: u64,
    pub totals: TotalTally,
    pub alarms: AlarmTally,
    pub lists: ListTally,
    pub excursions: ExcursionTally,
}

impl Tally {
    /// Samples, keys and bytes together.
    pub fn events(&self) -> u64 {
        self.samples + self.others
    }

    /// Counts a life that is going to be judged.
    pub fn count(&mut self, life: &Life) {
        let events = life.events.len() as u64;
        let samples = life.events.last().map_or(0, |told| told.samples) as u64;
        self.power_ups += 1;
        self.samples += samples;
        self.others += events - samples;
    }
}

impl fmt::Display for Tally {
    fn fmt(&self, out: &mut fmt::Formatter) -> fmt::Result {
        writeln!(
            out,
            "histories judged, with their looks and without them: {}",
            self.histories
        )?;
        writeln!(
            out,
            "events judged: {} (samples {}, keys and bytes {}), power-ups: {}",
            self.events(),
            self.samples,
            self.others,
            self.power_ups
        )?;
        write!(out, "{}{}", self.totals, self.alarms)?;
        write!(out, "{}{}", self.lists, self.excursions)
    }
}

/// What was reached of sentence 1.
#[derive(Clone, Copy, Default, Debug)]
pub struct TotalTally {
    compared: u64,
    spans: u64,
    over: u64,
    under: u64,
    samples: u64,
    below_low_cut: u64,
    batch_keys: u64,
    no_number: u64,
}

impl TotalTally {
    /// Counts a span that has been judged, with the totals behind its events.
    pub fn count(&mut self, life: &Life, span: Range<usize>, totals: &[Total]) {
        self.compared += totals.len() as u64;
        self.spans += 1;
        self.over += u64::from(totals.last() == Some(&Total::Over));
        self.under += u64::from(totals.last() == Some(&Total::Under));
        for place in span {
            self.count_contribution(life, place);
        }
    }

    fn count_contribution(&mut self, life: &Life, place: usize) {
        let batch = life.configuration.batch;
        let low_cut = i128::from(life.configuration.low_cut);
        match (life.events[place].asked, life.reading(place)) {
            (Asked::Sample(_), _) if batch => {}
            (Asked::Sample(_), Reading::Number(number)) if number < low_cut => {
                self.below_low_cut += 1;
            }
            (Asked::Sample(_), Reading::Number(_)) => self.samples += 1,
            (Asked::Batch, Reading::Number(_)) => self.batch_keys += 1,
            (Asked::Sample(_) | Asked::Batch, _) => self.no_number += 1,
            _ => {}
        }
    }
}

impl fmt::Display for TotalTally {
    fn fmt(&self, out: &mut fmt::Formatter) -> fmt::Result {
        writeln!(
            out,
            "totals compared: {}, in {} spans, of which {} went Over and {} Under",
            self.compared, self.spans, self.over, self.under
        )?;
        writeln!(
            out,
            "contributions of samples {}, of key 1 {}; left out below the low cut {}, without a number {}",
            self.samples, self.batch_keys, self.below_low_cut, self.no_number
        )
    }
}

/// What was reached of sentence 4.
#[derive(Clone, Copy, Default, Debug)]
pub struct ListTally {
    kept: u64,
    reads: u64,
    refused: u64,
    for_other_nodes: u64,
    line_ends: u64,
}

impl ListTally {
    /// Counts the kept entries and the looks of a life that has been compared.
    pub fn count(&mut self, looked: &Life) {
        for told in &looked.events {
            match told.asked {
                Asked::Look([2, 9]) => self.reads += 1,
                Asked::Look([3]) => self.for_other_nodes += 1,
                Asked::Look([5]) => self.line_ends += 1,
                Asked::Byte => {}
                Asked::Look(_) => self.refused += 1,
                _ => self.kept += 1,
            }
        }
    }
}

impl fmt::Display for ListTally {
    fn fmt(&self, out: &mut fmt::Formatter) -> fmt::Result {
        writeln!(
            out,
            "kept entries compared: {}; looks among them: reads {}, refused strings {}, strings for other nodes {}, line ends {}",
            self.kept, self.reads, self.refused, self.for_other_nodes, self.line_ends
        )
    }
}

/// What was reached of sentence 5.
#[derive(Clone, Copy, Default, Debug)]
pub struct ExcursionTally {
    ended_by_sample: u64,
    ended_by_reset: u64,
    not_ended: u64,
    longest: usize,
}

impl ExcursionTally {
    /// Counts excursions that were the same with the looks and without them.
    pub fn count(&mut self, excursions: &[Excursion]) {
        for excursion in excursions {
            match excursion.end {
                End::AtSample(_) => self.ended_by_sample += 1,
                End::AtResetBehind(_) => self.ended_by_reset += 1,
                End::NotBefore(_) | End::ElsewhereBehind(_) => self.not_ended += 1,
            }
            self.longest = self.longest.max(excursion.length);
        }
    }
}

impl fmt::Display for ExcursionTally {
    fn fmt(&self, out: &mut fmt::Formatter) -> fmt::Result {
        writeln!(
            out,
            "excursions compared: ended by a sample {}, by a reset {}, not ended {}; the longest has {} samples",
            self.ended_by_sample, self.ended_by_reset, self.not_ended, self.longest
        )
    }
}
