//! Sentence 5: excursions, from the sample at which an alarm went on to the sample
//! or reset at which it went off.

use super::broken::{Broken, Clause};
use super::life::Life;
use super::tally::Tally;
use std::fmt;

/// One excursion. Samples are counted from power-up, and the first is sample 1.
#[derive(Clone, Copy, PartialEq, Eq, Debug)]
pub struct Excursion {
    /// The alarm's number, 1 to 4.
    pub alarm: usize,
    pub from: usize,
    pub end: End,
    /// The number of samples after which the alarm was on.
    pub length: usize,
}

/// How an excursion ended.
#[derive(Clone, Copy, PartialEq, Eq, Debug)]
pub enum End {
    AtSample(usize),
    /// By a reset that came behind this sample.
    AtResetBehind(usize),
    /// At an event that is neither.
    ElsewhereBehind(usize),
    /// The alarm was still on behind this sample, the last of the history.
    NotBefore(usize),
}

impl fmt::Display for Excursion {
    fn fmt(&self, out: &mut fmt::Formatter) -> fmt::Result {
        write!(out, "alarm {} from sample {} ", self.alarm, self.from)?;
        match self.end {
            End::AtSample(sample) => write!(out, "to sample {sample}")?,
            End::AtResetBehind(sample) => write!(out, "to a reset behind sample {sample}")?,
            End::ElsewhereBehind(sample) => write!(out, "to no reset behind sample {sample}")?,
            End::NotBefore(sample) => write!(out, "and still on behind sample {sample}")?,
        }
        write!(out, ", length {}", self.length)
    }
}

/// An excursion, and the line of the history that ends it or the history.
struct Met {
    excursion: Excursion,
    line: usize,
}

/// The excursions of all four alarms, as they were shown.
pub fn excursions(life: &Life) -> Vec<Excursion> {
    all_met(life).iter().map(|met| met.excursion).collect()
}

/// Judges the ends and the length of each excursion by themselves.
pub fn judge(life: &Life) -> Result<(), Broken> {
    for met in all_met(life) {
        if !is_one(met.excursion) {
            let why = format!("{} is none", met.excursion);
            return Err(Broken::new(Clause::Excursion, met.line, why));
        }
    }
    Ok(())
}

/// Holds the excursions of two lives with equal kept lists against each other.
pub fn compare(looked: &Life, bare: &Life, tally: &mut Tally) -> Result<(), Broken> {
    let (with, without) = (all_met(looked), excursions(bare));
    for place in 0..with.len().max(without.len()) {
        let one = with.get(place).map(|met| met.excursion);
        let other = without.get(place).copied();
        if one != other {
            let line = with.get(place).map_or(last_line(looked), |met| met.line);
            let why = format!("{}; without the looks {}", named(one), named(other));
            return Err(Broken::new(Clause::Excursion, line, why));
        }
    }
    tally.excursions.count(&without);
    Ok(())
}

fn named(excursion: Option<Excursion>) -> String {
    excursion.map_or("none".to_string(), |excursion| excursion.to_string())
}

fn last_line(life: &Life) -> usize {
    life.events.last().map_or(0, |told| told.line)
}

/// It begins at a sample and ends at a sample or a reset, and between the two
/// every sample left the alarm on.
fn is_one(excursion: Excursion) -> bool {
    let Excursion { from, length, .. } = excursion;
    match excursion.end {
        End::AtSample(sample) => from + length == sample,
        End::AtResetBehind(sample) | End::NotBefore(sample) => from + length == sample + 1,
        End::ElsewhereBehind(_) => false,
    }
}

fn all_met(life: &Life) -> Vec<Met> {
    (0..4).flat_map(|alarm| met_by(life, alarm)).collect()
}

fn met_by(life: &Life, alarm: usize) -> Vec<Met> {
    let mut met = Vec::new();
    let mut rest = 0;
    while let Some(start) = first_shown(life, alarm, rest, true) {
        let stop = first_shown(life, alarm, start, false);
        met.push(between(life, alarm, start, stop));
        rest = stop.unwrap_or(life.events.len());
    }
    met
}

/// The first event from a place on behind which the alarm was shown on, or off.
fn first_shown(life: &Life, alarm: usize, from: usize, on: bool) -> Option<usize> {
    (from..life.events.len()).find(|place| life.events[*place].shown.alarms[alarm] == on)
}

fn between(life: &Life, alarm: usize, start: usize, stop: Option<usize>) -> Met {
    let behind = stop.unwrap_or(life.events.len());
    let lit = &life.events[start..behind];
    let excursion = Excursion {
        alarm: alarm + 1,
        from: life.events[start].samples,
        end: match stop {
            None => End::NotBefore(life.events[behind - 1].samples),
            Some(stop) => end_at(life, alarm, stop),
        },
        length: lit.iter().filter(|told| told.asked.is_sample()).count(),
    };
    Met {
        excursion,
        line: stop.map_or(last_line(life), |stop| life.events[stop].line),
    }
}

fn end_at(life: &Life, alarm: usize, stop: usize) -> End {
    let told = &life.events[stop];
    if told.asked.is_sample() {
        End::AtSample(told.samples)
    } else if told.asked.resets(alarm) {
        End::AtResetBehind(told.samples)
    } else {
        End::ElsewhereBehind(told.samples)
    }
}
