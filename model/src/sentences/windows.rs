//! The look back over the last samples that sentences 2 and 3 ask for.

use super::history::Asked;
use super::life::Life;
use crate::config::{samples_needed, AlarmSettings};
use crate::reading::Reading;
use std::ops::Range;

/// The last samples of one alarm up to some sample, as many as were asked for.
#[derive(Clone, Copy)]
pub struct Window<'a> {
    life: &'a Life,
    alarm: usize,
    /// The places of its first and its last sample among the events.
    first: usize,
    last: usize,
}

/// The samples that the delay of the alarm's present state counts, up to the one
/// at this place. None where fewer have come since power-up.
pub fn whole_window(life: &Life, alarm: usize, last: usize) -> Option<Window<'_>> {
    window(life, alarm, last, count(life, alarm, last))
}

/// The same without the first of them. None where that leaves no sample.
pub fn one_short(life: &Life, alarm: usize, last: usize) -> Option<Window<'_>> {
    match count(life, alarm, last) - 1 {
        0 => None,
        fewer => window(life, alarm, last, fewer),
    }
}

/// How many samples it takes: those of the on delay while the alarm is off, those
/// of the off delay while it is on.
fn count(life: &Life, alarm: usize, last: usize) -> usize {
    let settings = &life.configuration.alarms[alarm];
    let tenths = if life.before(last).alarms[alarm] {
        settings.off_delay
    } else {
        settings.on_delay
    };
    samples_needed(tenths) as usize
}

fn window(life: &Life, alarm: usize, last: usize, count: usize) -> Option<Window<'_>> {
    let number = life.events[last].samples;
    (count <= number).then(|| Window {
        life,
        alarm,
        first: life.place_of_sample(number + 1 - count),
        last,
    })
}

impl Window<'_> {
    /// What the sentence asks for: the condition at each of the samples, and
    /// since the first of them no earlier change, no reset and no new setpoint.
    pub fn holds(self) -> bool {
        self.condition_held()
            && !self.has_earlier_change()
            && !self.has_reset()
            && !self.has_new_setpoint()
    }

    /// Whether each sample met the condition of the state and the setpoint that
    /// the alarm had just before it.
    pub fn condition_held(self) -> bool {
        (self.first..=self.last)
            .rev()
            .all(|place| match self.life.events[place].asked {
                Asked::Sample(reading) => condition(self.life, self.alarm, place, reading),
                _ => true,
            })
    }

    /// Whether the alarm changed at the first sample or later. What the last one
    /// does is not asked.
    pub fn has_earlier_change(self) -> bool {
        self.since_the_first().any(|place| self.changes(place))
    }

    /// Whether it changed at the first sample itself.
    pub fn has_change_at_the_first(self) -> bool {
        self.first != self.last && self.changes(self.first)
    }

    pub fn has_reset(self) -> bool {
        self.since_the_first()
            .any(|place| self.life.events[place].asked.resets(self.alarm))
    }

    pub fn has_new_setpoint(self) -> bool {
        self.since_the_first()
            .any(|place| self.writes(place) == Some(true))
    }

    /// Whether the setpoint was written with its present value.
    pub fn has_rewritten_setpoint(self) -> bool {
        self.since_the_first()
            .any(|place| self.writes(place) == Some(false))
    }

    /// Whether somebody looked.
    pub fn has_look(self) -> bool {
        self.since_the_first()
            .any(|place| matches!(self.life.events[place].asked, Asked::Look(_)))
    }

    /// Whether the alarm was reset, or its setpoint written anew, after the sample
    /// before the first and before the first itself.
    pub fn begins_behind_a_reset_or_setpoint(self) -> bool {
        self.life.events[..self.first]
            .iter()
            .enumerate()
            .rev()
            .take_while(|(_, told)| !told.asked.is_sample())
            .any(|(place, told)| told.asked.resets(self.alarm) || self.writes(place) == Some(true))
    }

    /// Whether the sample before the first changed the alarm.
    pub fn begins_behind_a_change(self) -> bool {
        match self.life.events[self.first].samples {
            1 => false,
            number => self.changes(self.life.place_of_sample(number - 1)),
        }
    }

    fn since_the_first(self) -> Range<usize> {
        self.first..self.last
    }

    fn changes(self, place: usize) -> bool {
        changes(self.life, self.alarm, place)
    }

    /// Whether an event that writes the alarm's setpoint writes a new value.
    fn writes(self, place: usize) -> Option<bool> {
        match self.life.events[place].asked {
            Asked::WriteSetpoint { alarm, value } if alarm == self.alarm => {
                Some(value != self.life.before(place).setpoints[alarm])
            }
            _ => None,
        }
    }
}

/// Whether an event changed the alarm, as it was shown before and after it.
pub fn changes(life: &Life, alarm: usize, place: usize) -> bool {
    life.before(place).alarms[alarm] != life.events[place].shown.alarms[alarm]
}

/// The on-condition while the alarm is off, the off-condition while it is on.
fn condition(life: &Life, alarm: usize, place: usize, reading: Reading) -> bool {
    let settings = &life.configuration.alarms[alarm];
    let before = life.before(place);
    let setpoint = before.setpoints[alarm];
    if before.alarms[alarm] {
        off_condition(settings, setpoint, reading)
    } else {
        on_condition(settings, setpoint, reading)
    }
}

fn on_condition(settings: &AlarmSettings, setpoint: i128, reading: Reading) -> bool {
    let height = height(reading);
    if settings.low_acting {
        height < setpoint
    } else {
        height > setpoint
    }
}

fn off_condition(settings: &AlarmSettings, setpoint: i128, reading: Reading) -> bool {
    let height = height(reading);
    let hysteresis = i128::from(settings.hysteresis);
    if settings.low_acting {
        height >= setpoint + hysteresis
    } else {
        height <= setpoint - hysteresis
    }
}

/// Over lies above every number, Under below.
fn height(reading: Reading) -> i128 {
    match reading {
        Reading::Number(number) => number,
        Reading::Over => i128::MAX,
        Reading::Under => i128::MIN,
        Reading::Nothing => unreachable!("every sample gives a reading"),
    }
}
