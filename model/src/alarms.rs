//! The four alarms.

use crate::config::{samples_needed, AlarmSettings};
use crate::reading::Reading;

/// Whether an alarm is on.
#[derive(Clone, Copy, PartialEq, Eq, Debug)]
pub enum AlarmState {
    Off,
    On,
}

/// What of an alarm can change: its setpoint, its state and its run.
#[derive(Clone, Debug)]
pub struct Alarm {
    setpoint: i128,
    state: AlarmState,
    run: i128,
}

impl Alarm {
    /// An alarm as it starts (Analog, sentence 3).
    pub fn at_power_up(settings: &AlarmSettings) -> Alarm {
        Alarm {
            setpoint: i128::from(settings.setpoint),
            state: AlarmState::Off,
            run: 0,
        }
    }

    pub fn setpoint(&self) -> i128 {
        self.setpoint
    }

    pub fn is_on(&self) -> bool {
        self.state == AlarmState::On
    }

    pub fn run(&self) -> i128 {
        self.run
    }

    /// A sample either lengthens the run or breaks it, and a run that is long
    /// enough turns the alarm (Alarms, sentences 4 and 5).
    pub fn take_sample(&mut self, settings: &AlarmSettings, reading: Reading) {
        if !self.counts(settings, reading) {
            self.run = 0;
            return;
        }
        self.run += 1;
        if self.run >= samples_needed(self.delay(settings)) {
            self.change_state();
        }
    }

    /// A reset starts the alarm afresh, on or not (Alarms, sentences 6 and 7).
    pub fn reset(&mut self) {
        self.state = AlarmState::Off;
        self.run = 0;
    }

    /// Only a value that differs starts the waiting anew, and even that does
    /// not turn the alarm (The register strings, paragraph 3, sentence 3).
    pub fn write_setpoint(&mut self, value: i128) {
        if value != self.setpoint {
            self.setpoint = value;
            self.run = 0;
        }
    }

    /// Whether the sample is one that the alarm waits for. A latched alarm that
    /// is on waits for none (Alarms, sentences 4 and 6).
    fn counts(&self, settings: &AlarmSettings, reading: Reading) -> bool {
        match self.state {
            AlarmState::Off => self.on_condition(settings, reading),
            AlarmState::On => !settings.latched && self.off_condition(settings, reading),
        }
    }

    fn delay(&self, settings: &AlarmSettings) -> i32 {
        match self.state {
            AlarmState::Off => settings.on_delay,
            AlarmState::On => settings.off_delay,
        }
    }

    fn change_state(&mut self) {
        self.run = 0;
        self.state = match self.state {
            AlarmState::Off => AlarmState::On,
            AlarmState::On => AlarmState::Off,
        };
    }

    /// What turns the alarm on (Alarms, sentences 1 and 2).
    fn on_condition(&self, settings: &AlarmSettings, reading: Reading) -> bool {
        if settings.low_acting {
            is_below(reading, self.setpoint)
        } else {
            is_above(reading, self.setpoint)
        }
    }

    /// What lets it go off again: the reading has come back past the setpoint
    /// by the whole hysteresis (Alarms, sentences 1 and 2).
    fn off_condition(&self, settings: &AlarmSettings, reading: Reading) -> bool {
        let hysteresis = i128::from(settings.hysteresis);
        if settings.low_acting {
            is_at_or_above(reading, self.setpoint + hysteresis)
        } else {
            is_at_or_below(reading, self.setpoint - hysteresis)
        }
    }
}

/// The four comparisons below rank Over and Under at the two far ends, and
/// leave out a meter that has read nothing yet (Alarms, sentence 3).
fn is_above(reading: Reading, number: i128) -> bool {
    match reading {
        Reading::Number(value) => value > number,
        Reading::Over => true,
        Reading::Under | Reading::Nothing => false,
    }
}

fn is_below(reading: Reading, number: i128) -> bool {
    match reading {
        Reading::Number(value) => value < number,
        Reading::Under => true,
        Reading::Over | Reading::Nothing => false,
    }
}

fn is_at_or_above(reading: Reading, number: i128) -> bool {
    match reading {
        Reading::Number(value) => value >= number,
        Reading::Over => true,
        Reading::Under | Reading::Nothing => false,
    }
}

fn is_at_or_below(reading: Reading, number: i128) -> bool {
    match reading {
        Reading::Number(value) => value <= number,
        Reading::Under => true,
        Reading::Over | Reading::Nothing => false,
    }
}
