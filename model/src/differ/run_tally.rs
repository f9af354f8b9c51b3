//! What a comparison has reached of the runs of max or min: how they ended, and
//! which of its readings a completed run gave.

use crate::extremes::Extreme;
use crate::meter::Event;
use crate::reading::Reading;
use std::fmt;

/// The ended runs of one extreme, and what has to be known of the present one
/// to count it once it ends.
#[derive(Clone, Default, Debug)]
pub struct RunTally {
    gave_first: u64,
    gave_between: u64,
    gave_last: u64,
    broken: u64,
    reset: u64,
    /// The extreme before the event, none at power-up.
    before: Option<Extreme>,
    /// The first reading of the last run that was seen to go on.
    first: Option<Reading>,
}

impl RunTally {
    pub fn power_up(&mut self) {
        self.before = None;
    }

    /// Counts what an event has done to the run.
    pub fn count(&mut self, event: Event, reading: Reading, extreme: &Extreme) {
        let (held, went_on) = match &self.before {
            None => (Reading::Nothing, false),
            Some(before) => (before.shown(), before.run().is_some()),
        };
        let passed = held != Reading::Nothing && held != extreme.shown();
        match (event, extreme.run()) {
            (_, Some(_)) if went_on => {}
            (_, Some(_)) => self.first = Some(reading),
            (Event::Sample(_), None) if passed => self.count_completed(reading, extreme.shown()),
            (Event::Sample(_), None) => self.broken += u64::from(went_on),
            (_, None) => self.reset += u64::from(went_on),
        }
        self.before = Some(extreme.clone());
    }

    /// Where the last reading is as good as an earlier one, the last is counted.
    fn count_completed(&mut self, last: Reading, taken: Reading) {
        if taken == last {
            self.gave_last += 1;
        } else if self.first == Some(taken) {
            self.gave_first += 1;
        } else {
            self.gave_between += 1;
        }
    }
}

impl fmt::Display for RunTally {
    fn fmt(&self, out: &mut fmt::Formatter) -> fmt::Result {
        write!(
            out,
            "completed and gave the last reading {}, the first {}, one between {}; broken {}, reset {}",
            self.gave_last, self.gave_first, self.gave_between, self.broken, self.reset
        )
    }
}
