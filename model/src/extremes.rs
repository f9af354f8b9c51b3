//! Max and min.

use crate::config::samples_needed;
use crate::reading::Reading;

/// Which of the two extremes is kept.
#[derive(Clone, Copy, PartialEq, Eq, Debug)]
pub enum Side {
    Max,
    Min,
}

/// A run that goes on: how many readings it has, and the one of them that it
/// remembers, the least for max and the greatest for min (document 02, ticket 2).
#[derive(Clone, Copy, PartialEq, Eq, Debug)]
pub struct Run {
    pub readings: i128,
    pub remembered: i128,
}

/// One extreme with its run, if one goes on. Only a number or nothing is ever
/// held.
#[derive(Clone, Debug)]
pub struct Extreme {
    side: Side,
    held: Option<i128>,
    run: Option<Run>,
}

impl Extreme {
    pub fn at_power_up(side: Side) -> Extreme {
        Extreme {
            side,
            held: None,
            run: None,
        }
    }

    /// The held number as a reading, none where there is no number yet.
    pub fn shown(&self) -> Reading {
        match self.held {
            Some(number) => Reading::Number(number),
            None => Reading::Nothing,
        }
    }

    pub fn run(&self) -> Option<Run> {
        self.run
    }

    /// A sample. With nothing held a number is taken without waiting; with a
    /// number held, only what lies beyond it lengthens the run, and everything
    /// else breaks it (Max and min, sentences 1, 2 and 4).
    pub fn take_sample(&mut self, reading: Reading, capture_tenths: i32) {
        match (reading, self.held) {
            (Reading::Number(number), None) => self.hold(number),
            (Reading::Number(number), Some(held)) if self.lies_beyond(number, held) => {
                self.lengthen(number, capture_tenths)
            }
            _ => self.run = None,
        }
    }

    /// A reset starts over from what the meter reads now, and the run's number
    /// is forgotten with the run (The register strings, paragraph 5, sentence 2;
    /// document 02, ticket 2).
    pub fn reset(&mut self, reading: Reading) {
        self.run = None;
        self.held = match reading {
            Reading::Number(number) => Some(number),
            Reading::Nothing | Reading::Over | Reading::Under => None,
        };
    }

    /// Lengthens the run by one sample. Once it is long enough, the number that
    /// it remembers is the one to hold (Max and min, sentence 3; document 02,
    /// ticket 2).
    fn lengthen(&mut self, number: i128, capture_tenths: i32) {
        let run = self.run_with(number);
        if run.readings >= samples_needed(capture_tenths) {
            self.hold(run.remembered);
        } else {
            self.run = Some(run);
        }
    }

    /// The run with one more reading, which is its first where none goes on.
    fn run_with(&self, number: i128) -> Run {
        match self.run {
            None => Run {
                readings: 1,
                remembered: number,
            },
            Some(run) => Run {
                readings: run.readings + 1,
                remembered: self.to_remember(run.remembered, number),
            },
        }
    }

    /// Which of two readings of a run is worth remembering (document 02,
    /// ticket 2).
    fn to_remember(&self, so_far: i128, number: i128) -> i128 {
        match self.side {
            Side::Max => so_far.min(number),
            Side::Min => so_far.max(number),
        }
    }

    fn hold(&mut self, number: i128) {
        self.held = Some(number);
        self.run = None;
    }

    fn lies_beyond(&self, number: i128, held: i128) -> bool {
        match self.side {
            Side::Max => number > held,
            Side::Min => number < held,
        }
    }
}
