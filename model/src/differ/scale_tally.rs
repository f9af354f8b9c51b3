//! What a run of `rescaled` has reached: readings, and where their inputs lay.

use super::curve_tally::CurveTally;
use super::inputs::Fed;
use crate::config::{Configuration, Source, LARGEST_INPUT};
use crate::reading::{reading_of, Reading};
use crate::rescale::Rescale;
use std::fmt;

/// Where an input lies on a scale.
#[derive(Clone, Copy, PartialEq, Eq, Debug)]
enum Place {
    /// Past a limit of the input, where no scale is asked.
    TooLow,
    TooHigh,
    /// Beyond an end of the scale, where a segment is prolonged.
    LeftOfAll,
    RightOfAll,
    /// In the segment with this index. A point between two belongs to the left.
    Segment(usize),
}

/// Counts of everything that was compared.
#[derive(Clone, Default, Debug)]
pub struct ScaleTally {
    accepted: u64,
    refused: u64,
    without_configuration: u64,
    readings: u64,
    no_inputs: u64,
    numbers: u64,
    over: u64,
    under: u64,
    too_low: u64,
    too_high: u64,
    left_of_all: u64,
    right_of_all: u64,
    segments: [u64; 15],
    platinum_accepted: u64,
    platinum: CurveTally,
}

impl ScaleTally {
    /// How many inputs had a reading.
    pub fn readings(&self) -> u64 {
        self.readings
    }

    /// Counts what the first line has left.
    pub fn count_session(&mut self, model: &Rescale) {
        let kind = match model {
            Rescale::Accepted(_) => &mut self.accepted,
            Rescale::Refused => &mut self.refused,
            Rescale::WithoutConfiguration => &mut self.without_configuration,
            Rescale::AtTheFirstLine => unreachable!("the first line has come"),
        };
        *kind += 1;
        if matches!(model, Rescale::Accepted(settings) if settings.source == Source::Platinum) {
            self.platinum_accepted += 1;
        }
    }

    /// Counts a line behind an accepted configuration.
    pub fn count_line(&mut self, model: &Rescale, line: &Fed) {
        if let Rescale::Accepted(settings) = model {
            match line {
                Fed::Input { value, .. } => self.count_input(settings, *value),
                Fed::NoInput(_) => self.no_inputs += 1,
            }
        }
    }

    fn count_input(&mut self, settings: &Configuration, input: i32) {
        self.readings += 1;
        let reading = reading_of(settings, input);
        let kind = match reading {
            Reading::Number(_) => &mut self.numbers,
            Reading::Over => &mut self.over,
            Reading::Under => &mut self.under,
            Reading::Nothing => unreachable!("every input has a reading"),
        };
        *kind += 1;
        match settings.source {
            Source::Points => self.count_place(settings, input),
            Source::Platinum => self.platinum.count(input, reading),
        }
    }

    fn count_place(&mut self, settings: &Configuration, input: i32) {
        let place = match place_of(settings, input) {
            Place::TooLow => &mut self.too_low,
            Place::TooHigh => &mut self.too_high,
            Place::LeftOfAll => &mut self.left_of_all,
            Place::RightOfAll => &mut self.right_of_all,
            Place::Segment(index) => &mut self.segments[index],
        };
        *place += 1;
    }
}

fn place_of(settings: &Configuration, input: i32) -> Place {
    let points = settings.points_in_use();
    let points_to_the_left = points.iter().filter(|point| point.input < input).count();
    if input < -LARGEST_INPUT {
        Place::TooLow
    } else if input > LARGEST_INPUT {
        Place::TooHigh
    } else if input < points[0].input {
        Place::LeftOfAll
    } else if points_to_the_left == points.len() {
        Place::RightOfAll
    } else {
        Place::Segment(points_to_the_left.saturating_sub(1))
    }
}

impl fmt::Display for ScaleTally {
    fn fmt(&self, out: &mut fmt::Formatter) -> fmt::Result {
        writeln!(
            out,
            "configurations: accepted {} (platinum {}), refused {}; first lines that were none: {}",
            self.accepted, self.platinum_accepted, self.refused, self.without_configuration
        )?;
        writeln!(
            out,
            "readings compared: {} (numbers {}, OL {}, UL {}); lines that were no input: {}",
            self.readings, self.numbers, self.over, self.under, self.no_inputs
        )?;
        write!(out, "points: inputs in each segment:")?;
        for (index, count) in self.segments.iter().enumerate() {
            write!(out, " {}: {count}", index + 1)?;
        }
        writeln!(
            out,
            "\npoints: inputs left of all {}, right of all {}; below the lowest input {}, above the highest {}",
            self.left_of_all, self.right_of_all, self.too_low, self.too_high
        )?;
        writeln!(out, "platinum: {}", self.platinum)
    }
}

#[cfg(test)]
mod tests {
    use super::*;
    use crate::bench::bench_configuration;
    use crate::config::Point;

    #[test]
    fn inputs_lie_where_their_segment_is_taken() {
        let mut settings = bench_configuration();
        settings.point_count = 3;
        for (point, input) in settings.points.iter_mut().zip([-5, 0, 5]) {
            *point = Point { input, display: 0 };
        }
        for (input, place) in [
            (-100_000, Place::TooLow),
            (-99_999, Place::LeftOfAll),
            (-6, Place::LeftOfAll),
            (-5, Place::Segment(0)),
            (0, Place::Segment(0)),
            (1, Place::Segment(1)),
            (5, Place::Segment(1)),
            (6, Place::RightOfAll),
            (99_999, Place::RightOfAll),
            (100_000, Place::TooHigh),
        ] {
            assert_eq!(place_of(&settings, input), place, "{input}");
        }
    }
}
