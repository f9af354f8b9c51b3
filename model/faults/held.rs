//! From input to reading by segments that are made once, at power-up, as the
//! core does since document 02, ticket 10. The model itself goes to the points
//! each time, and has no place for the faults of holding segments: faults.sh
//! puts this module into its copies of the model.

use crate::config::{
    Configuration, Point, Source, HIGHEST_DISPLAY, LARGEST_INPUT, LOWEST_DISPLAY,
};
use crate::fraction::Fraction;
use crate::reading::{self, Reading};

/// One segment: where it starts, how far it rises, and how far it runs.
#[derive(Clone, Copy, Debug)]
struct Segment {
    input: i128,
    display: i128,
    rise: i128,
    run: i128,
}

/// What is held instead of the points.
#[derive(Clone, Debug)]
pub struct Held {
    segments: Vec<Segment>,
    step: i128,
    /// The settings of a platinum meter, which has no segments and is read as in
    /// the model.
    platinum: Option<Box<Configuration>>,
}

/// Makes the segments of a good configuration. The points that are not in use
/// are at hand here, so that a fault can reach for them.
pub fn held_of(configuration: &Configuration) -> Held {
    if configuration.source == Source::Platinum {
        return Held {
            segments: Vec::new(),
            step: i128::from(configuration.rounding),
            platinum: Some(Box::new(configuration.clone())),
        };
    }
    let points = &configuration.points;
    let in_use = configuration.point_count as usize - 1;
    Held {
        segments: (0..in_use).map(|left| segment_at(points, left)).collect(),
        step: i128::from(configuration.rounding),
        platinum: None,
    }
}

/// The segment from this point to the next.
fn segment_at(points: &[Point; 16], left: usize) -> Segment {
    let right = left + 1;
    Segment {
        input: i128::from(points[left].input),
        display: i128::from(points[left].display),
        rise: i128::from(points[right].display) - i128::from(points[left].display),
        run: i128::from(points[right].input) - i128::from(points[left].input),
    }
}

impl Held {
    pub fn reading_of(&self, input: i32) -> Reading {
        if let Some(settings) = &self.platinum {
            return reading::reading_of(settings, input);
        }
        let input = i128::from(input);
        let index = self.index_for(input);
        let segment = self.segments[index];
        let part = input - segment.input;
        if input > i128::from(LARGEST_INPUT) {
            return Reading::Over;
        }
        if input < -i128::from(LARGEST_INPUT) {
            return Reading::Under;
        }
        let height = segment.display * segment.run + part * segment.rise;
        let whole = nearest(height, segment.run);
        within_display(nearest(whole, self.step) * self.step)
    }

    /// The first segment whose right end is not below the input, else the last.
    fn index_for(&self, input: i128) -> usize {
        let last = self.segments.len() - 1;
        self.segments
            .iter()
            .position(|segment| segment.input + segment.run >= input)
            .unwrap_or(last)
    }
}

fn nearest(numerator: i128, denominator: i128) -> i128 {
    Fraction::new(numerator, denominator).nearest_half_away_from_zero()
}

fn within_display(result: i128) -> Reading {
    if result > i128::from(HIGHEST_DISPLAY) {
        Reading::Over
    } else if result < i128::from(LOWEST_DISPLAY) {
        Reading::Under
    } else {
        Reading::Number(result)
    }
}
