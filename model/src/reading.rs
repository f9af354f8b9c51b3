//! From input to reading, by the points or, with document 02, ticket 3, by the
//! curve of a platinum sensor.

use crate::config::{Configuration, Point, Source, HIGHEST_DISPLAY, LARGEST_INPUT, LOWEST_DISPLAY};
use crate::fraction::Fraction;
use crate::platinum::{curve, HIGHEST_RESISTANCE, LOWEST_RESISTANCE};

/// What the meter reads.
#[derive(Clone, Copy, PartialEq, Eq, Debug)]
pub enum Reading {
    /// No sample has come yet (From input to reading, sentence 5).
    Nothing,
    Number(i128),
    Over,
    Under,
}

/// What an input is read by: points with rising inputs, and the inputs beyond
/// which none is read.
struct Scale<'a> {
    points: &'a [Point],
    lowest_input: i32,
    highest_input: i32,
}

/// The scale of the source that the configuration names. The limits of one source
/// do not apply to the other (From input to reading, sentence 4; document 02,
/// ticket 3).
fn scale_of(configuration: &Configuration) -> Scale<'_> {
    match configuration.source {
        Source::Points => Scale {
            points: configuration.points_in_use(),
            lowest_input: -LARGEST_INPUT,
            highest_input: LARGEST_INPUT,
        },
        Source::Platinum => Scale {
            points: curve(),
            lowest_input: LOWEST_RESISTANCE,
            highest_input: HIGHEST_RESISTANCE,
        },
    }
}

/// Works the reading out of one input. An input beyond the limits never reaches
/// the points; from there on the source makes no difference (From input to
/// reading, sentence 4; document 02, ticket 3).
pub fn reading_of(configuration: &Configuration, input: i32) -> Reading {
    let scale = scale_of(configuration);
    if input > scale.highest_input {
        return Reading::Over;
    }
    if input < scale.lowest_input {
        return Reading::Under;
    }
    let whole = height_over(scale.points, input).nearest_half_away_from_zero();
    let stepped = to_step(whole, i128::from(configuration.rounding));
    within_display(stepped)
}

/// What the points show at an input, before any rounding.
pub fn height_over(points: &[Point], input: i32) -> Fraction {
    let (left, right) = segment_for(points, input);
    line_at(left, right, input)
}

/// Goes along the segments from the left and stops at the one that the input
/// does not lie beyond; past them all, the last one is prolonged (From input to
/// reading, sentence 1).
fn segment_for(points: &[Point], input: i32) -> (Point, Point) {
    for ends in points.windows(2) {
        if ends[1].input >= input {
            return (ends[0], ends[1]);
        }
    }
    (points[points.len() - 2], points[points.len() - 1])
}

/// The height of the segment's line over the input, kept as one fraction (From
/// input to reading, sentence 2).
fn line_at(left: Point, right: Point, input: i32) -> Fraction {
    let width = i128::from(right.input) - i128::from(left.input);
    let rise = i128::from(right.display) - i128::from(left.display);
    let along = i128::from(input) - i128::from(left.input);
    Fraction::new(i128::from(left.display) * width + along * rise, width)
}

/// The second rounding, which starts from a whole number and ends at a multiple
/// of the step (From input to reading, sentence 3).
fn to_step(whole: i128, step: i128) -> i128 {
    Fraction::new(whole, step).nearest_half_away_from_zero() * step
}

/// What the display cannot show reads Over or Under (From input to reading,
/// sentence 4, its second half).
fn within_display(result: i128) -> Reading {
    if result > i128::from(HIGHEST_DISPLAY) {
        Reading::Over
    } else if result < i128::from(LOWEST_DISPLAY) {
        Reading::Under
    } else {
        Reading::Number(result)
    }
}
