//! Inputs for platinum meters: at and between the resistances of whole degrees,
//! where one tenth of a degree ends and the next begins, and at the limits.

use super::random::Random;
use crate::platinum::{
    resistance, HIGHEST_DEGREE, HIGHEST_RESISTANCE, LOWEST_DEGREE, LOWEST_RESISTANCE,
};

/// The first inputs that lie beyond the curve.
pub const FIRST_UNDER: i64 = LOWEST_RESISTANCE as i64 - 1;
pub const FIRST_OVER: i64 = HIGHEST_RESISTANCE as i64 + 1;

/// Tenths in a degree, and half tenths.
const TENTHS: i64 = 10;
const HALF_TENTHS: i64 = 20;

/// The ends of what `anywhere` gives, a little beyond the curve.
pub const LOWEST_ANYWHERE: i64 = 18_000;
pub const HIGHEST_ANYWHERE: i64 = 391_000;

/// Inputs at which something changes, or would if the limits of a meter with
/// points were left in force.
pub const LIMITS: &[i64] = &[
    FIRST_UNDER - 1,
    FIRST_UNDER,
    FIRST_UNDER + 1,
    FIRST_UNDER + 2,
    FIRST_OVER - 2,
    FIRST_OVER - 1,
    FIRST_OVER,
    FIRST_OVER + 1,
    99_998,
    99_999,
    100_000,
    100_001,
    -99_999,
    -100_000,
    -1,
    0,
    1,
    i32::MIN as i64,
    i32::MIN as i64 + 1,
    i32::MAX as i64 - 1,
    i32::MAX as i64,
];

pub fn at_a_limit(random: &mut Random) -> i64 {
    random.pick(LIMITS)
}

pub fn anywhere(random: &mut Random) -> i64 {
    random.between(LOWEST_ANYWHERE, HIGHEST_ANYWHERE)
}

/// At a whole degree, beside one, half way between two, at a half tenth or right
/// beside one. Half of them lie below zero.
pub fn on_the_curve(random: &mut Random) -> i64 {
    let span = any_span(random);
    match random.below(8) {
        0 => span.left,
        1 => span.left + random.between(-1, 1),
        2 => span.left + span.width / 2 + random.between(0, 1),
        3 | 4 => exact_half(random, span.degree),
        _ => {
            let odd = 2 * random.between(0, TENTHS - 1) + 1;
            span.left + span.width * odd / HALF_TENTHS + random.between(0, 1)
        }
    }
}

/// An input that reads this display or nearly so, or one that lies beyond the
/// curve as the display does.
pub fn near(display: i64) -> i64 {
    if display < TENTHS * i64::from(LOWEST_DEGREE) {
        return FIRST_UNDER;
    }
    if display > TENTHS * i64::from(HIGHEST_DEGREE) {
        return FIRST_OVER;
    }
    let degree = display.div_euclid(TENTHS) as i32;
    let span = span_from(degree.min(HIGHEST_DEGREE - 1));
    let along = display - TENTHS * i64::from(span.degree);
    span.left + span.width * along / TENTHS
}

/// Every input that lies exactly between two tenths of a degree.
pub fn exact_halves() -> Vec<i64> {
    (LOWEST_DEGREE..HIGHEST_DEGREE)
        .flat_map(exact_halves_from)
        .collect()
}

/// One degree of the curve: where it starts, and how many milliohms it has.
struct Span {
    degree: i32,
    left: i64,
    width: i64,
}

fn span_from(degree: i32) -> Span {
    let left = i64::from(resistance(degree));
    Span {
        degree,
        left,
        width: i64::from(resistance(degree + 1)) - left,
    }
}

fn any_span(random: &mut Random) -> Span {
    let degree = match random.below(10) {
        0 => random.pick(&[LOWEST_DEGREE, -1, 0, HIGHEST_DEGREE - 1]),
        1..=4 => random.setting(LOWEST_DEGREE, -1),
        _ => random.setting(0, HIGHEST_DEGREE - 1),
    };
    span_from(degree)
}

/// An exact half in this degree or, since many have none, in the next above it
/// that has one.
fn exact_half(random: &mut Random, degree: i32) -> i64 {
    let halves = (degree..HIGHEST_DEGREE)
        .map(exact_halves_from)
        .find(|halves| !halves.is_empty());
    match halves {
        Some(halves) => random.pick(&halves),
        None => i64::from(HIGHEST_RESISTANCE),
    }
}

/// The inputs within a degree that lie exactly between two of its tenths.
fn exact_halves_from(degree: i32) -> Vec<i64> {
    let span = span_from(degree);
    (1..HALF_TENTHS)
        .step_by(2)
        .filter(|odd| span.width * odd % HALF_TENTHS == 0)
        .map(|odd| span.left + span.width * odd / HALF_TENTHS)
        .collect()
}

#[cfg(test)]
mod tests {
    use super::*;
    use crate::bench::bench_configuration;
    use crate::config::{Configuration, Source};
    use crate::reading::{reading_of, Reading};

    fn reading(input: i64) -> Reading {
        let settings = Configuration {
            source: Source::Platinum,
            ..bench_configuration()
        };
        reading_of(&settings, input as i32)
    }

    #[test]
    fn every_display_of_the_curve_is_met() {
        for display in -2_000..=8_500 {
            assert_eq!(reading(near(display)), Reading::Number(display.into()));
        }
        assert_eq!(reading(near(-2_001)), Reading::Under);
        assert_eq!(reading(near(8_501)), Reading::Over);
    }

    #[test]
    fn exact_halves_are_the_first_to_read_the_next_tenth() {
        let halves = exact_halves();
        assert!(halves.iter().any(|half| *half < 100_000));
        assert!(halves.iter().any(|half| *half > 100_000));
        for half in halves {
            let beside = if half < 100_000 { half + 1 } else { half - 1 };
            assert_ne!(reading(half), reading(beside), "{half}");
        }
    }
}
