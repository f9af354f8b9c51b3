//! Good configurations whose scales come in turn, so that a few of them hold
//! every number of points, every rounding step and every shape, and others of
//! platinum meters that hold every step as well.

use super::random::Random;
use super::settings::{any_display, platinum_settings, settings_with_points, STEPS};
use crate::config::{Configuration, Point, HIGHEST_DISPLAY, LARGEST_INPUT, LOWEST_DISPLAY};

/// How many numbers of points there are, from 16 down to 2.
const POINT_COUNTS: u64 = 15;

/// How many shapes there are. Neither 15 numbers of points nor 7 steps have a
/// factor in common with it, so that in time each meets each.
const SHAPES: u64 = 8;

/// The configuration with this number, counted from 0.
pub fn settings_in_turn(random: &mut Random, number: u64) -> Configuration {
    let point_count = 16 - (number % POINT_COUNTS) as i32;
    let mut settings = settings_with_points(random, point_count);
    settings.rounding = step_in_turn(number);
    give_shape(
        random,
        &mut settings.points[..point_count as usize],
        number % SHAPES,
    );
    settings
}

/// The configuration of a platinum meter with this number, counted from 0.
pub fn platinum_settings_in_turn(random: &mut Random, number: u64) -> Configuration {
    Configuration {
        rounding: step_in_turn(number),
        ..platinum_settings(random)
    }
}

fn step_in_turn(number: u64) -> i32 {
    STEPS[(number % STEPS.len() as u64) as usize]
}

/// Shapes the points in use. Two shapes leave them as they were made.
fn give_shape(random: &mut Random, points: &mut [Point], shape: u64) {
    match shape {
        0 => steep(random, points),
        1 => flat(random, points, 0),
        2 => sorted(random, points, Direction::Falling),
        3 => widest(random, points),
        4 => sorted(random, points, Direction::Rising),
        5 => flat(random, points, 1),
        _ => {}
    }
}

#[derive(Clone, Copy, PartialEq, Eq)]
enum Direction {
    Rising,
    Falling,
}

/// Inputs that follow each other, at times up to a limit, and displays that go
/// from one end of the range to the other: no segment can be steeper.
fn steep(random: &mut Random, points: &mut [Point]) {
    let last = points.len() as i32 - 1;
    let first_input = match random.below(3) {
        0 => -LARGEST_INPUT,
        1 => LARGEST_INPUT - last,
        _ => random.setting(-LARGEST_INPUT, LARGEST_INPUT - last),
    };
    let mut ends = [LOWEST_DISPLAY, HIGHEST_DISPLAY];
    if random.one_in(2) {
        ends.reverse();
    }
    for ((point, input), display) in points
        .iter_mut()
        .zip(first_input..)
        .zip(ends.into_iter().cycle())
    {
        *point = Point { input, display };
    }
}

/// One display for all points, or displays that lie at most so far above it.
fn flat(random: &mut Random, points: &mut [Point], reach: i32) {
    let level = any_display(random).min(HIGHEST_DISPLAY - reach);
    for point in points {
        point.display = level + random.setting(0, reach);
    }
}

/// Displays that go one way only. At times they keep away from the ends of the
/// display, so that a prolonged segment has room to read numbers.
fn sorted(random: &mut Random, points: &mut [Point], direction: Direction) {
    let reach = random.pick(&[500, 5_000]);
    let anywhere = random.one_in(2);
    let mut displays: Vec<i32> = points
        .iter()
        .map(|_| match anywhere {
            true => any_display(random),
            false => random.setting(-reach, reach),
        })
        .collect();
    displays.sort_unstable();
    if direction == Direction::Falling {
        displays.reverse();
    }
    for (point, display) in points.iter_mut().zip(displays) {
        point.display = display;
    }
}

/// A scale from one limit of the input to the other, and from one end of the
/// display to the other or back.
fn widest(random: &mut Random, points: &mut [Point]) {
    let direction = random.pick(&[Direction::Rising, Direction::Falling]);
    sorted(random, points, direction);
    let (left, right) = match direction {
        Direction::Rising => (LOWEST_DISPLAY, HIGHEST_DISPLAY),
        Direction::Falling => (HIGHEST_DISPLAY, LOWEST_DISPLAY),
    };
    let last = points.len() - 1;
    points[0] = Point {
        input: -LARGEST_INPUT,
        display: left,
    };
    points[last] = Point {
        input: LARGEST_INPUT,
        display: right,
    };
}

#[cfg(test)]
mod tests {
    use super::*;

    /// As many as `rescaled` makes if it is not told otherwise.
    const USUAL: u64 = 20;

    fn usual_settings(seed: u64) -> Vec<Configuration> {
        (0..USUAL)
            .map(|number| settings_in_turn(&mut Random::for_history(seed, number), number))
            .collect()
    }

    fn usual_platinum_settings(seed: u64) -> Vec<Configuration> {
        (0..USUAL)
            .map(|number| platinum_settings_in_turn(&mut Random::for_history(seed, number), number))
            .collect()
    }

    /// Whether the points of some scale are such.
    fn some_scale(settings: &[Configuration], such: impl Fn(&[Point]) -> bool) -> bool {
        settings.iter().any(|one| such(one.points_in_use()))
    }

    fn falls(points: &[Point]) -> bool {
        points
            .windows(2)
            .all(|ends| ends[0].display >= ends[1].display)
    }

    fn is_level(points: &[Point]) -> bool {
        points
            .windows(2)
            .all(|ends| ends[0].display == ends[1].display)
    }

    fn has_steepest(points: &[Point]) -> bool {
        points.windows(2).any(|ends| {
            ends[1].input - ends[0].input == 1
                && ends[1].display.abs_diff(ends[0].display) == 119_998
        })
    }

    #[test]
    fn none_is_refused() {
        for seed in 0..50 {
            for settings in usual_settings(seed) {
                assert_eq!(settings.first_broken_rule(), None);
            }
            for settings in usual_platinum_settings(seed) {
                assert_eq!(settings.first_broken_rule(), None);
            }
        }
    }

    #[test]
    fn platinum_comes_with_every_step_and_with_counts_that_points_cannot_have() {
        for seed in 0..50 {
            let settings = usual_platinum_settings(seed);
            for step in STEPS {
                assert!(settings.iter().any(|one| one.rounding == step));
            }
            assert!(settings.iter().any(|one| one.point_count < 2));
            assert!(settings.iter().any(|one| one.point_count > 16));
        }
    }

    #[test]
    fn every_count_and_every_step_comes() {
        let settings = usual_settings(1);
        for count in 2..=16 {
            assert!(settings.iter().any(|one| one.point_count == count));
        }
        for step in STEPS {
            assert!(settings.iter().any(|one| one.rounding == step));
        }
    }

    #[test]
    fn every_limit_and_shape_comes() {
        for seed in 0..50 {
            let settings = usual_settings(seed);
            let meets = |such: &dyn Fn(&Point) -> bool| {
                some_scale(&settings, |points| points.iter().any(such))
            };
            assert!(meets(&|point| point.input == -LARGEST_INPUT));
            assert!(meets(&|point| point.input == LARGEST_INPUT));
            assert!(meets(&|point| point.display == LOWEST_DISPLAY));
            assert!(meets(&|point| point.display == HIGHEST_DISPLAY));
            assert!(some_scale(&settings, has_steepest));
            assert!(some_scale(&settings, is_level));
            assert!(some_scale(&settings, |points| falls(points) && !is_level(points)));
        }
    }
}
