//! Random configurations that break no rule.

use super::random::Random;
use crate::config::{AlarmSettings, Configuration, Point, Source, HIGHEST_DISPLAY, LOWEST_DISPLAY};
use crate::platinum::PLACES;

/// A good configuration of a meter with points or, once in three times, of a
/// platinum meter. Ends of ranges come often, and delays are mostly so small that
/// they complete.
pub fn good_settings(random: &mut Random) -> Configuration {
    let source = random.pick(&[Source::Points, Source::Points, Source::Platinum]);
    settings_with_source(random, source)
}

/// The same with this source.
pub fn settings_with_source(random: &mut Random, source: Source) -> Configuration {
    match source {
        Source::Points => {
            let point_count = point_count(random);
            settings_with_points(random, point_count)
        }
        Source::Platinum => platinum_settings(random),
    }
}

/// A meter with so many points in use.
pub fn settings_with_points(random: &mut Random, point_count: i32) -> Configuration {
    let points = points(random, point_count as usize);
    let near = middle_display(&points[..point_count as usize]);
    Configuration {
        point_count,
        points,
        ..settings_around(random, near)
    }
}

/// A platinum meter, with points that nobody may look at. Most are such that no
/// meter could read by them; the others show whether one does.
pub fn platinum_settings(random: &mut Random) -> Configuration {
    let (point_count, points) = if random.one_in(4) {
        let point_count = point_count(random);
        (point_count, points(random, point_count as usize))
    } else {
        (
            any_point_count(random),
            [(); 16].map(|_| unused_point(random)),
        )
    };
    let near = tenths_of_a_degree(random);
    Configuration {
        source: Source::Platinum,
        input_places: PLACES,
        point_count,
        points,
        ..settings_around(random, near)
    }
}

/// Settings whose displays crowd around this one. No point is in use.
fn settings_around(random: &mut Random, near: i32) -> Configuration {
    let (analog_low, analog_high) = analog_ends(random, near);
    Configuration {
        node: node(random),
        input_places: random.setting(0, 4),
        total_places: random.setting(0, 4),
        rounding: rounding(random),
        point_count: 0,
        points: [Point::default(); 16],
        scale_factor: scale_factor(random),
        time_base: random.pick(&[1, 1, 60, 60, 3_600, 86_400]),
        low_cut: low_cut(random, near),
        alarms: [(); 4].map(|_| alarm(random, near)),
        capture_time: delay(random),
        analog_low,
        analog_high,
        batch: random.one_in(4),
        abbreviated: random.one_in(3),
        print_input: !random.one_in(3),
        print_max_min: random.one_in(2),
        print_total: random.one_in(2),
        print_setpoints: random.one_in(2),
        source: Source::Points,
    }
}

/// The scale that shows the input itself, where floods must aim exactly.
pub fn straight_settings(random: &mut Random) -> Configuration {
    let mut settings = settings_with_points(random, 2);
    settings.rounding = 1;
    settings.points[0] = point(LOWEST_DISPLAY, LOWEST_DISPLAY);
    settings.points[1] = point(HIGHEST_DISPLAY, HIGHEST_DISPLAY);
    settings
}

fn point(input: i32, display: i32) -> Point {
    Point { input, display }
}

fn node(random: &mut Random) -> i32 {
    match random.below(6) {
        0 | 1 => 0,
        2 => random.pick(&[5, 17]),
        3 => random.setting(1, 9),
        4 => random.pick(&[9, 10, 12, 90, 98, 99]),
        _ => random.setting(10, 99),
    }
}

/// The rounding steps that rule 3 takes.
pub const STEPS: [i32; 7] = [1, 2, 5, 10, 20, 50, 100];

fn rounding(random: &mut Random) -> i32 {
    if random.one_in(2) {
        1
    } else {
        random.pick(&STEPS)
    }
}

fn point_count(random: &mut Random) -> i32 {
    match random.below(4) {
        0 | 1 => 2,
        2 => random.pick(&[3, 15, 16]),
        _ => random.setting(2, 16),
    }
}

/// A number of points for a platinum meter, which takes any.
fn any_point_count(random: &mut Random) -> i32 {
    match random.below(4) {
        0 => random.setting(2, 16),
        1 => random.pick(&[i32::MIN, -3, -1, 18, 255, 256, 65_538, i32::MAX]),
        _ => random.pick(&[0, 1, 17]),
    }
}

/// A display that a platinum meter can reach. Both ends and zero come often.
fn tenths_of_a_degree(random: &mut Random) -> i32 {
    match random.below(5) {
        0 => random.pick(&[-2_000, 8_500]),
        1 => 0,
        2 => random.setting(-2_000, 0),
        _ => random.setting(-2_000, 8_500),
    }
}

/// Points with rising inputs in front, and anything at all behind them.
fn points(random: &mut Random, in_use: usize) -> [Point; 16] {
    let mut points = [Point::default(); 16];
    for point in &mut points {
        *point = unused_point(random);
    }
    let inputs = rising_inputs(random, in_use);
    let display_kind = random.below(5);
    for (point, input) in points.iter_mut().zip(inputs) {
        point.input = input;
        point.display = display(random, display_kind, input);
    }
    points
}

fn unused_point(random: &mut Random) -> Point {
    let wild = |random: &mut Random| match random.below(4) {
        0 => 0,
        1 => random.pick(&[i32::MIN, i32::MAX, 100_000, -100_000, 99_999]),
        _ => random.setting(-200_000, 200_000),
    };
    point(wild(random), wild(random))
}

/// Strictly rising inputs: tight ones that give many halves, wide ones, and
/// ones that reach the ends of the range.
fn rising_inputs(random: &mut Random, count: usize) -> Vec<i32> {
    let reach = random.pick(&[10, 40, 400, 3_000, 30_000, 99_999]);
    let mut inputs: Vec<i32> = Vec::new();
    while inputs.len() < count {
        let input = random.setting(-reach, reach);
        if !inputs.contains(&input) {
            inputs.push(input);
        }
    }
    inputs.sort_unstable();
    if random.one_in(4) {
        inputs[0] = -99_999;
    }
    if random.one_in(4) {
        inputs[count - 1] = 99_999;
    }
    inputs
}

fn display(random: &mut Random, kind: usize, input: i32) -> i32 {
    match kind {
        0 => input.clamp(LOWEST_DISPLAY, HIGHEST_DISPLAY),
        1 => random.setting(-50, 50),
        2 => random.setting(-500, 500),
        3 => (-input).clamp(LOWEST_DISPLAY, HIGHEST_DISPLAY),
        _ => any_display(random),
    }
}

/// Any display; the ends of the range come often.
pub fn any_display(random: &mut Random) -> i32 {
    match random.below(6) {
        0 => LOWEST_DISPLAY,
        1 => HIGHEST_DISPLAY,
        2 => random.setting(-200, 200),
        _ => random.setting(LOWEST_DISPLAY, HIGHEST_DISPLAY),
    }
}

/// A display that the scale is likely to reach.
fn middle_display(points: &[Point]) -> i32 {
    let lowest = points.iter().map(|point| point.display).min();
    let highest = points.iter().map(|point| point.display).max();
    (lowest.unwrap_or(0) + highest.unwrap_or(0)) / 2
}

/// A display near to where the readings will lie, at times any other.
fn display_near(random: &mut Random, near: i32) -> i32 {
    if random.one_in(6) {
        any_display(random)
    } else {
        let reach = random.pick(&[3, 30, 300]);
        (near + random.setting(-reach, reach)).clamp(LOWEST_DISPLAY, HIGHEST_DISPLAY)
    }
}

fn scale_factor(random: &mut Random) -> i32 {
    match random.below(4) {
        0 => random.pick(&[1, 65_000]),
        1 => 1_000,
        _ => random.setting(1, 65_000),
    }
}

fn low_cut(random: &mut Random, near: i32) -> i32 {
    match random.below(4) {
        0 => random.pick(&[LOWEST_DISPLAY, HIGHEST_DISPLAY]),
        1 => 0,
        _ => display_near(random, near),
    }
}

fn alarm(random: &mut Random, near: i32) -> AlarmSettings {
    AlarmSettings {
        setpoint: display_near(random, near),
        hysteresis: hysteresis(random),
        on_delay: delay(random),
        off_delay: delay(random),
        low_acting: random.one_in(2),
        latched: random.one_in(4),
    }
}

fn hysteresis(random: &mut Random) -> i32 {
    match random.below(6) {
        0 => 9_999,
        1 => random.setting(1, 9_999),
        2 => random.setting(1, 200),
        _ => random.setting(1, 4),
    }
}

/// A delay in tenths: mostly 0 to 4, so that runs complete.
fn delay(random: &mut Random) -> i32 {
    match random.below(12) {
        0 => 32_750,
        1 => random.setting(5, 40),
        2 | 3 => 0,
        _ => random.setting(0, 4),
    }
}

fn analog_ends(random: &mut Random, near: i32) -> (i32, i32) {
    loop {
        let low = display_near(random, near);
        let high = match random.below(3) {
            0 => any_display(random),
            _ => display_near(random, near),
        };
        if low != high {
            return (low, high);
        }
    }
}
