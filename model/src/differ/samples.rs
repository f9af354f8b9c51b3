//! Samples around setpoints, points, whole degrees and limits, and runs that
//! complete or just fail to.

use super::resistances;
use super::script::Script;
use super::strings;
use crate::config::{Point, Source};

/// Longer delays than this are left to the floods.
const LONGEST_RUN: i64 = 90;

/// A few samples, each on its own.
pub fn loose_samples(script: &mut Script) {
    for _ in 0..script.random.between(1, 8) {
        let input = any_input(script);
        let count = if script.random.one_in(3) {
            script.random.between(2, 4)
        } else {
            1
        };
        script.samples(input, count);
    }
}

/// Many inputs of the scale itself, so that a platinum meter's entry which is off
/// by one shows. Few inputs read another number for it.
pub fn along_the_scale(script: &mut Script) {
    for _ in 0..script.random.between(10, 40) {
        let input = input_on_the_scale(script);
        script.sample(input);
    }
}

/// Any input: at a limit, at a point or a whole degree, anywhere, or near an
/// interesting display.
pub fn any_input(script: &mut Script) -> i64 {
    match script.random.below(10) {
        0 => limit_input(script),
        1 | 2 => input_on_the_scale(script),
        3 => input_anywhere(script),
        _ => {
            let display = interesting_display(script);
            input_near(script, display)
        }
    }
}

/// At a limit of the input, beside it, or at an end of 32 bits.
pub fn limit_input(script: &mut Script) -> i64 {
    if is_platinum(script) {
        return resistances::at_a_limit(&mut script.random);
    }
    script.random.pick(&[
        99_999,
        -99_999,
        100_000,
        -100_000,
        99_998,
        -99_998,
        i64::from(i32::MAX),
        i64::from(i32::MIN),
        0,
    ])
}

fn input_anywhere(script: &mut Script) -> i64 {
    match script.settings.source {
        Source::Points => script.random.between(-30, 30),
        Source::Platinum => resistances::anywhere(&mut script.random),
    }
}

/// An input that reads Over, the first that does for its value alone.
pub fn over(script: &Script) -> i64 {
    match script.settings.source {
        Source::Points => 100_000,
        Source::Platinum => resistances::FIRST_OVER,
    }
}

/// An input that reads Under, the first that does for its value alone.
pub fn under(script: &Script) -> i64 {
    match script.settings.source {
        Source::Points => -100_000,
        Source::Platinum => resistances::FIRST_UNDER,
    }
}

fn is_platinum(script: &Script) -> bool {
    script.settings.source == Source::Platinum
}

/// At a point's input or a whole degree's resistance, beside it, or half way to
/// the next.
pub fn input_on_the_scale(script: &mut Script) -> i64 {
    if is_platinum(script) {
        return resistances::on_the_curve(&mut script.random);
    }
    let points = points_in_use(script);
    let point = i64::from(script.random.pick(&points).input);
    let other = i64::from(script.random.pick(&points).input);
    match script.random.below(4) {
        0 => point,
        1 => (point + other) / 2,
        2 => script.random.between(point.min(other), point.max(other)),
        _ => point + script.random.between(-2, 2),
    }
}

/// The points that a good configuration uses; a refused one is never aimed by,
/// nor is a platinum meter's.
fn points_in_use(script: &Script) -> Vec<Point> {
    let count = script.settings.point_count.clamp(2, 16) as usize;
    script.settings.points[..count].to_vec()
}

/// A display at which something changes.
pub fn interesting_display(script: &mut Script) -> i64 {
    let alarm = script.random.below(4);
    let setpoint = i64::from(script.setpoints[alarm]);
    let hysteresis = i64::from(script.settings.alarms[alarm].hysteresis);
    let base = match script.random.below(10) {
        0..=2 => setpoint,
        3 => setpoint - hysteresis,
        4 => setpoint + hysteresis,
        5 => i64::from(script.settings.low_cut),
        6 => i64::from(script.settings.analog_low),
        7 => i64::from(script.settings.analog_high),
        8 if is_platinum(script) => script.random.pick(&[8_500, -2_000, 0]),
        8 => script.random.pick(&[99_999, -19_999, 0]),
        _ => script.random.between(-500, 500),
    };
    base + small_step(script)
}

/// Nothing, one, or one rounding step to either side.
fn small_step(script: &mut Script) -> i64 {
    let step = i64::from(script.settings.rounding);
    script
        .random
        .pick(&[0, 0, 1, -1, 2, -2, step, -step, step / 2, -step / 2])
}

/// An input whose reading lies at or near the display, where the scale
/// reaches it.
pub fn input_near(script: &mut Script, display: i64) -> i64 {
    if is_platinum(script) {
        return resistances::near(display);
    }
    let points = points_in_use(script);
    let segments = points.len() - 1;
    let first = script.random.below(segments);
    for offset in 0..segments {
        let index = (first + offset) % segments;
        if let Some(input) = input_on_segment(points[index], points[index + 1], display) {
            return input;
        }
    }
    input_on_long_line(points[segments - 1], points[segments], display)
}

fn input_on_segment(left: Point, right: Point, display: i64) -> Option<i64> {
    let (from, to) = (i64::from(left.display), i64::from(right.display));
    if from == to || display < from.min(to) || display > from.max(to) {
        return None;
    }
    Some(input_on_long_line(left, right, display))
}

fn input_on_long_line(left: Point, right: Point, display: i64) -> i64 {
    let width = i64::from(right.input) - i64::from(left.input);
    let rise = i64::from(right.display) - i64::from(left.display);
    if rise == 0 {
        return i64::from(left.input);
    }
    i64::from(left.input) + (display - i64::from(left.display)) * width / rise
}

/// An excursion over one alarm's setpoint and back: runs of the needed length,
/// one less or one more, at times broken or with strings between the samples.
pub fn excursion(script: &mut Script) {
    let alarm = script.random.below(4);
    let settings = script.settings.alarms[alarm];
    let setpoint = i64::from(script.setpoints[alarm]);
    let towards = if settings.low_acting { -1 } else { 1 };
    let reach = script
        .random
        .pick(&[1, 1, 2, i64::from(script.settings.rounding)]);
    let on_side = setpoint + towards * reach;
    let off_side = match script.random.below(3) {
        0 => setpoint,
        _ => setpoint - towards * i64::from(settings.hysteresis),
    };
    one_side(script, on_side, settings.on_delay, off_side);
    let slightly = script.random.between(-1, 1);
    one_side(script, off_side + slightly, settings.off_delay, on_side);
}

/// A run of samples at one display, perhaps broken by one at the other.
pub fn one_side(script: &mut Script, display: i64, tenths: i32, other: i64) {
    let input = input_near(script, display);
    let wanted = near_run_length(script, tenths);
    let broken_at = if script.random.one_in(4) {
        script.random.between(0, wanted)
    } else {
        -1
    };
    for index in 0..wanted {
        if index == broken_at {
            let breaking = input_near(script, other);
            script.sample(breaking);
        }
        if script.random.one_in(12) {
            strings::poll_between(script);
        }
        script.sample(input);
    }
}

/// About as many samples as the delay asks for.
pub fn near_run_length(script: &mut Script, tenths: i32) -> i64 {
    let needed = (2 * i64::from(tenths)).max(1);
    if needed > LONGEST_RUN {
        return script.random.between(1, 5);
    }
    (needed + script.random.between(-1, 1)).max(1)
}
