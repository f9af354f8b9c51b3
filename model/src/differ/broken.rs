//! Configurations with one fault, and lines that are no lines of the format.

use super::random::Random;
use crate::config::{Configuration, Source};
use crate::lines::configuration_line;

/// The rules that a meter can break. Those on the points are not judged on a
/// platinum meter.
const RULES: &[i32] = &[1, 2, 3, 4, 5, 6, 7, 8, 9, 10];
const RULES_OF_PLATINUM: &[i32] = &[1, 2, 2, 3, 6, 7, 8, 9, 10];

/// Breaks one rule of a good configuration, mostly by one past a limit.
pub fn break_one_rule(random: &mut Random, settings: &mut Configuration) {
    let rules = match settings.source {
        Source::Points => RULES,
        Source::Platinum => RULES_OF_PLATINUM,
    };
    match random.pick(rules) {
        1 => settings.node = past(random, 0, 99),
        2 => break_places(random, settings),
        3 => settings.rounding = bad_rounding(random),
        4 => settings.point_count = past(random, 2, 16),
        5 => break_points(random, settings),
        6 => break_factor_or_base(random, settings),
        7 => settings.low_cut = past_display(random),
        8 => break_alarm(random, settings),
        9 => settings.capture_time = past(random, 0, 32_750),
        _ => break_analog(random, settings),
    }
}

/// One past either end of a range, or far past it.
fn past(random: &mut Random, lowest: i32, highest: i32) -> i32 {
    match random.below(6) {
        0 => random.pick(&[i32::MIN, i32::MAX]),
        1 => random.pick(&[-100_000, 200_000]),
        2 | 3 => lowest - 1,
        _ => highest + 1,
    }
}

fn past_display(random: &mut Random) -> i32 {
    past(random, -19_999, 99_999)
}

fn break_places(random: &mut Random, settings: &mut Configuration) {
    if random.one_in(2) {
        settings.input_places = bad_input_places(random, settings.source);
    } else {
        settings.total_places = past(random, 0, 4);
    }
}

/// Input places that the source cannot have. With platinum they are mostly some
/// that points could have.
fn bad_input_places(random: &mut Random, source: Source) -> i32 {
    if source == Source::Platinum && !random.one_in(3) {
        random.pick(&[0, 2, 3, 4])
    } else {
        past(random, 0, 4)
    }
}

fn bad_rounding(random: &mut Random) -> i32 {
    random.pick(&[
        0,
        3,
        4,
        6,
        9,
        11,
        19,
        21,
        25,
        49,
        51,
        99,
        101,
        200,
        1_000,
        -1,
        -2,
        i32::MAX,
        i32::MIN,
    ])
}

/// An input or display past its limit, or inputs that do not rise. The last
/// point in use is hit as often as all others.
fn break_points(random: &mut Random, settings: &mut Configuration) {
    let last = settings.point_count.clamp(2, 16) as usize - 1;
    let hit = if random.one_in(2) {
        last
    } else {
        random.below(last + 1)
    };
    match random.below(6) {
        0 => settings.points[0].input = random.pick(&[-100_000, i32::MIN]),
        1 => settings.points[last].input = random.pick(&[100_000, i32::MAX]),
        2 | 3 => settings.points[hit].display = past_display(random),
        4 => repeat_input(settings, hit.max(1)),
        _ => swap_inputs(settings, hit.max(1)),
    }
}

fn repeat_input(settings: &mut Configuration, right: usize) {
    settings.points[right].input = settings.points[right - 1].input;
}

fn swap_inputs(settings: &mut Configuration, right: usize) {
    let held = settings.points[right].input;
    settings.points[right].input = settings.points[right - 1].input;
    settings.points[right - 1].input = held;
}

fn break_factor_or_base(random: &mut Random, settings: &mut Configuration) {
    if random.one_in(2) {
        settings.scale_factor = past(random, 1, 65_000);
    } else {
        settings.time_base = random.pick(&[
            0,
            2,
            59,
            61,
            3_599,
            3_601,
            86_399,
            86_401,
            600,
            -1,
            -60,
            i32::MIN,
            i32::MAX,
        ]);
    }
}

fn break_alarm(random: &mut Random, settings: &mut Configuration) {
    let alarm = &mut settings.alarms[random.below(4)];
    match random.below(4) {
        0 => alarm.setpoint = past_display(random),
        1 => alarm.hysteresis = past(random, 1, 9_999),
        2 => alarm.on_delay = past(random, 0, 32_750),
        _ => alarm.off_delay = past(random, 0, 32_750),
    }
}

fn break_analog(random: &mut Random, settings: &mut Configuration) {
    match random.below(3) {
        0 => settings.analog_low = past_display(random),
        1 => settings.analog_high = past_display(random),
        _ => settings.analog_high = settings.analog_low,
    }
}

/// A line that nobody can take for one of the format.
pub fn bad_line(random: &mut Random, settings: &Configuration) -> String {
    match random.below(8) {
        0 | 1 => bad_configuration_line(random, settings),
        2 => bad_source_line(random, settings),
        _ => random.pick(BAD_LINES).to_string(),
    }
}

/// Those that are no configuration.
const BAD_LINES: &[&str] = &[
    "",
    "S",
    "K",
    "B",
    "CFG",
    "X 1",
    "s 1",
    "S x",
    "S 1a",
    "S 1 2",
    "S 2147483648",
    "S -2147483649",
    "S 99999999999999999999999999999999999999999999",
    "K 6",
    "K 6 0 0",
    "K 2147483648 0",
    "K -2147483649 0",
    "K 6 18446744073709551616",
    "K 6 -1",
    "B 65",
    "B 65 0 0",
    "B 256 0",
    "B 42 18446744073709551616",
    "B -1 0",
    "B x 0",
    "CFG 1 2 3",
    "A=0 V=0",
];

/// A configuration with a word too few or two too many, a number past 32 bits, a
/// yes/no of 2 or a word that is no number. The source is named or goes without
/// saying, but where it would stand in the place of the missing word.
fn bad_configuration_line(random: &mut Random, settings: &Configuration) -> String {
    let line = line_without_source(settings);
    let mut words: Vec<&str> = line.split(' ').collect();
    let any = 1 + random.below(words.len() - 1);
    let last = words.len() - 1;
    match random.below(5) {
        0 => words.extend(["0", "0"]),
        1 => {
            words.pop();
            return words.join(" ");
        }
        2 => words[any] = "2147483648",
        3 => words[last] = "2",
        _ => words[any] = "x",
    }
    if random.one_in(2) {
        words.push(random.pick(&["0", "1"]));
    }
    words.join(" ")
}

/// A configuration in which only the word for the source is amiss, or is followed
/// by another one.
pub fn bad_source_line(random: &mut Random, settings: &Configuration) -> String {
    let behind = random.pick(&[
        " 2",
        " -1",
        " 01",
        " 00",
        " 10",
        " -0",
        " +1",
        " x",
        " P",
        " 1.",
        " 2147483648",
        " ",
        "  ",
        " 0 ",
        " 1 ",
        "  0",
        "  1",
        " 0 0",
        " 0 1",
        " 1 0",
        " 1 1",
        " 1\r",
        " 1\t",
    ]);
    line_without_source(settings) + behind
}

/// The line of these settings as it was before there was a choice of source.
fn line_without_source(settings: &Configuration) -> String {
    configuration_line(&Configuration {
        source: Source::Points,
        ..settings.clone()
    })
}
