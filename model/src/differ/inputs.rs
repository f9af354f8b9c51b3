//! Lines for a program that reads inputs: numbers around the points and the
//! limits of a scale, or around a platinum sensor's whole degrees and tenths, and
//! lines that are no number.

use super::broken::bad_line;
use super::random::Random;
use super::resistances;
use super::samples::{input_near, input_on_the_scale, limit_input};
use super::script::Script;
use super::settings::good_settings;
use crate::config::{Configuration, Source, HIGHEST_DISPLAY, LARGEST_INPUT, LOWEST_DISPLAY};
use crate::lines::configuration_line;
use crate::platinum::curve;

/// One line behind the configuration.
#[derive(Clone, PartialEq, Eq, Debug)]
pub enum Fed {
    /// An input, and how it is written.
    Input { value: i32, text: String },
    /// A line that is no input.
    NoInput(Vec<u8>),
}

impl Fed {
    /// The line, without its LF.
    pub fn text(&self) -> &[u8] {
        match self {
            Fed::Input { text, .. } => text.as_bytes(),
            Fed::NoInput(text) => text,
        }
    }
}

/// One line in so many is no input.
const RARELY: usize = 100;

/// So many inputs for a good configuration, with a few lines between them that
/// are none. Those that no scale may miss come first.
pub fn lines_for(random: Random, settings: &Configuration, inputs: usize) -> Vec<Fed> {
    let mut script = Script::new(random, settings.clone());
    let certain = certain_inputs(settings);
    let mut lines = Vec::new();
    for index in 0..inputs {
        if script.random.one_in(RARELY) {
            lines.push(Fed::NoInput(no_input(&mut script.random)));
        }
        let value = match certain.get(index) {
            Some(value) => *value,
            None => any_input(&mut script),
        };
        let text = written(&mut script.random, value);
        lines.push(Fed::Input { value, text });
    }
    lines
}

fn certain_inputs(settings: &Configuration) -> Vec<i32> {
    match settings.source {
        Source::Points => certain_inputs_of_points(settings),
        Source::Platinum => certain_resistances(),
    }
}

/// The limits, each whole degree's resistance, and all exact halves of a tenth.
fn certain_resistances() -> Vec<i32> {
    let limits = resistances::LIMITS.iter().map(|input| *input as i32);
    let degrees = curve().iter().map(|point| point.input);
    let halves = resistances::exact_halves();
    let halves = halves.iter().map(|input| *input as i32);
    limits.chain(degrees).chain(halves).collect()
}

/// Every point's input and those beside it, the middle of every segment, 0 and
/// the limits of input with those beside them, and the ends of 32 bits.
fn certain_inputs_of_points(settings: &Configuration) -> Vec<i32> {
    let points = settings.points_in_use();
    let mut inputs = Vec::new();
    for point in points {
        inputs.extend(beside(point.input));
    }
    for ends in points.windows(2) {
        let middle = (ends[0].input + ends[1].input).div_euclid(2);
        inputs.extend([middle, middle + 1]);
    }
    inputs.extend(beside(0));
    for limit in [LARGEST_INPUT, LARGEST_INPUT + 1] {
        inputs.extend(beside(limit));
        inputs.extend(beside(-limit));
    }
    inputs.extend([i32::MIN, i32::MIN + 1, i32::MAX - 1, i32::MAX]);
    inputs
}

/// An input with its two neighbours.
fn beside(input: i32) -> [i32; 3] {
    [input - 1, input, input + 1]
}

fn any_input(script: &mut Script) -> i32 {
    let input = match script.random.below(10) {
        0 => limit_input(script),
        1 => script
            .random
            .between(i64::from(i32::MIN), i64::from(i32::MAX)),
        2 => script.random.between(-100_001, 100_001),
        3 | 4 => input_on_the_scale(script),
        _ => match script.settings.source {
            Source::Points => input_by_points(script),
            Source::Platinum => any_resistance(script),
        },
    };
    input.clamp(i64::from(i32::MIN), i64::from(i32::MAX)) as i32
}

fn input_by_points(script: &mut Script) -> i64 {
    match script.random.below(5) {
        0 => input_at_an_end_of_the_display(script),
        1 => input_beyond_the_points(script),
        _ => input_in_a_segment(script),
    }
}

/// Anywhere, around where a tenth ends, or around where a step does.
fn any_resistance(script: &mut Script) -> i64 {
    match script.random.below(3) {
        0 => resistances::anywhere(&mut script.random),
        1 => resistances::on_the_curve(&mut script.random),
        _ => {
            let step = i64::from(script.settings.rounding);
            let steps = script.random.between(-2_000 / step, 8_500 / step);
            let beside = script.random.between(-1, 1);
            resistances::near(steps * step + step / 2) + beside
        }
    }
}

/// Near where the reading becomes Over or Under, as far off as the greatest step
/// can move it.
fn input_at_an_end_of_the_display(script: &mut Script) -> i64 {
    let end = script.random.pick(&[LOWEST_DISPLAY, HIGHEST_DISPLAY]);
    let near = i64::from(end) + script.random.between(-60, 60);
    input_near(script, near) + script.random.between(-1, 1)
}

/// Left of the first point or right of the last.
fn input_beyond_the_points(script: &mut Script) -> i64 {
    let points = script.settings.points_in_use();
    let (first, last) = (points[0].input, points[points.len() - 1].input);
    let reach = script.random.pick(&[3, 100, 10_000, 200_000]);
    let distance = script.random.between(1, reach);
    if script.random.one_in(2) {
        i64::from(first) - distance
    } else {
        i64::from(last) + distance
    }
}

/// Anywhere in one segment, each of which comes as often as any other.
fn input_in_a_segment(script: &mut Script) -> i64 {
    let points = script.settings.points_in_use();
    let left = script.random.below(points.len() - 1);
    script.random.between(
        i64::from(points[left].input),
        i64::from(points[left + 1].input),
    )
}

/// The number, at times with zeros in front, up to ten digits, or with a minus
/// before a 0.
fn written(random: &mut Random, value: i32) -> String {
    let width = if random.one_in(20) {
        random.below(11)
    } else {
        0
    };
    let minus = value < 0 || (value == 0 && random.one_in(3));
    let sign = if minus { "-" } else { "" };
    format!("{sign}{:0width$}", value.unsigned_abs())
}

/// A line that is no number, though many are nearly one. A configuration is
/// none either, good or not.
fn no_input(random: &mut Random) -> Vec<u8> {
    match random.below(8) {
        0 => configuration_line(&good_settings(random)).into_bytes(),
        1 => {
            let settings = good_settings(random);
            bad_line(random, &settings).into_bytes()
        }
        2 => vec![random.pick(b" -+.x\r\0\xff"); random.below(5)],
        3 => vec![random.pick(b"019 "); random.pick(&[11, 12, 80, 900, 1_000, 5_000])],
        4 => spoilt_number(random),
        _ => random
            .pick(&[
                "+1",
                "-",
                "--1",
                "1-",
                "1.0",
                "0x10",
                "1e3",
                "1 2",
                "S 1",
                "OL",
                "2147483648",
                "-2147483649",
                "9999999999",
                "-9999999999",
                "00000000001",
                "-00000000001",
            ])
            .as_bytes()
            .to_vec(),
    }
}

/// A number with one byte more, in front of it or behind it.
fn spoilt_number(random: &mut Random) -> Vec<u8> {
    let mut line = random.between(0, 99_999).to_string().into_bytes();
    let place = random.pick(&[0, line.len()]);
    line.insert(place, random.pick(b" +.,x\r\t\0\x80"));
    line
}

#[cfg(test)]
mod tests {
    use super::super::scales::{platinum_settings_in_turn, settings_in_turn};
    use super::*;
    use crate::lines::number;

    /// By the points for an even seed, by a platinum sensor for an odd one.
    fn some_lines(seed: u64) -> Vec<Fed> {
        let mut random = Random::for_history(seed, 0);
        let settings = match seed % 2 {
            0 => settings_in_turn(&mut random, seed),
            _ => platinum_settings_in_turn(&mut random, seed),
        };
        lines_for(random, &settings, 2_000)
    }

    #[test]
    fn lines_are_what_they_are_taken_for() {
        for seed in 0..40 {
            for line in some_lines(seed) {
                let expected = match &line {
                    Fed::Input { value, .. } => Some(*value),
                    Fed::NoInput(text) => {
                        assert!(!text.contains(&b'\n'));
                        None
                    }
                };
                assert_eq!(number(line.text()), expected, "{line:?}");
            }
        }
    }

    #[test]
    fn there_are_as_many_inputs_as_were_asked_for() {
        let inputs = |lines: &[Fed]| {
            lines
                .iter()
                .filter(|line| matches!(line, Fed::Input { .. }))
                .count()
        };
        for seed in [1, 2] {
            let lines = some_lines(seed);
            assert_eq!(inputs(&lines), 2_000);
            assert!(lines.len() > 2_000);
        }
    }
}
