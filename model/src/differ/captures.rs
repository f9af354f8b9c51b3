//! Runs beyond max and min: of one reading or of several, which complete, just
//! fail to, or are cut off on the way.

use super::random::Random;
use super::samples::{
    any_input, input_near, interesting_display, near_run_length, one_side, over, under,
};
use super::script::Script;
use super::strings;
use crate::config::samples_needed;
use crate::extremes::Side;
use crate::reading::Reading;

/// How many inputs are tried in search of readings beyond the held number.
const TRIES: usize = 16;

/// A run that is cut off has no more readings than this.
const LONGEST_CUT_OFF: i128 = 6;

/// Resets max or min to the present reading and then goes beyond it for about
/// the capture time, at one reading.
pub fn even_run(script: &mut Script) {
    let start = interesting_display(script);
    let input = input_near(script, start);
    script.sample(input);
    let side = any_side(script);
    reset(script, side);
    let away = script
        .random
        .pick(&[1, 2, 5, i64::from(script.settings.rounding)]);
    let beyond = match side {
        Side::Max => start + away,
        Side::Min => start - away,
    };
    let capture = script.settings.capture_time;
    one_side(script, beyond, capture, start);
    if script.random.one_in(2) {
        one_side(script, 2 * beyond - start, capture, start);
    }
}

/// The same with readings that differ from each other. At times a run that is
/// cut off comes before it, or one more along the same readings behind it.
pub fn uneven_run(script: &mut Script) {
    let side = any_side(script);
    let mut start = any_input(script);
    script.sample(start);
    reset(script, side);
    if script.random.one_in(2) {
        start = cut_off_run(script, side, start);
    }
    let inputs = inputs_beyond(script, side, start);
    let capture = script.settings.capture_time;
    for _ in 0..script.random.pick(&[1, 1, 2]) {
        let length = near_run_length(script, capture);
        run_along(script, &inputs, length as usize);
    }
}

/// A run that falls short, and behind it a reading that is not beyond, or a
/// reset. The reset of the other side leaves the run alone, and both sides may
/// run at once from there on. Gives the input that reads what the side holds
/// then.
fn cut_off_run(script: &mut Script, side: Side, start: i64) -> i64 {
    let inputs = inputs_beyond(script, side, start);
    let needed = samples_needed(script.settings.capture_time);
    let longest = (needed - 1).clamp(1, LONGEST_CUT_OFF);
    let length = script.random.between(1, longest as i64);
    let last = run_along(script, &inputs, length as usize);
    match script.random.below(7) {
        0 => script.sample(start),
        1 => script.sample(over(script)),
        2 => script.sample(under(script)),
        3 | 4 => reset(script, other_side(side)),
        _ => {
            reset(script, side);
            return last.unwrap_or(start);
        }
    }
    start
}

/// Inputs whose readings lie beyond that of the start, each with a reading of
/// its own, the nearest first. Beyond no number lies every number.
fn inputs_beyond(script: &mut Script, side: Side, start: i64) -> Vec<i64> {
    let held = script.reading(start);
    let mut found = Vec::new();
    for _ in 0..TRIES {
        let input = if script.random.one_in(2) {
            any_input(script)
        } else {
            start + script.random.between(-9, 9)
        };
        if let Some(outwards) = how_far_out(side, script.reading(input)) {
            found.push((outwards, input));
        }
    }
    found.retain(|(outwards, _)| Some(*outwards) > how_far_out(side, held));
    found.sort_unstable();
    found.dedup_by_key(|(outwards, _)| *outwards);
    found.into_iter().map(|(_, input)| input).collect()
}

/// A number that is the greater the farther out the reading lies, none for a
/// reading that is no number.
fn how_far_out(side: Side, reading: Reading) -> Option<i128> {
    match (side, reading) {
        (Side::Max, Reading::Number(number)) => Some(number),
        (Side::Min, Reading::Number(number)) => Some(-number),
        (_, Reading::Nothing | Reading::Over | Reading::Under) => None,
    }
}

/// So many samples along these inputs, at times with strings between them.
/// Gives the last input, none where there are no inputs to go along.
fn run_along(script: &mut Script, inputs: &[i64], length: usize) -> Option<i64> {
    if inputs.is_empty() {
        return None;
    }
    let run = in_some_order(&mut script.random, inputs, length);
    for input in &run {
        if script.random.one_in(12) {
            strings::poll_between(script);
        }
        script.sample(*input);
    }
    run.last().copied()
}

/// Inputs, given with the nearest first, in an order that goes outwards,
/// inwards, has the nearest at the first, a middle or the last place, or is any.
fn in_some_order(random: &mut Random, inputs: &[i64], length: usize) -> Vec<i64> {
    let farthest = inputs.len() - 1;
    let order = random.below(4);
    let nearest_at = random.pick(&[0, length / 2, length - 1]);
    let mut run = Vec::new();
    for place in 0..length {
        let wanted = match order {
            0 => place,
            1 => length - 1 - place,
            2 if place == nearest_at => 0,
            2 => 1 + random.below(inputs.len()),
            _ => random.below(inputs.len()),
        };
        run.push(inputs[wanted.min(farthest)]);
    }
    run
}

/// Resets one side by its key or by its string.
fn reset(script: &mut Script, side: Side) {
    let (key, body) = match side {
        Side::Max => (3, b"RC"),
        Side::Min => (4, b"RD"),
    };
    if script.random.one_in(2) {
        script.key(key);
    } else {
        strings::own_string(script, body);
    }
}

fn any_side(script: &mut Script) -> Side {
    script.random.pick(&[Side::Max, Side::Min])
}

fn other_side(side: Side) -> Side {
    match side {
        Side::Max => Side::Min,
        Side::Min => Side::Max,
    }
}
