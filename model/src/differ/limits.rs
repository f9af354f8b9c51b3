//! Numbers at and past the limits of the setpoints and of the analog register,
//! and runs of an alarm in the middle of which its setpoint is held to a limit.

use super::random::Random;
use super::samples::{input_near, interesting_display, near_run_length, over, under};
use super::script::Script;
use super::strings;

/// The limits as document 01 gives them.
pub const LOWEST_SETPOINT: i64 = -19_999;
pub const HIGHEST_SETPOINT: i64 = 99_999;
const HIGHEST_CODE: i64 = 4_095;

/// A number for a setpoint at or beside a limit, or past it. The 0 is what the
/// first number past the highest limit comes to, and the first past five digits
/// on the low side.
pub fn setpoint_at_a_limit(random: &mut Random) -> i64 {
    match random.below(5) {
        0 | 1 => setpoint_past_the_lowest(random),
        2 => LOWEST_SETPOINT,
        3 => LOWEST_SETPOINT + random.between(1, 2),
        _ => random.pick(&[HIGHEST_SETPOINT, HIGHEST_SETPOINT - 1, 0]),
    }
}

/// A number that is held to a setpoint's lowest limit.
pub fn setpoint_past_the_lowest(random: &mut Random) -> i64 {
    match random.below(5) {
        0 | 1 => LOWEST_SETPOINT - 1,
        2 => LOWEST_SETPOINT - 2,
        3 => -99_999,
        _ => random.between(-99_999, LOWEST_SETPOINT - 1),
    }
}

/// A code at or beside a limit, or past it.
pub fn code_at_a_limit(random: &mut Random) -> i64 {
    match random.below(6) {
        0 | 1 => random.between(-2, 1),
        2 | 3 => HIGHEST_CODE + random.between(-1, 2),
        4 => random.pick(&[-99_999, -20_000, -HIGHEST_CODE, 5_000, 99_999]),
        _ => random.between(-99_999, 99_999),
    }
}

/// A few codes at and past the limits, mostly in manual mode, at times with a
/// sample between them.
pub fn codes(script: &mut Script) {
    match script.random.below(6) {
        0..=2 => set_status(script, 0x30),
        3 => set_status(script, 0x40),
        _ => {}
    }
    for _ in 0..script.random.between(1, 4) {
        let code = code_at_a_limit(&mut script.random);
        strings::write_code(script, code);
        if script.random.one_in(4) {
            let input = input_of_a_number(script);
            script.sample(input);
        }
    }
}

/// VJ with this byte, and with any of the four low bits.
pub fn set_status(script: &mut Script, byte: u8) {
    let bits = script.random.below(16) as u8;
    strings::own_string(script, &[b'V', b'J', byte + bits]);
}

/// A setpoint at its lowest limit or near it, and in the middle of a run of its
/// alarm a number past that limit. The run goes on where the setpoint stood at
/// the limit already, and begins anew where it did not.
pub fn held_within_a_run(script: &mut Script) {
    let alarm = script.random.below(4);
    let settings = script.settings.alarms[alarm];
    let (below, above) = (under(script), input_above(script));
    let (on_side, off_side) = if settings.low_acting {
        (below, above)
    } else {
        (above, below)
    };
    if script.random.one_in(2) {
        strings::own_string(script, &[b'R', b"EFGH"[alarm]]);
    }
    if script.random.one_in(2) {
        run_with_a_held_number(script, alarm, on_side, settings.on_delay);
    } else {
        let length = near_run_length(script, settings.on_delay);
        script.samples(on_side, length);
        run_with_a_held_number(script, alarm, off_side, settings.off_delay);
    }
}

/// A run of about the needed length at one input. Behind its first sample or a
/// later one comes the number that is held.
fn run_with_a_held_number(script: &mut Script, alarm: usize, input: i64, tenths: i32) {
    let start = near_the_lowest(&mut script.random);
    strings::write_setpoint(script, alarm, start);
    let length = near_run_length(script, tenths);
    let before = script.random.between(1, length);
    script.samples(input, before);
    let past = setpoint_past_the_lowest(&mut script.random);
    strings::write_setpoint(script, alarm, past);
    script.samples(input, length - before);
}

/// The lowest limit, which a number past it sets as well, or a little more.
fn near_the_lowest(random: &mut Random) -> i64 {
    match random.below(4) {
        0 | 1 => LOWEST_SETPOINT,
        2 => setpoint_past_the_lowest(random),
        _ => LOWEST_SETPOINT + random.between(1, 2),
    }
}

/// An input that reads more than a setpoint at its lowest, or nearly always so.
fn input_above(script: &mut Script) -> i64 {
    if script.random.one_in(4) {
        over(script)
    } else {
        input_of_a_number(script)
    }
}

fn input_of_a_number(script: &mut Script) -> i64 {
    let display = interesting_display(script);
    input_near(script, display)
}
