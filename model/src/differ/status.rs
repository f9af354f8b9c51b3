//! Reads of the status register right behind what changes its number and what
//! must not, in both modes. A meter that keeps the number may be wrong until the
//! next sample stores it anew, so that nothing comes between.

use super::limits::{code_at_a_limit, set_status, HIGHEST_SETPOINT};
use super::samples::{any_input, near_run_length, over, under};
use super::script::Script;
use super::strings;

/// Reads the register, with room for the reply.
pub fn read_status(script: &mut Script) {
    let place = script.place;
    script.place = 0;
    strings::own_string(script, b"TJ");
    script.place = place;
}

/// Alarms on or outputs driven, so that the number is mostly not 0, and then a
/// few events, each with a read behind it. VJ with O spares every alarm.
pub fn status_behind_events(script: &mut Script) {
    turn_alarms_on(script);
    match script.random.below(5) {
        0 | 1 => set_status(script, 0x30),
        2 => strings::own_string(script, b"VJO"),
        _ => {}
    }
    for _ in 0..script.random.between(1, 4) {
        any_event(script);
        read_status(script);
    }
}

/// Over or Under for about as long as one alarm asks for. Others that act the
/// same way, and wait no longer, go on with it.
fn turn_alarms_on(script: &mut Script) {
    let alarm = script.random.below(4);
    let settings = script.settings.alarms[alarm];
    let length = near_run_length(script, settings.on_delay);
    let input = if settings.low_acting {
        under(script)
    } else {
        over(script)
    };
    script.samples(input, length);
}

/// An event that stores the number anew, or one that must leave it, as VJ with a
/// byte past 127 must.
fn any_event(script: &mut Script) {
    let alarm = script.random.below(4);
    match script.random.below(13) {
        0 | 1 => {
            let input = any_input(script);
            script.sample(input);
        }
        2 => set_status(script, 0x30),
        3 => set_status(script, 0x40),
        4 => set_status(script, 0x80),
        5 => script.key(5),
        6 | 7 => strings::own_string(script, &[b'R', b"EFGH"[alarm]]),
        8 => {
            let code = code_at_a_limit(&mut script.random);
            strings::write_code(script, code);
        }
        9 => {
            let near = i64::from(script.setpoints[alarm]) + script.random.between(-1, 1);
            strings::write_setpoint(script, alarm, near.min(HIGHEST_SETPOINT));
        }
        10 => strings::own_string(script, b"P"),
        11 => strings::any_key(script),
        _ => strings::good_string(script),
    }
}
