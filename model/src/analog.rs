//! The analog code and the two modes.

use crate::config::Configuration;
use crate::fraction::Fraction;
use crate::reading::Reading;

/// The highest analog code.
pub const HIGHEST_CODE: i128 = 4_095;

/// Who drives the outputs. The manual bits exist in manual mode only, so that
/// automatic mode has none to hold.
#[derive(Clone, Copy, PartialEq, Eq, Debug)]
pub enum Mode {
    Automatic,
    Manual { outputs: [bool; 4] },
}

/// The code that automatic mode gives to a reading (Analog, sentence 1).
pub fn automatic_code(configuration: &Configuration, reading: Reading) -> i128 {
    match reading {
        Reading::Nothing | Reading::Under => 0,
        Reading::Over => HIGHEST_CODE,
        Reading::Number(number) => held_to_range(share_of_span(configuration, number)),
    }
}

/// How far the number has come from low to high, in 4095ths and rounded down.
fn share_of_span(configuration: &Configuration, number: i128) -> i128 {
    let low = i128::from(configuration.analog_low);
    let high = i128::from(configuration.analog_high);
    Fraction::new(HIGHEST_CODE * (number - low), high - low).floor()
}

fn held_to_range(code: i128) -> i128 {
    code.clamp(0, HIGHEST_CODE)
}
