//! Places in the lent buffer: before, at and past the last one that has room.

use super::random::Random;
use crate::config::Configuration;
use crate::lines::BUFFER_LENGTH;

/// A place. Half of them are 0; the others crowd around the last place from
/// which a reply of this meter still fits.
pub fn any_place(random: &mut Random, settings: &Configuration) -> u64 {
    let end = BUFFER_LENGTH as i64;
    match random.below(12) {
        0..=4 => 0,
        5 => random.between(0, end) as u64,
        6 => around(random, end),
        7 => around(random, end - line_length(settings)),
        8 | 9 => around(random, end - block_length(settings)),
        10 => random.pick(&[20, 40, 14, 28]),
        _ => random.pick(&[
            1_000,
            65_536,
            0x7FFF_FFFF,
            0x8000_0000,
            0xFFFF_FFFF,
            0x1_0000_0000,
            0x7FFF_FFFF_FFFF_FFFF,
            0x8000_0000_0000_0000,
            u64::MAX - 170,
            u64::MAX - 20,
            u64::MAX - 19,
            u64::MAX - 1,
            u64::MAX,
        ]),
    }
}

fn around(random: &mut Random, place: i64) -> u64 {
    (place + random.between(-1, 1)) as u64
}

fn line_length(settings: &Configuration) -> i64 {
    if settings.abbreviated {
        14
    } else {
        20
    }
}

/// The length of this meter's block print; 0 where nothing is chosen.
fn block_length(settings: &Configuration) -> i64 {
    let lines = i64::from(settings.print_input)
        + i64::from(settings.print_total)
        + 2 * i64::from(settings.print_max_min)
        + 4 * i64::from(settings.print_setpoints);
    if lines == 0 {
        0
    } else {
        lines * line_length(settings) + 3
    }
}
