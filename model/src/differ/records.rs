//! Lines for a program that reads records: right ones, ones with a fault or two,
//! and any bytes at all.

use super::random::Random;
use crate::binary32::nearest;
use crate::config::{HIGHEST_DISPLAY, LOWEST_DISPLAY};
use crate::record::{value_of, MOST_PLACES, RECORD_LENGTH};

/// The most bytes that a line can hold.
pub const MOST_BYTES: usize = 64;

pub const SIGN: u32 = 0x8000_0000;
pub const KIND_OF_A_VALUE: u8 = 0;
pub const KINDS_OF_MARKS: [u8; 3] = [1, 2, 3];

/// Bits that no display has with any places: minus zero, subnormals, the least
/// and the greatest number of each exponent at the ends, infinities, and NaNs
/// that are quiet and that signal; with both signs.
pub const BITS_OF_NO_DISPLAY: [u32; 21] = [
    0x8000_0000,
    0x0000_0001,
    0x8000_0001,
    0x0040_0000,
    0x007F_FFFF,
    0x807F_FFFF,
    0x0080_0000,
    0x8080_0000,
    0x00FF_FFFF,
    0x7F00_0000,
    0x7F7F_FFFF,
    0xFF7F_FFFF,
    0x7F80_0000,
    0xFF80_0000,
    0x7F80_0001,
    0xFF80_0001,
    0x7FBF_FFFF,
    0x7FC0_0000,
    0xFFC0_0000,
    0x7FFF_FFFF,
    0xFFFF_FFFF,
];

/// Displays at the limits, with few digits and with many, exact when divided and
/// not.
pub const TELLING_DISPLAYS: [i32; 18] = [
    0,
    1,
    -1,
    3,
    5,
    7,
    9,
    10,
    99,
    -625,
    9_999,
    10_000,
    12_345,
    -12_345,
    65_536,
    99_999,
    -19_998,
    LOWEST_DISPLAY,
];

/// Numbers past the ends of the display, next to them and far.
pub const NO_DISPLAYS: [i32; 8] = [
    100_000, 100_001, -20_000, -20_001, -99_999, 131_072, 999_999, -100_000,
];

/// A record in the making, right or not.
#[derive(Clone, PartialEq, Eq, Debug)]
pub struct Draft {
    pub kind: u8,
    pub places: u8,
    pub filler: [u8; 2],
    pub bits: u32,
    /// How many bytes it is to have, and what fills it up behind the eighth.
    pub length: usize,
    pub filled_with: u8,
}

impl Draft {
    pub fn of_bits(kind: u8, places: u8, bits: u32) -> Draft {
        Draft {
            kind,
            places,
            filler: [0, 0],
            bits,
            length: RECORD_LENGTH,
            filled_with: 0,
        }
    }

    pub fn of_display(display: i32, places: u8) -> Draft {
        Draft::of_bits(KIND_OF_A_VALUE, places, bits_of(display, places))
    }

    pub fn of_mark(kind: u8, places: u8) -> Draft {
        Draft::of_bits(kind, places, 0)
    }

    pub fn bytes(&self) -> Vec<u8> {
        let mut bytes = vec![self.kind, self.places];
        bytes.extend(self.filler);
        bytes.extend(self.bits.to_le_bytes());
        bytes.resize(self.length, self.filled_with);
        bytes
    }

    pub fn line(&self) -> Vec<u8> {
        line_of(&self.bytes())
    }
}

pub fn bits_of(number: i32, places: u8) -> u32 {
    value_of(i128::from(number), places).bits
}

/// The line that holds these bytes.
fn line_of(bytes: &[u8]) -> Vec<u8> {
    let digits: String = bytes.iter().map(|byte| format!("{byte:02x}")).collect();
    let word = if digits.is_empty() { "-" } else { &digits };
    format!("R {word}").into_bytes()
}

/// What can be wrong with a record.
#[derive(Clone, Copy, PartialEq, Eq, Debug)]
pub enum Fault {
    Length,
    Kind,
    Filler,
    Places,
    Bits,
}

pub const FAULTS: [Fault; 5] = [
    Fault::Length,
    Fault::Kind,
    Fault::Filler,
    Fault::Places,
    Fault::Bits,
];

/// A line with a record that is right, or has a fault or two. At times what was
/// meant as a fault leaves it right.
pub fn any_read(random: &mut Random) -> Vec<u8> {
    let mut draft = right_draft(random);
    for _ in 0..random.weighted(&[3, 8, 4]) {
        let fault = FAULTS[random.weighted(&[2, 2, 2, 2, 8])];
        put_in(random, &mut draft, fault);
    }
    let bytes = match random.below(30) {
        0 => any_bytes(random),
        _ => draft.bytes(),
    };
    in_some_case(random, line_of(&bytes))
}

fn right_draft(random: &mut Random) -> Draft {
    let places = random.below(usize::from(MOST_PLACES) + 1) as u8;
    if random.one_in(5) {
        return Draft::of_mark(random.pick(&KINDS_OF_MARKS), places);
    }
    Draft::of_display(any_display(random), places)
}

fn any_display(random: &mut Random) -> i32 {
    match random.below(4) {
        0 => random.pick(&TELLING_DISPLAYS),
        1 => random.setting(-120, 120),
        _ => random.setting(LOWEST_DISPLAY, HIGHEST_DISPLAY),
    }
}

fn put_in(random: &mut Random, draft: &mut Draft, fault: Fault) {
    match fault {
        Fault::Length => {
            draft.length = match random.below(3) {
                0 => random.below(MOST_BYTES + 1),
                1 => RECORD_LENGTH - 1,
                _ => RECORD_LENGTH + 1,
            };
            draft.filled_with = random.pick(&[0, 0, 1, 0x3F, 0xFF]);
        }
        Fault::Kind => {
            let any = random.below(256) as u8;
            draft.kind = random.pick(&[4, 4, 5, 128, 129, 255, any]);
        }
        Fault::Filler => {
            let any = random.below(256) as u8;
            draft.filler[random.below(2)] = random.pick(&[1, 7, 128, 255, any]);
        }
        Fault::Places => {
            let any = random.below(256) as u8;
            draft.places = random.pick(&[5, 5, 6, 128, 255, any]);
        }
        Fault::Bits => draft.bits = other_bits(random, draft),
    }
}

/// Bits that are not the draft's, for the most part. Those next to right ones
/// come most often.
fn other_bits(random: &mut Random, draft: &Draft) -> u32 {
    let places = draft.places.min(MOST_PLACES);
    let other_places = random.below(usize::from(MOST_PLACES) + 1) as u8;
    let display = any_display(random);
    match random.below(14) {
        0 => draft.bits ^ SIGN,
        1 => draft.bits ^ (1 << random.below(32)),
        2 => draft.bits.swap_bytes(),
        3 => random.pick(&BITS_OF_NO_DISPLAY),
        4 => not_a_number(random),
        5 => random.below(0x0080_0000) as u32 | (random.pick(&[0, 1]) << 31),
        6 => random.draw() as u32,
        7 => bits_of(random.pick(&NO_DISPLAYS), places),
        8 => beyond_the_display(random, places),
        9 => between_two_displays(display, places),
        10 => bits_of(display, other_places),
        11 => bits_of(display, places),
        12 => draft.bits.wrapping_add(1),
        _ => draft.bits.wrapping_sub(1),
    }
}

fn not_a_number(random: &mut Random) -> u32 {
    let fraction = random.between(1, 0x007F_FFFF) as u32;
    0x7F80_0000 + fraction + (random.pick(&[0, 1]) << 31)
}

fn beyond_the_display(random: &mut Random, places: u8) -> u32 {
    let distance = random.pick(&[3, 1_000, 1_000_000]);
    let past = random.setting(1, distance);
    match random.below(2) {
        0 => bits_of(HIGHEST_DISPLAY + past, places),
        _ => bits_of(LOWEST_DISPLAY - past, places),
    }
}

/// The number half way up to the next display.
fn between_two_displays(display: i32, places: u8) -> u32 {
    let power = 10_i128.pow(u32::from(places));
    nearest(2 * i128::from(display) + 1, 2 * power).bits
}

fn any_bytes(random: &mut Random) -> Vec<u8> {
    let any = random.below(MOST_BYTES + 1);
    let length = random.pick(&[RECORD_LENGTH, RECORD_LENGTH, any]);
    (0..length).map(|_| random.below(256) as u8).collect()
}

/// The line with its digits as they are, in upper case, or in either.
fn in_some_case(random: &mut Random, line: Vec<u8>) -> Vec<u8> {
    match random.below(4) {
        0 => in_upper_case(line, |_| true),
        1 => in_upper_case(line, |_| random.one_in(2)),
        _ => line,
    }
}

pub fn in_upper_case(mut line: Vec<u8>, mut chosen: impl FnMut(usize) -> bool) -> Vec<u8> {
    for (place, byte) in line.iter_mut().enumerate() {
        if chosen(place) {
            byte.make_ascii_uppercase();
        }
    }
    line
}

#[cfg(test)]
mod tests {
    use super::*;
    use crate::historian::{Historian, Outcome};
    use crate::record::Refusal;

    #[test]
    fn drafts_without_a_fault_are_right() {
        let mut random = Random::for_history(1, 0);
        let historian = Historian::new();
        for _ in 0..2_000 {
            let line = right_draft(&mut random).line();
            let outcome = historian.line(&line, &mut Vec::new());
            assert!(matches!(outcome, Outcome::Read(_)), "{line:?}");
        }
    }

    #[test]
    fn every_line_is_of_the_format() {
        let historian = Historian::new();
        let mut random = Random::for_history(3, 0);
        for _ in 0..5_000 {
            let line = any_read(&mut random);
            let outcome = historian.line(&line, &mut Vec::new());
            assert_ne!(outcome, Outcome::NotUnderstood, "{line:?}");
        }
    }

    #[test]
    fn bits_of_no_display_are_none() {
        let historian = Historian::new();
        for places in 0..=MOST_PLACES {
            for bits in BITS_OF_NO_DISPLAY {
                let draft = Draft::of_bits(KIND_OF_A_VALUE, places, bits);
                let outcome = historian.line(&draft.line(), &mut Vec::new());
                assert_eq!(outcome, Outcome::Refused(Refusal::Bits), "{draft:?}");
            }
        }
    }
}
