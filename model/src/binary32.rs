//! The binary32 nearest to a quotient, found in whole numbers alone, so that no
//! float has to be believed.

use std::cmp::Ordering;

/// A binary32 keeps 24 bits of a number. These are the least whole number that
/// has so many, and the least that has one more.
const LEAST_OF_24_BITS: u128 = 1 << 23;
const LEAST_OF_25_BITS: u128 = 1 << 24;

/// The leading one of the 24 bits is not written. The others stand lowest, above
/// them the exponent, and the sign on top.
const BITS_BELOW_THE_EXPONENT: u32 = 23;
const BITS_BELOW_THE_SIGN: u32 = 31;

/// What the exponent of 1 is written as.
const EXPONENT_OF_ONE: i32 = 127;

/// Where the nearest number lies, seen from the quotient.
#[derive(Clone, Copy, PartialEq, Eq, Debug)]
pub enum Rounding {
    Exact,
    TowardsZero,
    AwayFromZero,
    /// Two numbers are equally near, and the one with the even last bit is taken.
    Tie,
}

/// A binary32, and how it came from its quotient.
#[derive(Clone, Copy, PartialEq, Eq, Debug)]
pub struct Nearest {
    pub bits: u32,
    pub rounding: Rounding,
}

/// The binary32 nearest to a quotient. Zero has no sign. A quotient so large or
/// so small that its exponent cannot be written is no display's, and not taken.
pub fn nearest(numerator: i128, denominator: i128) -> Nearest {
    assert!(denominator > 0, "the sign is the numerator's");
    if numerator == 0 {
        return Nearest {
            bits: 0,
            rounding: Rounding::Exact,
        };
    }
    let (cut, power, rounding) = cut_to_24_bits(numerator.unsigned_abs(), denominator as u128);
    let up = match rounding {
        Rounding::Exact | Rounding::TowardsZero => false,
        Rounding::AwayFromZero => true,
        Rounding::Tie => cut % 2 == 1,
    };
    let size = packed(cut + u128::from(up), power);
    let sign = u32::from(numerator < 0) << BITS_BELOW_THE_SIGN;
    Nearest {
        bits: sign + size,
        rounding,
    }
}

/// A whole number of 24 bits and a power of two, whose product is the quotient
/// without what lies behind the 24 bits; and which way is nearer.
fn cut_to_24_bits(numerator: u128, denominator: u128) -> (u128, i32, Rounding) {
    let (mut numerator, mut denominator, mut power) = (numerator, denominator, 0);
    while numerator < denominator * LEAST_OF_24_BITS {
        numerator *= 2;
        power -= 1;
    }
    while numerator >= denominator * LEAST_OF_25_BITS {
        denominator *= 2;
        power += 1;
    }
    let left_over = numerator % denominator;
    let rounding = match (2 * left_over).cmp(&denominator) {
        Ordering::Less if left_over == 0 => Rounding::Exact,
        Ordering::Less => Rounding::TowardsZero,
        Ordering::Equal => Rounding::Tie,
        Ordering::Greater => Rounding::AwayFromZero,
    };
    (numerator / denominator, power, rounding)
}

/// Exponent and fraction of a whole number times a power of two. One that was
/// rounded up to 25 bits ends with a 0, and loses it.
fn packed(whole: u128, power: i32) -> u32 {
    let (whole, power) = match whole {
        LEAST_OF_25_BITS => (LEAST_OF_24_BITS, power + 1),
        _ => (whole, power),
    };
    let exponent = power + BITS_BELOW_THE_EXPONENT as i32 + EXPONENT_OF_ONE;
    assert!((1..=254).contains(&exponent), "the exponent can be written");
    ((exponent as u32) << BITS_BELOW_THE_EXPONENT) + (whole - LEAST_OF_24_BITS) as u32
}

#[cfg(test)]
mod tests {
    use super::*;

    fn bits(numerator: i128, denominator: i128) -> u32 {
        nearest(numerator, denominator).bits
    }

    #[test]
    fn powers_of_two_have_no_fraction() {
        assert_eq!(bits(1, 1), 0x3F80_0000);
        assert_eq!(bits(2, 1), 0x4000_0000);
        assert_eq!(bits(1, 2), 0x3F00_0000);
        assert_eq!(bits(-1, 4), 0xBE80_0000);
        assert_eq!(bits(6, 3), 0x4000_0000);
    }

    #[test]
    fn zero_has_no_sign() {
        assert_eq!(bits(0, 1), 0);
        assert_eq!(bits(0, 10_000), 0);
    }

    #[test]
    fn the_nearer_number_is_taken() {
        for (numerator, denominator, expected, rounding) in [
            (1, 10, 0x3DCC_CCCD, Rounding::AwayFromZero),
            (-1, 10, 0xBDCC_CCCD, Rounding::AwayFromZero),
            (1, 3, 0x3EAA_AAAB, Rounding::AwayFromZero),
            (2, 3, 0x3F2A_AAAB, Rounding::AwayFromZero),
            (3, 10, 0x3E99_999A, Rounding::AwayFromZero),
            (7, 10, 0x3F33_3333, Rounding::TowardsZero),
            (-7, 10, 0xBF33_3333, Rounding::TowardsZero),
            (5, 10, 0x3F00_0000, Rounding::Exact),
        ] {
            let nearest = nearest(numerator, denominator);
            assert_eq!(nearest.bits, expected, "{numerator} / {denominator}");
            assert_eq!(nearest.rounding, rounding, "{numerator} / {denominator}");
        }
    }

    #[test]
    fn ties_go_to_the_even_neighbour() {
        let first_of_25_bits = 1 << 24;
        for (above, expected) in [(1, 0), (2, 1), (3, 2), (5, 2), (7, 4)] {
            let nearest = nearest(first_of_25_bits + above, 1);
            assert_eq!(nearest.bits, 0x4B80_0000 + expected, "{above}");
            let tie = above % 2 == 1;
            assert_eq!(nearest.rounding == Rounding::Tie, tie, "{above}");
        }
    }

    #[test]
    fn a_number_rounded_up_may_need_the_next_exponent() {
        assert_eq!(bits((1 << 25) - 1, 1), 0x4C00_0000);
        assert_eq!(bits((1 << 26) - 1, 1), 0x4C80_0000);
        assert_eq!(bits(-99_999_999_999, 100_000_000_000), 0xBF80_0000);
    }
}
