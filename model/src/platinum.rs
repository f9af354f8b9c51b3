//! Platinum sensors (document 02, ticket 3): the curve of a 100 ohm sensor of
//! IEC 60751. Resistances are milliohms. None is written down here but both
//! ends; all others are worked out of the polynomial in whole numbers.

use crate::config::Point;
use crate::fraction::Fraction;
use std::sync::OnceLock;

/// The first and the last degree that the curve has.
pub const LOWEST_DEGREE: i32 = -200;
pub const HIGHEST_DEGREE: i32 = 850;

/// The ends of what is read. Both are readings still.
pub const LOWEST_RESISTANCE: i32 = 18_520;
pub const HIGHEST_RESISTANCE: i32 = 390_481;

/// The places that tenths of a degree have, and the only ones that rule 2 takes
/// on a platinum meter.
pub const PLACES: i32 = 1;

/// How many tenths a degree has.
const TENTHS: i32 = 10;

/// The polynomial's coefficients for a sensor of 100,000 milliohms at 0 degrees,
/// each times ten to the tenth, which makes whole numbers of them all.
const UNIT: i128 = 10_000_000_000;
const AT_ZERO: i128 = 100_000 * UNIT;
const A: i128 = 3_908_300_000_000;
const B: i128 = -577_500_000;
const C: i128 = -4_183;

/// The resistance at a whole degree: the polynomial's nearest milliohm, halves
/// up.
pub fn resistance(degree: i32) -> i32 {
    let nearest = polynomial(i128::from(degree)).nearest_half_up();
    i32::try_from(nearest).expect("the curve lies far within 32 bits")
}

/// The polynomial of IEC 60751, exactly. Its last term is there below zero only.
fn polynomial(degree: i128) -> Fraction {
    let square = degree * degree;
    let last_term = if degree < 0 {
        C * (degree - 100) * degree * square
    } else {
        0
    };
    Fraction::new(AT_ZERO + A * degree + B * square + last_term, UNIT)
}

/// The whole curve as scaling points: each whole degree's resistance, and there
/// a display in tenths of a degree. The list is made once, since working a thousand
/// entries out for every sample would take too long.
pub fn curve() -> &'static [Point] {
    static CURVE: OnceLock<Vec<Point>> = OnceLock::new();
    CURVE.get_or_init(|| (LOWEST_DEGREE..=HIGHEST_DEGREE).map(point_at).collect())
}

fn point_at(degree: i32) -> Point {
    Point {
        input: resistance(degree),
        display: TENTHS * degree,
    }
}
