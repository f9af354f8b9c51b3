//! Exact fractions, and the ways in which whole numbers are made of them: three
//! of document 01, and one of document 02, ticket 3.

use std::cmp::Ordering;

/// A quotient of two whole numbers, kept with a denominator above zero.
#[derive(Clone, Copy, Debug)]
pub struct Fraction {
    numerator: i128,
    denominator: i128,
}

/// What stands behind a fraction's point, without its sign.
#[derive(Clone, Copy, PartialEq, Eq, Debug)]
pub enum Rest {
    Nothing,
    LessThanHalf,
    Half,
    MoreThanHalf,
}

impl Fraction {
    /// Builds the fraction; the sign of the denominator moves to the numerator.
    pub fn new(numerator: i128, denominator: i128) -> Fraction {
        assert!(denominator != 0, "a fraction needs a denominator");
        if denominator > 0 {
            Fraction {
                numerator,
                denominator,
            }
        } else {
            Fraction {
                numerator: -numerator,
                denominator: -denominator,
            }
        }
    }

    /// The greatest whole number that is not above the fraction.
    pub fn floor(self) -> i128 {
        let cut = self.cut_towards_zero();
        if cut * self.denominator > self.numerator {
            cut - 1
        } else {
            cut
        }
    }

    /// The fraction without what stands behind its point.
    pub fn cut_towards_zero(self) -> i128 {
        self.numerator / self.denominator
    }

    /// The nearest whole number. A half goes to the neighbour farther from
    /// zero, on either side of zero.
    pub fn nearest_half_away_from_zero(self) -> i128 {
        let size = self.numerator.abs();
        let mut whole = size / self.denominator;
        let left_over = size % self.denominator;
        if 2 * left_over >= self.denominator {
            whole += 1;
        }
        if self.numerator < 0 {
            -whole
        } else {
            whole
        }
    }

    /// What any rounding has to take away or to fill up.
    pub fn rest(self) -> Rest {
        let left_over = self.numerator.abs() % self.denominator;
        match (2 * left_over).cmp(&self.denominator) {
            _ if left_over == 0 => Rest::Nothing,
            Ordering::Less => Rest::LessThanHalf,
            Ordering::Equal => Rest::Half,
            Ordering::Greater => Rest::MoreThanHalf,
        }
    }

    /// The nearest whole number. A half goes to the neighbour above, on either
    /// side of zero (document 02, ticket 3).
    pub fn nearest_half_up(self) -> i128 {
        Fraction::new(2 * self.numerator + self.denominator, 2 * self.denominator).floor()
    }
}

#[cfg(test)]
mod tests {
    use super::*;

    #[test]
    fn floor_goes_down_on_both_sides_of_zero() {
        assert_eq!(Fraction::new(7, 2).floor(), 3);
        assert_eq!(Fraction::new(-7, 2).floor(), -4);
        assert_eq!(Fraction::new(7, -2).floor(), -4);
        assert_eq!(Fraction::new(-8, 2).floor(), -4);
        assert_eq!(Fraction::new(0, 9).floor(), 0);
    }

    #[test]
    fn cut_goes_towards_zero() {
        assert_eq!(Fraction::new(-7, 2).cut_towards_zero(), -3);
        assert_eq!(Fraction::new(7, 2).cut_towards_zero(), 3);
    }

    #[test]
    fn halves_go_away_from_zero() {
        assert_eq!(Fraction::new(1, 2).nearest_half_away_from_zero(), 1);
        assert_eq!(Fraction::new(-1, 2).nearest_half_away_from_zero(), -1);
        assert_eq!(Fraction::new(49, 100).nearest_half_away_from_zero(), 0);
        assert_eq!(Fraction::new(-151, 100).nearest_half_away_from_zero(), -2);
        assert_eq!(Fraction::new(5, -2).nearest_half_away_from_zero(), -3);
    }

    #[test]
    fn rests_have_no_sign() {
        for sign in [1, -1] {
            assert_eq!(Fraction::new(6 * sign, 2).rest(), Rest::Nothing);
            assert_eq!(Fraction::new(0, sign).rest(), Rest::Nothing);
            assert_eq!(Fraction::new(7 * sign, 2).rest(), Rest::Half);
            assert_eq!(Fraction::new(7 * sign, 5).rest(), Rest::LessThanHalf);
            assert_eq!(Fraction::new(8 * sign, 5).rest(), Rest::MoreThanHalf);
        }
    }

    #[test]
    fn halves_go_up() {
        assert_eq!(Fraction::new(1, 2).nearest_half_up(), 1);
        assert_eq!(Fraction::new(-1, 2).nearest_half_up(), 0);
        assert_eq!(Fraction::new(-3, 2).nearest_half_up(), -1);
        assert_eq!(Fraction::new(49, 100).nearest_half_up(), 0);
        assert_eq!(Fraction::new(-51, 100).nearest_half_up(), -1);
        assert_eq!(Fraction::new(-6, 2).nearest_half_up(), -3);
    }
}
