//! What a comparison has reached of a platinum sensor's curve: what its inputs
//! read, and what the first rounding had to do.

use crate::fraction::Rest;
use crate::platinum::curve;
use crate::reading::{height_over, Reading};
use std::fmt;

/// Counts of inputs by their reading and, where it is a number, by the exact
/// fraction that it was rounded from.
#[derive(Clone, Default, Debug)]
pub struct CurveTally {
    inputs: u64,
    under: u64,
    over: u64,
    exact: u64,
    towards_zero: u64,
    away_from_zero: u64,
    halves_below_zero: u64,
    halves_above_zero: u64,
}

impl CurveTally {
    pub fn count(&mut self, input: i32, reading: Reading) {
        self.inputs += 1;
        match reading {
            Reading::Number(_) => self.count_fraction(input),
            Reading::Over => self.over += 1,
            Reading::Under => self.under += 1,
            Reading::Nothing => unreachable!("every input has a reading"),
        }
    }

    fn count_fraction(&mut self, input: i32) {
        let tenths = height_over(curve(), input);
        let kind = match tenths.rest() {
            Rest::Nothing => &mut self.exact,
            Rest::LessThanHalf => &mut self.towards_zero,
            Rest::MoreThanHalf => &mut self.away_from_zero,
            Rest::Half if tenths.floor() < 0 => &mut self.halves_below_zero,
            Rest::Half => &mut self.halves_above_zero,
        };
        *kind += 1;
    }

    fn numbers(&self) -> u64 {
        self.inputs - self.over - self.under
    }
}

impl fmt::Display for CurveTally {
    fn fmt(&self, out: &mut fmt::Formatter) -> fmt::Result {
        write!(
            out,
            "inputs {} (UL {}, numbers {}, OL {}); fractions exact {}, rounded towards zero {}, away from it {}, halves below zero {}, above it {}",
            self.inputs,
            self.under,
            self.numbers(),
            self.over,
            self.exact,
            self.towards_zero,
            self.away_from_zero,
            self.halves_below_zero,
            self.halves_above_zero
        )
    }
}
