//! The totalizer.

use crate::config::Configuration;
use crate::fraction::Fraction;
use crate::reading::Reading;

/// Whether the total still counts, or has left its range since the last reset.
#[derive(Clone, Copy, PartialEq, Eq, Debug)]
enum Bounds {
    Within,
    Over,
    Under,
}

/// What the total register shows.
#[derive(Clone, Copy, PartialEq, Eq, Debug)]
pub enum Total {
    Number(i128),
    Over,
    Under,
}

const HIGHEST_TOTAL: i128 = 999_999_999;
const LOWEST_TOTAL: i128 = -199_999_999;

/// The sum, and whether the total has left its range.
#[derive(Clone, Debug)]
pub struct Totalizer {
    sum: i128,
    bounds: Bounds,
}

impl Totalizer {
    /// The totalizer at power-up and after a reset (Total, sentence 1; The
    /// register strings, paragraph 5, sentence 1).
    pub fn at_zero() -> Totalizer {
        Totalizer {
            sum: 0,
            bounds: Bounds::Within,
        }
    }

    pub fn sum(&self) -> i128 {
        self.sum
    }

    /// What the sum comes to in units of the total, as long as it counts
    /// (Total, sentence 3).
    pub fn total(&self, configuration: &Configuration) -> Total {
        match self.bounds {
            Bounds::Within => Total::Number(total_of(self.sum, configuration)),
            Bounds::Over => Total::Over,
            Bounds::Under => Total::Under,
        }
    }

    /// A sample of a meter that totals by time. Readings under the low cut, and
    /// those that are no number, are left out (Total, sentence 2).
    pub fn take_sample(&mut self, configuration: &Configuration, reading: Reading) {
        if configuration.batch {
            return;
        }
        if let Reading::Number(number) = reading {
            if number >= i128::from(configuration.low_cut) {
                self.add(
                    number * i128::from(configuration.scale_factor),
                    configuration,
                );
            }
        }
    }

    /// The batch key, which raises the total by exactly the reading (Total,
    /// sentence 4).
    pub fn take_batch(&mut self, configuration: &Configuration, reading: Reading) {
        if let Reading::Number(number) = reading {
            self.add(number * sum_of_one(configuration), configuration);
        }
    }

    /// Adds where the result is a total that can be shown. Otherwise the
    /// totalizer stands still, with the last good sum, until it is reset
    /// (Total, sentence 5).
    fn add(&mut self, amount: i128, configuration: &Configuration) {
        if self.bounds != Bounds::Within {
            return;
        }
        let new_sum = self.sum + amount;
        let new_total = total_of(new_sum, configuration);
        if new_total > HIGHEST_TOTAL {
            self.bounds = Bounds::Over;
        } else if new_total < LOWEST_TOTAL {
            self.bounds = Bounds::Under;
        } else {
            self.sum = new_sum;
        }
    }
}

/// The sum that makes a total of 1.
fn sum_of_one(configuration: &Configuration) -> i128 {
    20_000 * i128::from(configuration.time_base)
}

fn total_of(sum: i128, configuration: &Configuration) -> i128 {
    Fraction::new(sum, sum_of_one(configuration)).cut_towards_zero()
}
