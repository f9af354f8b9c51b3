//! Sentence 1: the total, from the contributions since its last reset.

use super::broken::{Broken, Clause};
use super::history::Asked;
use super::life::Life;
use super::tally::Tally;
use crate::config::Configuration;
use crate::fraction::Fraction;
use crate::lines::Shown;
use crate::reading::Reading;
use crate::total::Total;
use std::ops::Range;

const HIGHEST_TOTAL: i128 = 999_999_999;
const LOWEST_TOTAL: i128 = -199_999_999;

/// Holds every total that was shown against the contributions of its span.
pub fn judge(life: &Life, tally: &mut Tally) -> Result<(), Broken> {
    for span in spans(life) {
        judge_span(life, span, tally)?;
    }
    Ok(())
}

/// The events from a power-up or a reset, which belongs to its span, to the next
/// reset or the end.
fn spans(life: &Life) -> Vec<Range<usize>> {
    let mut starts = vec![0];
    for (place, told) in life.events.iter().enumerate() {
        if told.asked == Asked::ResetTotal {
            starts.push(place);
        }
    }
    starts.push(life.events.len());
    starts.windows(2).map(|ends| ends[0]..ends[1]).collect()
}

fn judge_span(life: &Life, span: Range<usize>, tally: &mut Tally) -> Result<(), Broken> {
    let contributions: Vec<i128> = span
        .clone()
        .map(|place| contribution(life, place))
        .collect();
    let totals = totals_along(&contributions, divisor(&life.configuration));
    for (told, total) in life.events[span.clone()].iter().zip(&totals) {
        if told.shown.total != *total {
            let (due, shown) = (Shown::from(*total), Shown::from(told.shown.total));
            let why = format!("{due} is due, and {shown} was shown");
            return Err(Broken::new(Clause::Total, told.line, why));
        }
    }
    tally.totals.count(life, span, &totals);
    Ok(())
}

/// What an event adds to the sum that the sentence speaks of.
fn contribution(life: &Life, place: usize) -> i128 {
    let settings = &life.configuration;
    let Reading::Number(number) = life.reading(place) else {
        return 0;
    };
    match life.events[place].asked {
        Asked::Sample(_) if !settings.batch && number >= i128::from(settings.low_cut) => {
            number * i128::from(settings.scale_factor)
        }
        Asked::Batch => number * divisor(settings),
        _ => 0,
    }
}

fn divisor(settings: &Configuration) -> i128 {
    20_000 * i128::from(settings.time_base)
}

/// The total behind each event of a span. Before the first quotient that lies
/// outside it is the quotient there, and from then on what that one shows.
fn totals_along(contributions: &[i128], divisor: i128) -> Vec<Total> {
    let quotients: Vec<Total> = sums_of(contributions)
        .map(|sum| within_range(Fraction::new(sum, divisor).cut_towards_zero()))
        .collect();
    let outside = quotients
        .iter()
        .position(|total| !matches!(total, Total::Number(_)))
        .unwrap_or(quotients.len());
    (0..quotients.len())
        .map(|place| quotients[place.min(outside)])
        .collect()
}

/// The sum of the first contribution, of the first two, and so on.
fn sums_of(contributions: &[i128]) -> impl Iterator<Item = i128> + '_ {
    contributions.iter().scan(0, |sum, contribution| {
        *sum += contribution;
        Some(*sum)
    })
}

fn within_range(quotient: i128) -> Total {
    if quotient > HIGHEST_TOTAL {
        Total::Over
    } else if quotient < LOWEST_TOTAL {
        Total::Under
    } else {
        Total::Number(quotient)
    }
}
