//! Whole histories. Each begins with a power-up of its own and depends on the
//! seed and its number alone.

use super::broken::{bad_line, bad_source_line, break_one_rule};
use super::captures;
use super::floods;
use super::limits;
use super::places::any_place;
use super::random::Random;
use super::samples;
use super::script::Script;
use super::settings::{good_settings, settings_with_source};
use super::status;
use super::strings;
use crate::config::Source;

/// About how many bytes of text a plain history has.
const PLAIN_LENGTH: usize = 1_600;

/// What is asked of the histories, beside their seed.
#[derive(Clone, Copy, PartialEq, Eq, Debug)]
pub struct Wanted {
    pub seed: u64,
    /// Whether lines that are no lines of the format may come.
    pub bad_lines: bool,
}

/// The text of one history. The first of all begins before any power-up.
pub fn history(wanted: Wanted, number: u64) -> Vec<u8> {
    let mut random = Random::for_history(wanted.seed, number);
    match random.weighted(&[12_000, 60, 10, 2]) {
        0 => plain_history(random, wanted, number == 0),
        1 => floods::sample_flood(random).into_text(),
        2 => floods::batch_flood(random).into_text(),
        _ => floods::long_wait(random).into_text(),
    }
}

fn plain_history(mut random: Random, wanted: Wanted, first_of_all: bool) -> Vec<u8> {
    let settings = good_settings(&mut random);
    let mut script = Script::new(random, settings);
    if first_of_all {
        some_actions(&mut script, wanted, 8);
    }
    if script.random.one_in(4) {
        refused_power_ups(&mut script, wanted);
        if script.random.one_in(6) {
            return script.into_text();
        }
    }
    new_power_up(&mut script);
    if wanted.bad_lines && script.random.one_in(8) {
        let line = bad_source_line(&mut script.random, &script.settings);
        script.line(&line);
    }
    while script.length() < PLAIN_LENGTH {
        any_action(&mut script, wanted);
        if script.random.one_in(150) {
            new_power_up(&mut script);
        }
    }
    script.into_text()
}

/// A power-up, at times right behind one with the other source. At times the
/// status register is read at once, since no other line shows what the meter
/// before may have left in it.
fn new_power_up(script: &mut Script) {
    let settings = good_settings(&mut script.random);
    if script.random.one_in(6) {
        power_up_with_the_other_source(script, settings.source);
    }
    script.power_up(settings);
    if script.random.one_in(8) {
        status::read_status(script);
    }
}

/// A power-up with a source that is not this one, and at times a few samples.
fn power_up_with_the_other_source(script: &mut Script, source: Source) {
    let other = match source {
        Source::Points => Source::Platinum,
        Source::Platinum => Source::Points,
    };
    let settings = settings_with_source(&mut script.random, other);
    script.power_up(settings);
    if script.random.one_in(2) {
        samples::loose_samples(script);
    }
}

/// Several power-ups that are refused, with an event behind some of them.
fn refused_power_ups(script: &mut Script, wanted: Wanted) {
    for _ in 0..script.random.between(1, 6) {
        refused_power_up(script);
        if script.random.one_in(3) {
            some_actions(script, wanted, 1);
        }
    }
}

/// A power-up with one fault, at times two. The aim stays with good settings.
fn refused_power_up(script: &mut Script) {
    let good = good_settings(&mut script.random);
    let mut broken = good.clone();
    break_one_rule(&mut script.random, &mut broken);
    if script.random.one_in(3) {
        break_one_rule(&mut script.random, &mut broken);
    }
    script.power_up(broken);
    script.settings = good;
}

fn some_actions(script: &mut Script, wanted: Wanted, count: usize) {
    for _ in 0..count {
        any_action(script, wanted);
    }
}

/// One thing that a history may hold next.
fn any_action(script: &mut Script, wanted: Wanted) {
    if script.random.one_in(3) {
        script.place = any_place(&mut script.random, &script.settings);
    }
    match script
        .random
        .weighted(&[14, 16, 8, 10, 22, 9, 7, 5, 5, 5, 5, 6, 9, 3, 3, 4, 4, 1])
    {
        0 => samples::loose_samples(script),
        1 => samples::excursion(script),
        2 => captures::even_run(script),
        3 => captures::uneven_run(script),
        4 => strings::good_string(script),
        5 => strings::near_miss(script),
        6 => strings::strange_body(script),
        7 => strings::strange_address(script),
        8 => strings::for_another_node(script),
        9 => strings::long_string(script),
        10 => strings::noise(script),
        11 => strings::interrupted_string(script),
        12 => strings::any_key(script),
        13 => limits::codes(script),
        14 => limits::held_within_a_run(script),
        15 => status::status_behind_events(script),
        16 => samples::along_the_scale(script),
        _ if wanted.bad_lines => {
            let line = bad_line(&mut script.random, &script.settings);
            script.line(&line);
        }
        _ => strings::good_string(script),
    }
}
