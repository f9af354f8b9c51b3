//! What was reached of sentences 2 and 3: changes, and the windows in which each
//! clause alone decides.

use super::life::Life;
use super::windows::{changes, one_short, whole_window, Window};
use std::fmt;

#[derive(Clone, Copy, Default, Debug)]
pub struct AlarmTally {
    on_by_sample: u64,
    latched_on_by_sample: u64,
    off_by_sample: u64,
    off_by_reset: u64,
    latched_off_by_reset: u64,
    reset_while_off: u64,
    one_short: u64,
    broken_by_reset: u64,
    broken_by_new_setpoint: u64,
    broken_by_earlier_change: u64,
    broken_at_the_first: u64,
    over_rewritten_setpoint: u64,
    over_looks: u64,
    begun_behind_a_reset_or_setpoint: u64,
    begun_behind_a_change: u64,
    latched_held: u64,
}

impl AlarmTally {
    /// Counts what an event came to for an alarm, once it has been judged.
    pub fn count(&mut self, life: &Life, alarm: usize, place: usize) {
        let asked = life.events[place].asked;
        if asked.is_sample() {
            self.count_sample(life, alarm, place);
        } else if asked.resets(alarm) {
            self.count_reset(life, alarm, place);
        }
    }

    fn count_reset(&mut self, life: &Life, alarm: usize, place: usize) {
        let latched = life.configuration.alarms[alarm].latched;
        match (changes(life, alarm, place), latched) {
            (false, _) => self.reset_while_off += 1,
            (true, false) => self.off_by_reset += 1,
            (true, true) => self.latched_off_by_reset += 1,
        }
    }

    fn count_sample(&mut self, life: &Life, alarm: usize, place: usize) {
        let latched = life.configuration.alarms[alarm].latched;
        let was_on = life.before(place).alarms[alarm];
        let window = whole_window(life, alarm, place);
        let held = window.is_some_and(|window| window.holds());
        match window {
            _ if latched && was_on => self.latched_held += u64::from(held),
            Some(window) if held => self.count_change(window, was_on, latched),
            _ => {
                self.count_unchanged(window);
                let short = one_short(life, alarm, place);
                self.one_short += u64::from(short.is_some_and(|window| window.holds()));
            }
        }
    }

    fn count_change(&mut self, window: Window, was_on: bool, latched: bool) {
        match (was_on, latched) {
            (false, false) => self.on_by_sample += 1,
            (false, true) => self.latched_on_by_sample += 1,
            (true, _) => self.off_by_sample += 1,
        }
        self.over_rewritten_setpoint += u64::from(window.has_rewritten_setpoint());
        self.over_looks += u64::from(window.has_look());
        self.begun_behind_a_reset_or_setpoint +=
            u64::from(window.begins_behind_a_reset_or_setpoint());
        self.begun_behind_a_change += u64::from(window.begins_behind_a_change());
    }

    /// Counts a window that is broken by one clause and by no other: without that
    /// clause the sentence would have the alarm change.
    fn count_unchanged(&mut self, window: Option<Window>) {
        let Some(window) = window.filter(|window| window.condition_held()) else {
            return;
        };
        let broken_by = (
            window.has_reset(),
            window.has_new_setpoint(),
            window.has_earlier_change(),
        );
        match broken_by {
            (true, false, false) => self.broken_by_reset += 1,
            (false, true, false) => self.broken_by_new_setpoint += 1,
            (false, false, true) => {
                self.broken_by_earlier_change += 1;
                self.broken_at_the_first += u64::from(window.has_change_at_the_first());
            }
            _ => {}
        }
    }
}

impl fmt::Display for AlarmTally {
    fn fmt(&self, out: &mut fmt::Formatter) -> fmt::Result {
        writeln!(
            out,
            "alarms changed by samples: on {} (latched {}), off {}",
            self.on_by_sample + self.latched_on_by_sample,
            self.latched_on_by_sample,
            self.off_by_sample
        )?;
        writeln!(
            out,
            "  with a setpoint rewritten unchanged in the window {}, with looks in it {}",
            self.over_rewritten_setpoint, self.over_looks
        )?;
        writeln!(
            out,
            "  with a reset or a new setpoint right before the window {}, with a change {}",
            self.begun_behind_a_reset_or_setpoint, self.begun_behind_a_change
        )?;
        writeln!(
            out,
            "alarms reset: while on {} (latched {}), while off {}",
            self.off_by_reset + self.latched_off_by_reset,
            self.latched_off_by_reset,
            self.reset_while_off
        )?;
        writeln!(out, "windows one sample short: {}", self.one_short)?;
        writeln!(
            out,
            "windows broken by nothing but a reset {}, a new setpoint {}, an earlier change {} (at the first sample {})",
            self.broken_by_reset,
            self.broken_by_new_setpoint,
            self.broken_by_earlier_change,
            self.broken_at_the_first
        )?;
        writeln!(
            out,
            "windows in which a latched alarm stayed on and an unlatched one would have gone off: {}",
            self.latched_held
        )
    }
}
