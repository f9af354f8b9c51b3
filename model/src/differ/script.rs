//! A history in the making: its lines so far, and what the maker of it needs
//! to know in order to aim well.

use super::random::Random;
use crate::config::{Configuration, Source};
use crate::lines::configuration_line;
use crate::reading::{reading_of, Reading};

/// A history being written.
pub struct Script {
    pub random: Random,
    /// The settings of the last power-up, as far as the aim needs them.
    pub settings: Configuration,
    /// The setpoints as last written; a guess that is good enough to aim by.
    pub setpoints: [i32; 4],
    /// The place that keys and bytes name.
    pub place: u64,
    text: Vec<u8>,
}

impl Script {
    pub fn new(random: Random, settings: Configuration) -> Script {
        let setpoints = [0, 1, 2, 3].map(|alarm| settings.alarms[alarm].setpoint);
        Script {
            random,
            settings,
            setpoints,
            place: 0,
            text: Vec::new(),
        }
    }

    pub fn into_text(self) -> Vec<u8> {
        self.text
    }

    /// How many bytes of text there are so far.
    pub fn length(&self) -> usize {
        self.text.len()
    }

    pub fn line(&mut self, line: &str) {
        self.text.extend_from_slice(line.as_bytes());
        self.text.push(b'\n');
    }

    /// Powers up with these settings, and aims by them from now on. Points are
    /// named at times, and at times go without saying.
    pub fn power_up(&mut self, settings: Configuration) {
        let mut line = configuration_line(&settings);
        if settings.source == Source::Points && self.random.one_in(2) {
            line += " 0";
        }
        self.line(&line);
        self.setpoints = [0, 1, 2, 3].map(|alarm| settings.alarms[alarm].setpoint);
        self.settings = settings;
    }

    pub fn sample(&mut self, input: i64) {
        let held = within_32_bits(input);
        self.line(&format!("S {held}"));
    }

    /// What the settings that are aimed by make of an input.
    pub fn reading(&self, input: i64) -> Reading {
        reading_of(&self.settings, within_32_bits(input))
    }

    pub fn samples(&mut self, input: i64, count: i64) {
        for _ in 0..count {
            self.sample(input);
        }
    }

    pub fn key(&mut self, number: i32) {
        let place = self.place;
        self.line(&format!("K {number} {place}"));
    }

    pub fn byte(&mut self, byte: u8) {
        let place = self.place;
        self.line(&format!("B {byte} {place}"));
    }

    pub fn bytes(&mut self, bytes: &[u8]) {
        for byte in bytes {
            self.byte(*byte);
        }
    }
}

/// The nearest input that a line can hold.
fn within_32_bits(input: i64) -> i32 {
    input.clamp(i64::from(i32::MIN), i64::from(i32::MAX)) as i32
}
