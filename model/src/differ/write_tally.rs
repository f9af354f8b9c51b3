//! What a comparison has reached of the numbers that V strings write: within
//! their register's limits, or held to one of them.

use crate::alarms::Alarm;
use crate::analog::Mode;
use crate::command::{
    understand, written_number, Command, Limits, WrittenNumber, CODE_LIMITS, SETPOINT_LIMITS,
};
use crate::meter::{Event, Running};
use crate::receiver::{Received, Receiver};
use std::fmt;

/// The numbers of one register kind. Five digits never pass the highest limit of
/// a setpoint, so that none is held to it.
#[derive(Clone, Default, Debug)]
struct Numbers {
    within: u64,
    held_to_lowest: u64,
    held_to_highest: u64,
}

/// All numbers that were written, and what has to be known from before an event
/// to count the one that it writes.
#[derive(Clone, Default, Debug)]
pub struct WriteTally {
    setpoints: Numbers,
    manual_codes: Numbers,
    automatic_codes: Numbers,
    held_present_in_run: u64,
    held_new_in_run: u64,
    /// None at power-up.
    before: Option<(Receiver, [Alarm; 4])>,
}

impl WriteTally {
    pub fn power_up(&mut self) {
        self.before = None;
    }

    /// Counts the number that an event has written, if it has.
    pub fn count(&mut self, event: Event, running: &Running) {
        if let Some((receiver, alarms)) = self.before.take() {
            if let Some(string) = string_ended_by(event, receiver) {
                self.count_string(&string, &alarms, running);
            }
        }
        self.before = Some((running.receiver.clone(), running.alarms.clone()));
    }

    fn count_string(&mut self, string: &[u8], alarms: &[Alarm; 4], running: &Running) {
        match understand(string, running.configuration.node) {
            Ok(Command::WriteSetpoint(alarm, _)) => {
                let number = number_in(string, SETPOINT_LIMITS);
                self.setpoints.count(number, SETPOINT_LIMITS);
                self.count_held_in_run(number, &alarms[alarm]);
            }
            Ok(Command::WriteAnalogOutput(_)) => {
                let codes = match running.mode {
                    Mode::Manual { .. } => &mut self.manual_codes,
                    Mode::Automatic => &mut self.automatic_codes,
                };
                codes.count(number_in(string, CODE_LIMITS), CODE_LIMITS);
            }
            _ => {}
        }
    }

    fn count_held_in_run(&mut self, number: WrittenNumber, before: &Alarm) {
        match number {
            WrittenNumber::HeldTo(limit) if before.run() > 0 => {
                let present = limit == before.setpoint();
                self.held_present_in_run += u64::from(present);
                self.held_new_in_run += u64::from(!present);
            }
            _ => {}
        }
    }
}

impl Numbers {
    fn count(&mut self, number: WrittenNumber, limits: Limits) {
        match number {
            WrittenNumber::BadForm => {}
            WrittenNumber::Itself(_) => self.within += 1,
            WrittenNumber::HeldTo(limit) if limit == limits.lowest => self.held_to_lowest += 1,
            WrittenNumber::HeldTo(_) => self.held_to_highest += 1,
        }
    }
}

/// The string that an event ends, given the receiver before it.
fn string_ended_by(event: Event, mut before: Receiver) -> Option<Vec<u8>> {
    match event {
        Event::Byte { byte, .. } => match before.take(byte) {
            Received::Ended(string) => Some(string),
            _ => None,
        },
        Event::Sample(_) | Event::Key { .. } => None,
    }
}

/// The number in a well-formed V string: behind the V and its register.
fn number_in(string: &[u8], limits: Limits) -> WrittenNumber {
    let data = string.iter().skip_while(|byte| **byte != b'V').skip(2);
    let data: Vec<u8> = data.copied().collect();
    written_number(&data, limits)
}

impl fmt::Display for Numbers {
    fn fmt(&self, out: &mut fmt::Formatter) -> fmt::Result {
        write!(
            out,
            "within the limits {}, held to the lowest {}, to the highest {}",
            self.within, self.held_to_lowest, self.held_to_highest
        )
    }
}

impl fmt::Display for WriteTally {
    fn fmt(&self, out: &mut fmt::Formatter) -> fmt::Result {
        writeln!(out, "numbers for setpoints: {}", self.setpoints)?;
        writeln!(
            out,
            "  held while the alarm's run went on: to the present value {}, to a new one {}",
            self.held_present_in_run, self.held_new_in_run
        )?;
        writeln!(out, "numbers for AOR in manual mode: {}", self.manual_codes)?;
        write!(
            out,
            "numbers for AOR in automatic mode: {}",
            self.automatic_codes
        )
    }
}
