//! The whole meter: power-up, samples, keys and received bytes.

use crate::alarms::Alarm;
use crate::analog::{automatic_code, Mode};
use crate::answer::Answer;
use crate::command::{understand, Command, Refusal, Register};
use crate::config::Configuration;
use crate::extremes::{Extreme, Side};
use crate::reading::{reading_of, Reading};
use crate::receiver::{Received, Receiver};
use crate::reply;
use crate::total::{Total, Totalizer};

/// One event. Keys and bytes name the place in the lent buffer from which a
/// reply may be written.
#[derive(Clone, Copy, PartialEq, Eq, Debug)]
pub enum Event {
    Sample(i32),
    Key { number: i32, place: u64 },
    Byte { byte: u8, place: u64 },
}

/// A meter that was powered up, or one that is not started.
#[derive(Clone, Debug)]
pub enum Meter {
    NotStarted,
    Started(Box<Running>),
}

impl Meter {
    /// Powers up with a configuration, or ends up without a working meter where
    /// a rule is broken (the table of answers, rows 0 and 11).
    pub fn power_up(&mut self, configuration: Configuration) -> Answer {
        match configuration.first_broken_rule() {
            Some(rule) => {
                *self = Meter::NotStarted;
                Answer::ConfigurationRefused(rule)
            }
            None => {
                *self = Meter::Started(Box::new(Running::new(configuration)));
                Answer::CarriedOut
            }
        }
    }

    /// Carries out one event, if there is a working meter to take it (the table
    /// of answers, row 12).
    pub fn event(&mut self, event: Event, buffer: &mut [u8]) -> Answer {
        match self {
            Meter::NotStarted => Answer::NotStarted,
            Meter::Started(running) => running.event(event, buffer),
        }
    }
}

/// The state of a meter that was powered up.
#[derive(Clone, Debug)]
pub struct Running {
    pub configuration: Configuration,
    pub reading: Reading,
    pub totalizer: Totalizer,
    pub max: Extreme,
    pub min: Extreme,
    pub alarms: [Alarm; 4],
    pub analog_code: i128,
    pub mode: Mode,
    pub receiver: Receiver,
}

impl Running {
    /// The state that power-up leaves (From input to reading, sentence 5; Total,
    /// sentence 1; Analog, sentences 1 and 3).
    fn new(configuration: Configuration) -> Running {
        let alarms = [0, 1, 2, 3].map(|index| Alarm::at_power_up(&configuration.alarms[index]));
        Running {
            configuration,
            reading: Reading::Nothing,
            totalizer: Totalizer::at_zero(),
            max: Extreme::at_power_up(Side::Max),
            min: Extreme::at_power_up(Side::Min),
            alarms,
            analog_code: 0,
            mode: Mode::Automatic,
            receiver: Receiver::empty(),
        }
    }

    /// The total as the register shows it.
    pub fn total(&self) -> Total {
        self.totalizer.total(&self.configuration)
    }

    fn event(&mut self, event: Event, buffer: &mut [u8]) -> Answer {
        match event {
            Event::Sample(input) => self.sample(input),
            Event::Key { number, place } => self.key(number, place, buffer),
            Event::Byte { byte, place } => self.byte(byte, place, buffer),
        }
    }

    /// A sample passes through all parts of the meter, one after the other
    /// (From input to reading, sentence 7; Analog, sentence 2).
    fn sample(&mut self, input: i32) -> Answer {
        self.reading = reading_of(&self.configuration, input);
        self.totalizer
            .take_sample(&self.configuration, self.reading);
        let capture = self.configuration.capture_time;
        self.max.take_sample(self.reading, capture);
        self.min.take_sample(self.reading, capture);
        for (alarm, settings) in self.alarms.iter_mut().zip(&self.configuration.alarms) {
            alarm.take_sample(settings, self.reading);
        }
        if self.mode == Mode::Automatic {
            self.work_out_code();
        }
        Answer::CarriedOut
    }

    fn work_out_code(&mut self) {
        self.analog_code = automatic_code(&self.configuration, self.reading);
    }

    /// A key. Most of them do what some string does (Keys).
    fn key(&mut self, number: i32, place: u64, buffer: &mut [u8]) -> Answer {
        match number {
            1 => self.batch_key(),
            2 => self.carry_out(Command::ResetTotal, place, buffer),
            3 => self.carry_out(Command::ResetMax, place, buffer),
            4 => self.carry_out(Command::ResetMin, place, buffer),
            5 => self.reset_all_alarms(),
            6 => self.carry_out(Command::BlockPrint, place, buffer),
            _ => Answer::UnknownKey,
        }
    }

    /// Key 1 exists in batch meters only. There it counts as done even if there
    /// was no number to add (the table of answers, row 10; Total, sentence 4).
    fn batch_key(&mut self) -> Answer {
        if !self.configuration.batch {
            return Answer::UnknownKey;
        }
        self.totalizer.take_batch(&self.configuration, self.reading);
        Answer::CarriedOut
    }

    fn reset_all_alarms(&mut self) -> Answer {
        for alarm in &mut self.alarms {
            alarm.reset();
        }
        Answer::CarriedOut
    }

    fn byte(&mut self, byte: u8, place: u64, buffer: &mut [u8]) -> Answer {
        match self.receiver.take(byte) {
            Received::Taken => Answer::ByteTaken,
            Received::LineEnd => Answer::LineEndReceived,
            Received::EndedTooLong => Answer::StringTooLong,
            Received::Ended(string) => self.string(&string, place, buffer),
        }
    }

    fn string(&mut self, string: &[u8], place: u64, buffer: &mut [u8]) -> Answer {
        match understand(string, self.configuration.node) {
            Ok(command) => self.carry_out(command, place, buffer),
            Err(Refusal::OtherNode) => Answer::OtherNode,
            Err(Refusal::BadForm) => Answer::BadForm,
        }
    }

    fn carry_out(&mut self, command: Command, place: u64, buffer: &mut [u8]) -> Answer {
        match command {
            Command::Transmit(register) => write_reply(&self.line_of(register), place, buffer),
            Command::BlockPrint => write_reply(&self.block_print(), place, buffer),
            Command::WriteAnalogOutput(code) => self.write_analog_output(code),
            _ => {
                self.change_by(command);
                Answer::CarriedOut
            }
        }
    }

    /// The commands that always succeed and never reply.
    fn change_by(&mut self, command: Command) {
        match command {
            Command::WriteSetpoint(alarm, value) => self.alarms[alarm].write_setpoint(value),
            Command::WriteControlStatus(byte) => self.write_control_status(byte),
            Command::ResetTotal => self.totalizer = Totalizer::at_zero(),
            Command::ResetMax => self.max.reset(self.reading),
            Command::ResetMin => self.min.reset(self.reading),
            Command::ResetAlarm(alarm) => self.alarms[alarm].reset(),
            Command::Transmit(_) | Command::BlockPrint | Command::WriteAnalogOutput(_) => {
                unreachable!("these commands have their own answers")
            }
        }
    }

    /// The host may set the code while it has the outputs in its hands. Otherwise
    /// it may not, whatever the number (the table of answers, row 8; Analog,
    /// sentence 2; document 02, ticket 5).
    fn write_analog_output(&mut self, code: i128) -> Answer {
        if self.mode == Mode::Automatic {
            return Answer::AnalogInAutomatic;
        }
        self.analog_code = code;
        Answer::CarriedOut
    }

    /// With bit 4 the host takes the outputs over and sets them by the low bits.
    /// Without it the meter has them back, the low bits say which alarms are
    /// spared a reset, and the code follows the reading again (The register
    /// strings, paragraph 4, sentences 2 to 5; Analog, sentence 2).
    fn write_control_status(&mut self, byte: u8) {
        let bits = [0, 1, 2, 3].map(|index| bit_is_set(byte, index));
        if bit_is_set(byte, 4) {
            self.mode = Mode::Manual { outputs: bits };
            return;
        }
        self.mode = Mode::Automatic;
        for (alarm, bit) in self.alarms.iter_mut().zip(bits) {
            if !bit {
                alarm.reset();
            }
        }
        self.work_out_code();
    }

    /// What the status register reads (Reply lines, sentence 6).
    fn control_status(&self) -> i128 {
        match self.mode {
            Mode::Automatic => number_of_bits([0, 1, 2, 3].map(|index| self.alarms[index].is_on())),
            Mode::Manual { outputs } => 16 + number_of_bits(outputs),
        }
    }

    /// The bits that were written in manual mode, 0 in automatic mode.
    pub fn manual_bits(&self) -> i128 {
        match self.mode {
            Mode::Automatic => 0,
            Mode::Manual { outputs } => number_of_bits(outputs),
        }
    }

    /// A register's line, with its mnemonic and its decimal places (The register
    /// strings, paragraph 2, sentence 1; Reply lines, sentence 5).
    fn line_of(&self, register: Register) -> Vec<u8> {
        let places = self.configuration.input_places;
        let total_places = self.configuration.total_places;
        let (mnemonic, data) = match register {
            Register::Input => ("INP", reply::reading_data(self.reading, places)),
            Register::Total => ("TOT", reply::total_data(self.total(), total_places)),
            Register::Max => ("MAX", reply::reading_data(self.max.shown(), places)),
            Register::Min => ("MIN", reply::reading_data(self.min.shown(), places)),
            Register::Setpoint(index) => (
                ["SP1", "SP2", "SP3", "SP4"][index],
                reply::number_data(self.alarms[index].setpoint(), places),
            ),
            Register::AnalogOutput => ("AOR", reply::number_data(self.analog_code, 0)),
            Register::ControlStatus => ("CSR", reply::number_data(self.control_status(), 0)),
        };
        reply::line(&self.configuration, mnemonic, &data)
    }

    /// The block print that the options ask for (Reply lines, paragraph 2).
    fn block_print(&self) -> Vec<u8> {
        let settings = &self.configuration;
        let in_letter_order = [
            (settings.print_input, Register::Input),
            (settings.print_total, Register::Total),
            (settings.print_max_min, Register::Max),
            (settings.print_max_min, Register::Min),
            (settings.print_setpoints, Register::Setpoint(0)),
            (settings.print_setpoints, Register::Setpoint(1)),
            (settings.print_setpoints, Register::Setpoint(2)),
            (settings.print_setpoints, Register::Setpoint(3)),
        ];
        let chosen: Vec<Vec<u8>> = in_letter_order
            .iter()
            .filter(|(wanted, _)| *wanted)
            .map(|(_, register)| self.line_of(*register))
            .collect();
        reply::block(&chosen)
    }
}

/// Writes a reply that ends within the buffer, and no other byte. The sum of
/// place and length is taken in a width that it cannot leave (The meter's edges,
/// sentences 2 and 4 under the table).
fn write_reply(reply: &[u8], place: u64, buffer: &mut [u8]) -> Answer {
    let end_of_buffer = buffer.len() as u128;
    let end_of_reply = u128::from(place) + reply.len() as u128;
    if end_of_reply > end_of_buffer {
        return Answer::NoRoom;
    }
    let start = place as usize;
    buffer[start..start + reply.len()].copy_from_slice(reply);
    Answer::ReplyWritten(reply.len())
}

fn bit_is_set(byte: u8, index: u32) -> bool {
    (byte >> index) & 1 == 1
}

/// Four bits as a number, the first as 1 and the last as 8.
fn number_of_bits(bits: [bool; 4]) -> i128 {
    let [first, second, third, fourth] = bits.map(i128::from);
    first + 2 * second + 4 * third + 8 * fourth
}
