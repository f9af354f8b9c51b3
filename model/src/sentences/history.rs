//! A recorded history taken apart without a meter: what each of its lines asks
//! for, and which lines make its kept list.

use crate::command::{understand, Command, Refusal};
use crate::config::{Configuration, Rule};
use crate::lines::{lines_of, read_line, Line};
use crate::meter::Event;
use crate::reading::{reading_of, Reading};
use crate::receiver::LONGEST_STRING;

/// What one line of a history is.
#[derive(Clone, PartialEq, Eq, Debug)]
pub enum Entry {
    /// A power-up, and the rule that its configuration breaks, if it does.
    PowerUp(Box<Configuration>, Option<Rule>),
    /// An event to a meter that is not started.
    Unheard,
    Event(Heard),
    NotUnderstood,
}

/// An event to a meter that was started.
#[derive(Clone, PartialEq, Eq, Debug)]
pub struct Heard {
    pub asked: Asked,
    /// The lines of the earlier bytes of the string that this one ends.
    pub string: Vec<usize>,
    /// Whether a string is half received behind it.
    pub half_received: bool,
}

/// What an event asks for, as far as the sentences speak of it, and the answers
/// that document 01 has for it where there is more than 0.
#[derive(Clone, Copy, PartialEq, Eq, Debug)]
pub enum Asked {
    /// A sample, with the reading that document 01 gives to its input.
    Sample(Reading),
    /// Key 1 of a batch meter.
    Batch,
    ResetTotal,
    ResetAlarms([bool; 4]),
    WriteSetpoint {
        alarm: usize,
        value: i128,
    },
    /// An entry of the kept list that touches neither the total nor an alarm.
    KeptElse(&'static [usize]),
    /// A byte that is stored and ends no string.
    Byte,
    /// What else is no entry of the kept list: a read, a refused string, one for
    /// another node, or a line end.
    Look(&'static [usize]),
}

impl Asked {
    /// Whether the event is an entry of the kept list: a sample, a key other than
    /// print, or the end of a well-formed V or R string to this meter.
    pub fn is_kept(&self) -> bool {
        !matches!(self, Asked::Byte | Asked::Look(_))
    }

    /// The numbers that the answer may have.
    pub fn answers(&self) -> &'static [usize] {
        match self {
            Asked::KeptElse(answers) | Asked::Look(answers) => answers,
            Asked::Byte => &[1],
            _ => &[0],
        }
    }

    pub fn is_sample(&self) -> bool {
        matches!(self, Asked::Sample(_))
    }

    pub fn resets(&self, alarm: usize) -> bool {
        matches!(self, Asked::ResetAlarms(which) if which[alarm])
    }
}

/// Takes a history apart, line by line.
pub fn take_apart(text: &[u8]) -> Vec<Entry> {
    let mut walk = Walk {
        configuration: None,
        half: Vec::new(),
    };
    lines_of(text)
        .enumerate()
        .map(|(number, line)| walk.entry(number, line))
        .collect()
}

/// The lines that make the kept list, in the order in which its entries come. A
/// kept string stands as a whole where it ended, without what came between its
/// bytes.
pub fn kept_lines(entries: &[Entry]) -> Vec<usize> {
    let mut kept = Vec::new();
    for (number, entry) in entries.iter().enumerate() {
        match entry {
            Entry::PowerUp(..) => kept.push(number),
            Entry::Event(heard) if heard.asked.is_kept() => {
                kept.extend(&heard.string);
                kept.push(number);
            }
            _ => {}
        }
    }
    kept
}

/// A way along the lines of a history.
struct Walk {
    /// None before the first power-up and behind a refused one.
    configuration: Option<Configuration>,
    /// The lines and bytes since the last end of a string.
    half: Vec<(usize, u8)>,
}

impl Walk {
    fn entry(&mut self, number: usize, line: &[u8]) -> Entry {
        match read_line(line) {
            Line::NotUnderstood => Entry::NotUnderstood,
            Line::PowerUp(configuration) => self.power_up(*configuration),
            Line::Event(event) => self.event(number, event),
        }
    }

    fn power_up(&mut self, configuration: Configuration) -> Entry {
        self.half.clear();
        let broken = configuration.first_broken_rule();
        self.configuration = broken.is_none().then(|| configuration.clone());
        Entry::PowerUp(Box::new(configuration), broken)
    }

    fn event(&mut self, number: usize, event: Event) -> Entry {
        let Some(configuration) = &self.configuration else {
            return Entry::Unheard;
        };
        let (asked, string) = match event {
            Event::Sample(input) => {
                let reading = reading_of(configuration, input);
                (Asked::Sample(reading), Vec::new())
            }
            Event::Key { number: key, .. } => (by_key(key, configuration.batch), Vec::new()),
            Event::Byte { byte, .. } => {
                let node = configuration.node;
                self.byte(number, byte, node)
            }
        };
        Entry::Event(Heard {
            asked,
            string,
            half_received: !self.half.is_empty(),
        })
    }

    /// What a byte asks for, and the earlier lines of the string that it ends.
    fn byte(&mut self, number: usize, byte: u8, node: i32) -> (Asked, Vec<usize>) {
        match byte {
            b'\r' | b'\n' => {
                self.half.clear();
                (Asked::Look(&[5]), Vec::new())
            }
            b'*' | b'$' => {
                let (lines, string): (Vec<usize>, Vec<u8>) = self.half.drain(..).unzip();
                (by_string(&string, node), lines)
            }
            _ => {
                self.half.push((number, byte));
                (Asked::Byte, Vec::new())
            }
        }
    }
}

fn by_key(key: i32, batch: bool) -> Asked {
    match key {
        1 if batch => Asked::Batch,
        2 => Asked::ResetTotal,
        3 | 4 => Asked::KeptElse(&[0]),
        5 => Asked::ResetAlarms([true; 4]),
        6 => Asked::Look(&[2, 9]),
        _ => Asked::KeptElse(&[10]),
    }
}

fn by_string(string: &[u8], node: i32) -> Asked {
    if string.len() > LONGEST_STRING {
        return Asked::Look(&[6]);
    }
    match understand(string, node) {
        Err(Refusal::OtherNode) => Asked::Look(&[3]),
        Err(Refusal::BadForm) => Asked::Look(&[4]),
        Ok(command) => by_command(command),
    }
}

fn by_command(command: Command) -> Asked {
    match command {
        Command::Transmit(_) | Command::BlockPrint => Asked::Look(&[2, 9]),
        Command::WriteSetpoint(alarm, value) => Asked::WriteSetpoint { alarm, value },
        Command::WriteAnalogOutput(_) => Asked::KeptElse(&[0, 8]),
        Command::WriteControlStatus(byte) => by_status(byte),
        Command::ResetTotal => Asked::ResetTotal,
        Command::ResetMax | Command::ResetMin => Asked::KeptElse(&[0]),
        Command::ResetAlarm(alarm) => Asked::ResetAlarms([0, 1, 2, 3].map(|one| one == alarm)),
    }
}

/// VJ resets where bit 4 is clear, and there each alarm whose bit is 0.
fn by_status(byte: u8) -> Asked {
    if byte & 16 != 0 {
        return Asked::KeptElse(&[0]);
    }
    Asked::ResetAlarms([1, 2, 4, 8].map(|bit| byte & bit == 0))
}
