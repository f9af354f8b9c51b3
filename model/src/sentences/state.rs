//! What the other program shows behind an event, as far as the sentences speak of
//! it: the answer, the reading, the total, the setpoints and the alarms. Of the
//! sum and the runs, which stand in the same line, nothing is read.

use crate::config::Configuration;
use crate::lines::Shown;
use crate::reading::Reading;
use crate::total::Total;
use std::fmt;
use std::str::FromStr;

/// The state that a line shows.
#[derive(Clone, PartialEq, Eq, Debug)]
pub struct State {
    pub reading: Reading,
    pub total: Total,
    pub setpoints: [i128; 4],
    pub alarms: [bool; 4],
}

impl State {
    /// What a power-up leaves, which no line shows: no reading, a total of 0, the
    /// setpoints of the configuration, and every alarm off.
    pub fn at_power_up(configuration: &Configuration) -> State {
        State {
            reading: Reading::Nothing,
            total: Total::Number(0),
            setpoints: [0, 1, 2, 3].map(|alarm| i128::from(configuration.alarms[alarm].setpoint)),
            alarms: [false; 4],
        }
    }
}

impl fmt::Display for State {
    fn fmt(&self, out: &mut fmt::Formatter) -> fmt::Result {
        let [a, b, c, d] = self.setpoints;
        write!(out, "R={} ", Shown::from(self.reading))?;
        write!(out, "TOT={} ", Shown::from(self.total))?;
        write!(out, "SP={a},{b},{c},{d} AL=")?;
        self.alarms
            .iter()
            .try_for_each(|on| write!(out, "{}", u8::from(*on)))
    }
}

/// The answer that a line begins with.
pub fn answer_in(line: &str) -> Option<usize> {
    word(line, "A=")?.parse().ok()
}

/// The state in a line of a meter that was started.
pub fn state_in(line: &str) -> Option<State> {
    Some(State {
        reading: reading(word(line, "R=")?)?,
        total: total(word(line, "TOT=")?)?,
        setpoints: setpoints(word(line, "SP=")?)?,
        alarms: alarms(word(line, "AL=")?)?,
    })
}

/// What stands behind the name in the first word that begins with it.
fn word<'a>(line: &'a str, name: &str) -> Option<&'a str> {
    line.split(' ').find_map(|word| word.strip_prefix(name))
}

fn reading(word: &str) -> Option<Reading> {
    match word {
        "OL" => Some(Reading::Over),
        "UL" => Some(Reading::Under),
        "--" => Some(Reading::Nothing),
        _ => number(word).map(Reading::Number),
    }
}

fn total(word: &str) -> Option<Total> {
    match word {
        "OL" => Some(Total::Over),
        "UL" => Some(Total::Under),
        _ => number(word).map(Total::Number),
    }
}

fn number(word: &str) -> Option<i128> {
    i128::from_str(word).ok()
}

fn setpoints(word: &str) -> Option<[i128; 4]> {
    let numbers: Option<Vec<i128>> = word.split(',').map(number).collect();
    numbers?.try_into().ok()
}

fn alarms(word: &str) -> Option<[bool; 4]> {
    let states: Option<Vec<bool>> = word
        .chars()
        .map(|digit| match digit {
            '1' => Some(true),
            '0' => Some(false),
            _ => None,
        })
        .collect();
    states?.try_into().ok()
}
