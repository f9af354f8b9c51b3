//! The program `historian` (document 02, ticket 12): `W reading places` prints
//! the reading's record in hex, `R hex` what a record says or why it is refused.

use crate::config::{HIGHEST_DISPLAY, LOWEST_DISPLAY};
use crate::lines::{number, put_hex};
use crate::reading::Reading;
use crate::record::{Reader, Record, Refusal, MOST_PLACES};

/// The most bytes that a line can hold.
const MOST_BYTES: usize = 64;

/// What became of a line.
#[derive(Clone, Copy, PartialEq, Eq, Debug)]
pub enum Outcome {
    Written(Record),
    Read(Record),
    Refused(Refusal),
    NotUnderstood,
}

/// The program. No line changes what the others print, and what it holds is there
/// to be looked up.
#[derive(Clone, Default, Debug)]
pub struct Historian {
    reader: Reader,
}

impl Historian {
    pub fn new() -> Historian {
        Historian::default()
    }

    /// Carries one line out (without its LF) and writes its line of output.
    pub fn line(&self, text: &[u8], output: &mut Vec<u8>) -> Outcome {
        let outcome = self.outcome(text).unwrap_or(Outcome::NotUnderstood);
        match outcome {
            Outcome::Written(record) => put_hex(&record.bytes(), output),
            Outcome::Read(record) => output.extend_from_slice(shown(record).as_bytes()),
            Outcome::Refused(refusal) => {
                output.extend_from_slice(refusal.number().to_string().as_bytes());
            }
            Outcome::NotUnderstood => output.push(b'?'),
        }
        output.push(b'\n');
        outcome
    }

    /// Understands a line: words with one space between them.
    fn outcome(&self, text: &[u8]) -> Option<Outcome> {
        let words: Vec<&[u8]> = text.split(|byte| *byte == b' ').collect();
        match words.as_slice() {
            [b"W", reading, places] => {
                let record = Record::new(reading_in(reading)?, places_in(places)?);
                Some(Outcome::Written(record))
            }
            [b"R", hex] => match self.reader.read(&bytes_in(hex)?) {
                Ok(record) => Some(Outcome::Read(record)),
                Err(refusal) => Some(Outcome::Refused(refusal)),
            },
            _ => None,
        }
    }
}

/// A record as it is printed once it has been read: kind, places and bits.
fn shown(record: Record) -> String {
    let kind = record.kind.number();
    format!("{kind} {} {:08x}", record.places, record.bits)
}

/// A reading that the display can show, or the mark of one that it cannot.
fn reading_in(word: &[u8]) -> Option<Reading> {
    match word {
        b"OL" => Some(Reading::Over),
        b"UL" => Some(Reading::Under),
        b"--" => Some(Reading::Nothing),
        _ => {
            let display = number(word)?;
            let can_be_shown = (LOWEST_DISPLAY..=HIGHEST_DISPLAY).contains(&display);
            can_be_shown.then_some(Reading::Number(i128::from(display)))
        }
    }
}

fn places_in(word: &[u8]) -> Option<u8> {
    let places = u8::try_from(number(word)?).ok()?;
    (places <= MOST_PLACES).then_some(places)
}

/// The bytes that two hex digits each stand for. No byte at all is written `-`.
fn bytes_in(word: &[u8]) -> Option<Vec<u8>> {
    if word == b"-" {
        return Some(Vec::new());
    }
    let one_digit_alone = word.len() % 2 == 1;
    if word.is_empty() || one_digit_alone || word.len() > 2 * MOST_BYTES {
        return None;
    }
    word.chunks(2)
        .map(|digits| Some(16 * hex_digit(digits[0])? + hex_digit(digits[1])?))
        .collect()
}

/// What a hex digit stands for, in either case.
fn hex_digit(digit: u8) -> Option<u8> {
    match digit {
        b'0'..=b'9' => Some(digit - b'0'),
        b'a'..=b'f' => Some(digit - b'a' + 10),
        b'A'..=b'F' => Some(digit - b'A' + 10),
        _ => None,
    }
}
