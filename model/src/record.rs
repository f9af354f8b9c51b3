//! A reading for the plant's historian (document 02, ticket 12): what kind it is,
//! the places of the input and, where it is a number, the binary32 of the display
//! divided by its power of ten, in a record of 8 bytes.

use crate::binary32::{nearest, Nearest};
use crate::config::{HIGHEST_DISPLAY, LOWEST_DISPLAY};
use crate::reading::Reading;

/// How many bytes a record has.
pub const RECORD_LENGTH: usize = 8;

/// The most places that an input has.
pub const MOST_PLACES: u8 = 4;

/// What a record is of. Each kind's number is what its first byte holds.
#[derive(Clone, Copy, PartialEq, Eq, Debug)]
pub enum Kind {
    Value,
    Over,
    Under,
    Nothing,
}

impl Kind {
    pub fn number(self) -> u8 {
        match self {
            Kind::Value => 0,
            Kind::Over => 1,
            Kind::Under => 2,
            Kind::Nothing => 3,
        }
    }

    /// The kind that has this number, if any has.
    fn numbered(number: u8) -> Option<Kind> {
        match number {
            0 => Some(Kind::Value),
            1 => Some(Kind::Over),
            2 => Some(Kind::Under),
            3 => Some(Kind::Nothing),
            _ => None,
        }
    }
}

/// What a record says.
#[derive(Clone, Copy, PartialEq, Eq, Debug)]
pub struct Record {
    pub kind: Kind,
    /// Those of the input, whether there is a value or not.
    pub places: u8,
    /// The value's binary32, and 0 where there is no value.
    pub bits: u32,
}

impl Record {
    /// The record of a reading.
    pub fn new(reading: Reading, places: u8) -> Record {
        let (kind, bits) = match reading {
            Reading::Number(display) => (Kind::Value, value_of(display, places).bits),
            Reading::Over => (Kind::Over, 0),
            Reading::Under => (Kind::Under, 0),
            Reading::Nothing => (Kind::Nothing, 0),
        };
        Record { kind, places, bits }
    }

    /// The record as it is written, with two bytes of filler in the middle and
    /// the low byte of the binary32 first.
    pub fn bytes(self) -> [u8; RECORD_LENGTH] {
        let [low, second, third, high] = self.bits.to_le_bytes();
        let kind = self.kind.number();
        [kind, self.places, 0, 0, low, second, third, high]
    }
}

/// The display divided by its power of ten, rounded once.
pub fn value_of(display: i128, places: u8) -> Nearest {
    nearest(display, 10_i128.pow(u32::from(places)))
}

/// Why a reader takes no record of some bytes. The first of these that applies is
/// the answer.
#[derive(Clone, Copy, PartialEq, Eq, Debug)]
pub enum Refusal {
    /// 30: there are more bytes or fewer than a record has.
    Length,
    /// 31: no kind has this number.
    Kind,
    /// 32: the filler is not zero, or no input has so many places.
    FillerOrPlaces,
    /// 33: no display has these bits with these places; or bits are set, and
    /// there is no value.
    Bits,
}

impl Refusal {
    pub fn number(self) -> u8 {
        match self {
            Refusal::Length => 30,
            Refusal::Kind => 31,
            Refusal::FillerOrPlaces => 32,
            Refusal::Bits => 33,
        }
    }
}

/// Takes records back. What bits a display can have is not worked out backwards
/// but looked up among the bits of every display there is.
#[derive(Clone, Debug)]
pub struct Reader {
    /// For each number of places the bits of all displays, sorted.
    tables: Vec<Vec<u32>>,
}

impl Default for Reader {
    fn default() -> Self {
        Reader::new()
    }
}

impl Reader {
    pub fn new() -> Reader {
        let tables = (0..=MOST_PLACES).map(bits_of_every_display).collect();
        Reader { tables }
    }

    /// What the bytes say, if they are a record that some reading has.
    pub fn read(&self, bytes: &[u8]) -> Result<Record, Refusal> {
        let bytes: [u8; RECORD_LENGTH] = bytes.try_into().map_err(|_| Refusal::Length)?;
        let [kind, places, third, fourth, bits @ ..] = bytes;
        let kind = Kind::numbered(kind).ok_or(Refusal::Kind)?;
        if third != 0 || fourth != 0 || places > MOST_PLACES {
            return Err(Refusal::FillerOrPlaces);
        }
        let bits = u32::from_le_bytes(bits);
        let some_reading_has_them = match kind {
            Kind::Value => self.some_display_has(bits, places),
            Kind::Over | Kind::Under | Kind::Nothing => bits == 0,
        };
        if !some_reading_has_them {
            return Err(Refusal::Bits);
        }
        Ok(Record { kind, places, bits })
    }

    fn some_display_has(&self, bits: u32, places: u8) -> bool {
        let table = &self.tables[usize::from(places)];
        table.binary_search(&bits).is_ok()
    }
}

fn bits_of_every_display(places: u8) -> Vec<u32> {
    let displays = i128::from(LOWEST_DISPLAY)..=i128::from(HIGHEST_DISPLAY);
    let mut table: Vec<u32> = displays
        .map(|display| value_of(display, places).bits)
        .collect();
    table.sort_unstable();
    table
}
