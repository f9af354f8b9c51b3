//! The receiver, which gathers a string byte by byte.

/// The most bytes that a string may have before its end.
pub const LONGEST_STRING: usize = 32;

const CARRIAGE_RETURN: u8 = 0x0D;
const LINE_FEED: u8 = 0x0A;

/// What has been gathered since the last string's end.
#[derive(Clone, PartialEq, Eq, Debug)]
pub enum Receiver {
    Gathering(Vec<u8>),
    /// More bytes came than a string may have. None of them is kept.
    TooLong,
}

/// What one received byte comes to.
#[derive(Clone, PartialEq, Eq, Debug)]
pub enum Received {
    /// The byte belongs to a string that goes on.
    Taken,
    /// The byte was CR or LF, and what had been gathered is gone.
    LineEnd,
    /// `*` or `$` ended this string.
    Ended(Vec<u8>),
    /// `*` or `$` ended a string that had been too long.
    EndedTooLong,
}

impl Receiver {
    pub fn empty() -> Receiver {
        Receiver::Gathering(Vec::new())
    }

    /// Takes one byte as it is. Every end leaves the receiver empty (the table
    /// of answers, rows 1 and 3 to 6; The register strings, paragraph 1,
    /// sentence 3).
    pub fn take(&mut self, byte: u8) -> Received {
        match byte {
            CARRIAGE_RETURN | LINE_FEED => {
                *self = Receiver::empty();
                Received::LineEnd
            }
            b'*' | b'$' => self.end_string(),
            _ => {
                self.store(byte);
                Received::Taken
            }
        }
    }

    fn end_string(&mut self) -> Received {
        match std::mem::replace(self, Receiver::empty()) {
            Receiver::Gathering(string) => Received::Ended(string),
            Receiver::TooLong => Received::EndedTooLong,
        }
    }

    /// Stores the byte where there is room for it, and otherwise gives the
    /// whole string up.
    fn store(&mut self, byte: u8) {
        if let Receiver::Gathering(string) = self {
            if string.len() < LONGEST_STRING {
                string.push(byte);
            } else {
                *self = Receiver::TooLong;
            }
        }
    }
}
