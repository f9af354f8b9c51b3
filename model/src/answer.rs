//! The answers of document 01's table. The number 7 is no answer any more:
//! document 02, ticket 5 withdraws it, and the others keep their numbers.

use crate::config::Rule;

/// What a call gives back to its caller.
#[derive(Clone, Copy, PartialEq, Eq, Debug)]
pub enum Answer {
    /// 0: what was asked for has been done, and no reply belongs to it.
    CarriedOut,
    /// 1: the receiver took the byte in, and no string has ended.
    ByteTaken,
    /// 2: a reply of so many bytes stands in the buffer.
    ReplyWritten(usize),
    /// 3: the string names some other meter.
    OtherNode,
    /// 4: the string is not built as the forms ask.
    BadForm,
    /// 5: a CR or an LF came.
    LineEndReceived,
    /// 6: the string that ended here had outgrown the receiver.
    StringTooLong,
    /// 8: the analog code is not the host's to write now.
    AnalogInAutomatic,
    /// 9: the reply does not fit behind the place.
    NoRoom,
    /// 10: this meter has no such key.
    UnknownKey,
    /// 11: the configuration breaks this rule.
    ConfigurationRefused(Rule),
    /// 12: nothing was powered up that could take the event.
    NotStarted,
}

/// Each answer's number with a short name.
pub const ANSWER_NAMES: [(usize, &str); 12] = [
    (0, "carried out"),
    (1, "byte taken"),
    (2, "reply written"),
    (3, "for another node"),
    (4, "bad form"),
    (5, "CR or LF received"),
    (6, "string too long"),
    (8, "analog in automatic"),
    (9, "no room for reply"),
    (10, "unknown key"),
    (11, "configuration refused"),
    (12, "meter not started"),
];

impl Answer {
    /// The first column of the table (The meter's edges; document 02, ticket 5).
    pub fn number(self) -> usize {
        match self {
            Answer::CarriedOut => 0,
            Answer::ByteTaken => 1,
            Answer::ReplyWritten(_) => 2,
            Answer::OtherNode => 3,
            Answer::BadForm => 4,
            Answer::LineEndReceived => 5,
            Answer::StringTooLong => 6,
            Answer::AnalogInAutomatic => 8,
            Answer::NoRoom => 9,
            Answer::UnknownKey => 10,
            Answer::ConfigurationRefused(_) => 11,
            Answer::NotStarted => 12,
        }
    }

    /// The number that goes with the answer, 0 for most (The meter's edges,
    /// third sentence under the table).
    pub fn carried_number(self) -> usize {
        match self {
            Answer::ReplyWritten(bytes) => bytes,
            Answer::ConfigurationRefused(rule) => rule.number(),
            _ => 0,
        }
    }
}
