//! What a program has written, taken line by line.

use std::fmt;

/// Longer lines than this are no line of any command.
pub const LONGEST_LINE: usize = 1_024;

/// What one side says to a line.
#[derive(Clone, Copy, PartialEq, Eq, Debug)]
pub enum Said<'a> {
    NotAsked,
    Nothing,
    Line(&'a [u8]),
}

impl fmt::Display for Said<'_> {
    fn fmt(&self, out: &mut fmt::Formatter) -> fmt::Result {
        match self {
            Said::NotAsked => write!(out, "(not asked)"),
            Said::Nothing => write!(out, "(nothing)"),
            Said::Line(line) => write!(out, "{}", line.escape_ascii()),
        }
    }
}

/// What a side has written and nobody has looked at yet.
pub struct Written<'a> {
    left: &'a [u8],
}

impl<'a> Written<'a> {
    pub fn new(text: &'a [u8]) -> Written<'a> {
        Written { left: text }
    }

    /// The next line. What lacks its LF is none.
    pub fn next_line(&mut self) -> Said<'a> {
        match self.left.iter().position(|byte| *byte == b'\n') {
            None => Said::Nothing,
            Some(end) => {
                let line = &self.left[..end];
                self.left = &self.left[end + 1..];
                Said::Line(line)
            }
        }
    }

    /// Whatever is left, as far as anyone wants to see it.
    pub fn rest(&self) -> Said<'a> {
        match self.left {
            [] => Said::Nothing,
            left => Said::Line(&left[..left.len().min(LONGEST_LINE)]),
        }
    }
}
