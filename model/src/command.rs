//! The register strings: address, command, register and data.

use crate::analog::HIGHEST_CODE;
use crate::config::{HIGHEST_DISPLAY, LOWEST_DISPLAY};

/// The ten registers. A setpoint carries its alarm's index, 0 to 3.
#[derive(Clone, Copy, PartialEq, Eq, Debug)]
pub enum Register {
    Input,
    Total,
    Max,
    Min,
    Setpoint(usize),
    AnalogOutput,
    ControlStatus,
}

/// A string that is well formed and for this meter. The number that it writes
/// lies within its register's limits.
#[derive(Clone, Copy, PartialEq, Eq, Debug)]
pub enum Command {
    Transmit(Register),
    WriteSetpoint(usize, i128),
    WriteAnalogOutput(i128),
    WriteControlStatus(u8),
    ResetTotal,
    ResetMax,
    ResetMin,
    ResetAlarm(usize),
    BlockPrint,
}

/// Why a string is not carried out, as far as the string alone can tell.
#[derive(Clone, Copy, PartialEq, Eq, Debug)]
pub enum Refusal {
    OtherNode,
    BadForm,
}

/// The lowest and the highest number that a register holds.
#[derive(Clone, Copy, PartialEq, Eq, Debug)]
pub struct Limits {
    pub lowest: i128,
    pub highest: i128,
}

/// A setpoint holds what a display can show (The register strings, paragraph 3,
/// sentence 2).
pub const SETPOINT_LIMITS: Limits = Limits {
    lowest: LOWEST_DISPLAY as i128,
    highest: HIGHEST_DISPLAY as i128,
};

/// The analog register holds a code (The register strings, paragraph 3,
/// sentence 2).
pub const CODE_LIMITS: Limits = Limits {
    lowest: 0,
    highest: HIGHEST_CODE,
};

/// What the data of a V string comes to as a number.
#[derive(Clone, Copy, PartialEq, Eq, Debug)]
pub enum WrittenNumber {
    BadForm,
    /// The number itself, which lies within the limits.
    Itself(i128),
    /// The limit that stands in for a number past it.
    HeldTo(i128),
}

/// Judges a string that the receiver could hold: whom it is for, and then how
/// it is built. What it writes is no reason to refuse it (The meter's edges, the
/// first sentence under the table; The register strings, paragraph 1, sentence
/// 1, and paragraph 2, sentence 4; document 02, ticket 5).
pub fn understand(string: &[u8], own_node: i32) -> Result<Command, Refusal> {
    let (node, body) = split_address(string)?;
    if node != own_node {
        return Err(Refusal::OtherNode);
    }
    match body.split_first() {
        Some((b'T', rest)) => transmit(rest),
        Some((b'V', rest)) => write(rest),
        Some((b'R', rest)) => reset(rest),
        Some((b'P', rest)) => block_print(rest),
        _ => Err(Refusal::BadForm),
    }
}

/// Parts the address from the rest: an N and the digits behind it, two at most.
/// A string without N is for node 0. An N that no digit follows is wrong for
/// every meter (The register strings, paragraph 1, sentences 1 and 2).
fn split_address(string: &[u8]) -> Result<(i32, &[u8]), Refusal> {
    let Some((b'N', after)) = string.split_first() else {
        return Ok((0, string));
    };
    let digits = after
        .iter()
        .take(2)
        .take_while(|byte| byte.is_ascii_digit())
        .count();
    if digits == 0 {
        return Err(Refusal::BadForm);
    }
    let node = after[..digits]
        .iter()
        .fold(0, |node, digit| 10 * node + i32::from(digit - b'0'));
    Ok((node, &after[digits..]))
}

/// T reads any register (The register strings, paragraph 2, sentences 2 and 3).
fn transmit(rest: &[u8]) -> Result<Command, Refusal> {
    let register = match rest {
        b"A" => Register::Input,
        b"B" => Register::Total,
        b"C" => Register::Max,
        b"D" => Register::Min,
        b"E" => Register::Setpoint(0),
        b"F" => Register::Setpoint(1),
        b"G" => Register::Setpoint(2),
        b"H" => Register::Setpoint(3),
        b"I" => Register::AnalogOutput,
        b"J" => Register::ControlStatus,
        _ => return Err(Refusal::BadForm),
    };
    Ok(Command::Transmit(register))
}

/// R resets what can be reset (The register strings, paragraph 2, sentences 2
/// and 3).
fn reset(rest: &[u8]) -> Result<Command, Refusal> {
    match rest {
        b"B" => Ok(Command::ResetTotal),
        b"C" => Ok(Command::ResetMax),
        b"D" => Ok(Command::ResetMin),
        b"E" => Ok(Command::ResetAlarm(0)),
        b"F" => Ok(Command::ResetAlarm(1)),
        b"G" => Ok(Command::ResetAlarm(2)),
        b"H" => Ok(Command::ResetAlarm(3)),
        _ => Err(Refusal::BadForm),
    }
}

/// P stands alone (The register strings, paragraph 2, sentences 2 and 3).
fn block_print(rest: &[u8]) -> Result<Command, Refusal> {
    if rest.is_empty() {
        Ok(Command::BlockPrint)
    } else {
        Err(Refusal::BadForm)
    }
}

/// V writes the registers that can be written, each with its own kind of data
/// (The register strings, paragraph 2, sentences 2 and 3).
fn write(rest: &[u8]) -> Result<Command, Refusal> {
    match rest.split_first() {
        Some((b'E', data)) => write_setpoint(0, data),
        Some((b'F', data)) => write_setpoint(1, data),
        Some((b'G', data)) => write_setpoint(2, data),
        Some((b'H', data)) => write_setpoint(3, data),
        Some((b'I', data)) => write_analog_output(data),
        Some((b'J', data)) => write_control_status(data),
        _ => Err(Refusal::BadForm),
    }
}

fn write_setpoint(alarm: usize, data: &[u8]) -> Result<Command, Refusal> {
    let number = number_to_write(data, SETPOINT_LIMITS)?;
    Ok(Command::WriteSetpoint(alarm, number))
}

fn write_analog_output(data: &[u8]) -> Result<Command, Refusal> {
    let number = number_to_write(data, CODE_LIMITS)?;
    Ok(Command::WriteAnalogOutput(number))
}

/// The number that the register is to take. A write past a limit sets the limit,
/// and acts from here on as if the limit itself had been written (document 02,
/// ticket 5).
fn number_to_write(data: &[u8], limits: Limits) -> Result<i128, Refusal> {
    match written_number(data, limits) {
        WrittenNumber::BadForm => Err(Refusal::BadForm),
        WrittenNumber::Itself(number) | WrittenNumber::HeldTo(number) => Ok(number),
    }
}

/// The status register's data is a single byte without its top bit (The register
/// strings, paragraph 4, sentence 1).
fn write_control_status(data: &[u8]) -> Result<Command, Refusal> {
    match data {
        [byte] if *byte <= 127 => Ok(Command::WriteControlStatus(*byte)),
        _ => Err(Refusal::BadForm),
    }
}

/// Reads a number as a host writes it. The minus can only lead; points may stand
/// anywhere behind it and mean nothing; of many digits the hindmost five are
/// the number, and only then do the limits hold (The register strings, paragraph
/// 3, sentences 1 and 2; document 02, ticket 5).
pub fn written_number(data: &[u8], limits: Limits) -> WrittenNumber {
    let (negative, rest) = match data.split_first() {
        Some((b'-', rest)) => (true, rest),
        _ => (false, data),
    };
    if !rest
        .iter()
        .all(|byte| byte.is_ascii_digit() || *byte == b'.')
    {
        return WrittenNumber::BadForm;
    }
    let digits: Vec<u8> = rest.iter().copied().filter(|byte| *byte != b'.').collect();
    if digits.is_empty() {
        return WrittenNumber::BadForm;
    }
    let size = last_five(&digits)
        .iter()
        .fold(0, |size, digit| 10 * size + i128::from(digit - b'0'));
    let number = if negative { -size } else { size };
    held_to_limits(number, limits)
}

/// The nearest number that the limits allow (document 02, ticket 5).
fn held_to_limits(number: i128, limits: Limits) -> WrittenNumber {
    if number < limits.lowest {
        WrittenNumber::HeldTo(limits.lowest)
    } else if number > limits.highest {
        WrittenNumber::HeldTo(limits.highest)
    } else {
        WrittenNumber::Itself(number)
    }
}

fn last_five(digits: &[u8]) -> &[u8] {
    &digits[digits.len().saturating_sub(5)..]
}

#[cfg(test)]
mod tests {
    use super::WrittenNumber::{HeldTo, Itself};
    use super::*;

    #[test]
    fn written_numbers() {
        let good: [(&[u8], i128); 9] = [
            (b"1.2.3", 123),
            (b"-.5", -5),
            (b"..7", 7),
            (b"-0", 0),
            (b"-100000", 0),
            (b"00012", 12),
            (b"123456", 23_456),
            (b"5.", 5),
            (b"-1.9999", -19_999),
        ];
        for (data, number) in good {
            assert_eq!(written_number(data, SETPOINT_LIMITS), Itself(number));
        }
        let bad: [&[u8]; 10] = [
            b"", b"-", b".", b"-.", b"--1", b"1-", b".-5", b"+1", b" 1", b"1 ",
        ];
        for data in bad {
            for limits in [SETPOINT_LIMITS, CODE_LIMITS] {
                assert_eq!(written_number(data, limits), WrittenNumber::BadForm);
            }
        }
    }

    #[test]
    fn numbers_past_a_limit() {
        let setpoints: [(&[u8], WrittenNumber); 7] = [
            (b"99999", Itself(99_999)),
            (b"100000", Itself(0)),
            (b"-19999", Itself(-19_999)),
            (b"-20000", HeldTo(-19_999)),
            (b"-120000", HeldTo(-19_999)),
            (b"-119999", Itself(-19_999)),
            (b"-9.99.99", HeldTo(-19_999)),
        ];
        for (data, number) in setpoints {
            assert_eq!(written_number(data, SETPOINT_LIMITS), number);
        }
        let codes: [(&[u8], WrittenNumber); 8] = [
            (b"4095", Itself(4_095)),
            (b"4096", HeldTo(4_095)),
            (b"104095", Itself(4_095)),
            (b"104096", HeldTo(4_095)),
            (b"99999", HeldTo(4_095)),
            (b"0", Itself(0)),
            (b"-0", Itself(0)),
            (b"-1", HeldTo(0)),
        ];
        for (data, number) in codes {
            assert_eq!(written_number(data, CODE_LIMITS), number);
        }
    }

    #[test]
    fn addresses() {
        assert_eq!(split_address(b"N123TA"), Ok((12, &b"3TA"[..])));
        assert_eq!(split_address(b"N005TA"), Ok((0, &b"5TA"[..])));
        assert_eq!(split_address(b"N5TA"), Ok((5, &b"TA"[..])));
        assert_eq!(split_address(b"N05TA"), Ok((5, &b"TA"[..])));
        assert_eq!(split_address(b"TA"), Ok((0, &b"TA"[..])));
        assert_eq!(split_address(b""), Ok((0, &b""[..])));
        assert_eq!(split_address(b"N"), Err(Refusal::BadForm));
        assert_eq!(split_address(b"NN5TA"), Err(Refusal::BadForm));
    }
}
