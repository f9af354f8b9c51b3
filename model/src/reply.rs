//! Reply lines and the block print.

use crate::config::Configuration;
use crate::reading::Reading;
use crate::total::Total;

const DATA_WIDTH: usize = 12;
const LINE_END: &[u8] = b"\r\n";
const BLOCK_END: &[u8] = b" \r\n";

/// One line of a reply, with or without the part in front that says whose and
/// which number it is (Reply lines, sentences 1 to 3).
pub fn line(configuration: &Configuration, mnemonic: &str, data: &str) -> Vec<u8> {
    let mut bytes = Vec::new();
    if !configuration.abbreviated {
        bytes.extend_from_slice(node_field(configuration.node).as_bytes());
        bytes.push(b' ');
        bytes.extend_from_slice(mnemonic.as_bytes());
    }
    bytes.extend_from_slice(format!("{data:>DATA_WIDTH$}").as_bytes());
    bytes.extend_from_slice(LINE_END);
    bytes
}

/// A block print: its lines and a mark behind the last one. Where no line is
/// chosen there is no mark either (Reply lines, paragraph 2).
pub fn block(chosen_lines: &[Vec<u8>]) -> Vec<u8> {
    let mut bytes = chosen_lines.concat();
    if !chosen_lines.is_empty() {
        bytes.extend_from_slice(BLOCK_END);
    }
    bytes
}

/// The node in the width of two, blank for the node that needs no address.
fn node_field(node: i32) -> String {
    if node == 0 {
        "  ".to_string()
    } else {
        format!("{node:02}")
    }
}

/// The data of a reading, a max or a min (Reply lines, sentence 7).
pub fn reading_data(reading: Reading, places: i32) -> String {
    match reading {
        Reading::Nothing => "----".to_string(),
        Reading::Over => "OLOL".to_string(),
        Reading::Under => "ULUL".to_string(),
        Reading::Number(number) => number_data(number, places),
    }
}

/// The data of the total, which is never missing (Reply lines, sentence 7).
pub fn total_data(total: Total, places: i32) -> String {
    match total {
        Total::Over => "OLOL".to_string(),
        Total::Under => "ULUL".to_string(),
        Total::Number(number) => number_data(number, places),
    }
}

/// A number with its decimal places. Zeros are put in front until the point has
/// a digit before it (Reply lines, sentence 4).
pub fn number_data(number: i128, places: i32) -> String {
    let places = places as usize;
    let sign = if number < 0 { "-" } else { "" };
    let digits = format!("{:0width$}", number.abs(), width = places + 1);
    let (before, behind) = digits.split_at(digits.len() - places);
    if places == 0 {
        format!("{sign}{before}")
    } else {
        format!("{sign}{before}.{behind}")
    }
}

#[cfg(test)]
mod tests {
    use super::*;

    #[test]
    fn numbers_with_places() {
        assert_eq!(number_data(5, 4), "0.0005");
        assert_eq!(number_data(-5, 1), "-0.5");
        assert_eq!(number_data(0, 4), "0.0000");
        assert_eq!(number_data(-199_999_999, 4), "-19999.9999");
        assert_eq!(number_data(874, 1), "87.4");
        assert_eq!(number_data(-7, 0), "-7");
        assert_eq!(number_data(10, 1), "1.0");
    }
}
