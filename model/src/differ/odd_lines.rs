//! Lines that are nearly of the historian's format, and lines that look odd and
//! are of it all the same.

use super::random::Random;
use super::records::MOST_BYTES;

/// Lines in which something is amiss: with the spaces, the letters, a number, the
/// places, a mark, the digits or the number of digits.
pub const NO_LINES: &[&str] = &[
    "",
    " ",
    "  ",
    "?",
    "hello",
    "W",
    "R",
    "W ",
    "R ",
    "W  ",
    "R  ",
    "-",
    "W -",
    "W 5",
    "W 5 ",
    "W 5 0 ",
    "W 5 0  ",
    " W 5 0",
    "W  5 0",
    "W 5  0",
    "W 5 0 0",
    "W 5 0 x",
    "W5 0",
    "W 50",
    "W  0",
    "W\t5\t0",
    "W\t5 0",
    "W 5\t0",
    "W 5 0\t",
    "W 5 0\r",
    "W 5\r 0",
    "\rW 5 0",
    "W 5 0\u{b}",
    "W 5 0\u{0}",
    "\u{0}W 5 0",
    "W 5\u{a0}0",
    "w 5 0",
    "WW 5 0",
    "X 5 0",
    "S 5",
    "K 5 0",
    "B 5 0",
    "W +5 0",
    "W 5+ 0",
    "W 5- 0",
    "W --5 0",
    "W - 5 0",
    "W - 0",
    "W + 0",
    "W . 0",
    "W 5.0 0",
    "W 5. 0",
    "W .5 0",
    "W 5,0 0",
    "W 1e3 0",
    "W 0x5 0",
    "W 5h 0",
    "W a 0",
    "W 5_000 0",
    "W \u{661} 0",
    "W 100000 0",
    "W 100001 4",
    "W -20000 0",
    "W -20001 4",
    "W -99999 0",
    "W 0000100000 0",
    "W 131077 0",
    "W 1000000 0",
    "W 2147483647 0",
    "W 2147483648 0",
    "W -2147483648 0",
    "W -2147483649 0",
    "W 4294967295 0",
    "W 4294967296 0",
    "W 4294967301 0",
    "W -4294967291 0",
    "W 9999999999 0",
    "W -9999999999 0",
    "W 00000000005 0",
    "W -00000000005 0",
    "W 00000000000 0",
    "W 10000000005 0",
    "W 18446744073709551621 0",
    "W 340282366920938463463374607431768211461 0",
    "W 5 5",
    "W 5 6",
    "W 5 9",
    "W 5 10",
    "W 5 -1",
    "W 5 -4",
    "W 5 05",
    "W 5 +1",
    "W 5 1.0",
    "W 5 .",
    "W 5 -",
    "W 5 x",
    "W 5 256",
    "W 5 258",
    "W 5 -254",
    "W 5 65536",
    "W 5 4294967296",
    "W 5 4294967300",
    "W 5 -4294967294",
    "W 5 00000000004",
    "W 5 OL",
    "W 5 --",
    "W 0 5",
    "W ol 0",
    "W Ol 0",
    "W oL 0",
    "W ul 0",
    "W uL 0",
    "W OL",
    "W OL ",
    "W OL 5",
    "W UL 5",
    "W -- 5",
    "W OL -1",
    "W UL -1",
    "W -- -1",
    "W OL  0",
    "W OL 0 ",
    "W OLL 0",
    "W OL0 0",
    "W -OL 0",
    "W 0L 0",
    "W O 0",
    "W L 0",
    "W --- 0",
    "W ---- 0",
    "W -- - 0",
    "W OVER 0",
    "W NaN 0",
    "W inf 0",
    "W LO 0",
    "R  -",
    "R - ",
    "R --",
    "R -0",
    "R 0-",
    "R -00",
    "R 00-",
    "R -\r",
    "R\t-",
    "r -",
    "R-",
    "R -\t",
    "R 0",
    "R 000",
    "R 00000000000000000",
    "R 000000000000000",
    "R  0000000000000000",
    "R 0000000000000000 ",
    "R 0000000000000000\r",
    "R 0000000000000000\t",
    " R 0000000000000000",
    "r 0000000000000000",
    "RR 0000000000000000",
    "R0000000000000000",
    "R\t0000000000000000",
    "R 00000000 00000000",
    "R 0000000000000000 0",
    "R 00 00 00 00 00 00 00 00",
    "R 0000000000000000h",
    "R 0x00000000000000",
    "R 0x0000000000000000",
    "R 000000000000000g",
    "R g000000000000000",
    "R 000000000000000G",
    "R 000000000000000/",
    "R 000000000000000:",
    "R 000000000000000@",
    "R 000000000000000`",
    "R 0000000/00000000",
    "R +000000000000000",
    "R -000000000000000",
    "R 000000000000000.",
    "R 00000000000000 0",
    "R zz",
    "R OL",
    "R 5 0",
    "R 0\u{e9}",
    "W 0000000000000000",
    "W 5 0 R -",
];

/// Lines that look odd and are of the format all the same.
pub const ODD_LINES: &[&str] = &[
    "W -0 0",
    "W -0 4",
    "W -0000000000 0",
    "W 0000000000 0000000000",
    "W 00 00",
    "W 5 04",
    "W 5 -0",
    "W 5 -00",
    "W 5 0000000004",
    "W 5 -0000000000",
    "W 0000099999 4",
    "W -0000019999 4",
    "W 099999 0",
    "W -019999 0",
    "W -5 1",
    "W -00005 1",
    "W OL 04",
    "W UL -0",
    "W -- 0000000000",
    "R -",
    "R 00",
    "R ABCDEF",
    "R aBcDeF",
];

/// Bytes that mean something to the format, or nearly so.
const TELLING_BYTES: &[u8] = b"  \t\r\0--+.,0145699aAfFgGhxXOLUolWRwr/:@`\x7f\x80\xa0\xb0\xff";

/// Lines of a byte or a digit too many, and far longer ones.
pub fn too_many_bytes() -> Vec<Vec<u8>> {
    let most = 2 * MOST_BYTES;
    let mut lines = Vec::new();
    for digits in [most + 1, most + 2, most + 16, 1_022, 1_024, 2_048, 70_000] {
        lines.push(with_so_many(b"R ", b'0', digits, b""));
        lines.push(with_so_many(b"R 00010000cdcccc3d", b'0', digits, b""));
        lines.push(with_so_many(b"W ", b'0', digits, b"5 0"));
        lines.push(with_so_many(b"W 5 ", b'0', digits, b""));
        lines.push(with_so_many(b"W 5 0", b' ', digits, b""));
        lines.push(with_so_many(b"", b' ', digits, b"W 5 0"));
        lines.push(with_so_many(b"W ", b'-', digits, b" 0"));
    }
    lines
}

fn with_so_many(front: &[u8], byte: u8, count: usize, end: &[u8]) -> Vec<u8> {
    [front, &vec![byte; count], end].concat()
}

/// Changes a line in one place, or cuts it there.
pub fn change(random: &mut Random, line: &mut Vec<u8>) {
    let telling = random.pick(TELLING_BYTES);
    if line.is_empty() {
        line.push(telling);
        return;
    }
    let at = random.below(line.len());
    match random.below(9) {
        0 => {
            line.remove(at);
        }
        1 => line.insert(at, line[at]),
        2 => line.insert(at, telling),
        3 => line[at] = telling,
        4 => line.push(telling),
        5 => line.insert(0, telling),
        6 => line[0] ^= 0x20,
        7 => line.truncate(at),
        _ => {
            let other = random.below(line.len());
            line.swap(at, other);
        }
    }
}

/// A line of digits, spaces or any one byte, around the longest record that a line
/// can hold, and around what a buffer may hold.
pub fn long_line(random: &mut Random) -> Vec<u8> {
    let near = random.pick(&[2 * MOST_BYTES, 256, 1_024, 4_096]);
    let length = near + random.below(9) - 4;
    let front: &[u8] = random.pick(&[b"R ", b"R ", b"W ", b"W 5 ", b"R", b""]);
    let end: &[u8] = random.pick(&[b"", b"", b" 0", b"\r"]);
    let byte = random.pick(b"00aF9 -gRW\0\xff");
    with_so_many(front, byte, length, end)
}

#[cfg(test)]
mod tests {
    use super::*;
    use crate::historian::{Historian, Outcome};

    #[test]
    fn lines_are_what_they_are_listed_for() {
        let historian = Historian::new();
        let understood = |line: &[u8]| {
            let outcome = historian.line(line, &mut Vec::new());
            outcome != Outcome::NotUnderstood
        };
        for line in ODD_LINES {
            assert!(understood(line.as_bytes()), "{line:?}");
        }
        for line in NO_LINES {
            assert!(!understood(line.as_bytes()), "{line:?}");
        }
        for line in too_many_bytes() {
            assert!(!understood(&line), "{line:?}");
        }
    }
}
