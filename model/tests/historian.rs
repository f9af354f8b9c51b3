//! The program `historian` (document 02, ticket 12): worked values, every refusal
//! and their order, and the lines.

use meter_model::binary32::Rounding;
use meter_model::historian::Historian;
use meter_model::lines::lines_of;
use meter_model::record::value_of;
use std::collections::HashSet;
use std::io::Write;
use std::process::{Command, Stdio};
use std::sync::OnceLock;

/// Its tables are made once for all tests.
static HISTORIAN: OnceLock<Historian> = OnceLock::new();

/// What is printed for a whole text.
fn printed(text: &[u8]) -> String {
    let historian = HISTORIAN.get_or_init(Historian::new);
    let mut output = Vec::new();
    for line in lines_of(text) {
        historian.line(line, &mut output);
    }
    String::from_utf8(output).expect("only ASCII is printed")
}

/// Each line prints this.
fn prints(lines: &[(&str, &str)]) {
    let mut text = String::new();
    let mut expected = String::new();
    for (line, print) in lines {
        text += &format!("{line}\n");
        expected += &format!("{line}: {print}\n");
    }
    let printed = printed(text.as_bytes());
    let got: String = lines
        .iter()
        .zip(printed.lines())
        .map(|((line, _), print)| format!("{line}: {print}\n"))
        .collect();
    assert_eq!(got, expected);
    assert_eq!(printed.lines().count(), lines.len());
}

#[test]
fn without_places_the_value_is_the_display() {
    prints(&[
        ("W 0 0", "0000000000000000"),
        ("W 1 0", "000000000000803f"),
        ("W -1 0", "00000000000080bf"),
        ("W 7 0", "000000000000e040"),
        ("W 65536 0", "0000000000008047"),
        ("W 99999 0", "00000000804fc347"),
        ("W -19999 0", "00000000003e9cc6"),
    ]);
}

#[test]
fn the_greatest_display_with_each_number_of_places() {
    prints(&[
        ("W 99999 0", "00000000804fc347"),
        ("W 99999 1", "000100009a3f1c46"),
        ("W 99999 2", "000200005cff7944"),
        ("W 99999 3", "000300007dffc742"),
        ("W 99999 4", "0004000097ff1f41"),
    ]);
}

#[test]
fn quotients_are_rounded_to_the_nearest_number() {
    prints(&[
        // The number that is nearest to 1/10 lies farther from 0, and so does that
        // of 1309/1000.
        ("W 1 1", "00010000cdcccc3d"),
        ("W -1 1", "00010000cdccccbd"),
        ("W -1309 3", "00030000508da7bf"),
        // Those of 7/10 and of 1/10000 lie nearer to it.
        ("W 7 1", "000100003333333f"),
        ("W -7 1", "00010000333333bf"),
        ("W 1 4", "0004000017b7d138"),
        // Halves, quarters and the like are exact.
        ("W 5 1", "000100000000003f"),
        ("W -25 2", "00020000000080be"),
        ("W 625 4", "000400000000803d"),
        ("W 10000 4", "000400000000803f"),
        ("W 0 4", "0004000000000000"),
    ]);
}

/// The comparison with the machine's own float division is a test. The model has
/// no float in it.
#[test]
fn every_value_is_that_of_a_single_float_division() {
    for (places, power) in (0..).zip([1.0_f32, 10.0, 100.0, 1_000.0, 10_000.0]) {
        for display in -19_999_i32..=99_999 {
            let value = value_of(i128::from(display), places).bits;
            let quotient = display as f32 / power;
            assert_eq!(value, quotient.to_bits(), "{display}, {places} places");
        }
    }
}

#[test]
fn no_quotient_is_a_tie_and_no_two_displays_have_the_same_bits() {
    for places in 0..=4 {
        let values: Vec<_> = (-19_999..=99_999)
            .map(|display| value_of(display, places))
            .collect();
        assert!(values.iter().all(|value| value.rounding != Rounding::Tie));
        let bits: HashSet<u32> = values.iter().map(|value| value.bits).collect();
        assert_eq!(bits.len(), 119_999);
    }
}

#[test]
fn marks_keep_the_places_of_the_input() {
    prints(&[
        ("W OL 0", "0100000000000000"),
        ("W OL 3", "0103000000000000"),
        ("W UL 0", "0200000000000000"),
        ("W UL 4", "0204000000000000"),
        ("W -- 0", "0300000000000000"),
        ("W -- 1", "0301000000000000"),
    ]);
}

#[test]
fn records_are_read_back() {
    prints(&[
        ("R 0000000000000000", "0 0 00000000"),
        ("R 0004000000000000", "0 4 00000000"),
        ("R 00010000cdcccc3d", "0 1 3dcccccd"),
        ("R 00010000333333bf", "0 1 bf333333"),
        ("R 0004000017b7d138", "0 4 38d1b717"),
        ("R 00000000804fc347", "0 0 47c34f80"),
        ("R 0103000000000000", "1 3 00000000"),
        ("R 0204000000000000", "2 4 00000000"),
        ("R 0300000000000000", "3 0 00000000"),
    ]);
}

#[test]
fn digits_are_read_in_either_case() {
    prints(&[
        ("R 00010000CDCCCC3D", "0 1 3dcccccd"),
        ("R 00010000CdcCcC3d", "0 1 3dcccccd"),
        ("R 00000000003E9CC6", "0 0 c69c3e00"),
    ]);
}

#[test]
fn records_have_eight_bytes() {
    for bytes in (0..=64).filter(|bytes| *bytes != 8) {
        let digits = match bytes {
            0 => "-".to_string(),
            _ => "00".repeat(bytes),
        };
        prints(&[(&format!("R {digits}"), "30")]);
    }
    prints(&[
        ("R 00010000cdcccc", "30"),
        ("R 00010000cdcccc3d00", "30"),
        ("R 0103000000000000ff", "30"),
    ]);
}

#[test]
fn kinds_go_up_to_three() {
    for kind in 4..=255 {
        prints(&[(&format!("R {kind:02x}00000000000000"), "31")]);
    }
}

#[test]
fn filler_is_zero_and_places_go_up_to_four() {
    for byte in 1..=255 {
        prints(&[
            (&format!("R 0001{byte:02x}00cdcccc3d"), "32"),
            (&format!("R 000100{byte:02x}cdcccc3d"), "32"),
            (&format!("R 0301{byte:02x}0000000000"), "32"),
        ]);
    }
    for places in 5..=255 {
        prints(&[
            (&format!("R 00{places:02x}000000000000"), "32"),
            (&format!("R 02{places:02x}000000000000"), "32"),
        ]);
    }
}

#[test]
fn bits_are_those_of_some_display_with_these_places() {
    prints(&[
        // One unit in the last place beside 0.1, 1 and 9.9999.
        ("R 00010000cccccc3d", "33"),
        ("R 00010000cecccc3d", "33"),
        ("R 000000000100803f", "33"),
        ("R 00000000ffff7f3f", "33"),
        ("R 0004000096ff1f41", "33"),
        ("R 0004000098ff1f41", "33"),
        // 0.1 with no places, and 0.01 with one; 0.1 with four is a display's.
        ("R 00000000cdcccc3d", "33"),
        ("R 000100000ad7233c", "33"),
        ("R 00040000cdcccc3d", "0 4 3dcccccd"),
        // 0.5 is a display's with one place or more.
        ("R 000000000000003f", "33"),
        ("R 000100000000003f", "0 1 3f000000"),
        // 100000, -20000 and -99999, which no display shows, and 10 with four
        // places, which would be 100000.
        ("R 000000000050c347", "33"),
        ("R 0000000000409cc6", "33"),
        ("R 00000000804fc3c7", "33"),
        ("R 0004000000002041", "33"),
        ("R 0003000000002041", "0 3 41200000"),
        // Bits with the high byte first.
        ("R 000100003dcccccd", "33"),
    ]);
}

#[test]
fn no_display_is_minus_zero_infinite_or_not_a_number() {
    for bits in [
        "00000080", "01000000", "ffff7f00", "01000080", "0000807f", "000080ff", "0000c07f",
        "0000c0ff", "0100807f", "010080ff", "ffffffff", "ffff7f7f",
    ] {
        for places in 0..=4 {
            prints(&[(&format!("R 00{places:02x}0000{bits}"), "33")]);
        }
    }
}

#[test]
fn where_there_is_no_value_there_are_no_bits() {
    for kind in 1..=3 {
        for bits in ["01000000", "00000080", "cdcccc3d", "0000c07f"] {
            prints(&[(&format!("R {kind:02x}010000{bits}"), "33")]);
        }
    }
}

#[test]
fn the_first_refusal_that_applies_is_printed() {
    prints(&[
        // Seven or nine bytes, whatever else is wrong.
        ("R 04000000000000", "30"),
        ("R ff0501010000c07fff", "30"),
        ("R 000500000000c07f00", "30"),
        ("R 000100000000c07f00", "30"),
        // A kind that is none, before filler, places and bits.
        ("R 0401010000000000", "31"),
        ("R 0405000000000000", "31"),
        ("R 040100000000c07f", "31"),
        ("R ff0501010000c07f", "31"),
        // Filler and places, before bits.
        ("R 000101000000c07f", "32"),
        ("R 000100010000c07f", "32"),
        ("R 000500000000c07f", "32"),
        ("R 0105000001000000", "32"),
        ("R 0101000101000000", "32"),
    ]);
}

#[test]
fn numbers_may_have_zeros_in_front_up_to_ten_digits() {
    prints(&[
        ("W -0 1", "0001000000000000"),
        ("W 0000000001 1", "00010000cdcccc3d"),
        ("W -0000000001 0000000001", "00010000cdccccbd"),
        ("W 1 01", "00010000cdcccc3d"),
        ("W 1 -0", "000000000000803f"),
        ("W OL 04", "0104000000000000"),
        ("W 00000000001 1", "?"),
        ("W -00000000001 1", "?"),
        ("W 1 00000000001", "?"),
    ]);
}

#[test]
fn readings_and_places_are_within_their_limits() {
    prints(&[
        ("W 100000 0", "?"),
        ("W -20000 0", "?"),
        ("W 4294967297 0", "?"),
        ("W -4294967295 0", "?"),
        ("W 9999999999 0", "?"),
        ("W 1 5", "?"),
        ("W 1 -1", "?"),
        ("W 1 256", "?"),
        ("W 1 4294967297", "?"),
        ("W OL 5", "?"),
        ("W UL -1", "?"),
        ("W -- 5", "?"),
    ]);
}

#[test]
fn lines_that_are_not_of_the_format() {
    let sixty_five_bytes = format!("R {}", "00".repeat(65));
    let half_a_byte_more = format!("R {}0", "00".repeat(64));
    let long = format!("W {}", "0".repeat(5_000));
    for line in [
        "",
        " ",
        "?",
        "W",
        "W ",
        "W 1",
        "W 1 ",
        "W 1 1 ",
        "W  1 1",
        "W 1  1",
        " W 1 1",
        "W 1 1 1",
        "W\t1\t1",
        "W 1 1\r",
        "w 1 1",
        "W1 1",
        "W +1 1",
        "W 1.0 1",
        "W 1e1 1",
        "W - 1",
        "W --- 1",
        "W ol 1",
        "W OL",
        "W OL1",
        "W OLX 1",
        "W 1 OL",
        "R",
        "R ",
        "R  ",
        "R  -",
        "R - ",
        "R --",
        "R 0",
        "R 000000000000000",
        "R 00000000000000000",
        "R 00010000cdcccc3d ",
        "R 00010000cdcccc3d\r",
        "R  00010000cdcccc3d",
        "R 00010000 cdcccc3d",
        "R 0x010000cdcccc3d",
        "R 0001000gcdcccc3d",
        "r 00010000cdcccc3d",
        "R00010000cdcccc3d",
        "S 1",
        "hello",
        "\u{0661}",
        &sixty_five_bytes,
        &half_a_byte_more,
        &long,
    ] {
        prints(&[("W 1 1", "00010000cdcccc3d"), (line, "?"), ("R -", "30")]);
    }
}

/// What the binary prints for a text on its standard input.
fn run(text: &[u8]) -> String {
    let mut child = Command::new(env!("CARGO_BIN_EXE_model"))
        .arg("historian")
        .stdin(Stdio::piped())
        .stdout(Stdio::piped())
        .spawn()
        .expect("the model runs");
    let mut input = child.stdin.take().expect("the input is piped");
    input.write_all(text).expect("the model reads");
    drop(input);
    let output = child.wait_with_output().expect("the model ends");
    assert!(output.status.success());
    String::from_utf8(output.stdout).expect("only ASCII is printed")
}

#[test]
fn the_last_line_may_lack_its_end() {
    assert_eq!(run(b""), "");
    assert_eq!(run(b"\n"), "?\n");
    assert_eq!(run(b"R -"), "30\n");
    assert_eq!(run(b"R -\n"), "30\n");
    assert_eq!(run(b"R -\n\n"), "30\n?\n");
    assert_eq!(run(b"W UL 2\nW 5 1\r"), "0202000000000000\n?\n");
    assert_eq!(run(b"W \xff 0\nR 0\x000\nR -"), "?\n?\n30\n");
}
