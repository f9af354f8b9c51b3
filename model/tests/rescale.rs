//! The program `rescale` (document 02, ticket 10), and the numbers that it has
//! in common with the recorded lines.

mod common;

use common::{read, straight, with_points};
use meter_model::config::Configuration;
use meter_model::lines::{configuration_line, lines_of, Replay};
use meter_model::reading::Reading;
use meter_model::rescale::Rescale;
use std::io::Write;
use std::process::{Command, Stdio};

/// What is printed for a whole text.
fn printed(text: &str) -> String {
    let mut rescale = Rescale::new();
    let mut output = Vec::new();
    for line in lines_of(text.as_bytes()) {
        rescale.line(line, &mut output);
    }
    String::from_utf8(output).expect("only ASCII is printed")
}

/// Each line behind an accepted configuration prints this.
fn prints(settings: &Configuration, lines: &[(&str, &str)]) {
    let mut text = configuration_line(settings) + "\n";
    let mut expected = String::from("0 0\n");
    for (line, print) in lines {
        text += &format!("{line}\n");
        expected += &format!("{print}\n");
    }
    assert_eq!(printed(&text), expected);
}

#[test]
fn inputs_are_read_by_the_points() {
    let settings = with_points(straight(), &[(0, 0), (3, 10), (5, -10)]);
    prints(
        &settings,
        &[
            ("1", "3"),
            ("-1", "-3"),
            ("3", "10"),
            ("4", "0"),
            ("6", "-20"),
            ("1", "3"),
        ],
    );
}

#[test]
fn input_limits_are_over_and_under_whichever_way_the_scale_runs() {
    let falling = with_points(straight(), &[(-99_999, 500), (99_999, -500)]);
    for settings in [straight(), falling] {
        prints(
            &settings,
            &[
                ("100000", "OL"),
                ("2147483647", "OL"),
                ("-100000", "UL"),
                ("-2147483648", "UL"),
            ],
        );
    }
}

#[test]
fn what_the_display_cannot_show_is_over_and_under() {
    let rising = with_points(straight(), &[(0, 0), (1, 1_000)]);
    prints(
        &rising,
        &[
            ("99", "99000"),
            ("100", "OL"),
            ("-19", "-19000"),
            ("-20", "UL"),
            ("99999", "OL"),
            ("-99999", "UL"),
        ],
    );
    let falling = with_points(straight(), &[(0, 0), (1, -1_000)]);
    prints(&falling, &[("20", "UL"), ("-100", "OL"), ("-99", "99000")]);
}

#[test]
fn the_step_comes_behind_the_whole_number() {
    let mut settings = with_points(straight(), &[(0, 0), (10, 6)]);
    settings.rounding = 2;
    prints(&settings, &[("1", "2"), ("-1", "-2")]);
    settings.rounding = 100;
    let settings = with_points(settings, &[(-1, -1), (0, 99_999)]);
    prints(&settings, &[("0", "OL"), ("-1", "0")]);
}

#[test]
fn numbers_as_samples_have_them() {
    prints(
        &straight(),
        &[
            ("0", "0"),
            ("-0", "0"),
            ("007", "7"),
            ("-007", "-7"),
            ("0000000007", "7"),
            ("-0000000007", "-7"),
        ],
    );
}

#[test]
fn lines_that_are_no_input() {
    for line in [
        "",
        " ",
        "-",
        "--1",
        "+1",
        " 1",
        "1 ",
        "1 2",
        "1\r",
        "1.0",
        "1-",
        "x",
        "0x1",
        "2147483648",
        "-2147483649",
        "9999999999",
        "00000000007",
        "-00000000007",
        "S 1",
        "S",
        "K 6 0",
        "B 42 0",
        "CFG",
        "?",
        "\u{0661}",
    ] {
        prints(&straight(), &[("5", "5"), (line, "?"), ("6", "6")]);
    }
}

#[test]
fn a_second_configuration_is_no_input() {
    let other = with_points(straight(), &[(0, 0), (1, 2)]);
    let mut refused = straight();
    refused.node = 100;
    for second in [&straight(), &other, &refused] {
        let line = configuration_line(second);
        prints(&straight(), &[("5", "5"), (&line, "?"), ("5", "5")]);
    }
}

#[test]
fn a_refused_configuration_prints_its_rule_and_nothing_more() {
    let mut settings = straight();
    settings.analog_high = settings.analog_low;
    let refused = configuration_line(&settings);
    let good = configuration_line(&straight());
    let behind = format!("1\n\nx\nS 1\n{good}\n1\n{refused}\n");
    assert_eq!(printed(&format!("{refused}\n{behind}")), "11 10\n");
    settings.rounding = 3;
    let refused = configuration_line(&settings);
    assert_eq!(printed(&format!("{refused}\n{behind}")), "11 3\n");
}

#[test]
fn without_a_configuration_no_line_is_understood() {
    let good = configuration_line(&straight());
    let longer = format!("{good} 0 0");
    let indented = format!(" {good}");
    let past = good.replacen("CFG 0", "CFG 2147483648", 1);
    let eleven_digits = good.replacen("CFG 0", "CFG 00000000000", 1);
    for first in [
        "",
        "1",
        "S 1",
        "CFG",
        "CFG ",
        "cfg",
        &longer,
        &indented,
        &past,
        &eleven_digits,
    ] {
        let text = format!("{first}\n{good}\n1\n\nS 1\n");
        assert_eq!(printed(&text), "?\n?\n?\n?\n?\n", "{first:?}");
    }
}

#[test]
fn ten_digits_are_a_number_of_a_configuration() {
    let good = configuration_line(&straight());
    let ten_digits = good.replacen("CFG 0", "CFG 0000000000", 1);
    assert_eq!(printed(&format!("{ten_digits}\n5\n")), "0 0\n5\n");
}

#[test]
fn recorded_samples_have_the_same_numbers() {
    let good = configuration_line(&straight());
    let text = format!("{good}\nS 0000000007\nS 00000000007\nS -0\nS +1\nS 2147483648\n");
    let mut output = Vec::new();
    Replay::new().text(text.as_bytes(), &mut output);
    let understood: Vec<bool> = lines_of(&output).map(|line| line != b"?").collect();
    assert_eq!(understood, [true, true, false, true, false, false]);
}

#[test]
fn recorded_places_and_bytes_have_as_many_digits_as_their_widths() {
    let good = configuration_line(&straight());
    let twenty = "0".repeat(20);
    let text =
        format!("{good}\nK 9 {twenty}\nK 9 0{twenty}\nB 065 {twenty}\nB 0065 0\nB 65 0{twenty}\n");
    let mut output = Vec::new();
    Replay::new().text(text.as_bytes(), &mut output);
    let understood: Vec<bool> = lines_of(&output).map(|line| line != b"?").collect();
    assert_eq!(understood, [true, true, false, true, false, false]);
}

#[test]
fn every_reading_is_a_samples() {
    let settings = with_points(straight(), &[(-7, 40), (-2, -9), (1, 3), (11, 3)]);
    for input in -40..40 {
        let expected = match read(settings.clone(), input) {
            Reading::Number(number) => number.to_string(),
            other => panic!("no number but {other:?}"),
        };
        prints(&settings, &[(&input.to_string(), &expected)]);
    }
}

/// What the binary prints for a text on its standard input.
fn run(text: &str) -> String {
    let mut child = Command::new(env!("CARGO_BIN_EXE_model"))
        .arg("rescale")
        .stdin(Stdio::piped())
        .stdout(Stdio::piped())
        .spawn()
        .expect("the model runs");
    let mut input = child.stdin.take().expect("the input is piped");
    input.write_all(text.as_bytes()).expect("the model reads");
    drop(input);
    let output = child.wait_with_output().expect("the model ends");
    assert!(output.status.success());
    String::from_utf8(output.stdout).expect("only ASCII is printed")
}

#[test]
fn the_last_line_may_lack_its_end() {
    let good = configuration_line(&straight());
    assert_eq!(run(""), "");
    assert_eq!(run(&good), "0 0\n");
    assert_eq!(run(&format!("{good}\n5\n6")), "0 0\n5\n6\n");
    assert_eq!(run(&format!("{good}\n5\n6\n")), "0 0\n5\n6\n");
    assert_eq!(run(&format!("{good}\n5\n\n")), "0 0\n5\n?\n");
    assert_eq!(run("\n"), "?\n");
}
