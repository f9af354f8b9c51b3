//! The comparison of readings, tried on the model itself and on spoilt copies of
//! its output.

use std::process::{Command, Output};

const MODEL: &str = env!("CARGO_BIN_EXE_model");

/// Few inputs, which hold Over, Under and lines that are none all the same.
const FEW: [&str; 4] = ["--configurations", "3", "--inputs", "500"];

fn rescaled(words: &[&str]) -> Output {
    Command::new(env!("CARGO_BIN_EXE_rescaled"))
        .args(words)
        .output()
        .expect("the comparison runs")
}

/// Compares what two lines for the shell do.
fn compared(rescale: &str, replay: &str) -> Output {
    let mut words = FEW.to_vec();
    words.extend(["--rescale", "sh", "-c", rescale]);
    words.extend(["--replay", "sh", "-c", replay]);
    rescaled(&words)
}

fn rescale() -> String {
    format!("{MODEL} rescale")
}

fn text(output: &Output) -> String {
    String::from_utf8(output.stdout.clone()).expect("text is printed")
}

/// The last lines that were printed, a configuration or another first line and
/// what the three sides say.
fn difference(output: &Output) -> Vec<String> {
    assert_eq!(output.status.code(), Some(1), "{}", text(output));
    let text = text(output);
    let difference: Vec<String> = text
        .lines()
        .skip_while(|line| !line.starts_with("DIFFERENCE after "))
        .skip(1)
        .map(str::to_string)
        .collect();
    assert_eq!(difference.len(), 5, "{text}");
    difference
}

#[test]
fn the_model_agrees_with_itself() {
    let output = rescaled(&["--rescale", MODEL, "rescale", "--replay", MODEL]);
    assert!(output.status.success(), "{}", text(&output));
    assert!(text(&output).contains("readings compared: 400000 "));
    assert!(text(&output).contains("\nplatinum: inputs 200000 "));
    assert!(text(&output).ends_with("no difference\n"));
}

#[test]
fn a_seed_gives_the_same_inputs_again() {
    let tally = |seed: &str| {
        let mut words = vec!["--seed", seed];
        words.extend(FEW);
        words.extend(["--rescale", MODEL, "rescale", "--replay", MODEL]);
        let text = text(&rescaled(&words));
        let without_time: Vec<String> = text
            .lines()
            .skip(1)
            .filter(|line| !line.starts_with("time: "))
            .map(str::to_string)
            .collect();
        without_time
    };
    assert_eq!(tally("7"), tally("7"));
    assert_ne!(tally("7"), tally("8"));
}

#[test]
fn a_wrong_reading_is_shown_with_its_configuration_and_input() {
    let spoilt = format!("{} | sed 's/^OL$/UL/'", rescale());
    let difference = difference(&compared(&spoilt, MODEL));
    assert!(difference[0].starts_with("CFG "), "{difference:?}");
    let input = difference[1]
        .strip_prefix("input:   ")
        .map(str::parse::<i32>);
    assert!(matches!(input, Some(Ok(_))), "{difference:?}");
    assert_eq!(
        difference[2..],
        ["model:   OL", "rescale: UL", "replay:  OL"]
    );
}

#[test]
fn a_wrong_reading_of_the_replay_is_shown() {
    let spoilt = format!("{MODEL} | sed 's/ R=UL / R=5 /'");
    let difference = difference(&compared(&rescale(), &spoilt));
    assert_eq!(
        difference[2..],
        ["model:   UL", "rescale: UL", "replay:  5"]
    );
}

#[test]
fn both_commands_wrong_in_the_same_way_are_held_against_the_model() {
    let rescale = format!("{} | sed 's/^UL$/0/'", rescale());
    let replay = format!("{MODEL} | sed 's/ R=UL / R=0 /'");
    let difference = difference(&compared(&rescale, &replay));
    assert_eq!(difference[2..], ["model:   UL", "rescale: 0", "replay:  0"]);
}

#[test]
fn a_line_that_is_no_input_must_not_be_read() {
    let spoilt = format!("{} | sed '2,$s/^?$/0/'", rescale());
    let difference = difference(&compared(&spoilt, MODEL));
    assert_eq!(
        difference[2..],
        ["model:   ?", "rescale: 0", "replay:  (not asked)"]
    );
}

#[test]
fn a_refused_configuration_must_be_followed_by_silence() {
    let spoilt = format!("{} | sed 's/^11 .*/&\\n?/'", rescale());
    let difference = difference(&compared(&spoilt, MODEL));
    assert_eq!(
        difference[1..],
        [
            "input:   (behind the last line)",
            "model:   (nothing)",
            "rescale: ?\\n",
            "replay:  (nothing)"
        ]
    );
}

#[test]
fn the_first_line_is_compared_too() {
    for spoilt in [
        format!("{} | sed '1s/^0 0$/0 1/'", rescale()),
        format!("{} | sed '1s/^11 .*/11 11/'", rescale()),
        format!("{} | sed '1s/^?$/11 1/'", rescale()),
    ] {
        let difference = difference(&compared(&spoilt, MODEL));
        assert_eq!(difference[1], "input:   (the first line itself)");
    }
}

#[test]
fn missing_and_further_output_are_differences() {
    for spoilt in [
        "true".to_string(),
        format!("{} | head -n 400", rescale()),
        format!("{} | head -c -1", rescale()),
        format!("{}; echo more", rescale()),
        format!("{}; printf more", rescale()),
    ] {
        difference(&compared(&spoilt, MODEL));
    }
    for spoilt in [
        "true".to_string(),
        format!("{MODEL} | head -n 400"),
        format!("{MODEL}; echo more"),
    ] {
        difference(&compared(&rescale(), &spoilt));
    }
}

#[test]
fn words_that_make_no_sense_are_refused() {
    for words in [
        &[][..],
        &["--seed", "1"],
        &["--rescale", "true"],
        &["--rescale", "--replay", "true"],
        &["--rescale", "true", "--replay"],
        &["--replay", "true", "--rescale", "true"],
        &["--seed", "x", "--rescale", "true", "--replay", "true"],
        &["--what", "--rescale", "true", "--replay", "true"],
    ] {
        assert_eq!(rescaled(words).status.code(), Some(2), "{words:?}");
    }
}

#[test]
fn a_command_that_cannot_be_started_is_no_difference() {
    let words = ["--rescale", "./no-such-command", "--replay", MODEL];
    assert_eq!(rescaled(&words).status.code(), Some(2));
}
