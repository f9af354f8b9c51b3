//! The comparison of all of a platinum sensor's inputs, tried on the model itself
//! and on spoilt copies of its output.

use std::process::{Command, Output};

const MODEL: &str = env!("CARGO_BIN_EXE_model");

fn ohms(words: &[&str]) -> Output {
    Command::new(env!("CARGO_BIN_EXE_ohms"))
        .args(words)
        .output()
        .expect("the comparison runs")
}

fn text(output: &Output) -> String {
    String::from_utf8(output.stdout.clone()).expect("text is printed")
}

/// What is shown of the difference when the model's `rescale` is changed by this.
fn difference(spoilt_by: &str) -> Vec<String> {
    difference_of(&format!("{MODEL} rescale {spoilt_by}"))
}

/// The same for a script of the shell. There must be a difference.
fn difference_of(script: &str) -> Vec<String> {
    let output = ohms(&["--", "sh", "-c", script]);
    let text = text(&output);
    assert_eq!(output.status.code(), Some(1), "{text}");
    let shown: Vec<String> = text
        .lines()
        .skip_while(|line| !line.starts_with("DIFFERENCE after "))
        .map(str::to_string)
        .collect();
    assert_eq!(shown.len(), 4, "{text}");
    shown
}

#[test]
fn the_model_agrees_with_itself() {
    let output = ohms(&["--", MODEL, "rescale"]);
    let text = text(&output);
    assert!(output.status.success(), "{text}");
    assert!(text.starts_with("readings compared: 2611007\n"), "{text}");
    for step in [1, 2, 5, 10, 20, 50, 100] {
        let figures = format!("step {step}: inputs 373001 (UL 520, numbers 371962, OL 519); ");
        assert!(text.contains(&figures), "{text}");
    }
    assert!(text.ends_with("no difference\n"));
}

#[test]
fn one_wrong_reading_is_shown() {
    // The line of 138506, behind that of the configuration and of 120506 inputs.
    assert_eq!(
        difference("| sed '120508s/^1000$/1001/'"),
        [
            "DIFFERENCE after 120507 readings, with step 1",
            "input:   138506",
            "model:   1000",
            "program: 1001"
        ]
    );
}

/// What is shown where nothing is spoilt but one reading with one step.
fn difference_with_step(step: i32) -> Vec<String> {
    difference_of(&format!(
        "IFS= read -r first
        case $first in
        'CFG 5 1 0 {step} '*) spoil='s/^8500$/8400/' ;;
        *) spoil= ;;
        esac
        {{ echo \"$first\"; cat; }} | {MODEL} rescale | sed \"$spoil\""
    ))
}

#[test]
fn each_step_is_compared() {
    for step in [1, 2, 5, 10, 20, 50, 100] {
        let shown = difference_with_step(step);
        assert!(shown[0].ends_with(&format!(", with step {step}")));
        assert_eq!(shown[2..], ["model:   8500", "program: 8400"]);
    }
}

#[test]
fn marks_and_the_first_line_are_compared() {
    let under = difference("| sed 's/^UL$/OL/'");
    assert_eq!(under[1..], ["input:   18000", "model:   UL", "program: OL"]);
    let over = difference("| sed 's/^OL$/8500/'");
    assert_eq!(
        over[1..],
        ["input:   390482", "model:   OL", "program: 8500"]
    );
    let first = difference("| sed '1s/.*/11 4/'");
    assert_eq!(
        first[1..],
        [
            "input:   (the configuration)",
            "model:   0 0",
            "program: 11 4"
        ]
    );
}

#[test]
fn missing_and_further_output_are_differences() {
    let missing = difference("| head -n 300000");
    assert_eq!(missing[3], "program: (nothing)");
    let further = difference("; echo more");
    assert_eq!(
        further[1..],
        [
            "input:   (behind the last line)",
            "model:   (nothing)",
            "program: more\\n"
        ]
    );
}

#[test]
fn words_that_make_no_sense_are_refused() {
    for words in [&[][..], &["--"], &[MODEL, "rescale"], &["--seed", "1"]] {
        assert_eq!(ohms(words).status.code(), Some(2), "{words:?}");
    }
    let output = ohms(&["--", "./no-such-command"]);
    assert_eq!(output.status.code(), Some(2));
}
