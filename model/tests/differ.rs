//! The differential test, tried on the model itself and on spoilt copies of
//! its output.

use meter_model::lines::{lines_of, Replay};
use std::process::{Command, Output};

const MODEL: &str = env!("CARGO_BIN_EXE_model");

fn differ(words: &[&str]) -> Output {
    Command::new(env!("CARGO_BIN_EXE_differ"))
        .args(words)
        .output()
        .expect("the differ runs")
}

fn text(output: &Output) -> String {
    String::from_utf8(output.stdout.clone()).expect("the differ prints text")
}

#[test]
fn the_model_agrees_with_itself() {
    let output = differ(&["--seed", "3", "--events", "20000", "--", MODEL]);
    assert!(output.status.success(), "{}", text(&output));
    assert!(text(&output).ends_with("no difference\n"));
}

#[test]
fn a_seed_gives_the_same_histories_again() {
    let words = ["--seed", "9", "--events", "5000", "--print"];
    assert_eq!(differ(&words).stdout, differ(&words).stdout);
    let other = ["--seed", "10", "--events", "5000", "--print"];
    assert_ne!(differ(&words).stdout, differ(&other).stdout);
}

/// Whether some line of the model's output for a history begins like this.
fn reaches(history: &[&str], beginning: &[u8]) -> bool {
    let mut output = Vec::new();
    Replay::new().text(history.join("\n").as_bytes(), &mut output);
    let reached = lines_of(&output).any(|line| line.starts_with(beginning));
    reached
}

/// The history that the differ has printed reaches such a line, and without any
/// one of its lines it does not.
fn is_shortened_to(text: &str, beginning: &[u8]) {
    let history: Vec<&str> = text
        .lines()
        .skip_while(|line| !line.starts_with("shortened to"))
        .skip(1)
        .take_while(|line| !line.starts_with("first differing"))
        .collect();
    assert!(reaches(&history, beginning), "{text}");
    for index in 0..history.len() {
        let mut fewer = history.clone();
        fewer.remove(index);
        let needed = !reaches(&fewer, beginning);
        assert!(needed, "line {index} is not needed: {text}");
    }
}

#[test]
fn a_difference_is_shortened_to_its_last_line() {
    let command = format!("{MODEL} | sed 's/^A=10 /A=0 /'");
    let output = differ(&[
        "--seed", "4", "--events", "20000", "--", "sh", "-c", &command,
    ]);
    assert_eq!(output.status.code(), Some(1));
    is_shortened_to(&text(&output), b"A=10 ");
}

#[test]
fn missing_and_further_output_are_differences() {
    for command in [
        "head -c 100000".to_string(),
        "true".to_string(),
        format!("{MODEL} | head -n 500"),
        format!("{MODEL}; echo more"),
    ] {
        let output = differ(&["--events", "3000", "--", "sh", "-c", &command]);
        assert_eq!(output.status.code(), Some(1), "{command}");
    }
}

#[test]
fn an_early_difference_ends_everything_that_was_started() {
    let command = format!("{MODEL} | sed 's/^A=5 /A=0 /' | cat");
    let output = differ(&["--events", "400000", "--", "sh", "-c", &command]);
    assert_eq!(output.status.code(), Some(1));
}

#[test]
fn output_lost_by_a_dying_program_is_traced_to_its_cause() {
    // It dies of the first answer 8, and the 1,000 lines before that are lost.
    let command = format!("{MODEL} | sed '/^A=8 /Q' | head -n -1000");
    let output = differ(&["--events", "20000", "--", "sh", "-c", &command]);
    assert_eq!(output.status.code(), Some(1));
    assert!(text(&output).contains("shortened to"), "{}", text(&output));
}

#[test]
fn output_that_is_lost_from_the_first_line_on_is_traced_to_its_cause() {
    // It writes at its end only, and dies of the first answer 8 before that.
    let command = format!("{MODEL} | sed -n '/^A=8 /q; H; ${{x; s/^.//; p}}'");
    let output = differ(&["--events", "3000", "--", "sh", "-c", &command]);
    assert_eq!(output.status.code(), Some(1));
    is_shortened_to(&text(&output), b"A=8 ");
}

#[test]
fn a_program_that_reads_all_before_it_writes_is_no_trouble() {
    let command = format!("cat > /dev/null; {MODEL} < /dev/null");
    let output = differ(&["--events", "60000", "--", "sh", "-c", &command]);
    assert_eq!(output.status.code(), Some(1));
    let command = format!("x=$(cat; echo .); printf '%s' \"${{x%.}}\" | {MODEL}");
    let output = differ(&[
        "--events",
        "60000",
        "--format-only",
        "--",
        "sh",
        "-c",
        &command,
    ]);
    assert!(output.status.success());
}

#[test]
fn words_that_make_no_sense_are_refused() {
    for words in [
        &["--seed"][..],
        &["--seed", "x", "--print"],
        &[],
        &["--print", "--", "true"],
        &["--what"],
    ] {
        assert_eq!(differ(words).status.code(), Some(2));
    }
}
