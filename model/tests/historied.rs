//! The comparison of records, tried on the model itself and on spoilt copies of
//! its output.

use std::process::{Command, Output};

const MODEL: &str = env!("CARGO_BIN_EXE_model");

/// Few lines made from the seed, which hold all that none may miss.
const FEW: [&str; 3] = ["--lines", "8000", "--"];

fn historied(words: &[&str]) -> Output {
    Command::new(env!("CARGO_BIN_EXE_historied"))
        .args(words)
        .output()
        .expect("the comparison runs")
}

/// Compares what a line for the shell does.
fn compared(program: &str) -> Output {
    historied(&[&FEW[..], &["sh", "-c", program]].concat())
}

fn text(output: &Output) -> String {
    String::from_utf8(output.stdout.clone()).expect("text is printed")
}

/// What was printed behind the counts: where the sides differ, the line, and what
/// the record, the model and the program say.
fn difference(program: &str) -> Vec<String> {
    let output = compared(program);
    assert_eq!(output.status.code(), Some(1), "{}", text(&output));
    let text = text(&output);
    let difference: Vec<String> = text
        .lines()
        .skip_while(|line| !line.starts_with("DIFFERENCE after "))
        .map(str::to_string)
        .collect();
    assert_eq!(difference.len(), 5, "{text}");
    difference
}

/// The model's output, through one command of sed.
fn spoilt(edit: &str) -> String {
    format!("{MODEL} historian | sed '{edit}'")
}

#[test]
fn the_model_agrees_with_itself() {
    let output = historied(&[&FEW[..], &[MODEL, "historian"]].concat());
    let text = text(&output);
    assert!(output.status.success(), "{text}");
    assert!(text.contains("lines compared: 1208020\n"), "{text}");
    for what in ["written", "read back"] {
        let records = format!(
            "records {what}, by places: values 599995 (0: 119999, 1: 119999, 2: 119999, \
             3: 119999, 4: 119999); marks 15 (OL: 5, UL: 5, --: 5)\n"
        );
        assert!(text.contains(&records), "{text}");
    }
    assert!(text.contains(", ties 0\n"), "{text}");
    assert!(text.ends_with("no difference\n"), "{text}");
}

#[test]
fn a_seed_gives_the_same_lines_again() {
    let tally = |seed: &str| {
        let words = [&["--seed", seed], &FEW[..], &[MODEL, "historian"]].concat();
        let text = text(&historied(&words));
        let without_time: Vec<String> = text
            .lines()
            .skip(1)
            .filter(|line| !line.starts_with("time: "))
            .map(str::to_string)
            .collect();
        without_time
    };
    assert_eq!(tally("7"), tally("7"));
    assert_ne!(tally("7"), tally("8"));
}

#[test]
fn a_wrong_record_is_shown_with_its_reading() {
    assert_eq!(
        difference(&spoilt("s/^000200005cff7944$/000200005bff7944/")),
        [
            "DIFFERENCE after 600007 lines, in the records written",
            "line:    W 99999 2",
            "record:  (not asked)",
            "model:   000200005cff7944",
            "program: 000200005bff7944",
        ]
    );
    let difference = difference(&spoilt("s/^0204000000000000$/0104000000000000/"));
    assert_eq!(difference[1], "line:    W UL 4");
}

#[test]
fn a_record_that_is_read_otherwise_than_it_was_written_is_shown() {
    assert_eq!(
        difference(&spoilt("s/^0 1 3dcccccd$/0 1 cdcccc3d/")),
        [
            "DIFFERENCE after 380007 lines, in the records read back",
            "line:    R 00010000cdcccc3d",
            "record:  0 1 3dcccccd",
            "model:   0 1 3dcccccd",
            "program: 0 1 cdcccc3d",
        ]
    );
    let difference = difference(&spoilt("s/^3 3 00000000$/33/"));
    assert_eq!(difference[1], "line:    R 0303000000000000");
    assert_eq!(difference[4], "program: 33");
}

#[test]
fn every_refusal_is_compared() {
    for (edit, model, program) in [
        ("s/^30$/31/", "model:   30", "program: 31"),
        ("s/^31$/30/", "model:   31", "program: 30"),
        ("s/^32$/33/", "model:   32", "program: 33"),
        (
            "s/^33$/0 0 80000000/",
            "model:   33",
            "program: 0 0 80000000",
        ),
        ("s/^?$/30/", "model:   ?", "program: 30"),
    ] {
        let difference = difference(&spoilt(edit));
        assert!(difference[0].ends_with(" lines, in the lines made from the seed"));
        assert_eq!(difference[2..], ["record:  (not asked)", model, program]);
    }
}

#[test]
fn missing_and_further_output_are_differences() {
    for program in [
        "true".to_string(),
        format!("{MODEL} historian | head -n 400"),
        format!("{MODEL} historian | head -c -1"),
        format!("{MODEL} historian; echo more"),
        format!("{MODEL} historian; printf more"),
        format!("(cat; echo) | {MODEL} historian"),
        format!("head -n -1 | {MODEL} historian"),
    ] {
        difference(&program);
    }
}

#[test]
fn words_that_make_no_sense_are_refused() {
    for words in [
        &[][..],
        &["--seed", "1"],
        &["--"],
        &["true"],
        &["--seed", "--", "true"],
        &["--lines", "x", "--", "true"],
        &["--what", "--", "true"],
    ] {
        assert_eq!(historied(words).status.code(), Some(2), "{words:?}");
    }
}

#[test]
fn a_command_that_cannot_be_started_is_no_difference() {
    let output = historied(&["--", "./no-such-command"]);
    assert_eq!(output.status.code(), Some(2));
}
