//! What max and min take of a run (document 02, ticket 2).

mod common;

use common::{straight, Hand};
use meter_model::answer::Answer;
use meter_model::extremes::Run;
use meter_model::lines::{configuration_line, lines_of, Replay};
use meter_model::reading::Reading::{self, Number};

/// A meter with this capture time, after these inputs.
fn after(capture_tenths: i32, inputs: &[i32]) -> Hand {
    let mut settings = straight();
    settings.capture_time = capture_tenths;
    let mut hand = Hand::new(settings);
    hand.samples(inputs);
    hand
}

fn max(hand: &Hand) -> (Reading, Option<Run>) {
    (hand.state().max.shown(), hand.state().max.run())
}

fn min(hand: &Hand) -> (Reading, Option<Run>) {
    (hand.state().min.shown(), hand.state().min.run())
}

fn run(readings: i128, remembered: i128) -> Option<Run> {
    Some(Run {
        readings,
        remembered,
    })
}

#[test]
fn max_leaves_the_spike() {
    let mut hand = after(2, &[100, 105, 109, 108]);
    assert_eq!(max(&hand), (Number(100), run(3, 105)));
    hand.samples(&[500]);
    assert_eq!(max(&hand), (Number(105), None));
}

#[test]
fn min_leaves_the_spike() {
    let mut hand = after(2, &[100, 95, 91, 92]);
    assert_eq!(min(&hand), (Number(100), run(3, 95)));
    hand.samples(&[-500]);
    assert_eq!(min(&hand), (Number(95), None));
}

#[test]
fn the_reading_taken_may_stand_anywhere_in_the_run() {
    assert_eq!(max(&after(1, &[100, 105, 103])), (Number(103), None));
    assert_eq!(min(&after(1, &[100, 95, 97])), (Number(97), None));
    for inputs in [
        [100, 101, 104, 103, 102],
        [100, 104, 101, 103, 102],
        [100, 104, 103, 101, 102],
        [100, 104, 103, 102, 101],
        [100, 101, 102, 101, 102],
    ] {
        assert_eq!(max(&after(2, &inputs)), (Number(101), None));
        let mirrored = inputs.map(|input| -input);
        assert_eq!(min(&after(2, &mirrored)), (Number(-101), None));
    }
}

#[test]
fn a_run_of_one_reading_gives_it() {
    let hand = after(0, &[100, 105, 103, 109, 91]);
    assert_eq!(max(&hand), (Number(109), None));
    assert_eq!(min(&hand), (Number(91), None));
}

#[test]
fn the_first_number_is_taken_at_once_and_begins_no_run() {
    let hand = after(2, &[100_000, -7]);
    assert_eq!(max(&hand), (Number(-7), None));
    assert_eq!(min(&hand), (Number(-7), None));
}

#[test]
fn a_reset_of_max_forgets_the_number() {
    let resets: [fn(&mut Hand) -> Answer; 2] = [|hand| hand.send(b"RC*"), |hand| hand.key(3)];
    for reset in resets {
        let mut hand = after(1, &[100, 105]);
        assert_eq!(max(&hand), (Number(100), run(1, 105)));
        assert_eq!(reset(&mut hand), Answer::CarriedOut);
        assert_eq!(max(&hand), (Number(105), None));
        hand.samples(&[120]);
        assert_eq!(max(&hand), (Number(105), run(1, 120)));
        hand.samples(&[110]);
        assert_eq!(max(&hand), (Number(110), None));
    }
}

#[test]
fn a_reset_of_min_forgets_the_number() {
    let resets: [fn(&mut Hand) -> Answer; 2] = [|hand| hand.send(b"RD*"), |hand| hand.key(4)];
    for reset in resets {
        let mut hand = after(1, &[100, 95]);
        assert_eq!(min(&hand), (Number(100), run(1, 95)));
        assert_eq!(reset(&mut hand), Answer::CarriedOut);
        assert_eq!(min(&hand), (Number(95), None));
        hand.samples(&[80]);
        assert_eq!(min(&hand), (Number(95), run(1, 80)));
        hand.samples(&[90]);
        assert_eq!(min(&hand), (Number(90), None));
    }
}

#[test]
fn a_broken_run_forgets_the_number() {
    for breaking in [100, 50, 100_000, -100_000] {
        let mut hand = after(1, &[100, 101, breaking]);
        assert_eq!(max(&hand), (Number(100), None));
        hand.samples(&[109]);
        assert_eq!(max(&hand), (Number(100), run(1, 109)));
        hand.samples(&[108]);
        assert_eq!(max(&hand), (Number(108), None));
    }
    for breaking in [100, 150, 100_000, -100_000] {
        let mut hand = after(1, &[100, 99, breaking]);
        assert_eq!(min(&hand), (Number(100), None));
        hand.samples(&[91]);
        assert_eq!(min(&hand), (Number(100), run(1, 91)));
        hand.samples(&[92]);
        assert_eq!(min(&hand), (Number(92), None));
    }
}

#[test]
fn a_completed_run_leaves_no_number() {
    let mut hand = after(1, &[100, 105, 109, 120]);
    assert_eq!(max(&hand), (Number(105), run(1, 120)));
    hand.samples(&[110]);
    assert_eq!(max(&hand), (Number(110), None));
}

#[test]
fn the_reset_of_one_side_leaves_the_run_of_the_other() {
    let mut hand = after(2, &[100, 130, 120]);
    hand.send(b"RD*");
    assert_eq!(max(&hand), (Number(100), run(2, 120)));
    assert_eq!(min(&hand), (Number(120), None));
    hand.samples(&[110]);
    assert_eq!(max(&hand), (Number(100), run(3, 110)));
    assert_eq!(min(&hand), (Number(120), run(1, 110)));
    hand.samples(&[115]);
    assert_eq!(max(&hand), (Number(110), None));
    assert_eq!(min(&hand), (Number(120), run(2, 115)));
}

/// The words for both runs in the line that is printed for the last input.
fn printed(capture_tenths: i32, inputs: &[i32]) -> String {
    let mut settings = straight();
    settings.capture_time = capture_tenths;
    let mut history = configuration_line(&settings);
    for input in inputs {
        history.push_str(&format!("\nS {input}"));
    }
    let mut output = Vec::new();
    Replay::new().text(history.as_bytes(), &mut output);
    let last = lines_of(&output).last().expect("there is a line of output");
    let last = String::from_utf8(last.to_vec()).expect("lines are ASCII");
    let words: Vec<&str> = last
        .split(' ')
        .filter(|word| word.starts_with("MR=") || word.starts_with("NR="))
        .collect();
    words.join(" ")
}

#[test]
fn runs_are_printed_with_their_numbers() {
    assert_eq!(printed(2, &[100]), "MR=0 NR=0");
    assert_eq!(printed(2, &[100, 105]), "MR=1:105 NR=0");
    assert_eq!(printed(2, &[100, 105, 109, 108]), "MR=3:105 NR=0");
    assert_eq!(printed(2, &[100, 105, 109, 108, 500]), "MR=0 NR=0");
    assert_eq!(printed(2, &[100, 95, 91, 92]), "MR=0 NR=3:95");
    assert_eq!(printed(2, &[0, -5, -9]), "MR=0 NR=2:-5");
    assert_eq!(printed(2, &[-10, 0, 7]), "MR=2:0 NR=0");
}
