//! The sentences of document 02, ticket 9, on histories written by hand and on
//! what was printed for them, as it is and spoilt; and the program that judges
//! random histories by them.

mod common;

use common::straight;
use meter_model::config::Configuration;
use meter_model::lines::{configuration_line, lines_of, Replay};
use meter_model::sentences::broken::Clause;
use meter_model::sentences::excursions::{excursions, End, Excursion};
use meter_model::sentences::history::take_apart;
use meter_model::sentences::judge::Pair;
use meter_model::sentences::life::lives;
use meter_model::sentences::tally::Tally;
use std::process::{Command, Output};

const MODEL: &str = env!("CARGO_BIN_EXE_model");

/// A history with what a meter has printed for it, in both its forms.
struct Recorded {
    pair: Pair,
    looked: Vec<String>,
    bare: Vec<String>,
}

impl Recorded {
    /// A history to a meter with these settings. Its steps are `S input`, `K key`
    /// and `C bytes`, as on the bench.
    fn new(settings: &Configuration, steps: &[&str]) -> Recorded {
        Recorded::by_another(settings, settings, steps)
    }

    /// The same, printed by a meter that has other settings.
    fn by_another(settings: &Configuration, its: &Configuration, steps: &[&str]) -> Recorded {
        let pair = Pair::new(text_of(settings, steps));
        let looked = printed_by(its, &pair.looked.text);
        let bare = printed_by(its, &pair.bare.text);
        Recorded { pair, looked, bare }
    }

    /// Puts one text for another in a line that the form with looks has printed.
    /// The power-up has line 0, and the last line comes last.
    fn spoil(mut self, line: usize, shown: &str, instead: &str) -> Recorded {
        let spoilt = self.looked[line].replacen(shown, instead, 1);
        assert_ne!(spoilt, self.looked[line], "the line shows it");
        self.looked[line] = spoilt;
        self
    }

    fn spoil_last(self, shown: &str, instead: &str) -> Recorded {
        let last = self.looked.len() - 1;
        self.spoil(last, shown, instead)
    }

    fn broken(&self) -> Vec<Clause> {
        let (looked, bare) = (self.looked.join("\n"), self.bare.join("\n"));
        self.pair
            .judge(looked.as_bytes(), bare.as_bytes(), &mut Tally::default())
            .iter()
            .map(|broken| broken.clause)
            .collect()
    }

    /// Every sentence holds, and the last line shows this.
    fn holds(self, shown: &str) -> Recorded {
        assert_eq!(self.broken(), [], "{}", self.looked.join("\n"));
        let last = self.looked.last().expect("something was printed");
        assert!(last.contains(shown), "{shown} is not in {last}");
        self
    }

    fn breaks(&self, clause: Clause) {
        assert!(self.broken().contains(&clause), "{:?}", self.broken());
    }

    /// The excursions that the form with looks shows.
    fn excursions(&self) -> Vec<Excursion> {
        let entries = take_apart(&self.pair.looked.text);
        let lives =
            lives(&entries, self.looked.join("\n").as_bytes()).expect("lines of the format");
        excursions(&lives[0])
    }
}

fn text_of(settings: &Configuration, steps: &[&str]) -> Vec<u8> {
    let mut lines = vec![configuration_line(settings)];
    for step in steps {
        match step.split_once(' ') {
            Some(("C", bytes)) => lines.extend(bytes.bytes().map(|byte| format!("B {byte} 0"))),
            Some(("K", key)) => lines.push(format!("K {key} 0")),
            _ => lines.push(step.to_string()),
        }
    }
    lines.join("\n").into_bytes()
}

/// What a meter with these settings prints for the lines behind the first.
fn printed_by(settings: &Configuration, text: &[u8]) -> Vec<String> {
    let mut replay = Replay::new();
    let mut printed = Vec::new();
    replay.line(configuration_line(settings).as_bytes(), &mut printed);
    for line in lines_of(text).skip(1) {
        replay.line(line, &mut printed);
    }
    lines_of(&printed)
        .map(|line| String::from_utf8_lossy(line).into_owned())
        .collect()
}

/// So many times over the same steps.
fn times<'a>(count: usize, steps: &[&'a str]) -> Vec<&'a str> {
    steps.repeat(count)
}

/// Alarm 1 with these delays, in tenths, on a straight scale: high acting, with
/// setpoint 100 and hysteresis 1.
fn with_delays(on_delay: i32, off_delay: i32) -> Configuration {
    let mut settings = straight();
    settings.alarms[0].on_delay = on_delay;
    settings.alarms[0].off_delay = off_delay;
    settings
}

fn latched() -> Configuration {
    let mut settings = straight();
    settings.alarms[0].latched = true;
    settings
}

// Sentence 1.

#[test]
fn the_total_is_the_cut_quotient_of_its_contributions() {
    let settings = straight();
    let twenty = times(20, &["S 60"]);
    let recorded = Recorded::new(&settings, &twenty).holds(" TOT=1 ");
    recorded
        .spoil_last(" TOT=1 ", " TOT=2 ")
        .breaks(Clause::Total);
    let recorded = Recorded::new(&settings, &twenty[1..]).holds(" TOT=0 ");
    recorded
        .spoil_last(" TOT=0 ", " TOT=1 ")
        .breaks(Clause::Total);
    // Cut towards zero, and not down.
    let recorded = Recorded::new(&settings, &times(19, &["S -60"])).holds(" TOT=0 ");
    recorded
        .spoil_last(" TOT=0 ", " TOT=-1 ")
        .breaks(Clause::Total);
}

#[test]
fn a_total_that_looking_changes_is_refused() {
    let mut steps = times(20, &["S 60"]);
    steps.push("C TA*");
    let recorded = Recorded::new(&straight(), &steps).holds(" TOT=1 ");
    recorded
        .spoil_last(" TOT=1 ", " TOT=0 ")
        .breaks(Clause::Total);
}

#[test]
fn a_reset_leaves_no_contribution() {
    let settings = straight();
    for reset in ["K 2", "C RB*"] {
        let mut steps = times(39, &["S 60"]);
        steps.push(reset);
        steps.extend(times(19, &["S 60"]));
        let recorded = Recorded::new(&settings, &steps).holds(" TOT=0 ");
        recorded
            .spoil_last(" TOT=0 ", " TOT=1 ")
            .breaks(Clause::Total);
        steps.push("S 60");
        Recorded::new(&settings, &steps).holds(" TOT=1 ");
    }
}

#[test]
fn a_sample_below_the_low_cut_contributes_nothing() {
    let mut settings = straight();
    settings.low_cut = 100;
    let steps = times(40, &["S 100", "S 99", "S 100000", "S -100000"]);
    Recorded::new(&settings, &steps).holds(" TOT=3 ");
    let mut wrong = settings.clone();
    wrong.low_cut = 99;
    Recorded::by_another(&settings, &wrong, &steps).breaks(Clause::Total);
}

#[test]
fn key_1_contributes_the_present_reading() {
    let mut settings = straight();
    settings.batch = true;
    settings.low_cut = 500;
    let steps = ["K 1", "S 7", "S 300", "K 1", "K 1", "S 100000", "K 1"];
    let recorded = Recorded::new(&settings, &steps).holds(" TOT=600 ");
    recorded
        .spoil(4, " TOT=300 ", " TOT=7 ")
        .breaks(Clause::Total);
}

#[test]
fn a_total_past_its_range_stays_so_until_a_reset() {
    let mut settings = straight();
    settings.batch = true;
    for (input, back, shown) in [("S 99999", "S -19999", "OL"), ("S -19999", "S 99999", "UL")] {
        let shown = format!(" TOT={shown} ");
        let mut steps = vec![input];
        steps.extend(times(10_001, &["K 1"]));
        let recorded = Recorded::new(&settings, &steps).holds(&shown);
        recorded.spoil_last(&shown, " TOT=0 ").breaks(Clause::Total);
        steps.extend([back, "K 1", "C TB*"]);
        let recorded = Recorded::new(&settings, &steps).holds(&shown);
        recorded.spoil_last(&shown, " TOT=0 ").breaks(Clause::Total);
        steps.extend(["K 2", "S 5", "K 1"]);
        Recorded::new(&settings, &steps).holds(" TOT=5 ");
    }
}

// Sentence 2.

#[test]
fn an_alarm_changes_where_the_condition_held_as_often_as_the_delay_counts() {
    let settings = with_delays(2, 0);
    let steps = [
        "S 101", "S 101", "S 101", "S 100", "S 101", "S 101", "S 101", "S 101",
    ];
    let recorded = Recorded::new(&settings, &steps).holds(" AL=1000 ");
    recorded
        .spoil_last(" AL=1", " AL=0")
        .breaks(Clause::Unlatched);
    let recorded = Recorded::new(&settings, &steps[..7]).holds(" AL=0000 ");
    recorded
        .spoil_last(" AL=0", " AL=1")
        .breaks(Clause::Unlatched);
}

#[test]
fn a_delay_that_is_wrong_throughout_is_refused() {
    let settings = with_delays(2, 2);
    let mut steps = times(9, &["S 101"]);
    steps.extend(times(9, &["S 99"]));
    Recorded::new(&settings, &steps).holds(" AL=0000 ");
    for (on_delay, off_delay) in [(1, 2), (3, 2), (2, 1), (2, 3)] {
        let wrong = with_delays(on_delay, off_delay);
        Recorded::by_another(&settings, &wrong, &steps).breaks(Clause::Unlatched);
    }
}

#[test]
fn a_reset_or_a_new_setpoint_begins_the_delay_anew() {
    let settings = with_delays(2, 0);
    for between in ["C RE*", "K 5", "C VJ@*", "C VE99*"] {
        let mut steps = times(3, &["S 101"]);
        steps.push(between);
        steps.extend(times(3, &["S 101"]));
        let recorded = Recorded::new(&settings, &steps).holds(" AL=0000 ");
        recorded
            .spoil_last(" AL=0", " AL=1")
            .breaks(Clause::Unlatched);
        steps.push("S 101");
        let recorded = Recorded::new(&settings, &steps).holds(" AL=1000 ");
        recorded
            .spoil_last(" AL=1", " AL=0")
            .breaks(Clause::Unlatched);
    }
}

#[test]
fn a_setpoint_there_and_back_is_new_twice() {
    let mut steps = times(3, &["S 101"]);
    steps.extend(["C VE50*", "C VE100*", "S 101"]);
    let recorded = Recorded::new(&with_delays(2, 0), &steps).holds(" AL=0000 ");
    recorded
        .spoil_last(" AL=0", " AL=1")
        .breaks(Clause::Unlatched);
}

#[test]
fn what_is_no_reset_and_no_new_setpoint_is_passed_over() {
    let settings = with_delays(2, 0);
    for between in [
        "C VE100*", "C VF150*", "C RF*", "C VJA*", "C VJ0*", "C TA*", "C N5RE*", "C RE \r", "K 6",
        "K 2",
    ] {
        let mut steps = times(3, &["S 101"]);
        steps.extend([between, "S 101"]);
        let recorded = Recorded::new(&settings, &steps).holds(" AL=1000 ");
        recorded
            .spoil_last(" AL=1", " AL=0")
            .breaks(Clause::Unlatched);
    }
}

#[test]
fn the_sample_of_a_change_counts_for_no_other_change() {
    let settings = with_delays(0, 1);
    let steps = ["S 101", "S 99"];
    let recorded = Recorded::new(&settings, &steps).holds(" AL=1000 ");
    recorded
        .spoil_last(" AL=1", " AL=0")
        .breaks(Clause::Unlatched);
    let steps = ["S 101", "S 99", "S 99"];
    Recorded::new(&settings, &steps).holds(" AL=0000 ");
}

#[test]
fn an_alarm_changes_at_no_other_event() {
    for between in ["C TA*", "C VE50*", "K 1", "K 2", "C RF*"] {
        let recorded = Recorded::new(&straight(), &["S 101", between]).holds(" AL=1000 ");
        recorded
            .spoil_last(" AL=1", " AL=0")
            .breaks(Clause::Unlatched);
    }
    let recorded = Recorded::new(&straight(), &["S 101", "C RE*"]).holds(" AL=0000 ");
    recorded
        .spoil_last(" AL=0", " AL=1")
        .breaks(Clause::Unlatched);
}

#[test]
fn fewer_samples_than_the_delay_counts_change_nothing() {
    let recorded = Recorded::new(&with_delays(2, 0), &times(3, &["S 101"])).holds(" AL=0000 ");
    recorded
        .spoil_last(" AL=0", " AL=1")
        .breaks(Clause::Unlatched);
}

// Sentence 3.

#[test]
fn a_latched_alarm_goes_off_by_a_reset_only() {
    let settings = latched();
    for between in [
        "S 0",
        "S -100000",
        "C RF*",
        "C VJA*",
        "C VJ0*",
        "C VE500*",
        "K 2",
    ] {
        let recorded = Recorded::new(&settings, &["S 101", between]).holds(" AL=1000 ");
        recorded
            .spoil_last(" AL=1", " AL=0")
            .breaks(Clause::Latched);
    }
    for reset in ["C RE*", "K 5", "C VJ@*", "C VJN*"] {
        let recorded = Recorded::new(&settings, &["S 101", reset]).holds(" AL=0000 ");
        recorded
            .spoil_last(" AL=0", " AL=1")
            .breaks(Clause::Latched);
    }
}

#[test]
fn a_latched_alarm_goes_on_as_an_unlatched_one_does() {
    let mut settings = latched();
    settings.alarms[0].on_delay = 1;
    let recorded = Recorded::new(&settings, &["S 101", "S 101"]).holds(" AL=1000 ");
    recorded
        .spoil_last(" AL=1", " AL=0")
        .breaks(Clause::Latched);
    let recorded = Recorded::new(&settings, &["S 101"]).holds(" AL=0000 ");
    recorded
        .spoil_last(" AL=0", " AL=1")
        .breaks(Clause::Latched);
}

// Sentence 4.

#[test]
fn the_form_without_looks_has_the_same_kept_list() {
    let steps = [
        "C TA*", "S 1", "C N5RE*", "K 6", "C RE\r", "K 9", "C VE", "S 2", "K 6", "C 7*", "C VI5*",
        "C RA*", "C VE5 *", "C T",
    ];
    let pair = Pair::new(text_of(&straight(), &steps));
    let kept = ["S 1", "K 9", "S 2", "C VE7*", "C VI5*"];
    let mut expected = text_of(&straight(), &kept);
    expected.push(b'\n');
    assert_eq!(pair.bare.text, expected);
}

#[test]
fn equal_kept_lists_change_the_same() {
    let steps = [
        "S 101", "C TE*", "K 6", "C N7VE5*", "S 50", "C RE", "S 101", "C *", "C RB", "C \r", "S 50",
    ];
    let recorded = Recorded::new(&straight(), &steps).holds(" AL=0000 ");
    recorded
        .spoil_last(" AL=00", " AL=01")
        .breaks(Clause::EqualLists);
    for (shown, instead) in [
        (" R=50 ", " R=51 "),
        (" TOT=0 ", " TOT=9 "),
        (" SP=100,", " SP=5,"),
    ] {
        let recorded = Recorded::new(&straight(), &steps);
        recorded
            .spoil_last(shown, instead)
            .breaks(Clause::EqualLists);
    }
}

// Sentence 5.

/// The small example of an alarm that is polled while it is lit: an off delay of 4
/// samples, and one sample above the setpoint.
#[test]
fn nobody_who_looks_moves_an_end() {
    let settings = with_delays(0, 2);
    for polls in [0, 1, 10] {
        let mut steps = vec!["S 120"];
        for _ in 0..6 {
            steps.extend(times(polls, &["C TE*"]));
            steps.push("S 80");
        }
        let recorded = Recorded::new(&settings, &steps).holds(" AL=0000 ");
        let excursion = Excursion {
            alarm: 1,
            from: 1,
            end: End::AtSample(5),
            length: 4,
        };
        assert_eq!(recorded.excursions(), [excursion]);
        let off_at = recorded.looked.len() - 1 - 2 * (1 + 3 * polls);
        let longer = recorded.spoil(off_at, " AL=0", " AL=1");
        longer.breaks(Clause::Excursion);
        longer.breaks(Clause::EqualLists);
        longer.breaks(Clause::Unlatched);
    }
}

#[test]
fn an_excursion_ends_at_a_sample_or_a_reset_or_goes_on() {
    let steps = [
        "S 50", "S 101", "S 101", "C RE*", "S 101", "S 99", "S 300", "C TA*",
    ];
    let recorded = Recorded::new(&straight(), &steps).holds(" AL=1100 ");
    let told: Vec<String> = recorded
        .excursions()
        .iter()
        .map(Excursion::to_string)
        .collect();
    assert_eq!(
        told,
        [
            "alarm 1 from sample 2 to a reset behind sample 3, length 2",
            "alarm 1 from sample 4 to sample 5, length 1",
            "alarm 1 from sample 6 and still on behind sample 6, length 1",
            "alarm 2 from sample 6 and still on behind sample 6, length 1",
        ]
    );
}

#[test]
fn an_excursion_begins_at_a_sample() {
    let steps = ["S 50", "C TA*", "S 50"];
    let recorded = Recorded::new(&straight(), &steps).holds(" AL=0000 ");
    let lit_by_a_read = recorded.spoil(4, " AL=0", " AL=1");
    lit_by_a_read.breaks(Clause::Excursion);
    lit_by_a_read.breaks(Clause::Unlatched);
}

// What the sentences stand on.

#[test]
fn answers_readings_and_setpoints_are_document_01s() {
    let steps = ["S 50", "C VE7*", "C TA*"];
    for (line, shown, instead, clause) in [
        (1, " R=50 ", " R=51 ", Clause::Reading),
        (5, " SP=7,", " SP=8,", Clause::Setpoint),
        (5, "A=0 ", "A=4 ", Clause::Answer),
        (6, " SP=7,", " SP=8,", Clause::Setpoint),
        (8, "A=2 ", "A=0 ", Clause::Answer),
        (8, " TOT=", " TOTAL=", Clause::Line),
        (0, "0 0", "11 1", Clause::Line),
    ] {
        let recorded = Recorded::new(&straight(), &steps).holds("A=2 ");
        recorded.spoil(line, shown, instead).breaks(clause);
    }
}

// The program.

fn sentences(words: &[&str]) -> Output {
    Command::new(env!("CARGO_BIN_EXE_sentences"))
        .args(words)
        .output()
        .expect("the check runs")
}

/// Judges what a line for the shell does.
fn judged(command: &str) -> Output {
    sentences(&[
        "--seed", "4", "--events", "60000", "--", "sh", "-c", command,
    ])
}

fn text(output: &Output) -> String {
    String::from_utf8(output.stdout.clone()).expect("text is printed")
}

#[test]
fn every_sentence_holds_of_the_model() {
    let output = sentences(&["--seed", "3", "--events", "60000", "--", MODEL]);
    assert!(output.status.success(), "{}", text(&output));
    assert!(text(&output).ends_with("every sentence holds\n"));
}

#[test]
fn a_seed_gives_the_same_histories_again() {
    let tally = |seed: &str| {
        let output = sentences(&["--seed", seed, "--events", "5000", "--", MODEL]);
        let text = text(&output);
        let without_time: Vec<String> = text
            .lines()
            .skip(1)
            .filter(|line| !line.starts_with("time: "))
            .map(str::to_string)
            .collect();
        without_time
    };
    assert_eq!(tally("7"), tally("7"));
    assert_ne!(tally("7"), tally("8"));
}

#[test]
fn a_broken_sentence_is_named_with_its_line() {
    for (spoiling, name) in [
        ("s/ TOT=1 / TOT=2 /", "sentence 1 (total)"),
        ("s/ AL=1000 / AL=1001 /", "sentence"),
        (
            "s/^A=2 \\(.*\\) AL=1/A=2 \\1 AL=0/",
            "sentence 5 (excursion)",
        ),
        ("s/^A=10 /A=0 /", "the answer"),
    ] {
        let output = judged(&format!("{MODEL} | sed '{spoiling}'"));
        assert_eq!(output.status.code(), Some(1));
        let text = text(&output);
        let named = text
            .lines()
            .any(|line| line.starts_with(name) && line.contains(" is broken at line "));
        assert!(named, "{text}");
    }
}

#[test]
fn a_broken_history_is_shortened() {
    let output = judged(&format!("{MODEL} | sed 's/^A=10 /A=0 /'"));
    let text = text(&output);
    let history: Vec<&str> = text
        .lines()
        .skip_while(|line| !line.starts_with("shortened to 2 lines"))
        .skip(1)
        .collect();
    assert!(history[0].starts_with("CFG "), "{text}");
    assert!(history[1].starts_with("K "), "{text}");
    assert!(history[2].starts_with("the answer is broken at line 2: "));
}

#[test]
fn missing_and_further_output_are_breaks() {
    for command in [
        "true".to_string(),
        format!("{MODEL} | head -n 500"),
        format!("{MODEL} | head -c -1"),
        format!("{MODEL}; echo more"),
        format!("{MODEL}; printf more"),
    ] {
        let output = judged(&command);
        assert_eq!(output.status.code(), Some(1), "{command}");
    }
}

#[test]
fn words_that_make_no_sense_are_refused() {
    for words in [
        &[][..],
        &["--seed", "1"],
        &["--seed", "x", "--", MODEL],
        &["--events", "--", MODEL],
        &["--what", "--", MODEL],
        &["--"],
    ] {
        assert_eq!(sentences(words).status.code(), Some(2), "{words:?}");
    }
}

#[test]
fn a_command_that_cannot_be_started_is_no_break() {
    let output = sentences(&["--", "./no-such-command"]);
    assert_eq!(output.status.code(), Some(2));
}
