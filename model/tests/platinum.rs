//! Platinum sensors (document 02, ticket 3): the curve, the readings, the rules,
//! and the word that names the source.

mod common;

use common::{read, straight, Hand};
use meter_model::config::{Configuration, Point, Rule, Source};
use meter_model::lines::{configuration_line, lines_of, read_line, Line, Replay};
use meter_model::platinum::{
    curve, resistance, HIGHEST_DEGREE, HIGHEST_RESISTANCE, LOWEST_DEGREE, LOWEST_RESISTANCE,
};
use meter_model::reading::{reading_of, Reading};
use meter_model::rescale::Rescale;

/// A platinum meter with this step, all else as on the bench.
fn platinum(step: i32) -> Configuration {
    Configuration {
        source: Source::Platinum,
        input_places: 1,
        rounding: step,
        ..straight()
    }
}

fn reads(step: i32, input: i32) -> Reading {
    reading_of(&platinum(step), input)
}

fn number(step: i32, input: i32) -> i128 {
    match reads(step, input) {
        Reading::Number(number) => number,
        other => panic!("{input} reads no number but {other:?}"),
    }
}

// The curve.

#[test]
fn entries_that_are_exact_halves_go_up() {
    for (degree, entry) in [
        (20, 107_794),
        (100, 138_506),
        (220, 183_188),
        (300, 212_052),
        (420, 253_962),
        (500, 280_978),
        (620, 320_116),
        (700, 345_284),
        (820, 381_650),
    ] {
        assert_eq!(resistance(degree), entry, "{degree}");
        // From zero on the polynomial has five places behind the point.
        let degree = i64::from(degree);
        let whole = 10_000_000_000 + 39_083_000 * degree - 5_775 * degree * degree;
        assert_eq!(whole % 100_000, 50_000, "{degree} is no half");
    }
}

#[test]
fn no_other_entry_is_a_half() {
    let below = (-200_i128..0).filter(|degree| {
        let term = 4_183 * (degree - 100) * degree * degree * degree;
        let whole = 1_000_000_000_000_000 + 3_908_300_000_000 * degree
            - 577_500_000 * degree * degree
            - term;
        whole % 10_000_000_000 == 5_000_000_000
    });
    let above = (0_i128..=850).filter(|degree| {
        (10_000_000_000 + 39_083_000 * degree - 5_775 * degree * degree) % 100_000 == 50_000
    });
    assert_eq!(below.count(), 0);
    assert_eq!(above.count(), 9);
}

/// The polynomial in floats, which are far finer than a milliohm but cannot be
/// trusted near a half.
fn in_floats(degree: i32) -> f64 {
    let t = f64::from(degree);
    let last_term = if degree < 0 {
        -4.183e-12 * (t - 100.0) * t * t * t
    } else {
        0.0
    };
    100_000.0 * (1.0 + 3.9083e-3 * t - 5.775e-7 * t * t + last_term)
}

#[test]
fn every_entry_is_the_nearest_milliohm() {
    for degree in LOWEST_DEGREE..=HIGHEST_DEGREE {
        let off = f64::from(resistance(degree)) - in_floats(degree);
        assert!(off.abs() < 0.500_001, "{degree} is off by {off}");
    }
}

#[test]
fn the_curve_has_both_its_ends_and_known_entries() {
    assert_eq!(curve().len(), 1_051);
    assert_eq!((LOWEST_DEGREE, resistance(-200)), (-200, 18_520));
    assert_eq!((HIGHEST_DEGREE, resistance(850)), (850, 390_481));
    assert_eq!((LOWEST_RESISTANCE, HIGHEST_RESISTANCE), (18_520, 390_481));
    assert_eq!(resistance(0), 100_000);
    // As tables of the standard have them, to the hundredth of an ohm.
    for (degree, hundredths) in [
        (-195, 2_068),
        (-150, 3_972),
        (-100, 6_026),
        (-50, 8_031),
        (-1, 9_961),
        (1, 10_039),
        (50, 11_940),
        (100, 13_851),
        (400, 24_709),
        (600, 31_371),
    ] {
        assert_eq!((resistance(degree) + 5) / 10, hundredths, "{degree}");
    }
}

#[test]
fn entries_strictly_rise() {
    for neighbours in curve().windows(2) {
        let [Point { input: left, .. }, Point { input: right, .. }] = neighbours else {
            unreachable!("windows have two entries");
        };
        assert!(left < right, "{left} is followed by {right}");
    }
}

// The readings.

#[test]
fn whole_degrees_read_ten_times_the_degree() {
    for degree in LOWEST_DEGREE..=HIGHEST_DEGREE {
        assert_eq!(number(1, resistance(degree)), 10 * i128::from(degree));
    }
}

#[test]
fn readings_never_fall_and_meet_every_tenth() {
    let mut last = -2_000;
    for input in LOWEST_RESISTANCE..=HIGHEST_RESISTANCE {
        let reading = number(1, input);
        assert!(reading == last || reading == last + 1, "{input}");
        last = reading;
    }
    assert_eq!(last, 8_500);
}

#[test]
fn ends_are_readings_and_beyond_them_is_over_and_under() {
    for step in [1, 2, 5, 10, 20, 50, 100] {
        assert_eq!(number(step, 18_520), -2_000);
        assert_eq!(number(step, 390_481), 8_500);
        assert_eq!(reads(step, 18_519), Reading::Under);
        assert_eq!(reads(step, 390_482), Reading::Over);
        for input in [0, -1, -99_999, -100_000, i32::MIN] {
            assert_eq!(reads(step, input), Reading::Under);
        }
        assert_eq!(reads(step, i32::MAX), Reading::Over);
    }
}

#[test]
fn the_limit_of_inputs_to_points_does_not_apply() {
    assert_eq!(number(1, 99_999), 0);
    assert_eq!(number(1, 100_000), 0);
    assert_eq!(number(1, 100_001), 0);
    // The polynomial, solved for 200 ohms, gives 266.348 degrees.
    assert_eq!(number(1, 200_000), 2_663);
}

/// From 1 degree to 2 there are 390 milliohms, from -2 to -1 there are 391. So half
/// a tenth lies between 19 and 20 of them.
#[test]
fn tenths_are_rounded_to_the_nearest() {
    assert_eq!((resistance(1), resistance(2)), (100_391, 100_781));
    assert_eq!(number(1, 100_391 + 19), 10);
    assert_eq!(number(1, 100_391 + 20), 11);
    assert_eq!((resistance(-2), resistance(-1)), (99_218, 99_609));
    assert_eq!(number(1, 99_609 - 19), -10);
    assert_eq!(number(1, 99_609 - 20), -11);
}

/// The width of the degree that starts here.
fn width_from(degree: i32) -> i32 {
    resistance(degree + 1) - resistance(degree)
}

#[test]
fn exact_halves_go_away_from_zero_on_both_sides() {
    let quarters = |degree: &i32| width_from(*degree) % 4 == 0;
    let above: Vec<i32> = (0..850).filter(quarters).collect();
    let below: Vec<i32> = (-200..0).filter(quarters).collect();
    assert!(above.len() > 100 && below.len() > 30);
    // A quarter of a degree is two tenths and a half.
    for degree in above {
        let half = resistance(degree) + width_from(degree) / 4;
        let expected = 10 * i128::from(degree) + 3;
        assert_eq!(number(1, half), expected);
        assert_eq!(number(1, half - 1), expected - 1);
    }
    for degree in below {
        let half = resistance(degree + 1) - width_from(degree) / 4;
        let expected = 10 * i128::from(degree + 1) - 3;
        assert_eq!(number(1, half), expected);
        assert_eq!(number(1, half + 1), expected + 1);
    }
}

#[test]
fn the_step_starts_from_whole_tenths() {
    // 4.46 tenths of a degree are 4 tenths; 4.52 are 5, and 5 tenths are 10.
    let zero = resistance(0);
    assert_eq!(width_from(0), 391);
    assert_eq!((number(1, zero + 175), number(10, zero + 175)), (4, 0));
    assert_eq!((number(1, zero + 176), number(10, zero + 176)), (5, 10));
    // The same below zero.
    assert_eq!(width_from(-1), 391);
    assert_eq!((number(1, zero - 175), number(10, zero - 175)), (-4, 0));
    assert_eq!((number(1, zero - 176), number(10, zero - 176)), (-5, -10));
}

#[test]
fn each_step_takes_halves_away_from_zero() {
    for step in [2, 5, 10, 20, 50, 100] {
        for input in (LOWEST_RESISTANCE..=HIGHEST_RESISTANCE).step_by(37) {
            let (whole, stepped) = (number(1, input), number(step, input));
            let step = i128::from(step);
            assert_eq!(stepped % step, 0);
            let off = stepped.abs() - whole.abs();
            assert!(-step < 2 * off && 2 * off <= step, "{input} with {step}");
        }
    }
}

#[test]
fn all_that_follows_the_reading_stays() {
    let mut settings = platinum(1);
    settings.node = 7;
    settings.alarms[0].setpoint = -11;
    settings.alarms[0].low_acting = true;
    settings.scale_factor = 1_000;
    settings.time_base = 1;
    (settings.analog_low, settings.analog_high) = (-2_000, 8_500);
    let mut hand = Hand::new(settings);
    hand.samples(&[resistance(-2)]);
    assert_eq!(hand.alarms(), [true, false, false, false]);
    assert_eq!(hand.state().totalizer.sum(), -20_000);
    assert_eq!(hand.reply(b"N7TA*"), "07 INP        -2.0\r\n");
    hand.samples(&[390_482]);
    assert_eq!(hand.reply(b"N7TA*"), "07 INP        OLOL\r\n");
    assert_eq!(hand.state().analog_code, 4_095);
    hand.samples(&[18_519]);
    assert_eq!(hand.reply(b"N7TA*"), "07 INP        ULUL\r\n");
    assert_eq!(hand.reply(b"N7TD*"), "07 MIN        -2.0\r\n");
}

#[test]
fn the_points_are_not_looked_at() {
    let mut settings = platinum(1);
    for count in [i32::MIN, -3, 0, 1, 2, 16, 17, i32::MAX] {
        settings.point_count = count;
        for point in &mut settings.points {
            *point = Point {
                input: count,
                display: i32::MAX,
            };
        }
        assert_eq!(read(settings.clone(), 138_506), Reading::Number(1_000));
    }
}

// The rules.

/// What breaks a rule.
type Fault = fn(&mut Configuration);

/// The number of the first broken rule of a changed platinum meter, 0 for none.
fn broken(change: impl FnOnce(&mut Configuration)) -> usize {
    let mut settings = platinum(1);
    change(&mut settings);
    settings.first_broken_rule().map_or(0, Rule::number)
}

/// The same of a meter with points.
fn broken_with_points(change: impl FnOnce(&mut Configuration)) -> usize {
    let mut settings = straight();
    change(&mut settings);
    settings.first_broken_rule().map_or(0, Rule::number)
}

#[test]
fn input_places_must_be_one() {
    for places in [i32::MIN, -1, 0, 2, 3, 4, 5, i32::MAX] {
        assert_eq!(broken(|settings| settings.input_places = places), 2);
    }
    assert_eq!(broken(|settings| settings.input_places = 1), 0);
    for places in 0..=4 {
        assert_eq!(broken(|settings| settings.total_places = places), 0);
        let of_points = broken_with_points(|settings| settings.input_places = places);
        assert_eq!(of_points, 0);
    }
    assert_eq!(broken(|settings| settings.total_places = 5), 2);
}

#[test]
fn the_number_of_points_is_judged_with_points_only() {
    for count in [i32::MIN, -3, 0, 1, 17, i32::MAX] {
        assert_eq!(broken(|settings| settings.point_count = count), 0);
        let of_points = broken_with_points(|settings| settings.point_count = count);
        assert_eq!(of_points, 4);
    }
}

#[test]
fn the_points_are_judged_with_points_only() {
    for point in [
        Point {
            input: 100_000,
            display: 0,
        },
        Point {
            input: 0,
            display: 100_000,
        },
        Point {
            input: i32::MIN,
            display: i32::MIN,
        },
    ] {
        assert_eq!(broken(|settings| settings.points[1] = point), 0);
        let of_points = broken_with_points(|settings| settings.points[1] = point);
        assert_eq!(of_points, 5);
    }
}

#[test]
fn all_other_rules_are_judged_in_their_order() {
    let faults: [(usize, Fault); 8] = [
        (1, |settings| settings.node = 100),
        (2, |settings| settings.input_places = 0),
        (3, |settings| settings.rounding = 3),
        (6, |settings| settings.scale_factor = 0),
        (7, |settings| settings.low_cut = 100_000),
        (8, |settings| settings.alarms[3].hysteresis = 0),
        (9, |settings| settings.capture_time = -1),
        (10, |settings| settings.analog_high = settings.analog_low),
    ];
    for (index, (rule, fault)) in faults.iter().enumerate() {
        assert_eq!(broken(fault), *rule);
        let with_all_behind_it = broken(|settings| {
            settings.point_count = 0;
            settings.points[0].input = i32::MAX;
            for (_, fault) in &faults[index..] {
                fault(settings);
            }
        });
        assert_eq!(with_all_behind_it, *rule);
    }
}

// The word.

/// What is printed for a line, and then for a sample of 138506.
fn printed(line: &str) -> (String, String) {
    let mut output = Vec::new();
    Replay::new().text(format!("{line}\nS 138506\n").as_bytes(), &mut output);
    let lines: Vec<String> = lines_of(&output)
        .map(|line| String::from_utf8_lossy(line).into_owned())
        .collect();
    (lines[0].clone(), lines[1].clone())
}

/// A line without the word, good for either source.
fn bare_line() -> String {
    configuration_line(&Configuration {
        source: Source::Points,
        ..platinum(1)
    })
}

#[test]
fn a_word_that_is_left_out_is_0() {
    let (left_out, over) = printed(&bare_line());
    assert_eq!(left_out, "0 0");
    assert!(over.starts_with("A=0 V=0 R=OL "), "{over}");
    let named = printed(&format!("{} 0", bare_line()));
    assert_eq!(named, (left_out, over));
    let line = |behind: &str| read_line(format!("{}{behind}", bare_line()).as_bytes());
    assert_eq!(line(""), line(" 0"));
}

#[test]
fn the_word_1_is_platinum() {
    let (answer, number) = printed(&format!("{} 1", bare_line()));
    assert_eq!(answer, "0 0");
    assert!(number.starts_with("A=0 V=0 R=1000 "), "{number}");
    let line = configuration_line(&platinum(5));
    let read_back = Line::PowerUp(Box::new(platinum(5)));
    assert_eq!(read_line(line.as_bytes()), read_back);
}

#[test]
fn no_other_word_names_a_source_and_no_second_may_follow() {
    for behind in [
        " 2", " -1", " 01", " 00", " -0", " +1", " x", " ", " 1 ", "  1", " 0 0", " 0 1", " 1 0",
        " 1 1", " 1\r",
    ] {
        let (answer, state) = printed(&format!("{}{behind}", bare_line()));
        assert_eq!(answer, "?", "{behind:?}");
        assert_eq!(state, "A=12 V=0 BUF=-", "{behind:?}");
    }
}

#[test]
fn every_power_up_names_its_own_source() {
    let (points, platinum) = (bare_line(), format!("{} 1", bare_line()));
    let order = [&points, &platinum, &points, &platinum, &platinum, &points];
    let mut text = String::new();
    for line in order {
        text += &format!("{line}\nS 138506\n");
    }
    let mut output = Vec::new();
    Replay::new().text(text.as_bytes(), &mut output);
    let readings: Vec<&[u8]> = lines_of(&output)
        .filter_map(|line| line.split(|byte| *byte == b' ').nth(2))
        .collect();
    let expected: [&[u8]; 6] = [b"R=OL", b"R=1000", b"R=OL", b"R=1000", b"R=1000", b"R=OL"];
    assert_eq!(readings, expected);
}

/// What `rescale` prints for a whole text.
fn rescaled(text: &str) -> String {
    let mut rescale = Rescale::new();
    let mut output = Vec::new();
    for line in lines_of(text.as_bytes()) {
        rescale.line(line, &mut output);
    }
    String::from_utf8(output).expect("only ASCII is printed")
}

#[test]
fn rescale_reads_by_the_source_that_is_named() {
    let inputs = "138506\n18519\n18520\n390481\n390482\n-1\n99999\nx\n60256\n";
    let platinum = format!("{} 1\n{inputs}", bare_line());
    assert_eq!(
        rescaled(&platinum),
        "0 0\n1000\nUL\n-2000\n8500\nOL\nUL\n0\n?\n-1000\n"
    );
    for behind in ["", " 0"] {
        let points = format!("{}{behind}\n{inputs}", bare_line());
        assert_eq!(
            rescaled(&points),
            "0 0\nOL\n18519\n18520\nOL\nOL\n-1\n99999\n?\n60256\n"
        );
    }
    let unknown = format!("{} 2\n138506\n", bare_line());
    assert_eq!(rescaled(&unknown), "?\n?\n");
    let mut refused = self::platinum(1);
    refused.input_places = 2;
    let refused = format!("{}\n138506\n", configuration_line(&refused));
    assert_eq!(rescaled(&refused), "11 2\n");
}
