//! The examples by which the open points of document 01 are settled, those with
//! numbers past a limit as document 02, ticket 5 changes them.

mod common;

use common::{on_node, read, straight, with_points, Hand, FILLING};
use meter_model::answer::Answer::{self, *};
use meter_model::config::Rule;
use meter_model::extremes::Run;
use meter_model::meter::{Event, Meter};
use meter_model::reading::Reading::{self, Number};
use meter_model::receiver::Receiver;
use meter_model::total::Total;

fn answers(node: i32, strings: &[(&[u8], Answer)]) {
    for (string, answer) in strings {
        let mut hand = on_node(node);
        assert_eq!(hand.send(string), *answer, "{string:?} at node {node}");
        assert_eq!(hand.state().receiver, Receiver::empty());
    }
}

// Receiver and address.

#[test]
fn too_long_is_one_state() {
    let mut hand = on_node(5);
    for _ in 0..32 {
        assert_eq!(hand.byte(b'x'), ByteTaken);
    }
    assert_eq!(hand.state().receiver, Receiver::Gathering(vec![b'x'; 32]));
    assert_eq!(hand.byte(b'x'), ByteTaken);
    assert_eq!(hand.state().receiver, Receiver::TooLong);
    assert_eq!(hand.byte(b'x'), ByteTaken);
    assert_eq!(hand.byte(b'*'), StringTooLong);
    hand.send(&[b'x'; 40]);
    assert_eq!(hand.byte(b'\r'), LineEndReceived);
    assert_eq!(hand.byte(b'\n'), LineEndReceived);
    assert_eq!(hand.state().receiver, Receiver::empty());
}

#[test]
fn address_counts_among_the_bytes() {
    let mut string = b"N5VE".to_vec();
    string.extend([b'1'; 28]);
    string.push(b'$');
    answers(5, &[(&string, CarriedOut)]);
    string.insert(4, b'1');
    answers(5, &[(&string, StringTooLong)]);
}

#[test]
fn address_before_form() {
    let strings: [&[u8]; 5] = [b"*", b"garbage*", b"n5TA*", b" N5TA*", b"ta$"];
    for string in strings {
        answers(5, &[(string, OtherNode)]);
        answers(0, &[(string, BadForm)]);
    }
}

#[test]
fn address_without_digit() {
    for node in [0, 5, 17] {
        answers(
            node,
            &[(b"N*", BadForm), (b"NTA*", BadForm), (b"NN5TA*", BadForm)],
        );
    }
}

#[test]
fn at_most_two_digits() {
    answers(12, &[(b"N123TA*", BadForm)]);
    answers(1, &[(b"N123TA*", OtherNode)]);
    answers(23, &[(b"N123TA*", OtherNode)]);
    answers(0, &[(b"N005TA*", BadForm), (b"N0TA*", ReplyWritten(20))]);
    answers(
        0,
        &[(b"N00TA*", ReplyWritten(20)), (b"TA*", ReplyWritten(20))],
    );
    answers(5, &[(b"N005TA*", OtherNode), (b"N5TA*", ReplyWritten(20))]);
    answers(5, &[(b"N05TA*", ReplyWritten(20))]);
}

#[test]
fn half_string_outlives_keys_and_samples() {
    let mut hand = on_node(5);
    hand.send(b"N5T");
    hand.sample(7);
    for key in 1..=7 {
        hand.key(key);
    }
    hand.place = 500;
    assert_eq!(hand.key(6), NoRoom);
    hand.place = 0;
    assert_eq!(hand.reply(b"A*"), "05 INP           7\r\n");
}

#[test]
fn bytes_as_they_are() {
    answers(0, &[(b"\xd4A*", BadForm)]);
    let mut hand = on_node(0);
    assert_eq!(hand.send(b"TA\xaa"), ByteTaken);
}

#[test]
fn a_byte_too_many_or_too_few() {
    let strings: [&[u8]; 16] = [
        b"N5TAA*", b"N5REE*", b"N5PA*", b"N5T*", b"N5R*", b"N5N5TA*", b"N5 TA*", b"N5TA *",
        b"N5tA*", b"N5Ta*", b"N5TK*", b"N5RA*", b"N5RI*", b"N5VD1*", b"N5V*", b"N5*",
    ];
    for string in strings {
        answers(5, &[(string, BadForm)]);
        answers(6, &[(string, OtherNode)]);
    }
}

#[test]
fn not_started_comes_first() {
    let mut meter = Meter::NotStarted;
    let mut buffer = [FILLING; 170];
    let place = 0;
    for event in [
        Event::Sample(1),
        Event::Key { number: 99, place },
        Event::Key { number: 6, place },
        Event::Byte { byte: 13, place },
        Event::Byte { byte: 42, place },
    ] {
        assert_eq!(meter.event(event, &mut buffer), NotStarted);
    }
    assert_eq!(buffer, [FILLING; 170]);
}

#[test]
fn place_matters_to_replies_only() {
    let mut hand = on_node(0);
    hand.place = u64::MAX;
    assert_eq!(hand.sample(1), CarriedOut);
    for key in 2..=5 {
        assert_eq!(hand.key(key), CarriedOut);
    }
    assert_eq!(hand.send(b"VE5*"), CarriedOut);
    assert_eq!(hand.send(b"RB*"), CarriedOut);
    assert_eq!(hand.send(b"TA*"), NoRoom);
    assert_eq!(hand.buffer, vec![FILLING; 170]);
}

#[test]
fn room_at_the_end() {
    let mut hand = on_node(0);
    hand.place = 150;
    assert_eq!(hand.send(b"TA*"), ReplyWritten(20));
    hand.place = 151;
    assert_eq!(hand.send(b"TA*"), NoRoom);
    hand.place = 170;
    assert_eq!(hand.send(b"P*"), ReplyWritten(0));
    assert_eq!(hand.key(6), ReplyWritten(0));
    hand.place = 171;
    assert_eq!(hand.send(b"P*"), NoRoom);
    assert_eq!(hand.key(6), NoRoom);
}

// V numbers.

#[test]
fn number_forms() {
    for (string, value) in [
        (&b"VE1.2.3*"[..], 123),
        (b"VE-.5*", -5),
        (b"VE..7*", 7),
        (b"VE-0*", 0),
        (b"VE-100000*", 0),
        (b"VE-19999*", -19_999),
        (b"VE-20000*", -19_999),
        (b"VE-99999*", -19_999),
        (b"VE99999*", 99_999),
        (b"VE0000000042*", 42),
    ] {
        let mut hand = on_node(0);
        assert_eq!(hand.send(string), CarriedOut);
        assert_eq!(hand.setpoint(0), value);
    }
    answers(
        0,
        &[
            (b"VE*", BadForm),
            (b"VE-*", BadForm),
            (b"VE.*", BadForm),
            (b"VE--1*", BadForm),
            (b"VE1-*", BadForm),
            (b"VE.-5*", BadForm),
            (b"VE+1*", BadForm),
            (b"VE 1*", BadForm),
        ],
    );
}

#[test]
fn analog_register() {
    answers(
        0,
        &[
            (b"VI5000*", AnalogInAutomatic),
            (b"VI5*", AnalogInAutomatic),
            (b"VI-1*", AnalogInAutomatic),
            (b"VI-0*", AnalogInAutomatic),
            (b"VI4095*", AnalogInAutomatic),
            (b"VI4096*", AnalogInAutomatic),
        ],
    );
    let mut hand = on_node(0);
    hand.send(b"VJ0*");
    assert_eq!(hand.send(b"VI4095*"), CarriedOut);
    assert_eq!(hand.state().analog_code, 4_095);
    assert_eq!(hand.send(b"VI100000*"), CarriedOut);
    assert_eq!(hand.state().analog_code, 0);
}

#[test]
fn same_setpoint_leaves_the_run() {
    let mut settings = straight();
    settings.alarms[0].setpoint = 0;
    settings.alarms[0].on_delay = 5;
    let mut hand = Hand::new(settings);
    hand.samples(&[9, 9, 9]);
    hand.send(b"VE-0*");
    assert_eq!(hand.run(0), 3);
    hand.send(b"VE1*");
    assert_eq!(hand.run(0), 0);
}

// The status register.

#[test]
fn status_bytes() {
    answers(0, &[(b"VJ\x00*", CarriedOut), (b"VJ *", CarriedOut)]);
    answers(0, &[(b"VJN*", CarriedOut), (b"VJ-*", CarriedOut)]);
    answers(0, &[(b"VJ\x7f*", CarriedOut), (b"VJ\x80*", BadForm)]);
    answers(
        0,
        &[(b"VJ*", BadForm), (b"VJ55*", BadForm), (b"VJ$", BadForm)],
    );
    let mut hand = on_node(0);
    hand.samples(&[1_000]);
    hand.send(b"VJ.*");
    assert_eq!(hand.alarms(), [false, true, true, true]);
}

#[test]
fn automatic_resets_by_bit() {
    let mut settings = straight();
    for alarm in &mut settings.alarms {
        alarm.on_delay = 5;
    }
    let mut hand = Hand::new(settings);
    hand.samples(&[1_000, 1_000]);
    hand.send(b"VJE*");
    assert_eq!([0, 1, 2, 3].map(|alarm| hand.run(alarm)), [2, 0, 2, 0]);
}

#[test]
fn manual_leaves_alarms_and_code() {
    let mut hand = on_node(0);
    hand.samples(&[5_000]);
    hand.send(b"VJ3*");
    hand.samples(&[150]);
    assert_eq!(hand.state().analog_code, 2_047);
    assert_eq!(hand.alarms(), [true, false, false, false]);
    assert_eq!(hand.reply(b"TJ*"), "   CSR          19\r\n");
    hand.send(b"RE*");
    assert_eq!(hand.alarms(), [false; 4]);
    hand.send(b"VJ<*");
    assert_eq!(hand.state().manual_bits(), 12);
    hand.key(5);
    assert_eq!(hand.state().manual_bits(), 12);
    hand.send(b"VJO*");
    assert_eq!(hand.state().manual_bits(), 0);
    assert_eq!(hand.state().analog_code, 61);
}

// Reading.

#[test]
fn whole_fraction_is_rounded() {
    let settings = with_points(straight(), &[(0, 10), (2, 9)]);
    assert_eq!(read(settings, 1), Number(10));
}

#[test]
fn input_limits() {
    let settings = with_points(straight(), &[(-99_999, 5), (99_999, -5)]);
    assert_eq!(read(settings.clone(), 99_999), Number(-5));
    assert_eq!(read(settings.clone(), -99_999), Number(5));
    assert_eq!(read(settings.clone(), 100_000), Reading::Over);
    assert_eq!(read(settings.clone(), -100_000), Reading::Under);
    assert_eq!(read(settings.clone(), i32::MAX), Reading::Over);
    assert_eq!(read(settings, i32::MIN), Reading::Under);
}

#[test]
fn segments_and_their_ends() {
    let settings = with_points(straight(), &[(0, 0), (10, 100), (20, 0)]);
    assert_eq!(read(settings.clone(), 10), Number(100));
    assert_eq!(read(settings.clone(), 11), Number(90));
    assert_eq!(read(settings.clone(), 21), Number(-10));
    assert_eq!(read(settings, -1), Number(-10));
}

// Total.

#[test]
fn total_leaves_its_range() {
    let mut settings = straight();
    settings.batch = true;
    let mut hand = Hand::new(settings);
    hand.sample(99_999);
    for _ in 0..10_000 {
        assert_eq!(hand.key(1), CarriedOut);
    }
    hand.sample(9_999);
    hand.key(1);
    assert_eq!(hand.state().total(), Total::Number(999_999_999));
    let edge = hand.state().totalizer.sum();
    hand.sample(1);
    hand.key(1);
    assert_eq!(hand.state().total(), Total::Over);
    hand.sample(-5);
    assert_eq!(hand.key(1), CarriedOut);
    assert_eq!(hand.state().total(), Total::Over);
    assert_eq!(hand.state().totalizer.sum(), edge);
    assert_eq!(hand.reply(b"TB*"), "   TOT        OLOL\r\n");
    hand.key(2);
    assert_eq!(hand.state().total(), Total::Number(0));
    assert_eq!(hand.state().totalizer.sum(), 0);
}

#[test]
fn batch_adds_numbers_only() {
    let mut settings = straight();
    settings.batch = true;
    settings.low_cut = 99_999;
    let mut hand = Hand::new(settings);
    assert_eq!(hand.key(1), CarriedOut);
    hand.samples(&[100_000]);
    assert_eq!(hand.key(1), CarriedOut);
    assert_eq!(hand.state().totalizer.sum(), 0);
    hand.samples(&[3, 3, 3]);
    assert_eq!(hand.state().totalizer.sum(), 0);
    hand.key(1);
    assert_eq!(hand.state().total(), Total::Number(3));
    assert_eq!(on_node(0).key(1), UnknownKey);
}

#[test]
fn small_negative_total_has_no_minus() {
    let mut settings = straight();
    settings.total_places = 2;
    let mut hand = Hand::new(settings);
    hand.samples(&[-1]);
    assert_eq!(hand.reply(b"TB*"), "   TOT        0.00\r\n");
}

// Max, min and alarms.

fn run_of_one(remembered: i128) -> Option<Run> {
    Some(Run {
        readings: 1,
        remembered,
    })
}

#[test]
fn resets_of_max_and_min() {
    let mut settings = straight();
    settings.capture_time = 1;
    let mut hand = Hand::new(settings);
    hand.samples(&[10, 20, 20]);
    assert_eq!(hand.state().max.shown(), Number(20));
    hand.samples(&[5, 15]);
    assert_eq!(hand.state().min.shown(), Number(10));
    hand.send(b"RD*");
    hand.samples(&[7]);
    hand.send(b"RC*");
    assert_eq!(hand.state().max.shown(), Number(7));
    assert_eq!(hand.state().min.shown(), Number(15));
    hand.samples(&[9]);
    assert_eq!(hand.state().max.run(), run_of_one(9));
    assert_eq!(hand.state().min.run(), None);
    assert_eq!(hand.state().min.shown(), Number(9));
}

#[test]
fn over_ends_the_run_and_is_never_taken() {
    let mut settings = straight();
    settings.capture_time = 1;
    let mut hand = Hand::new(settings);
    hand.samples(&[100_000]);
    assert_eq!(hand.state().max.shown(), Reading::Nothing);
    hand.samples(&[1]);
    assert_eq!(hand.state().max.run(), None);
    hand.samples(&[2, 100_000, 2]);
    assert_eq!(hand.state().max.shown(), Number(1));
    assert_eq!(hand.state().max.run(), run_of_one(2));
    hand.samples(&[-100_000]);
    hand.send(b"RC*");
    assert_eq!(hand.state().max.shown(), Reading::Nothing);
}

#[test]
fn alarms_at_their_edges() {
    let mut settings = straight();
    settings.alarms[0].hysteresis = 10;
    settings.alarms[1].low_acting = true;
    settings.alarms[1].hysteresis = 10;
    let mut hand = Hand::new(settings);
    hand.samples(&[100]);
    assert_eq!(hand.alarms(), [false, true, false, false]);
    hand.samples(&[101, 91]);
    assert!(hand.alarms()[0]);
    hand.samples(&[90]);
    assert!(!hand.alarms()[0]);
    hand.samples(&[209]);
    assert!(hand.alarms()[1]);
    hand.samples(&[210]);
    assert!(!hand.alarms()[1]);
    hand.samples(&[200]);
    assert!(!hand.alarms()[1]);
    hand.samples(&[100_000]);
    assert_eq!(hand.alarms(), [true, false, true, true]);
    hand.samples(&[-100_000]);
    assert_eq!(hand.alarms(), [false, true, false, false]);
}

#[test]
fn latched_goes_off_by_reset_only() {
    let mut settings = straight();
    settings.alarms[0].latched = true;
    settings.alarms[0].on_delay = 1;
    settings.alarms[0].off_delay = 1;
    let mut hand = Hand::new(settings);
    hand.samples(&[101, 101, 0, 0, 0]);
    assert!(hand.alarms()[0]);
    assert_eq!(hand.run(0), 0);
    hand.samples(&[101]);
    hand.send(b"RE*");
    hand.samples(&[101]);
    assert!(!hand.alarms()[0]);
    hand.samples(&[101]);
    assert!(hand.alarms()[0]);
}

// Analog.

#[test]
fn falling_analog_span() {
    let mut settings = straight();
    settings.analog_low = 100;
    settings.analog_high = 0;
    for (input, code) in [
        (100, 0),
        (0, 4_095),
        (50, 2_047),
        (101, 0),
        (-1, 4_095),
        (100_000, 4_095),
        (-100_000, 0),
    ] {
        let mut hand = Hand::new(settings.clone());
        hand.samples(&[input]);
        assert_eq!(hand.state().analog_code, code);
    }
}

#[test]
fn back_to_automatic_before_any_sample() {
    let mut hand = on_node(0);
    hand.send(b"VJ0*VI77*");
    assert_eq!(hand.state().analog_code, 77);
    hand.send(b"VJ@*");
    assert_eq!(hand.state().analog_code, 0);
}

// Replies.

#[test]
fn block_in_letter_order() {
    let mut settings = straight();
    settings.node = 5;
    settings.print_input = true;
    settings.print_max_min = true;
    settings.print_total = true;
    settings.print_setpoints = true;
    let mut hand = Hand::new(settings.clone());
    let block = hand.reply(b"N5P*");
    assert_eq!(block.len(), 163);
    let order: Vec<&str> = block
        .split("\r\n")
        .map(|line| line.get(3..6).unwrap_or(line))
        .collect();
    assert_eq!(
        order,
        ["INP", "TOT", "MAX", "MIN", "SP1", "SP2", "SP3", "SP4", " ", ""]
    );
    settings.abbreviated = true;
    let mut hand = Hand::new(settings);
    assert_eq!(hand.reply(b"N5P$").len(), 115);
    assert_eq!(hand.reply(b"N5TE$"), "         100\r\n");
}

// Configuration.

fn refused(change: impl Fn(&mut meter_model::config::Configuration)) -> Option<Rule> {
    let mut settings = straight();
    change(&mut settings);
    settings.first_broken_rule()
}

#[test]
fn rules_in_order() {
    assert_eq!(refused(|settings| settings.node = 100), Some(Rule::Node));
    assert_eq!(
        refused(|settings| settings.total_places = 5),
        Some(Rule::DecimalPlaces)
    );
    assert_eq!(
        refused(|settings| settings.rounding = 3),
        Some(Rule::RoundingStep)
    );
    for count in [1, 17, -1, i32::MAX, i32::MIN] {
        assert_eq!(
            refused(|settings| settings.point_count = count),
            Some(Rule::PointCount)
        );
    }
    assert_eq!(
        refused(|settings| settings.points[1].input = -99_999),
        Some(Rule::Points)
    );
    assert_eq!(
        refused(|settings| settings.time_base = 59),
        Some(Rule::FactorAndBase)
    );
    assert_eq!(
        refused(|settings| settings.low_cut = -20_000),
        Some(Rule::LowCut)
    );
    assert_eq!(
        refused(|settings| settings.alarms[3].hysteresis = 0),
        Some(Rule::Alarms)
    );
    assert_eq!(
        refused(|settings| settings.capture_time = 32_751),
        Some(Rule::CaptureTime)
    );
    assert_eq!(
        refused(|settings| settings.analog_high = settings.analog_low),
        Some(Rule::Analog)
    );
    assert_eq!(
        refused(|settings| {
            settings.analog_low = 100_000;
            settings.low_cut = 100_000;
        }),
        Some(Rule::LowCut)
    );
    assert_eq!(
        refused(|settings| settings.points[3].input = i32::MIN),
        None
    );
}
