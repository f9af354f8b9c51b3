//! What a number past a limit sets (document 02, ticket 5).

mod common;

use common::{on_node, straight, Hand, FILLING};
use meter_model::answer::Answer::{self, *};
use meter_model::answer::ANSWER_NAMES;

/// Numbers as written, and what each of them sets in a setpoint: the limits, one
/// past each of them and one short of it, and far past them.
const SETPOINTS: [(&str, i128); 12] = [
    ("99998", 99_998),
    ("99999", 99_999),
    ("100000", 0),
    ("100001", 1),
    ("-19998", -19_998),
    ("-19999", -19_999),
    ("-20000", -19_999),
    ("-20001", -19_999),
    ("-30000", -19_999),
    ("-99999", -19_999),
    ("-100000", 0),
    ("-100001", -1),
];

/// The same for the analog register in manual mode.
const CODES: [(&str, i128); 13] = [
    ("0", 0),
    ("-0", 0),
    ("1", 1),
    ("-1", 0),
    ("-2", 0),
    ("-4095", 0),
    ("-99999", 0),
    ("4094", 4_094),
    ("4095", 4_095),
    ("4096", 4_095),
    ("4097", 4_095),
    ("5000", 4_095),
    ("99999", 4_095),
];

/// Numbers of six digits and more. The last five count, and only they meet the
/// limits.
const LONG_SETPOINTS: [(&str, i128); 9] = [
    ("123456", 23_456),
    ("999999", 99_999),
    ("1000000005", 5),
    ("-120000", -19_999),
    ("-119999", -19_999),
    ("-119998", -19_998),
    ("-200005", -5),
    ("-9999900000", 0),
    ("-1.2.3.4.5.6.7.8.9", -19_999),
];

const LONG_CODES: [(&str, i128); 8] = [
    ("100000", 0),
    ("104094", 4_094),
    ("104095", 4_095),
    ("104096", 4_095),
    ("9999900077", 77),
    ("-100000", 0),
    ("-100001", 0),
    ("-104096", 0),
];

fn string(register: &str, number: &str) -> Vec<u8> {
    format!("V{register}{number}*").into_bytes()
}

/// A meter whose host has the outputs, or whose alarms have them.
fn in_manual(manual: bool) -> Hand {
    let mut hand = on_node(0);
    hand.samples(&[5_000]);
    hand.send(if manual { b"VJ0*" } else { b"VJO*" });
    hand
}

#[test]
fn the_example_of_the_ticket() {
    let mut hand = on_node(0);
    assert_eq!(hand.send(b"VE-120000*"), CarriedOut);
    assert_eq!(hand.setpoint(0), -19_999);
    assert_eq!(hand.reply(b"TE*"), "   SP1      -19999\r\n");
    assert_eq!(hand.send(b"VE123456*"), CarriedOut);
    assert_eq!(hand.setpoint(0), 23_456);
}

#[test]
fn setpoints_in_both_modes() {
    for (number, set) in SETPOINTS.iter().chain(&LONG_SETPOINTS) {
        for (alarm, register) in ["E", "F", "G", "H"].iter().enumerate() {
            for manual in [true, false] {
                let mut hand = in_manual(manual);
                let mut expected = [0, 1, 2, 3].map(|alarm| hand.setpoint(alarm));
                expected[alarm] = *set;
                assert_eq!(hand.send(&string(register, number)), CarriedOut, "{number}");
                let setpoints = [0, 1, 2, 3].map(|alarm| hand.setpoint(alarm));
                assert_eq!(setpoints, expected, "{number}");
            }
        }
    }
}

#[test]
fn codes_in_manual_mode() {
    for (number, set) in CODES.iter().chain(&LONG_CODES) {
        let mut hand = in_manual(true);
        assert_eq!(hand.send(&string("I", number)), CarriedOut, "{number}");
        assert_eq!(hand.state().analog_code, *set, "{number}");
    }
}

#[test]
fn codes_in_automatic_mode() {
    for (number, _) in CODES.iter().chain(&LONG_CODES) {
        let mut hand = in_manual(false);
        let answer = hand.send(&string("I", number));
        assert_eq!(answer, AnalogInAutomatic, "{number}");
        assert_eq!(hand.state().analog_code, 2_047, "{number}");
    }
}

/// A meter whose second alarm has this setpoint and two of the four samples that
/// it needs to go on.
fn waiting_at(setpoint: i32) -> Hand {
    let mut settings = straight();
    settings.alarms[1].setpoint = setpoint;
    settings.alarms[1].on_delay = 2;
    let mut hand = Hand::new(settings);
    hand.samples(&[9, 9]);
    assert_eq!(hand.run(1), 2);
    hand
}

#[test]
fn a_held_number_that_is_the_present_value_keeps_the_run() {
    for string in [b"VF-20000*", b"VF-99999*", b"VF-19999*"] {
        let mut hand = waiting_at(-19_999);
        assert_eq!(hand.send(string), CarriedOut);
        assert_eq!((hand.setpoint(1), hand.run(1)), (-19_999, 2));
        hand.samples(&[9]);
        assert!(!hand.alarms()[1]);
        hand.samples(&[9]);
        assert!(hand.alarms()[1]);
    }
}

#[test]
fn a_held_number_that_is_new_clears_the_run() {
    for setpoint in [-19_998, 0] {
        let mut hand = waiting_at(setpoint);
        assert_eq!(hand.send(b"VF-20000*"), CarriedOut);
        assert_eq!((hand.setpoint(1), hand.run(1)), (-19_999, 0));
        hand.samples(&[9, 9, 9]);
        assert!(!hand.alarms()[1]);
        assert_eq!(hand.send(b"VF-30000*"), CarriedOut);
        assert_eq!((hand.setpoint(1), hand.run(1)), (-19_999, 3));
        hand.samples(&[9]);
        assert!(hand.alarms()[1]);
    }
}

#[test]
fn a_held_number_touches_no_other_run() {
    let mut hand = waiting_at(0);
    hand.send(b"VE-20000*VG-20000*VH-20000*");
    assert_eq!(hand.run(1), 2);
}

#[test]
fn a_held_number_leaves_the_state() {
    let mut settings = straight();
    settings.alarms[1].low_acting = true;
    settings.alarms[1].off_delay = 2;
    let mut hand = Hand::new(settings);
    hand.samples(&[100, 300, 300]);
    assert_eq!((hand.alarms()[1], hand.run(1)), (true, 2));
    assert_eq!(hand.send(b"VF-20000*"), CarriedOut);
    assert_eq!((hand.alarms()[1], hand.run(1)), (true, 0));
    hand.samples(&[300]);
    assert_eq!(hand.send(b"VF-20001*"), CarriedOut);
    assert_eq!((hand.alarms()[1], hand.run(1)), (true, 1));
}

#[test]
fn address_and_form_come_before_the_limits() {
    let cases: [(&[u8], Answer); 7] = [
        (b"VE-20000*", OtherNode),
        (b"N5VI5000*", OtherNode),
        (b"NVE-20000*", BadForm),
        (b"N17VE-20000-*", BadForm),
        (b"N17VE+20000*", BadForm),
        (b"N17VI5000 *", BadForm),
        (b"N17VI--1*", BadForm),
    ];
    for (string, answer) in cases {
        let mut hand = on_node(17);
        hand.samples(&[5_000]);
        assert_eq!(hand.send(string), answer, "{string:?}");
        assert_eq!(hand.setpoint(0), 100);
        assert_eq!(hand.state().analog_code, 2_047);
    }
}

#[test]
fn the_longest_strings() {
    let mut setpoint = b"VE-".to_vec();
    setpoint.extend([b'7'; 29]);
    setpoint.push(b'*');
    let mut code = b"VI".to_vec();
    code.extend([b'7'; 30]);
    code.push(b'*');
    let mut hand = in_manual(true);
    assert_eq!(hand.send(&setpoint), CarriedOut);
    assert_eq!(hand.setpoint(0), -19_999);
    assert_eq!(hand.send(&code), CarriedOut);
    assert_eq!(hand.state().analog_code, 4_095);
    for mut string in [setpoint, code] {
        string.insert(3, b'7');
        let mut hand = in_manual(true);
        assert_eq!(hand.send(&string), StringTooLong);
        assert_eq!(hand.setpoint(0), 100);
        assert_eq!(hand.state().analog_code, 2_047);
    }
}

#[test]
fn a_held_number_needs_no_room_and_writes_no_reply() {
    let mut hand = in_manual(true);
    hand.place = u64::MAX;
    assert_eq!(hand.send(b"VE-20000*"), CarriedOut);
    assert_eq!(hand.send(b"VI4096*"), CarriedOut);
    assert_eq!(hand.setpoint(0), -19_999);
    assert_eq!(hand.state().analog_code, 4_095);
    assert_eq!(hand.buffer, vec![FILLING; 170]);
}

#[test]
fn seven_is_no_answer() {
    let numbers: Vec<usize> = ANSWER_NAMES.iter().map(|(number, _)| *number).collect();
    assert_eq!(numbers, [0, 1, 2, 3, 4, 5, 6, 8, 9, 10, 11, 12]);
}
