//! The cases of document 01's bench sheet, one of them as document 02, ticket 5
//! changes it, and its bench program's example.

mod common;

use common::{on_node, read, straight, with_points, Hand};
use meter_model::answer::Answer;
use meter_model::bench::Bench;
use meter_model::reading::Reading::{Number, Over};
use meter_model::total::Total;

#[test]
fn step_of_five() {
    let mut settings = straight();
    settings.rounding = 5;
    assert_eq!(read(settings.clone(), 121), Number(120));
    assert_eq!(read(settings, 124), Number(125));
}

#[test]
fn thirds_are_rounded_on_both_sides_of_zero() {
    let settings = with_points(straight(), &[(0, 0), (3, 10)]);
    assert_eq!(read(settings.clone(), 1), Number(3));
    assert_eq!(read(settings, -1), Number(-3));
}

#[test]
fn half_below_zero_goes_away_from_zero() {
    let settings = with_points(straight(), &[(0, 0), (2, 1)]);
    assert_eq!(read(settings, -1), Number(-1));
}

#[test]
fn rounding_is_done_twice() {
    let mut settings = with_points(straight(), &[(0, 0), (10, 6)]);
    settings.rounding = 2;
    assert_eq!(read(settings, 1), Number(2));
}

#[test]
fn highest_display_rounded_up_is_over() {
    let mut settings = straight();
    settings.rounding = 100;
    assert_eq!(read(settings, 99_999), Over);
}

#[test]
fn total_by_time() {
    let mut hand = Hand::new(straight());
    hand.samples(&[100; 11]);
    assert_eq!(hand.state().total(), Total::Number(0));
    hand.samples(&[100; 9]);
    assert_eq!(hand.state().total(), Total::Number(1));
    hand.samples(&[100; 1_180]);
    assert_eq!(hand.state().total(), Total::Number(100));
}

#[test]
fn delay_of_two_tenths() {
    let mut settings = straight();
    settings.alarms[0].on_delay = 2;
    let mut hand = Hand::new(settings.clone());
    hand.samples(&[101, 101, 101]);
    assert!(!hand.alarms()[0]);
    hand.samples(&[101]);
    assert!(hand.alarms()[0]);
    let mut hand = Hand::new(settings);
    hand.samples(&[101, 101, 101, 100, 101]);
    assert!(!hand.alarms()[0]);
    assert_eq!(hand.run(0), 1);
}

#[test]
fn setpoint_of_node_seventeen() {
    let mut hand = on_node(17);
    assert_eq!(hand.send(b"N17VE350$"), Answer::CarriedOut);
    assert_eq!(hand.setpoint(0), 350);
    let mut hand = on_node(5);
    assert_eq!(hand.send(b"N17VE350$"), Answer::OtherNode);
    assert_eq!(hand.setpoint(0), 100);
}

#[test]
fn six_digits() {
    let mut hand = on_node(0);
    assert_eq!(hand.send(b"VE123456*"), Answer::CarriedOut);
    assert_eq!(hand.setpoint(0), 23_456);
    assert_eq!(hand.send(b"VE-120000*"), Answer::CarriedOut);
    assert_eq!(hand.setpoint(0), -19_999);
}

#[test]
fn thirty_digits_and_thirty_one() {
    let mut hand = on_node(0);
    let mut string = b"VE".to_vec();
    string.extend([b'7'; 30]);
    string.push(b'*');
    assert_eq!(hand.send(&string), Answer::CarriedOut);
    assert_eq!(hand.setpoint(0), 77_777);
    string.insert(2, b'0');
    assert_eq!(hand.send(&string), Answer::StringTooLong);
}

#[test]
fn control_status() {
    let mut hand = on_node(0);
    assert_eq!(hand.send(b"VJ5*"), Answer::CarriedOut);
    assert_eq!(hand.state().manual_bits(), 0b0101);
    assert_eq!(hand.reply(b"TJ*"), "   CSR          21\r\n");
    hand.samples(&[1_000]);
    assert_eq!(hand.alarms(), [true; 4]);
    assert_eq!(hand.send(b"VJ@*"), Answer::CarriedOut);
    assert_eq!(hand.alarms(), [false; 4]);
    assert_eq!(hand.reply(b"TJ*"), "   CSR           0\r\n");
}

#[test]
fn analog_half_way() {
    let mut hand = on_node(0);
    hand.samples(&[5_000]);
    assert_eq!(hand.state().analog_code, 2_047);
}

fn bench(input: &[u8]) -> String {
    let mut bench = Bench::new();
    let mut output = Vec::new();
    for line in meter_model::lines::lines_of(input) {
        bench.line(line, &mut output);
    }
    String::from_utf8(output).expect("the bench prints ASCII")
}

#[test]
fn bench_example() {
    assert_eq!(
        bench(b"S 437\nC N5TA*\nC TA*\n"),
        "0\n2\n05 INP        87.4\r\n3\n"
    );
}

#[test]
fn bench_lines_that_are_not_understood() {
    let bad: [&[u8]; 14] = [
        b"S +1\n",
        b"S 1 \n",
        b"S  1\n",
        b"s 1\n",
        b"\n",
        b"C \n",
        b"C\n",
        b"S 1\r\n",
        b"S 00000000001\n",
        b"S 2147483648\n",
        b"S -\n",
        b"K\n",
        b"K 1x\n",
        b"?",
    ];
    for line in bad {
        assert_eq!(bench(line), "?\n");
    }
    let mut eighty = b"C ".to_vec();
    eighty.extend([b'x'; 80]);
    assert_eq!(bench(&eighty), "1\n");
    eighty.push(b'x');
    assert_eq!(bench(&eighty), "?\n");
}

#[test]
fn bench_lines_that_are_understood() {
    assert_eq!(bench(b""), "");
    assert_eq!(bench(b"S -0\nS 0000000001\nS -2147483648"), "0\n0\n0\n");
    assert_eq!(bench(b"C N5TA*\r\n"), "5\n");
    assert_eq!(bench(b"C N5T\n?\nC A*"), "1\n?\n2\n05 INP        ----\r\n");
    assert_eq!(bench(b"K 6\n"), "2\n");
    assert_eq!(bench(b"K 1\nK 7\n"), "10\n10\n");
}
