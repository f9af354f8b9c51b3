//! A meter in the hand: powered up with settings, fed with samples, keys and
//! strings, and looked at.

#![allow(dead_code)]

use meter_model::answer::Answer;
use meter_model::bench::bench_configuration;
use meter_model::config::{Configuration, Point};
use meter_model::meter::{Event, Meter, Running};
use meter_model::reading::Reading;

pub const FILLING: u8 = 0xEE;

pub struct Hand {
    pub meter: Meter,
    pub buffer: Vec<u8>,
    pub place: u64,
}

/// Node 0, every input shown as it is, and all else as on the bench.
pub fn straight() -> Configuration {
    let mut settings = bench_configuration();
    settings.node = 0;
    settings.input_places = 0;
    with_points(
        settings,
        &[(-99_999, -19_999), (-19_999, -19_999), (99_999, 99_999)],
    )
}

/// The settings with these scaling points.
pub fn with_points(mut settings: Configuration, points: &[(i32, i32)]) -> Configuration {
    settings.point_count = points.len() as i32;
    for (place, (input, display)) in settings.points.iter_mut().zip(points) {
        *place = Point {
            input: *input,
            display: *display,
        };
    }
    settings
}

/// The straight scale on another node.
pub fn on_node(node: i32) -> Hand {
    let mut settings = straight();
    settings.node = node;
    Hand::new(settings)
}

impl Hand {
    pub fn new(settings: Configuration) -> Hand {
        let mut meter = Meter::NotStarted;
        assert_eq!(meter.power_up(settings), Answer::CarriedOut);
        Hand {
            meter,
            buffer: vec![FILLING; 170],
            place: 0,
        }
    }

    pub fn state(&self) -> &Running {
        match &self.meter {
            Meter::Started(running) => running,
            Meter::NotStarted => panic!("the meter is not started"),
        }
    }

    pub fn sample(&mut self, input: i32) -> Answer {
        self.meter.event(Event::Sample(input), &mut self.buffer)
    }

    pub fn samples(&mut self, inputs: &[i32]) {
        for input in inputs {
            assert_eq!(self.sample(*input), Answer::CarriedOut);
        }
    }

    pub fn key(&mut self, number: i32) -> Answer {
        let place = self.place;
        self.meter
            .event(Event::Key { number, place }, &mut self.buffer)
    }

    pub fn byte(&mut self, byte: u8) -> Answer {
        let place = self.place;
        self.meter
            .event(Event::Byte { byte, place }, &mut self.buffer)
    }

    /// Feeds the bytes and gives the last one's answer.
    pub fn send(&mut self, bytes: &[u8]) -> Answer {
        let mut last = None;
        for byte in bytes {
            last = Some(self.byte(*byte));
        }
        last.expect("at least one byte is sent")
    }

    /// Feeds a string that is replied to, and gives the reply.
    pub fn reply(&mut self, bytes: &[u8]) -> String {
        let place = self.place as usize;
        match self.send(bytes) {
            Answer::ReplyWritten(length) => {
                String::from_utf8(self.buffer[place..place + length].to_vec())
                    .expect("replies are ASCII")
            }
            other => panic!("no reply but {other:?}"),
        }
    }

    pub fn reading(&self) -> Reading {
        self.state().reading
    }

    pub fn setpoint(&self, alarm: usize) -> i128 {
        self.state().alarms[alarm].setpoint()
    }

    pub fn alarms(&self) -> [bool; 4] {
        [0, 1, 2, 3].map(|alarm| self.state().alarms[alarm].is_on())
    }

    pub fn run(&self, alarm: usize) -> i128 {
        self.state().alarms[alarm].run()
    }
}

/// The reading that the settings give to one input.
pub fn read(settings: Configuration, input: i32) -> Reading {
    let mut hand = Hand::new(settings);
    hand.sample(input);
    hand.reading()
}
