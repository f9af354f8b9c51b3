//! The bench program: a meter with one fixed configuration, driven by lines
//! `S number`, `K number` and `C bytes`.

use crate::answer::Answer;
use crate::config::{AlarmSettings, Configuration, Point, Source};
use crate::lines::number;
use crate::meter::{Event, Meter};

const BUFFER_LENGTH: usize = 163;
const MOST_BYTES: usize = 80;

/// The bench meter with its buffer.
pub struct Bench {
    meter: Meter,
    buffer: [u8; BUFFER_LENGTH],
}

impl Default for Bench {
    fn default() -> Self {
        Bench::new()
    }
}

impl Bench {
    pub fn new() -> Bench {
        let mut meter = Meter::NotStarted;
        let answer = meter.power_up(bench_configuration());
        assert_eq!(answer, Answer::CarriedOut);
        Bench {
            meter,
            buffer: [0; BUFFER_LENGTH],
        }
    }

    /// Carries out one line (without its LF) and writes what is printed for
    /// it: the last event's answer, and behind a 2 the reply itself.
    pub fn line(&mut self, text: &[u8], output: &mut Vec<u8>) {
        match self.answer_to(text) {
            None => output.extend_from_slice(b"?\n"),
            Some(answer) => {
                output.extend_from_slice(answer.number().to_string().as_bytes());
                output.push(b'\n');
                if let Answer::ReplyWritten(bytes) = answer {
                    output.extend_from_slice(&self.buffer[..bytes]);
                }
            }
        }
    }

    /// The answer of the line's last event, or none for a line that is not
    /// understood and gives no event at all.
    fn answer_to(&mut self, text: &[u8]) -> Option<Answer> {
        match text {
            [b'S', b' ', word @ ..] => {
                let input = number(word)?;
                Some(self.event(Event::Sample(input)))
            }
            [b'K', b' ', word @ ..] => {
                let number = number(word)?;
                Some(self.event(Event::Key { number, place: 0 }))
            }
            [b'C', b' ', bytes @ ..] if bytes.len() <= MOST_BYTES => self.bytes(bytes),
            _ => None,
        }
    }

    /// Feeds the bytes of a C line; there is no answer where there is no byte.
    fn bytes(&mut self, bytes: &[u8]) -> Option<Answer> {
        let mut last = None;
        for byte in bytes {
            let event = Event::Byte {
                byte: *byte,
                place: 0,
            };
            last = Some(self.event(event));
        }
        last
    }

    fn event(&mut self, event: Event) -> Answer {
        self.meter.event(event, &mut self.buffer)
    }
}

/// The bench meter's settings.
pub fn bench_configuration() -> Configuration {
    let mut points = [Point::default(); 16];
    points[1] = Point {
        input: 1_000,
        display: 2_000,
    };
    Configuration {
        node: 5,
        input_places: 1,
        total_places: 0,
        rounding: 1,
        point_count: 2,
        points,
        scale_factor: 1_000,
        time_base: 60,
        low_cut: -19_999,
        alarms: [100, 200, 300, 400].map(bench_alarm),
        capture_time: 0,
        analog_low: 0,
        analog_high: 10_000,
        batch: false,
        abbreviated: false,
        print_input: false,
        print_max_min: false,
        print_total: false,
        print_setpoints: false,
        source: Source::Points,
    }
}

fn bench_alarm(setpoint: i32) -> AlarmSettings {
    AlarmSettings {
        setpoint,
        hysteresis: 1,
        on_delay: 0,
        off_delay: 0,
        low_acting: false,
        latched: false,
    }
}
