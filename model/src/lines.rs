//! The line format of recorded histories: one line in, one line out.
//!
//! `CFG ..` powers a new meter up, `S n` is a sample, `K n place` a key and
//! `B byte place` a received byte. Any other line prints `?` and changes
//! nothing.

use crate::answer::Answer;
use crate::config::{AlarmSettings, Configuration, Point, Source};
use crate::extremes::Run;
use crate::meter::{Event, Meter, Running};
use crate::reading::Reading;
use crate::receiver::Receiver;
use crate::total::Total;
use std::io::Write;

/// The length of the buffer that every line lends to the meter.
pub const BUFFER_LENGTH: usize = 170;

/// What the buffer is filled with at each power-up.
pub const FILLING: u8 = 0xEE;

/// More digits than this make no number, even where they begin with zeros.
const MOST_DIGITS: usize = 10;
const MOST_DIGITS_OF_A_PLACE: usize = 20;
const MOST_DIGITS_OF_A_BYTE: usize = 3;

/// What a line asks for.
#[derive(Clone, PartialEq, Eq, Debug)]
pub enum Line {
    PowerUp(Box<Configuration>),
    Event(Event),
    NotUnderstood,
}

/// What became of a line.
#[derive(Clone, Copy, PartialEq, Eq, Debug)]
pub enum Outcome {
    PoweredUp(Answer),
    Carried(Event, Answer),
    NotUnderstood,
}

/// A meter with its buffer, driven line by line.
#[derive(Clone, Debug)]
pub struct Replay {
    meter: Meter,
    buffer: [u8; BUFFER_LENGTH],
}

impl Default for Replay {
    fn default() -> Self {
        Replay::new()
    }
}

impl Replay {
    /// Before the first configuration the meter is not started and the buffer
    /// is filled.
    pub fn new() -> Replay {
        Replay {
            meter: Meter::NotStarted,
            buffer: [FILLING; BUFFER_LENGTH],
        }
    }

    pub fn meter(&self) -> &Meter {
        &self.meter
    }

    pub fn buffer(&self) -> &[u8] {
        &self.buffer
    }

    /// Carries one line out (without its LF) and writes its line of output.
    pub fn line(&mut self, text: &[u8], output: &mut Vec<u8>) -> Outcome {
        let outcome = match read_line(text) {
            Line::NotUnderstood => {
                output.push(b'?');
                Outcome::NotUnderstood
            }
            Line::PowerUp(configuration) => self.power_up(*configuration, output),
            Line::Event(event) => self.event(event, output),
        };
        output.push(b'\n');
        outcome
    }

    /// Carries out every line of a text. The last may lack its LF.
    pub fn text(&mut self, text: &[u8], output: &mut Vec<u8>) {
        for line in lines_of(text) {
            self.line(line, output);
        }
    }

    fn power_up(&mut self, configuration: Configuration, output: &mut Vec<u8>) -> Outcome {
        self.buffer = [FILLING; BUFFER_LENGTH];
        let answer = self.meter.power_up(configuration);
        put(
            output,
            format_args!("{} {}", answer.number(), answer.carried_number()),
        );
        Outcome::PoweredUp(answer)
    }

    fn event(&mut self, event: Event, output: &mut Vec<u8>) -> Outcome {
        let answer = self.meter.event(event, &mut self.buffer);
        put(
            output,
            format_args!("A={} V={}", answer.number(), answer.carried_number()),
        );
        if let Meter::Started(running) = &self.meter {
            put_state(running, output);
        }
        put_buffer(&self.buffer, output);
        Outcome::Carried(event, answer)
    }
}

/// The lines of a text, each without its LF. A final LF opens no further line.
pub fn lines_of(text: &[u8]) -> impl Iterator<Item = &[u8]> {
    text.split_inclusive(|byte| *byte == b'\n')
        .map(|line| line.strip_suffix(b"\n").unwrap_or(line))
}

/// Understands a line: words with one space between them.
pub fn read_line(text: &[u8]) -> Line {
    let words: Vec<&[u8]> = text.split(|byte| *byte == b' ').collect();
    read_words(&words).unwrap_or(Line::NotUnderstood)
}

fn read_words(words: &[&[u8]]) -> Option<Line> {
    match words {
        [b"S", input] => Some(Line::Event(Event::Sample(number(input)?))),
        [b"K", key, place] => Some(Line::Event(Event::Key {
            number: number(key)?,
            place: unsigned(place, MOST_DIGITS_OF_A_PLACE)?,
        })),
        [b"B", byte, place] => Some(Line::Event(Event::Byte {
            byte: u8::try_from(unsigned(byte, MOST_DIGITS_OF_A_BYTE)?).ok()?,
            place: unsigned(place, MOST_DIGITS_OF_A_PLACE)?,
        })),
        [b"CFG", settings @ ..] => Some(Line::PowerUp(Box::new(configuration(settings)?))),
        _ => None,
    }
}

/// A signed 32-bit number: an optional minus and 1 to 10 digits. The bench
/// program and `rescale` have the same numbers (Bench program, sentence 3).
pub fn number(word: &[u8]) -> Option<i32> {
    let digits = word.strip_prefix(b"-").unwrap_or(word);
    if !all_digits(digits) || digits.len() > MOST_DIGITS {
        return None;
    }
    std::str::from_utf8(word).ok()?.parse().ok()
}

/// An unsigned 64-bit number: digits only, and so many at most.
fn unsigned(word: &[u8], most_digits: usize) -> Option<u64> {
    if !all_digits(word) || word.len() > most_digits {
        return None;
    }
    std::str::from_utf8(word).ok()?.parse().ok()
}

fn all_digits(word: &[u8]) -> bool {
    !word.is_empty() && word.iter().all(u8::is_ascii_digit)
}

/// A yes/no setting: 1 or 0.
fn yes_or_no(word: &[u8]) -> Option<bool> {
    match word {
        b"1" => Some(true),
        b"0" => Some(false),
        _ => None,
    }
}

/// The words behind `CFG`, taken one after the other.
struct Settings<'a> {
    words: std::slice::Iter<'a, &'a [u8]>,
}

impl Settings<'_> {
    fn number(&mut self) -> Option<i32> {
        number(self.words.next()?)
    }

    fn yes_or_no(&mut self) -> Option<bool> {
        yes_or_no(self.words.next()?)
    }

    fn point(&mut self) -> Option<Point> {
        Some(Point {
            input: self.number()?,
            display: self.number()?,
        })
    }

    fn points(&mut self) -> Option<[Point; 16]> {
        let mut points = [Point::default(); 16];
        for point in &mut points {
            *point = self.point()?;
        }
        Some(points)
    }

    fn alarm(&mut self) -> Option<AlarmSettings> {
        Some(AlarmSettings {
            setpoint: self.number()?,
            hysteresis: self.number()?,
            on_delay: self.number()?,
            off_delay: self.number()?,
            low_acting: self.yes_or_no()?,
            latched: self.yes_or_no()?,
        })
    }

    /// The last word, which may be left out: files from before document 02,
    /// ticket 3 do not have it, and mean points.
    fn source(&mut self) -> Option<Source> {
        match self.words.next() {
            None => Some(Source::Points),
            Some(word) => match yes_or_no(word)? {
                true => Some(Source::Platinum),
                false => Some(Source::Points),
            },
        }
    }
}

fn configuration(words: &[&[u8]]) -> Option<Configuration> {
    let mut settings = Settings {
        words: words.iter(),
    };
    let configuration = Configuration {
        node: settings.number()?,
        input_places: settings.number()?,
        total_places: settings.number()?,
        rounding: settings.number()?,
        point_count: settings.number()?,
        points: settings.points()?,
        scale_factor: settings.number()?,
        time_base: settings.number()?,
        low_cut: settings.number()?,
        alarms: [
            settings.alarm()?,
            settings.alarm()?,
            settings.alarm()?,
            settings.alarm()?,
        ],
        capture_time: settings.number()?,
        analog_low: settings.number()?,
        analog_high: settings.number()?,
        batch: settings.yes_or_no()?,
        abbreviated: settings.yes_or_no()?,
        print_input: settings.yes_or_no()?,
        print_max_min: settings.yes_or_no()?,
        print_total: settings.yes_or_no()?,
        print_setpoints: settings.yes_or_no()?,
        source: settings.source()?,
    };
    match settings.words.next() {
        Some(_) => None,
        None => Some(configuration),
    }
}

/// The line that `configuration` reads back as the same settings. It has the word
/// for the source only where it must.
pub fn configuration_line(settings: &Configuration) -> String {
    let mut words: Vec<i32> = vec![
        settings.node,
        settings.input_places,
        settings.total_places,
        settings.rounding,
        settings.point_count,
    ];
    for point in &settings.points {
        words.extend([point.input, point.display]);
    }
    words.extend([settings.scale_factor, settings.time_base, settings.low_cut]);
    for alarm in &settings.alarms {
        words.extend([alarm.setpoint, alarm.hysteresis]);
        words.extend([alarm.on_delay, alarm.off_delay]);
        words.extend([i32::from(alarm.low_acting), i32::from(alarm.latched)]);
    }
    words.extend([settings.capture_time]);
    words.extend([settings.analog_low, settings.analog_high]);
    let choices = [
        settings.batch,
        settings.abbreviated,
        settings.print_input,
        settings.print_max_min,
        settings.print_total,
        settings.print_setpoints,
    ];
    words.extend(choices.map(i32::from));
    if settings.source == Source::Platinum {
        words.push(1);
    }
    let words: Vec<String> = words.iter().map(i32::to_string).collect();
    format!("CFG {}", words.join(" "))
}

/// Writes into memory, which cannot fail.
fn put(output: &mut Vec<u8>, text: std::fmt::Arguments) {
    output.write_fmt(text).expect("memory takes every byte");
}

fn put_state(running: &Running, output: &mut Vec<u8>) {
    put(
        output,
        format_args!(
            " R={} SUM={} TOT={} MAX={} MIN={} MR={} NR={}",
            Shown::from(running.reading),
            running.totalizer.sum(),
            Shown::from(running.total()),
            Shown::from(running.max.shown()),
            Shown::from(running.min.shown()),
            ShownRun(running.max.run()),
            ShownRun(running.min.run()),
        ),
    );
    put_alarms(running, output);
    put(
        output,
        format_args!(
            " AO={} MODE={} MAN={}",
            running.analog_code,
            match running.mode {
                crate::analog::Mode::Automatic => 'A',
                crate::analog::Mode::Manual { .. } => 'M',
            },
            running.manual_bits(),
        ),
    );
    put_receiver(&running.receiver, output);
}

fn put_alarms(running: &Running, output: &mut Vec<u8>) {
    let [a, b, c, d] = &running.alarms;
    put(
        output,
        format_args!(
            " SP={},{},{},{} AL={}{}{}{} RUN={},{},{},{}",
            a.setpoint(),
            b.setpoint(),
            c.setpoint(),
            d.setpoint(),
            u8::from(a.is_on()),
            u8::from(b.is_on()),
            u8::from(c.is_on()),
            u8::from(d.is_on()),
            a.run(),
            b.run(),
            c.run(),
            d.run(),
        ),
    );
}

fn put_receiver(receiver: &Receiver, output: &mut Vec<u8>) {
    output.extend_from_slice(b" RX=");
    match receiver {
        Receiver::Gathering(string) => {
            put_hex(string, output);
            output.extend_from_slice(b" RXO=0");
        }
        Receiver::TooLong => output.extend_from_slice(b"- RXO=1"),
    }
}

/// The buffer in hex, without the filling at its end.
fn put_buffer(buffer: &[u8], output: &mut Vec<u8>) {
    let kept = buffer
        .iter()
        .rposition(|byte| *byte != FILLING)
        .map_or(0, |last| last + 1);
    output.extend_from_slice(b" BUF=");
    put_hex(&buffer[..kept], output);
}

/// Two hex digits for each byte, or `-` where there is none. A record is printed
/// so as well.
pub fn put_hex(bytes: &[u8], output: &mut Vec<u8>) {
    const DIGITS: &[u8; 16] = b"0123456789abcdef";
    if bytes.is_empty() {
        output.push(b'-');
    }
    for byte in bytes {
        output.push(DIGITS[usize::from(byte >> 4)]);
        output.push(DIGITS[usize::from(byte & 15)]);
    }
}

/// A value as the state line prints it, and a reading as `rescale` does.
pub enum Shown {
    Number(i128),
    Over,
    Under,
    Nothing,
}

impl From<Reading> for Shown {
    fn from(reading: Reading) -> Shown {
        match reading {
            Reading::Number(number) => Shown::Number(number),
            Reading::Over => Shown::Over,
            Reading::Under => Shown::Under,
            Reading::Nothing => Shown::Nothing,
        }
    }
}

impl From<Total> for Shown {
    fn from(total: Total) -> Shown {
        match total {
            Total::Number(number) => Shown::Number(number),
            Total::Over => Shown::Over,
            Total::Under => Shown::Under,
        }
    }
}

impl std::fmt::Display for Shown {
    fn fmt(&self, formatter: &mut std::fmt::Formatter) -> std::fmt::Result {
        match self {
            Shown::Number(number) => write!(formatter, "{number}"),
            Shown::Over => write!(formatter, "OL"),
            Shown::Under => write!(formatter, "UL"),
            Shown::Nothing => write!(formatter, "--"),
        }
    }
}

/// A run of max or min as the state line prints it: how many readings it has
/// and the one that it remembers, or 0 where none goes on.
struct ShownRun(Option<Run>);

impl std::fmt::Display for ShownRun {
    fn fmt(&self, formatter: &mut std::fmt::Formatter) -> std::fmt::Result {
        match self.0 {
            None => write!(formatter, "0"),
            Some(run) => write!(formatter, "{}:{}", run.readings, run.remembered),
        }
    }
}
