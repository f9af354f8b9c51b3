//! Feeding both sides and comparing every line.

use super::histories::{history, Wanted};
use super::other;
use super::shorten::{shorten, Finding, Shortened};
use super::tally::Tally;
use crate::lines::{lines_of, read_line, Line, Replay};
use std::io::{self, Read, Write};
use std::process::{ChildStdin, ChildStdout};
use std::sync::mpsc;
use std::thread;

/// About how many bytes of text are fed at once.
const CHUNK: usize = 256 * 1024;

/// Where the two sides part.
#[derive(Clone, Copy, PartialEq, Eq, Debug)]
pub struct Parting {
    /// The number of the history.
    pub history: u64,
    /// The events that were compared, up to and with the differing line.
    pub events: u64,
}

/// How much more output than the model's is read: enough for any line that a
/// difference can be seen in, and an end to a program that never stops.
const ROOM_FOR_MORE: usize = 4096;

/// A difference on a history that was run on its own.
#[derive(Clone, PartialEq, Eq, Debug)]
pub struct Difference {
    /// The line, counted from 0, in which the outputs first differ.
    pub line: usize,
    pub model: Vec<u8>,
    pub other: Vec<u8>,
}

/// What a comparison came to.
pub struct Compared {
    pub tally: Tally,
    pub parting: Option<Parting>,
}

/// Several whole histories, one behind the other.
struct Chunk {
    text: Vec<u8>,
    /// For each history its number and the line of the chunk it begins with.
    starts: Vec<(u64, usize)>,
}

/// Compares the model with the command on so many events at least.
///
/// One thread makes the histories and feeds the command; this one runs the
/// model and reads what the command writes. The chunks that wait between the
/// two are not limited in number, so a command may read as far ahead as it
/// likes, even to the end of its input, before it writes. When the comparison
/// ends early its end of the pipe is closed first, so that everything the
/// command may have started meets a closed pipe and ends too.
pub fn compare(wanted: Wanted, events: u64, command: &[String]) -> io::Result<Compared> {
    let mut child = other::start(command)?;
    let input = child.stdin.take().expect("the input is piped");
    let output = child.stdout.take().expect("the output is piped");
    let compared = thread::scope(|scope| {
        let (sender, receiver) = mpsc::channel();
        scope.spawn(move || feed(wanted, events, input, sender));
        let compared = compare_chunks(&receiver, output);
        drop(receiver);
        other::stop(&mut child);
        compared
    });
    compared
}

/// Makes histories until they hold enough events, and feeds them. It stops
/// early where the other side has stopped reading or comparing.
fn feed(wanted: Wanted, events: u64, mut input: ChildStdin, sender: mpsc::Sender<Chunk>) {
    let mut number = 0;
    let mut fed = 0;
    while fed < events {
        let chunk = next_chunk(wanted, &mut number, &mut fed, events);
        let text = chunk.text.clone();
        if sender.send(chunk).is_err() || input.write_all(&text).is_err() {
            return;
        }
    }
}

fn next_chunk(wanted: Wanted, number: &mut u64, fed: &mut u64, events: u64) -> Chunk {
    let mut chunk = Chunk {
        text: Vec::new(),
        starts: Vec::new(),
    };
    let mut lines = 0;
    while chunk.text.len() < CHUNK && *fed < events {
        let text = history(wanted, *number);
        chunk.starts.push((*number, lines));
        lines += lines_of(&text).count();
        *fed += events_in(&text);
        chunk.text.extend_from_slice(&text);
        *number += 1;
    }
    chunk
}

/// How many lines of a text ask for an event.
pub fn events_in(text: &[u8]) -> u64 {
    lines_of(text)
        .filter(|line| matches!(read_line(line), Line::Event(_)))
        .count() as u64
}

fn compare_chunks(
    receiver: &mpsc::Receiver<Chunk>,
    mut output: ChildStdout,
) -> io::Result<Compared> {
    let mut model = Replay::new();
    let mut tally = Tally::default();
    let mut last_history = 0;
    for chunk in receiver {
        let before = (model.clone(), tally.clone());
        let expected = run_model(&mut model, &chunk.text, &mut tally);
        let heard = read_up_to(&mut output, expected.len())?;
        if heard != expected {
            let line = first_differing_line(&expected, &heard);
            let (model, tally) = before;
            return Ok(parted(&chunk, line, model, tally));
        }
        last_history = chunk.starts.last().map_or(0, |(number, _)| *number);
    }
    let more = read_up_to(&mut output, 1)?;
    let parting = (!more.is_empty()).then_some(Parting {
        history: last_history,
        events: tally.events(),
    });
    Ok(Compared { tally, parting })
}

/// The model's output for a text.
fn run_model(model: &mut Replay, text: &[u8], tally: &mut Tally) -> Vec<u8> {
    let mut expected = Vec::new();
    for line in lines_of(text) {
        let outcome = model.line(line, &mut expected);
        tally.count(line, outcome, model);
    }
    expected
}

/// So many bytes, or fewer where the output ends before.
fn read_up_to(output: &mut ChildStdout, length: usize) -> io::Result<Vec<u8>> {
    let mut heard = Vec::with_capacity(length);
    output.take(length as u64).read_to_end(&mut heard)?;
    Ok(heard)
}

/// The line, counted from 0, in which two outputs first differ.
fn first_differing_line(expected: &[u8], heard: &[u8]) -> usize {
    let same = expected
        .iter()
        .zip(heard)
        .take_while(|(one, other)| one == other)
        .count();
    expected[..same]
        .iter()
        .filter(|byte| **byte == b'\n')
        .count()
}

/// Counts again up to the differing line, and names its history.
fn parted(chunk: &Chunk, line: usize, mut model: Replay, mut tally: Tally) -> Compared {
    let mut unused = Vec::new();
    for text in lines_of(&chunk.text).take(line + 1) {
        let outcome = model.line(text, &mut unused);
        tally.count(text, outcome, &model);
        unused.clear();
    }
    let (history, _) = chunk
        .starts
        .iter()
        .rev()
        .find(|(_, start)| *start <= line)
        .expect("the first history of a chunk begins with its first line");
    let parting = Parting {
        history: *history,
        events: tally.events(),
    };
    Compared {
        tally,
        parting: Some(parting),
    }
}

/// Shortens the history in which the two sides part. None where they do not part
/// again.
pub fn shorten_difference(
    wanted: Wanted,
    met_in: u64,
    command: &[String],
) -> io::Result<Option<Shortened<Difference>>> {
    shorten(
        |number| history(wanted, number),
        met_in,
        |text| difference_on(command, text),
    )
}

impl Finding for Difference {
    fn line(&self) -> usize {
        self.line
    }
}

/// Runs both sides on a history of its own.
fn difference_on(command: &[String], text: &[u8]) -> io::Result<Option<Difference>> {
    let mut expected = Vec::new();
    Replay::new().text(text, &mut expected);
    let heard = other::run_once(command, text, expected.len() + ROOM_FOR_MORE)?;
    if heard == expected {
        return Ok(None);
    }
    let line = first_differing_line(&expected, &heard);
    Ok(Some(Difference {
        line,
        model: nth_line(&expected, line),
        other: nth_line(&heard, line),
    }))
}

/// A line of an output, empty where the output ends before.
fn nth_line(output: &[u8], number: usize) -> Vec<u8> {
    lines_of(output)
        .nth(number)
        .map(<[u8]>::to_vec)
        .unwrap_or_default()
}
