//! Feeding a command with histories in both their forms, and judging what it
//! prints.

use super::broken::{Broken, Clause};
use super::judge::Pair;
use super::looks::history_with_looks;
use super::tally::Tally;
use crate::differ::other;
use crate::differ::shorten::{shorten, Finding, Shortened};
use std::io::{self, BufRead, BufReader, Read, Write};
use std::process::{ChildStdin, ChildStdout};
use std::sync::{mpsc, Arc};
use std::thread;

/// Longer lines than this are cut off, since no line of the format is as long.
const LONGEST_LINE: usize = 1_024;

/// What a check came to.
pub struct Checked {
    pub tally: Tally,
    pub break_met: Option<BreakMet>,
}

/// Where some sentence was first met broken.
#[derive(Clone, Copy, PartialEq, Eq, Debug)]
pub struct BreakMet {
    pub clause: Clause,
    /// The number of the history.
    pub history: u64,
    /// The events that were judged, up to and with the one that broke it.
    pub events: u64,
}

/// Judges the command on so many events at least.
///
/// One thread makes the histories and feeds the command; this one reads what it
/// prints. As in the comparison with the model, the command may read as far ahead
/// as it likes, and ends where its output is no longer read.
pub fn check(seed: u64, events: u64, command: &[String]) -> io::Result<Checked> {
    let mut child = other::start(command)?;
    let input = child.stdin.take().expect("the input is piped");
    let output = child.stdout.take().expect("the output is piped");
    let checked = thread::scope(|scope| {
        let (sender, receiver) = mpsc::channel();
        scope.spawn(move || feed(seed, events, input, sender));
        let checked = judge_all(&receiver, output);
        drop(receiver);
        other::stop(&mut child);
        checked
    });
    checked
}

/// Makes pairs until they hold enough events, and feeds them. It stops early where
/// the other side has stopped reading or judging.
fn feed(seed: u64, events: u64, mut input: ChildStdin, sender: mpsc::Sender<Arc<Pair>>) {
    let mut number = 0;
    let mut fed = 0;
    while fed < events {
        let pair = Arc::new(Pair::new(history_with_looks(seed, number)));
        number += 1;
        fed += pair.events();
        let sent = sender.send(Arc::clone(&pair)).is_ok();
        let taken = sent
            && input.write_all(&pair.looked.text).is_ok()
            && input.write_all(&pair.bare.text).is_ok();
        if !taken {
            return;
        }
    }
}

fn judge_all(receiver: &mpsc::Receiver<Arc<Pair>>, output: ChildStdout) -> io::Result<Checked> {
    let mut output = BufReader::new(output);
    let mut tally = Tally::default();
    for pair in receiver {
        let before = tally;
        let looked = read_lines(&mut output, pair.looked.lines())?;
        let bare = read_lines(&mut output, pair.bare.lines())?;
        let found = pair.judge(&looked, &bare, &mut tally);
        if let Some(first) = found.first() {
            let break_met = Some(BreakMet {
                clause: first.clause,
                history: before.histories,
                events: before.events() + pair.looked.events_up_to(first.line),
            });
            return Ok(Checked {
                tally: before,
                break_met,
            });
        }
    }
    let further = !output.fill_buf()?.is_empty();
    let break_met = further.then(|| BreakMet {
        clause: Clause::Line,
        history: tally.histories.saturating_sub(1),
        events: tally.events(),
    });
    Ok(Checked { tally, break_met })
}

/// So many lines, or fewer where the output ends before. What lacks its LF is no
/// line.
fn read_lines(output: &mut impl BufRead, count: usize) -> io::Result<Vec<u8>> {
    let mut read = Vec::new();
    for _ in 0..count {
        let whole = read.len();
        output
            .by_ref()
            .take(LONGEST_LINE as u64)
            .read_until(b'\n', &mut read)?;
        if read.last() != Some(&b'\n') {
            read.truncate(whole);
            break;
        }
    }
    Ok(read)
}

/// Shortens the history in which a break was met. None where it does not come
/// again. Where the looks are not needed it goes on without them.
pub fn shorten_break(
    seed: u64,
    met: BreakMet,
    command: &[String],
) -> io::Result<Option<Shortened<Vec<Broken>>>> {
    let looked = |number| history_with_looks(seed, number);
    let bare = |number| Pair::new(looked(number)).bare.text;
    let run = |text: &[u8]| broken_on(command, text, met.clause);
    if run(&bare(met.history))?.is_some() {
        shorten(bare, met.history, run)
    } else {
        shorten(looked, met.history, run)
    }
}

impl Finding for Vec<Broken> {
    fn line(&self) -> usize {
        self[0].line
    }
}

/// Runs the command on one history in both its forms. None where the clause
/// holds; else its break comes first, and behind it those of other clauses.
fn broken_on(command: &[String], text: &[u8], clause: Clause) -> io::Result<Option<Vec<Broken>>> {
    let pair = Pair::new(text.to_vec());
    let mut found = judge_once(command, &pair)?;
    found.sort_by_key(|broken| broken.clause != clause);
    let is_broken = found.first().is_some_and(|first| first.clause == clause);
    Ok(is_broken.then_some(found))
}

fn judge_once(command: &[String], pair: &Pair) -> io::Result<Vec<Broken>> {
    let text = [pair.looked.text.as_slice(), &pair.bare.text].concat();
    let lines = pair.looked.lines() + pair.bare.lines();
    let printed = other::run_once(command, &text, (lines + 1) * LONGEST_LINE)?;
    let mut left = printed.as_slice();
    let looked = read_lines(&mut left, pair.looked.lines())?;
    let bare = read_lines(&mut left, pair.bare.lines())?;
    let mut found = pair.judge(&looked, &bare, &mut Tally::default());
    if found.is_empty() && !left.is_empty() {
        let last = pair.looked.lines().saturating_sub(1);
        let why = "more was printed behind the last line".to_string();
        found.push(Broken::new(Clause::Line, last, why));
    }
    Ok(found)
}
