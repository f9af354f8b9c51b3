//! Feeding the same inputs to a command that rescales and to one that replays,
//! and comparing the readings of both with the model's.

use super::broken::{bad_line, break_one_rule};
use super::inputs::{lines_for, Fed};
use super::other::run_once;
use super::random::Random;
use super::scale_tally::ScaleTally;
use super::scales::{platinum_settings_in_turn, settings_in_turn};
use super::written::{Said, Written, LONGEST_LINE};
use crate::config::Configuration;
use crate::lines::configuration_line;
use crate::rescale::Rescale;
use std::io;

/// How many inputs come behind a first line that is not accepted. Nothing is
/// read there, so that more would show no more.
const INPUTS_BEHIND_NOTHING: usize = 30;

/// What is asked for.
#[derive(Clone, Copy, PartialEq, Eq, Debug)]
pub struct Wanted {
    pub seed: u64,
    /// With points, and as many of platinum meters.
    pub configurations: u64,
    /// For each configuration.
    pub inputs: usize,
}

/// The commands that are held against each other, word by word.
#[derive(Clone, PartialEq, Eq, Debug)]
pub struct Commands {
    pub rescale: Vec<String>,
    pub replay: Vec<String>,
}

/// Where the three sides part.
#[derive(Clone, PartialEq, Eq, Debug)]
pub struct Parting {
    /// The number of the configuration, counted from 0.
    pub configuration: u64,
    /// The first line that was fed.
    pub first_line: String,
    pub difference: Difference,
}

/// A line to which the sides do not say the same, and what each of them says.
#[derive(Clone, PartialEq, Eq, Debug)]
pub struct Difference {
    pub line: String,
    pub model: String,
    pub rescale: String,
    pub replay: String,
}

/// What a comparison came to.
pub struct Compared {
    pub tally: ScaleTally,
    pub parting: Option<Parting>,
}

/// Compares the model with both commands on all that is asked for.
pub fn compare(wanted: Wanted, commands: &Commands) -> io::Result<Compared> {
    let mut tally = ScaleTally::default();
    for configuration in 0..wanted.configurations {
        for session in sessions(wanted, configuration) {
            if let Err(difference) = compare_session(commands, &session, &mut tally)? {
                let parting = Some(Parting {
                    configuration,
                    first_line: session.first_line,
                    difference,
                });
                return Ok(Compared { tally, parting });
            }
        }
    }
    Ok(Compared {
        tally,
        parting: None,
    })
}

/// What one run of the commands is fed.
struct Session {
    first_line: String,
    lines: Vec<Fed>,
}

/// The sessions of the points with this number, and of the platinum meter with the
/// same number. They depend on the seed and the number alone.
fn sessions(wanted: Wanted, number: u64) -> Vec<Session> {
    let mut random = Random::for_history(wanted.seed, number);
    let points = settings_in_turn(&mut random, number);
    let by_points = sessions_with(wanted, random, points);
    let mut random = Random::for_history(!wanted.seed, number);
    let platinum = platinum_settings_in_turn(&mut random, number);
    let by_platinum = sessions_with(wanted, random, platinum);
    by_points.into_iter().chain(by_platinum).collect()
}

/// One session with a good configuration, one with a broken one and one without
/// any.
fn sessions_with(wanted: Wanted, mut random: Random, good: Configuration) -> [Session; 3] {
    let mut broken = good.clone();
    break_one_rule(&mut random, &mut broken);
    let none = bad_line(&mut random, &good);
    [
        (configuration_line(&good), wanted.inputs),
        (configuration_line(&broken), INPUTS_BEHIND_NOTHING),
        (none, INPUTS_BEHIND_NOTHING),
    ]
    .map(|(first_line, inputs)| Session {
        first_line,
        lines: lines_for(random.clone(), &good, inputs),
    })
}

impl Session {
    /// Every line, as the command that rescales is fed.
    fn for_rescale(&self) -> Vec<u8> {
        let mut text = format!("{}\n", self.first_line).into_bytes();
        for line in &self.lines {
            text.extend_from_slice(line.text());
            text.push(b'\n');
        }
        text
    }

    /// The first line and a sample for each input. The other lines are left out,
    /// so that the command that replays has one line for each input.
    fn for_replay(&self) -> Vec<u8> {
        let mut text = format!("{}\n", self.first_line);
        for line in &self.lines {
            if let Fed::Input { text: number, .. } = line {
                text += &format!("S {number}\n");
            }
        }
        text.into_bytes()
    }
}

/// Runs both commands on a session and compares what they write.
fn compare_session(
    commands: &Commands,
    session: &Session,
    tally: &mut ScaleTally,
) -> io::Result<Result<(), Difference>> {
    let most = (session.lines.len() + 2) * LONGEST_LINE;
    let rescaled = run_once(&commands.rescale, &session.for_rescale(), most)?;
    let replayed = run_once(&commands.replay, &session.for_replay(), most)?;
    let comparison = Comparison {
        model: Rescale::new(),
        rescale: Written::new(&rescaled),
        replay: Written::new(&replayed),
    };
    Ok(comparison.whole(session, tally))
}

/// One session being compared, line by line.
struct Comparison<'a> {
    model: Rescale,
    rescale: Written<'a>,
    replay: Written<'a>,
}

impl Comparison<'_> {
    fn whole(mut self, session: &Session, tally: &mut ScaleTally) -> Result<(), Difference> {
        self.first_line(&session.first_line)?;
        tally.count_session(&self.model);
        for line in &session.lines {
            tally.count_line(&self.model, line);
            self.line(line)?;
        }
        self.end()
    }

    /// To the first line the command that replays says the same.
    fn first_line(&mut self, text: &str) -> Result<(), Difference> {
        let mut expected = Vec::new();
        self.model.line(text.as_bytes(), &mut expected);
        let model = Written::new(&expected).next_line();
        let (rescale, replay) = (self.rescale.next_line(), self.replay.next_line());
        judge(b"(the first line itself)", model, rescale, replay)
    }

    fn line(&mut self, line: &Fed) -> Result<(), Difference> {
        let mut expected = Vec::new();
        self.model.line(line.text(), &mut expected);
        let model = Written::new(&expected).next_line();
        let rescale = match model {
            Said::Line(_) => self.rescale.next_line(),
            _ => Said::Nothing,
        };
        judge(line.text(), model, rescale, self.replayed(line))
    }

    /// The reading that the command that replays gives to an input. Where the
    /// first line was not accepted its meter is not started, and has none.
    fn replayed(&mut self, line: &Fed) -> Said<'_> {
        let Fed::Input { .. } = line else {
            return Said::NotAsked;
        };
        match (&self.model, self.replay.next_line()) {
            (Rescale::Accepted(_), Said::Line(line)) => Said::Line(reading_word(line)),
            (Rescale::Accepted(_), said) => said,
            _ => Said::NotAsked,
        }
    }

    /// Behind the last line nothing may come.
    fn end(&self) -> Result<(), Difference> {
        let (rescale, replay) = (self.rescale.rest(), self.replay.rest());
        judge(b"(behind the last line)", Said::Nothing, rescale, replay)
    }
}

/// What stands behind `R=`, or the whole line where no word begins so.
fn reading_word(line: &[u8]) -> &[u8] {
    line.split(|byte| *byte == b' ')
        .find_map(|word| word.strip_prefix(b"R="))
        .unwrap_or(line)
}

fn judge(line: &[u8], model: Said, rescale: Said, replay: Said) -> Result<(), Difference> {
    let replay_agrees = replay == model || replay == Said::NotAsked;
    if rescale == model && replay_agrees {
        return Ok(());
    }
    Err(Difference {
        line: line.escape_ascii().to_string(),
        model: model.to_string(),
        rescale: rescale.to_string(),
        replay: replay.to_string(),
    })
}
